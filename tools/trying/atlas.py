"""What is known of classes: in the part Plan, and in that of all classes."""
from __future__ import annotations

import json
from urllib.parse import quote

from .page import expect, HERE, Page, Trial, WIDE

def try_atlas(page: Page) -> None:
    """All classes stand in the page, by the same code, and one is taken into the plan."""
    page.open("#classes/" + quote("P2||sumT"))
    page.until("document.querySelector('#main h2')", "the class")
    expect(page.text("#main h2").startswith("P2||sumT"), page.text("#main h2"))
    page.do("document.querySelector('#take-class button').click()")
    page.until("location.hash === '#plan' && msp.app.name === 'P2||sumT'", "the class is taken")


def why(page: Page, name: str) -> tuple[str, list[str]]:
    """The label of a class, and the rows of all chains that `msp why` prints of it, each chain once."""
    results = (HERE / "examples/known-strengths.csv").read_text(encoding="utf-8")
    chains, label = [], ""
    for line in page.do(f"msp.run(['why', {json.dumps(name)}], {json.dumps(results)}).then(it => it.report)").split("\n"):
        word, _, rest = line.partition(" ")
        label = rest if word == "label" else label
        if word == "start":
            chains.append([rest])
        elif word == "row":
            chains[-1].append(rest)
    return label, [row.split()[0] for at, chain in enumerate(chains) if chain not in chains[:at] for row in chain[1:]]


KNOWN = (("1||sumwU", "Lawler und Moore 1969"), ("P2||sumT", "Karp 1972"), ("F3||Cmax", "Garey, Johnson und Sethi 1976"), ("1|r,p=1|Lmax", "leicht"),
         ("P3|prec,p=1|Cmax", "Von Garey und Johnson 1979 als offen genannt"), ("Q2|pmtn|sumT", "eigene"), ("P|pmtn|Lmax", "stairs"))


def try_known(page: Page) -> None:
    """What is known of the class stands in the part Plan: the rows of `msp why` in words, sources, and neighbours that a click takes."""
    page.open()
    page.do("trial.language('de')")
    for name, said in KNOWN:
        page.do(f"trial.typeInto('class-name', {json.dumps(name)})")
        page.do("document.getElementById('class-known').open = true")
        page.until("document.querySelector('.known-class h3')", f"{name}: what is known")
        told = page.do("[...document.querySelectorAll('.known-class .told-chain:not([data-kind=solver]) [data-row]')].map(it => it.dataset.row)")
        label, rows = why(page, name)
        expect(told == rows and label, f"{name}: the rows {told}, and msp why has {rows}")
        expect(page.do(f"msp.app.label === '{label}' && document.querySelector('.known .badge.{label}') !== null"), f"{name}: {label}")
        expect(said in page.text("#class-known"), f"{name}: {page.text('#class-known')}")
        expect(not page.do("trial.english()"), f"{name}: English: {page.do('trial.english()')}")
    expect(page.do("[...document.querySelectorAll('.known-class a[href^=http]')].every(it => it.href.startsWith('https://doi.org/'))"), "links to DOIs")
    page.do("trial.typeInto('class-name', '1||sumwU')")
    page.do("document.getElementById('class-near').open = true")
    page.until("document.querySelector('.near-solved button')", "neighbours with a solver")
    expect("dieselbe Aufgabe" in page.text(".near-solved") and "ein Sonderfall" in page.text(".near-solved"), page.text(".near-solved"))
    near = page.text(".near-solved button")
    page.do("document.querySelector('.near-solved button').click()")
    page.until(f"msp.app.name === {json.dumps(near)} && msp.app.hasSolver", f"{near} has a solver")
    expect(page.do("document.getElementById('class-known').open && document.getElementById('class-near').open"), "both stay open")


PLACES = ("P2||sumT", "frontier", "frontier=P", "lists=weak", "lists=open,J2", "about", "J3|p_ij=1|Cmax", "1|sp-graph|sumwC", "Lawler 1973", "proof=",
          "1|r,r|Cmax", "Jm||Cmax", "selection=1||sumC;P2||Cmax;sorry", "flow shop makespan", "Q2|p=1|Cmax", "P2|pmtn|sumT", "lists=sorry")


def try_german(page: Page) -> None:
    """The classes speak German where the page does, and English again when it is turned back."""
    page.open("#classes/" + quote("1||sumC"))
    page.until("document.querySelector('#main h2')", "a class")
    page.do("trial.language('de')")
    for place in PLACES:
        page.do(f"trial.hash({json.dumps('#classes/' + quote(place))})")
        page.do("trial.settled()")
        expect(not page.do("trial.english()"), f"{place}: English: {page.do('trial.english()')[:5]}")
    for text in ("P2 sumT", "Lawler", "1|sp-graph|sumwC", "F4||Cmax"):
        page.do(f"trial.write('asked', {json.dumps(text)})")
        expect(page.do("!document.getElementById('found').hidden") and not page.do("trial.english()"), f"{text}: {page.do('trial.english()')[:5]}")
    expect(page.do("document.getElementById('asked').placeholder").endswith("ein Jahr"), "the hint of the search")
    page.do(f"trial.hash({json.dumps('#classes/' + quote('P2||sumT'))})")
    expect(page.do("document.title") == "P2||sumT: NP-schwer", page.do("document.title"))
    page.do("trial.language('en')")
    expect(page.text("#main h2") == "P2||sumT hard" and page.do("document.title") == "P2||sumT is hard", page.text("#main h2"))


TRIALS: list[Trial] = [("atlas", WIDE, try_atlas), ("known", WIDE, try_known), ("german", WIDE, try_german)]
