"""A plan beside another one, and what if."""
from __future__ import annotations

import json
from urllib.parse import quote

import browsers
from .page import DARK, expect, HERE, LATHES, Page, PHONE, PRESS, RUNNING, Trial, WIDE

def try_beside(page: Page) -> None:
    """A plan kept beside another one: both charts with their costs, swapped, in links and files, dropped, and all of it taken back."""
    page.open("#text=" + quote((HERE / "examples/weighted-sum.txt").read_text(encoding="utf-8")))
    page.until("msp.app.isBest", "the best plan")
    expect(page.do("document.getElementById('beside').hidden"), "nothing is beside")
    page.do("document.getElementById('keep-beside').click()")
    page.do("trial.drag(msp.app.state.plan.pieces.length - 1, 200, 0)")
    page.until("msp.app.cost && !msp.app.isBest && document.querySelector('#beside .cost')", "another plan, and the cost beside")
    page.until("document.querySelector('#beside .cost').textContent.startsWith('proved')", "the plan beside is proved")
    expect("Weighted sum of the ends: 14" in page.text("#beside-cost") and "14 before" in page.text("#difference-cost"), page.text("#beside"))
    expect("Later: " in page.text("#difference"), page.text("#difference"))
    widths = page.do("['#the-plan svg', '#beside svg'].map(it => document.querySelector(it).getAttribute('width'))")
    expect(page.do("document.querySelectorAll('.chart').length") == 2 and widths[0] == widths[1], f"two charts on one axis: {widths}")
    word, saved = page.do("trial.link()"), page.do("trial.saved()")
    page.do("document.getElementById('beside-swap').click()")
    page.until("msp.app.isBest && document.getElementById('difference-cost').textContent.includes(', 14 now')", "both are swapped")
    page.do("document.getElementById('beside-drop').focus()")
    page.press(browsers.ENTER)
    page.until("document.getElementById('beside').hidden", "the plan beside is dropped by the keyboard")
    page.do("msp.app.store.undo()")
    page.until("!document.getElementById('beside').hidden", "and taken back")
    page.open(f"#state={word}")
    page.until("document.querySelector('#beside .cost') && document.getElementById('difference-cost').textContent.includes('14 before')",
               "the link has both")
    page.do("document.getElementById('fresh').click()")
    page.until("document.getElementById('beside').hidden", "an empty table has none")
    page.do(f"trial.takeFile('saved.json', {json.dumps(saved)})")
    page.until("document.querySelector('#beside .cost')", "the file has both")


def ask(page: Page, kind: str, now: str = "", **fields: str) -> None:
    """Asks what would be, if, and waits for the answer or what is said against it."""
    page.do("document.getElementById('stop') && document.getElementById('stop').click()")
    page.do(f"trial.typeInto('what-kind', '{kind}')")
    for name, text in {"now": now, **fields}.items():
        page.do(f"trial.typeInto('what-{name.replace('_', '-')}', {json.dumps(text)})")
    page.do("document.getElementById('what-ask').click()")
    page.until("!document.getElementById('what-said').hidden || document.getElementById('what-asked')", f"an answer to {kind}")


ASKED: list[tuple[str, dict[str, str], str, tuple[str, ...]]] = [
    ("more", {}, "P2||Lmax", ("A machine more.", "no solver")),
    ("gone", {"job": "1"}, "1||Lmax", ("Without the order posters.", "No longer there: posters.")),
    ("rush", {"rush_job": "labels", "rush_p": "2", "rush_d": "3"}, "1||Lmax", ("With the rush order labels.", "New: labels")),
    ("due", {"job": "3", "due": "4"}, "1||Lmax", ("books is due at 4.", "4 more.")),
    ("cut", {}, "1|pmtn|Lmax", ("may be interrupted", "as before"))]
NOT_ASKED: list[tuple[str, dict[str, str], str]] = [
    ("rush", {"rush_p": "x"}, "time: no number: x"), ("time", {"now": ""}, "until when"), ("time", {"now": "soon"}, "no number: soon"),
    ("time", {"now": "99"}, "Nothing is left"), ("rush", {"rush_job": "books", "rush_p": "1", "rush_d": "1"}, "stands in row 3 too")]


def try_what_if(page: Page) -> None:
    """What if, of each kind: the plan before stays beside, and the difference is told; one undo leads back."""
    page.open("#text=" + quote(PRESS))
    for kind, fields, name, said in ASKED:
        page.until("msp.app.isBest && msp.app.name === '1||Lmax'", "the best plan")
        ask(page, kind, **fields)
        page.until(f"msp.app.name === '{name}' && msp.app.cost && document.querySelector('#beside .cost')", f"{kind}: both plans")
        page.do("msp.app.hasSolver === false && document.getElementById('stop') && document.getElementById('stop').click()")
        page.until("msp.app.hasSolver === false || msp.app.isBest", f"{kind}: the best plan")
        expect(all(it in page.text("#beside") for it in said), f"{kind}: {page.text('#beside')}")
        page.do("msp.app.store.undo()")
        expect(page.do("document.getElementById('beside').hidden && msp.app.problem.rows.length === 4"), f"{kind}: one undo leads back")
    page.do("trial.typeInto('what-kind', 'less')")
    expect("no other machine" in page.text("#what-not") and page.do("document.getElementById('what-ask').disabled"), "one machine stays")
    for kind, fields, against in NOT_ASKED:
        ask(page, kind, **fields)
        expect(against in page.text("#what-said"), f"{against}: {page.text('#what-said')}")
    ask(page, "rush", "3", rush_job="labels", rush_p="2", rush_d="7")
    page.until("msp.app.isBest && msp.app.problem.rows.length === 3", "what is left is planned")
    expect("cards runs until 5" in page.text("#what-told") and "Moments count from 5 on" in page.text("#what-told"), page.text("#what-told"))
    expect("2 before, 4 now: 2 more" in page.text("#difference-cost") and "posters by 2" in page.text("#difference"), page.text("#difference"))


def try_left(page: Page) -> None:
    """What runs stays where it is, through further questions, and what the class cannot say is told."""
    page.open("#text=" + quote(LATHES + RUNNING))
    page.until("msp.app.cost", "a plan")
    ask(page, "less", "4", machine="3")
    page.until("msp.app.cost && document.getElementById('bound') && document.getElementById('difference-cost')", "what is left on two machines")
    page.do("document.getElementById('stop').click()")
    expect("P||Lmax cannot say so (R||Lmax has times for each machine)" in page.text("#what-told"), page.text("#what-told"))
    ran = page.do("msp.app.state.plan.pieces.filter(it => it.from.n === 0n).map(it => [it.row, it.machine])")
    expect(ran == [[1, 1], [4, 2]] and "cams had begun on machine 3" in page.text("#what-told"), f"shafts and hubs run on: {ran}")
    page.do("trial.language('de')")
    expect("Ohne Maschine 3" in page.text("#what-asked") and "Der Plan davor" in page.text("#beside-head"), page.text("#beside"))
    page.do("trial.language('en')")
    count, last = page.do("msp.app.problem.rows.length"), page.do("msp.app.problem.rows[msp.app.problem.rows.length - 1].id")
    ask(page, "gone", job=str(last))
    page.until(f"msp.app.problem.rows.length === {count - 1} && msp.app.cost && document.getElementById('difference-cost')", "a further question")
    page.do("document.getElementById('stop').click()")
    now = page.do("msp.app.state.plan.pieces.filter(it => it.from.n === 0n).map(it => [it.row, it.machine])")
    expect(sorted(now) == sorted(ran) and "cannot say so" in page.text("#what-told"), f"what runs stays: {now}, {page.text('#what-told')}")


def try_asked(page: Page) -> None:
    """Contrast, widths and names where a plan stands beside, faults are told, and the form of an order is open, in both languages."""
    page.open("#text=" + quote(PRESS))
    page.until("msp.app.isBest", "the best plan")
    ask(page, "rush", "3", rush_job="labels", rush_p="2", rush_d="7")
    page.until("msp.app.isBest && document.querySelector('#beside .cost')", "both plans")
    ask(page, "rush", rush_p="x")
    page.do("document.querySelector('#own-order details').open = true")
    page.do("document.getElementById('order-do').click()")
    for language in ("en", "de"):
        page.do(f"trial.language('{language}')")
        poor, nameless = page.do("trial.poor()"), page.do("trial.nameless()")
        expect(not poor and not nameless, f"{language}: contrast {poor[:5]}, without a name {nameless[:5]}")
        roles = page.do(f"trial.roles('{language}')")
        expect(not roles, f"{language}: {roles[:5]}")
        expect(page.do("document.documentElement.scrollWidth <= innerWidth"), f"{language}: wider than the screen")
    controls = "#beside button, #what-if button, #what-if select, #own-order textarea"
    expect(page.do(f"[...document.querySelectorAll('{controls}')].every(it => it.tabIndex >= 0)"), "by keyboard")


TRIALS: list[Trial] = [
    ("beside", WIDE, try_beside), ("what-if", WIDE, try_what_if), ("left", WIDE, try_left), ("asked-phone", PHONE, try_asked), ("asked-dark", DARK, try_asked)]
