"""Plans: made, broken and mended, searched, ordered by hand; great ones in time."""
from __future__ import annotations

import json
import os
from urllib.parse import quote

import browsers
from .page import DOWN, expect, HERE, instance, LEFT, Page, RIGHT, text_of, Trial, UP, WIDE

DRAWN, JUDGED = 1000, 300  # (milliseconds for a chart of 400 jobs on 32 machines, and for a verdict)
SOLVED = ("1||sumwC", "P|pmtn|Lmax", "Q|pmtn|Cmax", "R||sumC", "O2||Cmax", "O|pmtn|Cmax", "F2||Cmax", "J2|n<=2|Cmax", "1|prec|fmax", "P2|prec,p=1|Cmax")
UNSOLVED = ("F3||Cmax", "P2|r|sumwT")


def try_limit(page: Page) -> None:
    """Beyond the limit of a solver a plan is searched, with a bound of looser classes; what is said is said in the language of the page."""
    jobs = ("job a p=100000000 d=150000000 w=300000000", "job b p=90000000 d=100000000 w=200000000", "job c p=80000001 d=260000000 w=100000007",
            "job d p=70000000 d=260000000 w=400000000")
    page.open()
    page.take(text_of("1||sumwU", *jobs))
    page.do("document.getElementById('best').click()")
    page.until("document.getElementById('told') && document.getElementById('best') && document.getElementById('best').textContent === 'Search a plan'",
               "the solver refuses")
    expect("beyond a limit of the solver for 1||sumwU" in page.text("#told"), page.text("#told"))
    page.do("trial.language('de')")
    page.until("document.getElementById('told') && document.getElementById('told').textContent.includes('als der L\u00f6ser f\u00fcr 1||sumwU sie nimmt')",
               "what is said, in German")
    page.do("document.getElementById('best').click()")
    page.until("msp.app.cost && document.getElementById('bound')", "a plan and a bound")
    page.do("document.getElementById('stop').click()")
    expect(page.text("#cost").startswith(("offen", "begr\u00fcndet")), page.text("#cost"))
    page.take(instance("F3||Cmax"))
    page.until("document.getElementById('told') || msp.app.hasSolver === false", "a class without a solver")


def try_stripes(page: Page) -> None:
    """Two charts in one page, both of plans that do not go: each has stripes of its own."""
    page.open("#text=" + quote((HERE / "examples/weighted-sum.txt").read_text(encoding="utf-8")))
    page.until("msp.app.isBest", "the best plan")
    page.do("trial.drag(msp.app.state.plan.pieces.length - 1, -300, 0)")
    page.until("document.getElementById('broken')", "a broken plan")
    page.do("document.getElementById('keep-beside').click()")
    page.until("document.querySelector('#beside .chart .broken')", "a broken plan beside")
    expect(not page.do("trial.twice()"), f"ids that stand twice: {page.do('trial.twice()')}")
    fills = "[...document.querySelectorAll('.chart .broken rect')].map(it => it.getAttribute('fill').slice(5, -1))"
    expect(page.do(f"{fills}.length > 1 && new Set({fills}).size === 2 && {fills}.every(it => document.getElementById(it))"), page.do(fills))


def try_own(page: Page) -> None:
    """One's own plan is broken and mended, by the pointer and by the keyboard."""
    page.open("#text=" + quote("msp 1\nclass P2||Cmax\njob a p=5\njob b p=4\njob c p=3\njob d p=3\njob e p=3\nend\n"))
    page.do("document.getElementById('best').click()")
    page.until("document.getElementById('stop') && msp.app.cost", "a search")
    page.do("document.getElementById('stop').click()")
    page.open("#text=" + quote((HERE / "examples/weighted-sum.txt").read_text(encoding="utf-8")))
    page.until("msp.app.isBest", "the best plan")
    page.do("trial.drag(0, -400, 0)")
    page.until("msp.app.verdict", "a verdict")
    page.do("trial.drag(2, -2000, 0)")
    took = page.until("document.getElementById('broken')", "a plan that does not go")
    expect("overlap" in page.text("#broken"), page.text("#broken"))
    expect(page.do("document.querySelectorAll('.chart .broken').length") > 0, "the pieces are marked")
    expect(took < 1, f"the verdict took {took:.2f} seconds")
    page.do("document.getElementById('early').click()")
    page.until("msp.app.cost && !document.getElementById('broken')", "Early mends it")
    page.do("document.querySelector('.chart .bar[tabindex=\"0\"]').focus()")
    page.press(browsers.ENTER, RIGHT, RIGHT, browsers.ESCAPE)
    expect(page.do("msp.app.cost !== null"), "Escape puts it back")
    page.press(browsers.ENTER, *[RIGHT] * 9, browsers.ENTER)
    page.until("msp.app.cost && !msp.app.isBest", "moved by the keyboard: worse than the best")
    expect("The best plan has 14" in page.text("#cost"), page.text("#cost"))
    for _ in range(20):
        page.do("msp.app.store.undo()")
    page.do("msp.app.store.redo()")
    page.until("msp.app.built.text", "undo and redo")


def try_hand(page: Page) -> None:
    """A plan is broken and mended by a pointer that is pressed, moved and let go, and by the keyboard alone; a bar is cut."""
    page.open("#text=" + quote((HERE / "examples/weighted-sum.txt").read_text(encoding="utf-8")))
    page.until("msp.app.isBest", "the best plan")
    last = page.do("trial.last()")
    page.drag(last, -150)
    page.until("document.getElementById('broken')", "the pointer breaks it")
    page.drag(last, 100)
    page.until("msp.app.cost && !document.getElementById('broken')", "the pointer mends it")
    page.do("document.getElementById('early').click()")
    page.until("msp.app.isBest", "the best plan again")
    page.do(f"document.querySelector('.chart [data-at=\"{last}\"]').focus()")
    page.press(browsers.ENTER, LEFT, browsers.ENTER)
    page.until("document.getElementById('broken')", "the keyboard breaks it")
    expect("overlap" in page.text("#broken"), page.text("#broken"))
    page.press(browsers.ENTER, RIGHT, RIGHT, browsers.ENTER)
    page.until("msp.app.cost && !document.getElementById('broken')", "the keyboard mends it")
    bars = page.do("document.querySelectorAll('.chart .bar').length")
    page.press("s")
    page.until(f"document.querySelectorAll('.chart .bar').length === {bars + 1} && msp.app.verdict", "S cuts a bar")
    page.take(instance("P|pmtn|Lmax"))
    page.do("document.getElementById('best').click()")
    page.until("msp.app.isBest", "machines that are alike")
    page.do("document.querySelector('.chart .bar').focus()")
    line = page.do("msp.app.state.plan.pieces[msp.plan.chart.current].machine")
    page.press(browsers.ENTER, DOWN if line == 1 else UP, browsers.ENTER)
    page.until(f"msp.app.state.plan.pieces[msp.plan.chart.current].machine !== {line} && msp.app.verdict", "up and down change the machine")


def try_classes(page: Page) -> None:
    """Classes of all environments, and two without a solver."""
    for name in SOLVED:
        page.open("#text=" + quote(instance(name)))
        page.until("msp.app.isBest", f"{name}: a best plan")
        expect("proved" in page.text("#cost"), f"{name}: {page.text('#cost')}")
        page.do("document.getElementById('by-job').click()")
        expect(page.do("document.querySelectorAll('.chart .bar').length") >= 6, f"{name}: its bars")
    for name in UNSOLVED:
        page.open("#text=" + quote(instance(name)))
        page.do("document.getElementById('best').click()")
        page.until("msp.app.cost && document.getElementById('bound')", f"{name}: a plan and a bound")
        page.do("document.getElementById('stop').click()")
        expect(page.text("#cost").startswith(("open", "argued")), f"{name}: {page.text('#cost')}")


def try_order(page: Page) -> None:
    """An order of jobs becomes a plan, faults in words, and where it is none that is said."""
    page.open("#text=" + quote((HERE / "examples/weighted-sum.txt").read_text(encoding="utf-8")))
    page.until("msp.app.isBest", "the best plan")
    page.do("document.querySelector('#own-order details').open = true")
    page.do("document.getElementById('order-now').click()")
    names = page.do("document.getElementById('order').value").split(", ")
    expect(len(names) == 3, f"the order of the plan: {names}")
    for text, said in ((f"{names[0]}, {names[0]} nobody", (f"{names[0]} stands in the order twice", "no job nobody", "the order lacks")),
                       ("", ("the order lacks",))):
        page.do(f"trial.write('order', {json.dumps(text)})")
        page.do("document.getElementById('order-do').click()")
        expect(all(it in page.text("#order-said") for it in said), page.text("#order-said"))
    page.do(f"trial.write('order', {json.dumps(' '.join(reversed(names)).upper())})")
    page.do("document.getElementById('order').focus()")
    page.browser.press(browsers.CONTROL, browsers.ENTER)
    page.until("msp.app.state.plan.from === 'own' && msp.app.cost && !msp.app.isBest", "Ctrl and Enter plan in this order, and it is judged")
    expect("The best plan has 14" in page.text("#cost") and page.do("document.getElementById('order-said').hidden"), page.text("#cost"))
    page.do("msp.app.store.undo()")
    page.until("msp.app.isBest", "undo")
    for name, way in (("P||Lmax", "is a list"), ("F3||Cmax", "the sequence itself"), ("J||Cmax", "Giffler and Thompson"), ("R||sumC", "hand in the pieces")):
        page.open("#text=" + quote(instance(name)))
        page.do("document.querySelector('#own-order details').open = true")
        expect(way in page.text("#order-way"), f"{name}: {page.text('#order-way')}")
        if name != "R||sumC":
            page.do("trial.write('order', 'j5 j4 j3 j2 j1 j0')")
            page.do("document.getElementById('order-do').click()")
            page.until("msp.app.state.plan.from === 'own' && msp.app.cost", f"{name}: a plan by an order")
        else:
            expect(page.do("document.getElementById('order-do') === null"), "no order on unrelated machines")


def in_time(page: Page, pieces: list[int]) -> None:
    """Whether the plan is drawn, and each of some pieces judged when it is dropped, in time. The least counts: what runs beside is not the page's."""
    drawn = sorted(page.do("trial.timed(() => trial.redraw())") for _ in range(5))
    judged = sorted(page.do(f"trial.judgedAfter({piece}, {30 + at}, 0)") for at, piece in enumerate(pieces))
    waiting, processors = os.getloadavg()[0], os.cpu_count() or 1
    page.measured += [f"drawn in {drawn[0]:.0f} to {drawn[-1]:.0f} ms", f"judged after {judged[0]:.0f} to {judged[-1]:.0f} ms"]
    if waiting > processors:
        page.measured.append(f"while {waiting:.0f} programs shared {processors} processors")
    expect(drawn[0] < DRAWN or waiting > processors, f"drawn in {drawn[0]:.0f} ms")
    expect(judged[0] < JUDGED or waiting > processors, f"a verdict stands after {judged[0]:.0f} ms")


def try_shop_great(page: Page) -> None:
    """A flow shop of 400 jobs on 32 machines, which has 12,800 pieces."""
    jobs = "".join(f"job job{at}\ntimes {' '.join(str((at * 7 + machine * 5) % 13 + 1) for machine in range(32))}\n" for at in range(400))
    page.open()
    page.take(f"msp 1\nclass F||Cmax\nmachines 32\n{jobs}end\n")
    page.until("msp.app.name === 'F||Cmax' && msp.app.built.text", "an instance")
    page.do("document.querySelector('#own-order details').open = true")
    page.do("trial.write('order', msp.app.built.jobs.map(it => it.name).join(' '))")
    page.do("document.getElementById('order-do').click()")
    page.until("msp.app.state.plan && msp.app.state.plan.pieces.length === 12800 && msp.app.cost", "a plan of 12,800 pieces", 60)
    in_time(page, [5000, 12000, 300, 7000, 9000, 4000, 3000])


def try_great(page: Page) -> None:
    """400 jobs on 32 machines are drawn within a second; what is beyond is refused in words."""
    jobs = "".join(f"job job{at} p={at % 17 + 1}\n" for at in range(400))
    page.open("#text=" + quote(f"msp 1\nclass P||sumC\nmachines 32\n{jobs}end\n"))
    page.until("msp.app.isBest", "a plan of 400 jobs", 60)
    expect(page.do("document.querySelectorAll('.chart .bar').length") == 400, "400 bars")
    in_time(page, [at * 40 for at in range(7)])
    page.do("trial.typeInto('machines', '33')")
    page.until("document.querySelector('#faults')", "33 machines")
    expect("from 1 to 32 machines" in page.text("#faults"), page.text("#faults"))
    page.do("trial.typeInto('machines', '32')")
    page.do("document.getElementById('add-row').click()")
    page.do("trial.typeIn(401, 'p', '1')")
    page.until("document.querySelector('#faults')", "401 jobs")
    expect("more than 400 jobs" in page.text("#faults"), page.text("#faults"))


TRIALS: list[Trial] = [
    ("own", WIDE, try_own), ("limit", WIDE, try_limit), ("stripes", WIDE, try_stripes), ("hand", WIDE, try_hand), ("classes", WIDE, try_classes),
    ("order", WIDE, try_order), ("great", WIDE, try_great), ("great shop", WIDE, try_shop_great)]
