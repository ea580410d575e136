"""Lists that are pasted, and the faults of their cells."""
from __future__ import annotations

import json

from .page import expect, LIST, Page, SIXTY, text_of, Trial, WIDE

def try_list(page: Page) -> None:
    """A German list of orders becomes a plan with its picture."""
    page.open()
    page.do("trial.language('de')")
    page.do(f"trial.takeList({json.dumps(LIST)})")
    page.until("msp.app.isBest && msp.app.state.plan", "a plan of the list")
    expect(page.do("msp.app.name") == "1|prec|Lmax", "the class fits the columns")
    expect("Gr\u00f6\u00dfte Versp\u00e4tung: \u22126 h" in page.text("#cost"), page.text("#cost"))
    expect(page.do("document.querySelectorAll('.chart .bar').length") == 6, "a bar for each order")
    expect("02.03. 06:00" in page.text(".chart"), "the axis has dates")
    page.do(f"trial.pasteIn({json.dumps(SIXTY)})")
    page.until("msp.app.isBest && msp.app.problem.rows.length === 60", "a plan of sixty orders")
    expect(page.do("msp.app.name") == "1||sumwC" and page.do("document.querySelectorAll('.chart .bar').length") == 60, "sixty orders")


def try_faults(page: Page) -> None:
    """Each kind of fault stands in its cell and in words."""
    page.open()
    page.do(f"trial.takeList({json.dumps('job;time;due' + chr(10) + 'a;x;3' + chr(10) + 'a;2;' + chr(10) + 'c;1.250;4' + chr(10) + 'Summe;9;2026-03-02')})")
    for at, where in enumerate((("1", "p", "no number: x"), ("2", "job", "stands in row 1 too"), ("2", "d", "is missing"),
                                ("3", "p", "may be a thousand"), ("4", "job", "a row of sums"))):
        row, key, said = where
        expect(said in page.text(f'td[data-row="{row}"][data-key="{key}"] .fault'), f"fault {at}: {said}")
    expect(page.do("trial.cell(1, 'p').getAttribute('aria-invalid')") == "true", "the field says so")
    expect("faults" in page.text("#faults") and page.do("document.getElementById('best').disabled"), "the faults in words, and no plan")
    page.do("trial.typeIn(1, 'p', '2000000000000')")
    page.do("document.querySelectorAll('.drop')[3].click()")
    for at, column, text in ((2, "job", "b"), (2, "d", "5"), (3, "p", "1250")):
        page.do(f"trial.typeIn({at}, {json.dumps(column)}, {json.dumps(text)})")
    page.until("trial.cell(1, 'p').getAttribute('aria-invalid')", "the program's fault stands in its cell")
    expect("out of its range" in page.text('td[data-row="1"][data-key="p"] .fault'), "a limit in words")
    page.do("trial.typeIn(1, 'p', '2')")
    page.until("!document.querySelector('[aria-invalid=true]')", "all faults are mended")
    page.do("document.getElementById('best').click()")
    page.until("msp.app.isBest", "and there is a plan")


DUE = text_of("1|prec|Lmax", "job a p=3 d=4", "job b p=2 d=5", "arc a b")
SPEEDS = text_of("Q||Cmax", "machines 2", "speeds 1 2", "job a p=1")
ROUTE = text_of("J2||Cmax", "job a", "route 1 2 2 3")
CURVE = text_of("1||fmax", "job a p=1", "curve 1 0")
# an instance, the row of a cell or 0 for a field, its column or its id, what is typed, and what is said there
EACH_FAULT = (
    (DUE, 1, "p", "", "is missing"), (DUE, 1, "p", "x", "no number: x"), (DUE, 1, "p", "1.250", "may be a thousand or a fraction"),
    (DUE, 1, "d", "31.02.2026", "no date"), (DUE, 1, "p", "3:30", "choose a unit of time"), (DUE, 1, "d", "2026-03-02", "set moment 0"),
    (DUE, 2, "after", "c", "no job c"), (DUE, 2, "after", "b", "cannot wait for itself"), (DUE, 2, "after", "a | a", "stands twice"),
    (DUE, 2, "job", "a", "stands in row 1 too"), (DUE, 1, "after", "b", "a circle"), (DUE, 1, "job", "Summe", "a row of sums"),
    (DUE, 1, "p", "2000000000", "1 to 10^9"), (DUE, 1, "p", "0", "1 to 10^9"), (DUE, 1, "d", "2000000000", "\u221210^9 to 10^9"),
    (DUE, 0, "start", "nonsense", "no date: nonsense"),
    (text_of("1|r|sumC", "job a p=1 r=0"), 1, "r", "-5", "0 to 10^9"), (text_of("1|r,p=1|sumC", "job a r=0"), 1, "r", "0,5", "0,5 is no whole number"),
    (text_of("1||sumwC", "job a p=1 w=1"), 1, "w", "0", "1 to 10^9"),
    (text_of("P||Cmax", "machines 2", "job a p=1"), 0, "machines", "33", "1 to 32 machines"),
    (text_of("P|p=p|Cmax", "machines 2", "time 3", "job a"), 0, "time", "x", "no number: x"),
    (SPEEDS, 0, "speeds", "1", "1 speeds for 2 machines"), (SPEEDS, 0, "speeds", "1 x", "whole numbers"),
    (SPEEDS, 0, "speeds", "1 2000000", "1 to 10^6"), (SPEEDS, 0, "speeds", "999983 999979", "beyond 2^30"),
    (text_of("F2||Cmax", "job a", "times 1 2"), 1, "p2", "x", "no number: x"), (text_of("O2||Cmax", "job a", "times 0 2"), 1, "p2", "0", ""),
    (ROUTE, 1, "route", "1 2 3", "machines and times in turn"), (ROUTE, 1, "route", "3 2", "no machine 3"),
    (ROUTE, 1, "route", "1 2 1 3", "twice in a row"),
    (text_of("J2|p=1|Cmax", "job a", "route 1 2"), 1, "route", "", "a route has machines"),
    (CURVE, 1, "curve", "1", "a slope, a base"), (CURVE, 1, "curve", "1 0" + "".join(f" {at} 1" for at in range(1, 18)), "more than 16 jumps"),
    (text_of("1|outtree|Cmax", "job a p=1", "job b p=1", "job c p=1", "arc a b"), 3, "after", "a | b", "too many neighbours"))


def try_cells(page: Page) -> None:
    """Each kind of fault, in its cell or at its field, is marked and said; and the problem without it has none."""
    page.open()
    for text, row, column, typed, said in EACH_FAULT:
        page.take(text)
        page.until("!document.querySelector('[aria-invalid=true]')", f"no fault before {column} {typed}")
        page.do(f"trial.typeIn({row}, '{column}', {json.dumps(typed)})" if row else f"trial.typeInto('{column}', {json.dumps(typed)})")
        where = f"trial.faultAt({row}, '{column if said else 'p1'}')"
        page.until(f"{where} && document.getElementById('faults')", f"a fault of {column} {typed}")
        expect((said or "no time above 0") in page.do(where), f"{column} {typed}: {page.do(where)}")


TRIALS: list[Trial] = [("list", WIDE, try_list), ("faults", WIDE, try_faults), ("cells", WIDE, try_cells)]
