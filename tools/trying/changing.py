"""What changes the problem: drawings, arcs, typing; and what takes it back."""
from __future__ import annotations

import json
from collections.abc import Iterator
from urllib.parse import quote

import browsers
from .page import DOWN, expect, instance, LIST, Page, RIGHT, SIXTY, Trial, UP, WIDE

def try_drawing(page: Page) -> None:
    """A seed draws jobs of the class that is chosen, with the cost of the trial; the drawing is taken back; faults stand in the fields."""
    page.open()
    page.until("msp.app.isBest", "the first plan")
    before = page.do("trial.saved()")
    page.do("trial.open('draw')")
    for key, text, said in (("seed", "2147483648", "from 0 to 2,147,483,647"), ("jobs", "401", "from 1 to 400"), ("jobs", "x", "from 1 to 400")):
        page.do(f"trial.typeInto('draw-{key}', '{text}')")
        page.do("document.getElementById('draw-do').click()")
        expect(said in page.text(f"#draw-{key}-fault") and page.do("trial.saved()") == before, f"{key} {text}: {page.text('#draw')}")
        page.do(f"trial.typeInto('draw-{key}', '5')")
    for name, jobs, seed in (("1||sumU", 12, 74), ("R2||sumC", 5, 0), ("P|intree,p=1|Cmax", 9, 2147483646), ("F3||Cmax", 4, 3)):
        page.do(f"trial.typeInto('class-name', '{name}')")
        page.do(f"trial.typeInto('draw-jobs', '{jobs}')")
        page.do(f"trial.typeInto('draw-seed', '{seed}')")
        page.do("document.getElementById('draw-do').focus()")
        page.press(browsers.ENTER)
        expect(page.do("msp.app.problem.rows.length") == jobs and f"msp trial '{name}' {jobs} {seed}" in page.text(".notes"), page.text(".notes"))
        trial = page.do(f"msp.run(['trial', '{name}', '{jobs}', '{seed}']).then(it => it.report)")
        if name == "F3||Cmax":
            page.until("!msp.app.running", "no solver")
            continue
        page.until("msp.app.isBest", f"{name}: a plan")
        cost = page.do("msp.run(['solve'], msp.app.built.text).then(it => it.report.match(/^cost .*$/m)[0])")
        expect(f"\n{cost}\n" in trial, f"{name}: {cost}, and the trial says {trial}")
    page.do("document.getElementById('draw-next').click()")
    expect(page.do("document.getElementById('draw-seed').value") == "4", "the next seed")
    for _ in range(9):
        page.do("document.getElementById('undo').click()")
    expect(page.do("trial.saved()") == before and page.do("document.getElementById('undo').disabled"), "all is taken back")


def try_arcs(page: Page) -> None:
    """The order of jobs as a picture: arcs are added and taken away by the pointer and by the keyboard; a circle is told, and changes nothing."""
    page.open()
    page.do(f"trial.takeList({json.dumps(LIST)})")
    page.until("msp.app.isBest", "a plan of the list")
    before = page.do("trial.saved()")
    page.do("trial.open('arcs')")
    expect(page.do("document.querySelectorAll('.arcs .job').length") == 6 and page.do("document.querySelectorAll('.arcs .arc').length") == 2, "the picture")
    expect("6 jobs with 2 arcs on 2 levels" in page.do("document.querySelector('svg.arcs').getAttribute('aria-label')"), "what it says of itself")
    expect("Binden waits for Katalog Seiten, Umschlag." in page.text("#arcs ul"), page.text("#arcs ul"))
    page.do("trial.join(5, 2)")
    expect("would be a circle, Binden \u2192 Katalog Seiten \u2192 Binden" in page.text("#arcs-said"), page.text("#arcs-said"))
    expect(page.do("trial.saved()") == before, "a circle changes nothing")
    page.do("trial.join(0, 2)")
    expect(page.do("trial.cell(3, 'after').value") == "Plakate M\u00fcller", "the column has the arc")
    page.until("msp.app.verdict && msp.app.built.arcs.length === 3", "the plan is judged anew")
    page.do("trial.join(2, 5)")
    expect(page.do("trial.cell(6, 'after').value") == "Umschlag" and "no longer waits" in page.text("#arcs-said"), "an arc is taken away")
    for _ in range(2):
        page.browser.press(browsers.CONTROL, "z")
    expect(page.do("trial.saved()") == before, "both are taken back")
    page.do("document.querySelector('.arcs .job[tabindex=\"0\"]').focus()")
    page.press(*[UP] * 6)
    seen = {page.do("document.activeElement.textContent")}
    for _ in range(6):
        page.press(DOWN)
        seen.add(page.do("document.activeElement.textContent"))
    expect(len(seen) == 6, f"arrows lead to each job: {seen}")
    page.press(*[UP] * 6, browsers.ENTER, RIGHT, browsers.ENTER)
    expect("no longer waits for" in page.text("#arcs-said"), f"by the keyboard: {page.text('#arcs-said')}")
    expect(page.do("document.activeElement.closest('.arcs') !== null"), "the focus stays")
    page.press(browsers.ENTER, browsers.ESCAPE)
    expect(page.do("document.querySelectorAll('.arcs [aria-pressed=true]').length") == 0, "Escape leaves")
    page.do("trial.typeIn(1, 'after', 'Binden')")
    page.do("trial.typeIn(3, 'after', 'Plakate M\u00fcller')")
    page.do("trial.typeIn(6, 'after', 'Katalog Seiten')")
    page.until("document.querySelectorAll('.arcs .round').length === 3", "a circle that was typed is marked")
    expect("A circle" in page.text("#arcs .faulty"), page.text("#arcs"))
    page.until("document.querySelector('[data-key=after] .fault')", "the program's fault stands in its cell")
    page.do("trial.takeList('job;time;after\\n' + Array.from({ length: 61 }, (_, at) => `a${at};1;${at ? `a${at - 1}` : ''}`).join('\\n'))")
    expect("up to 60 jobs, and here are 61" in page.text("#arcs"), page.text("#arcs"))
    page.do("trial.typeInto('pick-order', '')")
    expect(page.text("#arcs") == "", "a class without precedence has no such picture")


def changes() -> Iterator[tuple[str, str]]:
    """What can be changed in the part Plan: in words, and as what is done."""
    for key, value in (("pick-environment", "Q2"), ("speeds", "2 1"), ("machineNames", "Waschen, Mangeln"), ("pick-times", "p=p"), ("time", "3"),
                       ("pick-times", ""), ("pick-order", "prec"), ("pick-release", "r"), ("pick-cut", "pmtn"), ("class-name", "P||sumwC"),
                       ("machines", "3"), ("unit", "h"), ("start", "2026-03-02 06:00"), ("shifts", "Mo-Fr 06:00-14:00"), ("holidays", "2026-03-03")):
        yield f"{key}: {value}", f"trial.typeInto('{key}', '{value}')"
    yield "a cell", "trial.typeIn(msp.app.problem.rows[0].id, 'p', '7,5')"
    yield "a row more", "document.getElementById('add-row').click()"
    yield "a row removed", "document.querySelector('.drop').click()"
    yield "cells pasted", "trial.pasteIn('a\\t3\\nb\\t4')"
    yield "a list pasted", f"trial.pasteIn({json.dumps(SIXTY)})"
    yield "a list taken", f"trial.takeList({json.dumps(LIST)})"
    yield "arcs", "(trial.open('arcs'), trial.join(0, 1))"
    yield "a drawing", "(trial.open('draw'), document.getElementById('draw-next').click())"
    yield "an example", "trial.typeInto('example', 'weighted-sum')"
    yield "an empty table", "document.getElementById('fresh').click()"
    yield "a file", f"trial.takeFile('two.txt', {json.dumps(instance('P2||sumT'))})"
    yield "a link", f"trial.hash({json.dumps('#text=' + quote(instance('1||sumwC')))})"
    yield "a bar dragged", "trial.drag(0, 60, 0)"
    yield "moved early", "document.getElementById('early').click()"
    yield "a best plan", "document.getElementById('best').click()"
    yield "a plan kept beside", "document.getElementById('keep-beside').click()"
    yield "an order", "(trial.write('order', 'j5 j4 j3 j2 j1 j0'), document.getElementById('order-do').click())"
    yield "both plans swapped", "document.getElementById('beside-swap').click()"
    yield "what if", ("(async () => { const { state } = msp.app; trial.typeInto('what-kind', 'gone'); document.getElementById('what-ask').click();"
                      "while (msp.app.state === state) await new Promise(done => setTimeout(done, 20)); })()")
    yield "the plan beside dropped", "document.getElementById('beside-drop').click()"
    yield "a class taken from the atlas", "trial.hash('#classes/1%7C%7CsumU').then(() => document.querySelector('#take-class button').click())"


def try_undo(page: Page) -> None:
    """Each control of the part Plan is taken back and made again, and so is what is just being typed."""
    page.open()
    page.until("msp.app.isBest", "the first plan")
    states = [page.do("trial.saved()")]
    expect(page.do("document.getElementById('undo').disabled"), "a fresh page has nothing to take back")
    for what, act in changes():
        page.do(act)
        page.until("!msp.app.running", what)
        page.do("trial.settled()")
        states.append(page.do("trial.saved()"))
        expect(states[-1] != states[-2], f"{what} changes something")
        page.browser.press(browsers.CONTROL, "z")
        expect(page.do("trial.saved()") == states[-2], f"{what} is taken back")
        page.browser.press(browsers.CONTROL, "y")
        expect(page.do("trial.saved()") == states[-1], f"{what} is made again")
    for number in range(len(states) - 1, 0, -1):
        page.do("document.getElementById('undo').click()")
        expect(page.do("trial.saved()") == states[number - 1], f"back to {number - 1}")
    expect(page.do("document.getElementById('undo').disabled && document.activeElement.id === 'redo'"), "the focus goes on to Redo")
    expect("Taken back: " in page.text("#said"), page.text("#said"))
    page.do("trial.cell(1, 'p').focus()")
    old = page.do("trial.cell(1, 'p').value")
    page.press("4")
    typed = page.do("trial.cell(1, 'p').value")
    page.browser.press(browsers.CONTROL, "z")
    expect(page.do("trial.saved()") == states[0] and page.do("trial.cell(1, 'p').value") == old != typed, "what is being typed is taken back")
    page.browser.press(browsers.CONTROL, "y")
    expect(page.do("trial.cell(1, 'p').value") == typed, "and made again")


def try_typing(page: Page) -> None:
    """What is being typed stays while the page is drawn anew, and the field to which one goes on is there."""
    page.open()
    page.until("msp.app.isBest", "the first plan")
    page.do("document.querySelectorAll('#jobs > details').forEach(it => { it.open = true; })")
    for place in ("trial.cell(2, 'p')", "document.getElementById('shifts')", "document.getElementById('class-name')"):
        page.do(f"{place}.focus()")
        page.press("7")
        typed = page.do(f"{place}.value")
        page.do("msp.app.render()")
        expect("7" in typed and page.do(f"document.activeElement === {place} && {place}.value") == typed, f"{place}: {typed}")
        page.do(f"{place}.value = {place}.defaultValue")
    page.do("trial.typeInto('class-name', 'Q||Cmax')")
    same = "(it => (trial.typeIn(1, 'p', '8'), it === document.getElementById('best')))(document.getElementById('best'))"
    expect(page.do(same), "a button stays itself when a field is left, or the click on it would be lost")
    for before, behind in (("start", "shifts"), ("shifts", "holidays"), ("machines", "speeds"), ("speeds", "machineNames")):
        same = f"(it => (trial.typeInto('{before}', '4'), it === document.getElementById('{behind}')))(document.getElementById('{behind}'))"
        expect(page.do(same) or before == "start", f"{behind} stays when {before} is left")
        page.do(f"document.getElementById('{before}').focus()")
        page.press("4", browsers.TAB)
        expect(page.do("document.activeElement.id") == behind, f"behind {before} comes {behind}: {page.do('document.activeElement.id')}")


TRIALS: list[Trial] = [("drawing", WIDE, try_drawing), ("arcs", WIDE, try_arcs), ("undo", WIDE, try_undo), ("typing", WIDE, try_typing)]
