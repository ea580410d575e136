"""How the page looks, and how it is reached: contrast, names, roles, widths, the keyboard, motion."""
from __future__ import annotations

import json

import browsers
from .page import DARK, expect, LIST, Page, PHONE, STILL, text_of, Trial, WIDE

def try_looks(page: Page) -> None:
    """Contrast, widths, sizes and names of controls, in all parts and in both languages."""
    for language in ("en", "de"):
        for place in ("", "#learn", "#classes"):
            page.open(place)
            page.do(f"trial.language('{language}')")
            if not place:
                page.until("msp.app.isBest", "a plan")
            page.do("trial.whole()")
            poor, nameless = page.do("trial.poor()"), page.do("trial.nameless()")
            expect(not poor, f"{place} {language}: contrast {poor[:5]}")
            expect(not nameless, f"{place} {language}: without a name {nameless[:5]}")
            roles, pale = page.do(f"trial.roles('{language}')"), page.do("[...trial.pale(), ...trial.faint()]")
            expect(not roles, f"{place} {language}: {roles[:5]}")
            expect(not pale, f"{place} {language}: contrast in the chart {pale[:5]}")
            expect(page.do("document.documentElement.scrollWidth <= innerWidth"), f"{place} {language}: wider than the screen")
    expect(page.do("performance.getEntriesByType('resource').every(it => it.name.startsWith('blob:'))"), "nothing was fetched")
    expect(page.do("fetch('data:,text').then(() => false, () => true)"), "nothing can be fetched")
    expect(page.do("trial.foreign()"), "no foreign script runs")


def try_still(page: Page) -> None:
    """Nothing moves where the system asks for no motion; and what is large stays on the screen."""
    page.open()
    page.until("msp.app.isBest", "a plan")
    expect(page.do("matchMedia('(prefers-reduced-motion: reduce)').matches"), "the browser asks for no motion")
    page.do("trial.drag(0, 60, 0)")
    page.do("document.getElementById('big').click()")
    expect(page.do("trial.moving().length === 0 && document.getAnimations().length === 0"), f"what moves: {page.do('trial.moving()')}")
    expect(page.do("document.documentElement.scrollWidth <= innerWidth"), "large letters are wider than the screen")
    page.take(text_of("1||sumC", *(f"job {name} p={time}" for name, time in (("a", 2), ("b", 3), ("c", 5)))))
    page.do("document.getElementById('best').click()")
    page.until("msp.app.isBest", "a plan in large letters")
    unit = page.do("msp.plan.chart.chart.scale * document.querySelector('.chart').getBoundingClientRect().width / msp.plan.chart.chart.width")
    page.drag(page.do("trial.last()"), -3 * unit)
    page.until("msp.app.verdict && String(msp.app.state.plan.pieces[trial.last()].from.n) === '2'", "a bar follows the pointer in large letters")


def try_keys(page: Page) -> None:
    """The keyboard alone: from the top to the table, each control seen as it gets the focus, a number typed, a plan asked for."""
    page.open()
    page.until("msp.app.isBest", "the first plan")
    seen: list[str] = []
    for _ in range(80):
        page.press(browsers.TAB)
        here = page.do("document.activeElement.outerHTML.slice(0, 200)")
        expect(page.do("trial.focusIsSeen()"), f"the focus is not seen behind {seen[-1:]}: {here}")
        seen.append(page.do("(it => it.id || it.closest('[data-key]') && it.closest('[data-key]').dataset.key)(document.activeElement)"))
        if seen[-1] == "p":
            break
    expect("best" not in seen and seen[-1] == "p", f"the tabulator leads to the table: {seen}")
    page.press("7", browsers.ENTER)
    page.until("msp.app.problem.rows[0].cells.p === '7'", "the number is taken")
    page.browser.press(browsers.CONTROL, browsers.ENTER)
    page.until("msp.app.isBest", "Ctrl and Enter ask for a plan")


def try_rooms(page: Page) -> None:
    """All that can be unfolded: contrast, names and widths, in both languages."""
    for language in ("en", "de"):
        page.open()
        page.do(f"trial.language('{language}')")
        page.do(f"trial.takeList({json.dumps(LIST)})")
        page.until("msp.app.isBest", "a plan")
        page.do("document.querySelectorAll('#part-plan details').forEach(it => { it.open = true; })")
        page.do("trial.join(0, 1)")
        page.do("trial.typeInto('draw-seed', 'x')")
        page.do("document.getElementById('shop-keep').click()")
        page.do("trial.whole()")
        poor, nameless, pale = page.do("trial.poor()"), page.do("trial.nameless()"), page.do("trial.pale('.arcs .job text', '.arcs .job rect')")
        expect(not poor, f"{language}: contrast {poor[:5]}")
        expect(not nameless, f"{language}: without a name {nameless[:5]}")
        expect(not pale, f"{language}: contrast in the picture {pale[:5]}")
        expect(page.do("document.documentElement.scrollWidth <= innerWidth"), f"{language}: wider than the screen")
        expect(not page.do("trial.twice()"), f"{language}: ids that stand twice: {page.do('trial.twice()')}")


TRIALS: list[Trial] = [
    ("looks", WIDE, try_looks), ("dark", DARK, try_looks), ("phone", PHONE, try_looks), ("rooms", WIDE, try_rooms), ("dark rooms", DARK, try_rooms),
    ("phone rooms", PHONE, try_rooms), ("keys", WIDE, try_keys), ("still", STILL, try_still)]
