"""The main states of the page as PNG."""
from __future__ import annotations

import json
import time
from collections.abc import Callable
from pathlib import Path
from urllib.parse import quote

import browsers
from .page import DARK, instance, LIST, Page, PHONE, PRESS, WIDE
from .questions import ask

def show_list(page: Page) -> None:
    """A German list with its plan."""
    page.do("trial.language('de')")
    page.do(f"trial.takeList({json.dumps(LIST)})")
    page.until("msp.app.isBest", "a plan")


def show_fault(page: Page) -> None:
    """A fault in a cell."""
    page.do("trial.typeIn(2, 'p', '4h30')")
    page.do("trial.typeIn(3, 'd', '')")


def show_broken(page: Page) -> None:
    """A plan of one's own that does not go."""
    page.until("msp.app.isBest", "a plan")
    page.do("trial.drag(msp.app.state.plan.pieces.length - 1, -300, 0)")
    page.until("document.getElementById('broken')", "a broken plan")


def show_lesson(page: Page) -> None:
    """A lesson that is solved."""
    page.until("msp.learn.app && msp.learn.app.bestCost", "the lesson is open")
    page.do("trial.answer('plan')")
    page.until("!document.querySelector('.answered').hidden", "the lesson is solved")
    page.do("document.querySelector('#lesson-steps details').open = true")
    for _ in range(3):
        page.do("document.getElementById('lesson-steps-stepOn').click()")


def show_arcs(page: Page) -> None:
    """The order of jobs that a seed draws, with one of them chosen."""
    page.do("trial.typeInto('class-name', 'P2|prec,p=1|Cmax')")
    page.do("trial.open('draw')")
    page.do("trial.typeInto('draw-jobs', '13')")
    page.do("document.getElementById('draw-do').click()")
    page.until("msp.app.isBest", "a plan")
    page.do("trial.open('arcs')")
    page.do("document.querySelector('.arcs [data-place=\"3\"]').focus()")
    page.press(browsers.ENTER)
    page.do("document.getElementById('arcs').scrollIntoView()")


def show_what_if(page: Page) -> None:
    """A rush order, with the plan before beside."""
    page.until("msp.app.isBest", "a plan")
    ask(page, "rush", "3", rush_job="labels", rush_p="2", rush_d="7")
    page.until("msp.app.isBest && document.getElementById('difference-cost')", "both plans")


def show_known(page: Page) -> None:
    """What is known of a class without a solver, and its neighbours."""
    page.do("document.querySelectorAll('#class-known, #class-near').forEach(it => { it.open = true; })")
    page.until("document.querySelector('.known-class h3')", "what is known")
    page.do("document.getElementById('problem').scrollIntoView()")


PICTURES: list[tuple[str, browsers.Screen, str, Callable[[Page], None]]] = [
    ("plan", WIDE, "", lambda page: None), ("list-german", WIDE, "", show_list), ("fault", WIDE, "", show_fault), ("own", WIDE, "", show_broken),
    ("what-if", WIDE, "#text=" + quote(PRESS), show_what_if),
    ("dark", DARK, "#text=" + quote(instance("O|pmtn|Cmax")), lambda page: None), ("phone", PHONE, "", lambda page: None),
    ("known", browsers.Screen(1280, 900), "#text=" + quote(instance("P2|r|sumwT")), show_known),
    ("arcs", browsers.Screen(980, 640), "", show_arcs), ("classes", WIDE, "#classes", lambda page: None), ("learn", WIDE, "#learn/moore", show_lesson)]


def pictures(name: str, file: Path, folder: Path) -> None:
    """The main states as PNG."""
    folder.mkdir(parents=True, exist_ok=True)
    for what, screen, place, show in PICTURES:
        with browsers.opened(name, screen) as browser:
            page = Page(browser, file)
            page.open(place)
            show(page)
            time.sleep(0.5)
            browser.picture(folder / f"page-{what}.png")
