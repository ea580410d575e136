"""The page in a browser, as its trials use it, and the texts that several of them open."""
from __future__ import annotations

import json
import time
from collections.abc import Callable
from dataclasses import dataclass, field
from pathlib import Path
from typing import Any

import browsers

HERE = Path(__file__).resolve().parent.parent.parent
PATIENCE = 15.0  # (seconds for what a trial waits for)
WIDE, PHONE, DARK = browsers.Screen(1400, 950), browsers.Screen(390, 844), browsers.Screen(1400, 950, True)
STILL, GERMAN = browsers.Screen(1400, 950, still=True), browsers.Screen(1400, 950, language="de-DE")
RIGHT, LEFT, DOWN, UP = "\ue014", "\ue012", "\ue015", "\ue013"
LIST = "Auftragsplan KW 10\nAuftrag;Dauer (Std);f\u00e4llig;nach\n" + "".join(
    f"{name};{hours};{due};{after}\n" for name, hours, due, after in (
        ("Plakate M\u00fcller", "6,5", "02.03.2026 16:00", ""), ("Flyer", "2", "02.03.2026 12:00", ""),
        ("Katalog Seiten", "14", "03.03.2026 18:00", ""), ("Umschlag", "3", "03.03.2026 10:00", ""),
        ("Einladung", "1,5", "02.03.2026 11:00", ""), ("Binden", "4", "03.03.2026 22:00", "Katalog Seiten | Umschlag")))
SIXTY = "Auftrag\tDauer (min)\tGewicht\n" + "".join(f"Auftrag {at}\t{at % 13 + 1},5\t{at % 5 + 1}\n" for at in range(60))


class Fault(Exception):
    """Something that is not as it should be."""


class Skipped(Exception):
    """What a trial needs and is not here."""


def expect(true: object, what: str) -> None:
    """Refuses what is not so."""
    if not true:
        raise Fault(what)


@dataclass
class Page:
    """The page in a browser, with the functions of web/tests/page-page.js in it; how long it is waited for; and what was measured."""
    browser: browsers.Browser
    file: Path
    patience: float = PATIENCE
    measured: list[str] = field(default_factory=list)

    def open(self, place: str = "") -> None:
        """Opens the page anew at a place, and waits until a plan stands there."""
        self.browser.open(f"{self.file.as_uri()}{place}")
        self.begin()

    def begin(self) -> None:
        """Puts the functions into the page that is open, and waits until it is ready."""
        self.do(f"(() => {{ {(HERE / 'web/tests/atlas-page.js').read_text(encoding='utf-8')} }})()")
        self.do(f"(() => {{ {(HERE / 'web/tests/page-page.js').read_text(encoding='utf-8')} }})()")
        self.until("msp.app.atlas && !msp.app.running", "the page is ready")

    def do(self, code: str) -> Any:
        """The value of an expression."""
        return self.browser.evaluate(code)

    def until(self, code: str, what: str, most: float = 0.0) -> float:
        """Waits until an expression holds; the seconds that it took."""
        began, most = time.monotonic(), max(most, self.patience)
        while not self.do(f"Boolean({code})"):
            if time.monotonic() - began > most:
                said = self.do("[document.querySelector('.verdict').textContent, document.querySelector('.notes').textContent].join(' / ')")
                raise Fault(f"{what}: not after {most:g} seconds; the page says: {said}")
            time.sleep(0.02)
        return time.monotonic() - began

    def text(self, place: str) -> str:
        """The text of an element."""
        return str(self.do(f"(it => it ? it.textContent : '')(document.querySelector({json.dumps(place)}))"))

    def press(self, *keys: str) -> None:
        """Presses keys one after another."""
        for key in keys:
            self.browser.press(key)

    def take(self, text: str) -> None:
        """Opens a text as a file."""
        self.do(f"trial.takeFile('trial.txt', {json.dumps(text)})")

    def drag(self, piece: int, across: float) -> None:
        """Drags a bar by the pointer, so many pixels to the right."""
        left, top = self.do(f"trial.grip({piece})")
        self.browser.drag((left, top), (left + across, top))


def instance(name: str) -> str:
    """An instance of a class, as a text behind an address."""
    environment, items, criterion = name.split("|")
    machines = {"1": 1, "P2": 2, "O2": 2, "F2": 2, "F3": 3, "J2": 2}.get(environment, 3)
    lines = ["msp 1", f"class {name}"] + ([f"machines {machines}"] if environment in ("P", "Q", "R", "O", "F", "J") else [])
    lines += ["speeds 3 2 1"] if environment == "Q" else []
    for at in range(6):
        keys = ([f"p={at * 5 % 7 + 1}"] if environment[0] in "1PQ" and "p=" not in items else []) + ([f"r={at % 4}"] if "r" in items.split(",") else [])
        keys += ([f"d={at * 3 % 8 + 4}"] if criterion[-1] in "UT" or criterion == "Lmax" else []) + ([f"w={at % 3 + 1}"] if "w" in criterion else [])
        lines.append(" ".join([f"job j{at}", *keys]))
        if environment[0] in "ROF":
            lines.append("times " + " ".join(str((at * 3 + machine * 5) % 6 + 1) for machine in range(machines)))
        if environment[0] == "J":
            lines.append(f"route {at % 2 + 1} {at + 1} {2 - at % 2} {7 - at}")
        if criterion == "fmax":
            lines.append(f"curve 1 {-at}")
    lines += ["arc j0 j3", "arc j1 j4"] if "prec" in items else []
    return "\n".join([*lines, "end", ""])


def text_of(name: str, *more: str) -> str:
    """An instance of a class."""
    return "\n".join(["msp 1", f"class {name}", *more, "end", ""])


LATHES = ("msp 1\nclass P||Lmax\nmachines 3\njob shafts p=7 d=8\njob bolts p=3 d=5\njob rings p=6 d=12\njob hubs p=5 d=9\njob cams p=4 d=6\n"
          "job pins p=2 d=4\njob gears p=8 d=16\nend\n")
RUNNING = "schedule\ncost 0\nunit 1\n" + "".join(f"piece {it}\n" for it in (
    "shafts 1 1 0 7", "bolts 1 2 0 3", "hubs 1 2 3 8", "gears 1 2 8 16", "pins 1 3 0 2", "cams 1 3 2 6", "rings 1 3 6 12")) + "end\n"
PRESS = "msp 1\nclass 1||Lmax\njob posters p=6 d=10\njob flyers p=2 d=5\njob books p=5 d=14\njob cards p=3 d=6\nend\n"

Trial = tuple[str, browsers.Screen, Callable[[Page], None]]  # (its name, the window, and what is done)
