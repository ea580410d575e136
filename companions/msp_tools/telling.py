"""What is wrong with a list, or looks wrong: each thing at its line and column, all of them at once, alike ones once with their lines."""
from __future__ import annotations

import re
from dataclasses import dataclass, field

from .faults import Fault

MOST_FAULTS = 40


def line_of(line: str, number: int) -> str:
    """A line by its number; what names the columns of rows of values is none of them, and has the number 0."""
    return f"{line} {number}" if number else "columns"


@dataclass(frozen=True)
class Place:
    """A place in a list: its line, and its column as the header has it, where one is meant."""
    line: int
    column: str | None = None

    def said(self, line: str) -> str:
        """The place in words; `line` is what lines are called, and `notes` are on the whole list."""
        return line_of(line, self.line) + (f", column {self.column}" if self.column else "")


@dataclass(frozen=True)
class Thing:
    """A fault or a remark: its place, what is said, and the text of the cell."""
    place: Place
    said: str
    text: str = ""

    @property
    def kind(self) -> tuple[str | None, str]:
        """What alike ones have in common: the column, and what is said without the cell's text and numbers."""
        return self.place.column, re.sub("[0-9]+", "0", self.said.replace(self.text, "..") if self.text else self.said)


def said_lines(lines: list[int]) -> str:
    """Numbers of lines, neighbours as spans: 3, 5-9."""
    spans: list[list[int]] = []
    for line in sorted(set(lines)):
        if spans and spans[-1][1] == line - 1:
            spans[-1][1] = line
        else:
            spans.append([line, line])
    return ", ".join("-".join(map(str, dict.fromkeys(it))) for it in spans)


@dataclass
class Told:
    """The faults and the remarks of a list; where it is strict, a remark is a fault. `line` is what lines are called; `notes` are on the list."""
    line: str = "line"
    strict: bool = False
    faults: list[Thing] = field(default_factory=list)
    remarks: list[Thing] = field(default_factory=list)
    notes: list[str] = field(default_factory=list)

    def where(self, place: Place) -> str:
        """A place in words, for what reads a cell."""
        return place.said(self.line)

    def fault(self, place: Place, said: str, text: str = "") -> None:
        """Adds a fault."""
        self.faults.append(Thing(place, said, text))

    def caught(self, place: Place, fault: Fault, text: str = "") -> None:
        """Adds a fault that was raised with its place in front."""
        self.fault(place, str(fault).removeprefix(f"{self.where(place)}: "), text)

    def remark(self, place: Place, said: str, text: str = "") -> None:
        """Adds a remark, or a fault where the list is strict."""
        if self.strict:
            self.fault(place, f"--strict: {said}", text)
        else:
            self.remarks.append(Thing(place, said, text))

    def notice(self, place: Place, said: str, text: str = "") -> None:
        """Adds what is to be known, and is no fault of a strict list either."""
        self.remarks.append(Thing(place, said, text))

    def heard(self) -> list[str]:
        """The notes on the whole list, and the remarks."""
        return [*self.notes, *self.lines(self.remarks)]

    def lines(self, things: list[Thing]) -> list[str]:
        """What is said of things, in the order of their lines, alike ones once."""
        alike: dict[tuple[str | None, str], list[Thing]] = {}
        for it in sorted(things, key=lambda it: it.place.line):
            alike.setdefault(it.kind, []).append(it)
        return [self.said(those) for those in alike.values()]

    def said(self, those: list[Thing]) -> str:
        """A line for alike things: the first, and the lines of the others."""
        first = those[0]
        lines = sorted({it.place.line for it in those} - {first.place.line})
        more = f" (alike in {self.line}{'s' * (len(lines) > 1)} {said_lines(lines)})" if lines else ""
        return f"{self.where(first.place)}: {first.said}{more}"

    def refuse(self) -> None:
        """Refuses the list with all its faults, if it has some."""
        lines = self.lines(self.faults)
        if lines:
            raise Fault("\n".join(lines[:MOST_FAULTS]) + (f"\nand {len(lines) - MOST_FAULTS} more" if len(lines) > MOST_FAULTS else ""))
