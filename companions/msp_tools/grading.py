"""Hand-ins judged by their sheets: folders of them, what each gets wrong, and usual causes."""
from __future__ import annotations

import os
import re
from collections import Counter
from dataclasses import dataclass
from fractions import Fraction
from typing import Callable

from .faults import Fault, Refusal
from .files import left_out, read_bytes, read_text
from .handins import HandIn, read
from .judging import Words, judge
from .program import Program
from .schedules import read_schedule
from .solving import best_cost
from .texts import read_instance
from .units import Units

Tell = Callable[[str], None]
CAUSES = ((re.compile("^\ufeff"), "a mark stands in front of the text (saved as UTF-8 with BOM)"),
          (re.compile("\r"), "its lines end with CR LF (saved on Windows)"),
          (re.compile("\t"), "tabs stand in place of single blanks"),
          (re.compile("  | $"), "more than one blank stands between two fields, or one at the end"),
          (re.compile("[,;]"), "a comma or semicolon: a moment is a whole number, in parts of the unit"),
          (re.compile("^[A-Z]"), "words are spelled with small letters"))


@dataclass
class Grade:
    """What came of a hand-in. Costs are in the units of the list, where its file of names is there; what is not known is None."""
    name: str
    feasible: bool | None = None
    broken: str = ""
    stated: Fraction | None = None
    cost: Fraction | None = None
    best: Fraction | None = None
    gap: Fraction | None = None
    mended: str = ""
    note: str = ""


class Sheet:
    """An instance, its least cost, and how its hand-ins are judged."""

    def __init__(self, path: str, units: Units, program: Program, best: Fraction | None) -> None:
        self.units, self.program = units, program
        text = read_text(path)
        self.instance = read_instance(text)
        units.need(None, self.instance)
        self.text = "".join(f"{it}\n" for it in text.split("\n")[: self.instance.lines])
        self.judged = Words(self.instance, units)
        found, self.unknown = best_cost(program, self.text)
        # (the best cost is given in the units of the instance)
        self.best = found if best is None else best

    def cost(self, value: Fraction) -> Fraction:
        """A cost in the units of the list."""
        return value / self.units.cost_scale if self.units.says_cost else value

    def grade(self, name: str, path: str, strict: bool) -> Grade:
        """The grade of one student's file."""
        grade = Grade(name, best=None if self.best is None else self.cost(self.best))
        try:
            self.settle(grade, self.strict(path) if strict else read(read_bytes(path), self.instance))
        except Refusal as fault:
            grade.note = str(fault)
        return grade

    def settle(self, grade: Grade, given: HandIn) -> None:
        """Fills a grade by what check says of a hand-in."""
        grade.mended = "; ".join(given.slips)
        grade.stated = None if given.stated is None else self.cost(given.stated)
        unknown = next((it for it in given.pieces if self.instance.job(it.job) is None), None)
        if unknown:
            raise Fault(f"line {unknown.line}: unknown name (the sheet has no job {unknown.job})")
        verdict = judge(self.program, self.text, given.text, given.pieces, self.judged)
        grade.feasible, grade.broken = verdict.feasible, verdict.broken
        if verdict.cost is not None:
            grade.cost = self.cost(verdict.cost)
            grade.gap = None if self.best is None else self.cost(verdict.cost - self.best)
            grade.note = "the stated cost is not the cost" if given.stated not in (None, verdict.cost) else ""

    def strict(self, path: str) -> HandIn:
        """A hand-in as it stands: a fault where check does not read it."""
        lines = read_bytes(path).decode("utf-8", "replace").split("\n")
        gone = next((at for at, line in enumerate(lines) if line == "schedule"), 0)
        text = "\n".join(lines[gone:])
        status, _, note = self.program.call(["check"], self.text + text)
        if status > 1:
            raise Fault(self.fault(note, lines, gone))
        schedule = read_schedule(text)
        for piece in schedule.pieces:
            piece.line += gone
        return HandIn(text, schedule.cost, schedule.pieces)

    def fault(self, note: str, lines: list[str], gone: int) -> str:
        """A note on the text, with the line of the student's text and the usual cause."""
        found = re.match(r"line ([0-9]+): (.*)", note)
        if found is None:
            return note
        number = int(found[1]) - self.instance.lines + gone
        line = lines[number - 1] if number <= len(lines) else ""
        cause = next((said for form, said in CAUSES if form.search(line)), None)
        if cause is None and line.startswith("piece ") and not any(it.startswith("unit ") for it in lines):
            cause = "the line unit is missing"
        return f"line {number}: {found[2]}" + (f" ({cause})" if cause else "")


# Folders

def hand_ins(folder: str, tell: Tell) -> list[tuple[str, str]]:
    """The files of a folder and of the folders in it: pairs of a student's name and a path; what begins with a dot is told and left out."""
    found = []
    for place, folders, files in os.walk(folder):
        for path in left_out(place, folders, files):
            tell(f"left out: {path}")
        those = sorted(it for it in files if not it.startswith("."))
        alone = place != folder and len(those) == 1
        for name in those:
            path = os.path.relpath(os.path.join(place, name), folder)
            found.append((os.path.dirname(path) if alone else os.path.splitext(path)[0], os.path.join(place, name)))
    count = Counter(name for name, _ in found)
    return sorted((name if count[name] == 1 else os.path.relpath(path, folder), path) for name, path in found)


def sheet_named(folder: str, student: str, path: str) -> str | None:
    """The sheet of a student in a folder of sheets, by the student's name or the first part of it; else the one that the path names, or None."""
    for name in (student, student.split(os.sep)[0], os.path.splitext(student)[0]):
        for sheet in (os.path.join(folder, name), os.path.join(folder, f"{name}.txt")):
            if os.path.isfile(sheet):
                return sheet
    sheets = {os.path.splitext(it)[0]: it for it in sorted(os.listdir(folder)) if os.path.isfile(os.path.join(folder, it))}
    named = [it for name, it in sheets.items() if name and re.search(rf"(?<![^\W_]){re.escape(name)}(?![^\W_])", path)]
    return os.path.join(folder, named[0]) if len(named) == 1 else None
