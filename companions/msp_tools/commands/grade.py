"""A folder of hand-ins, graded."""
from __future__ import annotations

import csv
import os
import sys
from dataclasses import dataclass, field, fields
from fractions import Fraction

from ..faults import Misfit
from ..grading import Grade, Sheet, hand_ins, sheet_named
from ..numbers import decimal as decimal_of
from ..numbers import said
from ..program import need_program
from ..units import Units, UnitWords
from .frame import Command, Parser, Tell, add_program

SAYS = """
Grades a folder of schedules, as a table: who is feasible, what is broken first, what it costs, and how far from the best.

INSTANCE is an instance text, or a folder of sheets: then each student's sheet is the one with the student's name, or else the one that
the path of the hand-in names (ada/sheet-7.txt, ada_sheet-7.txt). FOLDER has what was handed in, a file or a folder for each student;
folders in it are walked, as course systems hand them out. A hand-in is a schedule text, from the line `schedule` on; what stands before
that line, as the instance or the first lines of a report of `solve`, is left out. On one machine and in flow shops an
order of all jobs will do, each as early as it can be, and on identical machines too: whenever one is free, the first job of it begins that
can, on the free machine of least number. CSV goes to standard output:

    name       the file's name without its ending, or the folder's; where two would be named alike, the path
    feasible   yes or no; empty where the text could not be read
    break      the first condition that is broken, in words, with the line of the student's text
    stated     the cost that the text states
    cost       the cost of the schedule, where it is feasible
    best       the least cost of any schedule, from `msp solve`; where the class has no solver, that of --best, or nothing
    gap        cost minus best
    mended     slips of format that were mended before it was judged: line ends, marks, blank lines, decimals, UTF-16 ..
    note       what is wrong with the text, by its line, with the usual cause

Each file that is left out is named on standard error: those that begin with a dot, links to folders, and those without a sheet. It ends
with 0 where every schedule is feasible and states its cost, with 1 where some is or does not, with 2 where the words do not fit or
nothing was read, and with 3 where an instance has a fault.
"""


@dataclass
class Wanted:
    """The words of the call."""
    instance: str = ""
    folder: str = ""
    best: str | None = None
    names: str | None = None
    strict: bool = False
    decimal: bool = False
    program: str | None = None


@dataclass
class Answer:
    """The grades; `missing` is how many hand-ins have no sheet."""
    grades: list[Grade]
    missing: int
    decimal: bool = field(default=False, repr=False)


def answer(wanted: Wanted, tell: Tell) -> Answer:
    """The grades of the hand-ins, each judged by its sheet."""
    if not os.path.isdir(wanted.folder):
        raise Misfit(f"there is no folder {wanted.folder}")
    files = hand_ins(wanted.folder, tell)
    program, units = need_program(wanted.program), Units(UnitWords(names=wanted.names))
    for note in units.assumed if wanted.names else []:
        tell(note)
    best = decimal_of(wanted.best, "--best") if wanted.best else None
    sheets: dict[str, Sheet] = {}
    grades = []
    for name, path in files:
        folder, named = os.path.isdir(wanted.instance), os.path.relpath(path, wanted.folder)
        sheet = sheet_named(wanted.instance, name, named) if folder else wanted.instance
        if sheet is None:
            tell(f"left out: {path}: there is no sheet {os.path.join(wanted.instance, name)}.txt, and none that its path alone names")
            continue
        if sheet not in sheets:
            sheets[sheet] = Sheet(sheet, units, program, best)
            if sheets[sheet].best is None:
                tell(f"{sheets[sheet].unknown}, so the best cost is not known; --best gives it")
        grades.append(sheets[sheet].grade(name, path, wanted.strict))
    if not grades:
        raise Misfit(f"nothing was read in {wanted.folder}")
    return Answer(grades, len(files) - len(grades), wanted.decimal)


def show(found: Answer) -> None:
    """Prints the table."""
    def cell(value: object) -> str:
        if isinstance(value, Fraction):
            return f"{float(value):.6f}".rstrip("0").rstrip(".") if found.decimal else said(value)
        return {None: "", True: "yes", False: "no"}[value] if value is None or isinstance(value, bool) else str(value)

    names = [it.name for it in fields(Grade)]
    table = csv.writer(sys.stdout, lineterminator="\n")
    table.writerow("break" if it == "broken" else it for it in names)
    table.writerows([cell(getattr(it, name)) for name in names] for it in found.grades)


def status(found: Answer) -> int:
    """1 where a schedule is not feasible, does not state its cost, or has no sheet."""
    return int(bool(found.missing) or any(not it.feasible or bool(it.note) for it in found.grades))


def words(parser: Parser) -> None:
    """Adds the words."""
    parser.add_argument("instance", metavar="INSTANCE|SHEETS", help="an instance text, or a folder of sheets")
    parser.add_argument("folder", metavar="FOLDER", help="what was handed in")
    parser.add_argument("--best", metavar="COST", help="the least cost, in the units of the instance, where the class has no solver")
    parser.add_argument("--names", metavar="FILE",
                        help="the file that from-csv --names wrote: jobs are named as in the list, and costs are in its units (with shifts, of "
                             "working time)")
    parser.add_argument("--strict", action="store_true", help="a text is read as `msp check` reads it: nothing is mended")
    parser.add_argument("--decimal", action="store_true",
                        help="fractions are written as decimals of six digits, which spreadsheets do not take for dates")
    add_program(parser)


EXAMPLE = "grade sheet-7.txt hand-ins > grades.csv\ngrade sheets hand-ins --strict"
COMMAND = Command("grade", "INSTANCE FOLDER [OPTION ..]", SAYS, EXAMPLE, Wanted, words, answer, show, status)
