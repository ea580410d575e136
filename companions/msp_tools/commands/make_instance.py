"""Instances of a class that a seed draws, and exercise sheets of them."""
from __future__ import annotations

import argparse
import csv
import os
import sys
from dataclasses import dataclass, field
from fractions import Fraction
from typing import Callable

from ..classes import ClassName
from ..draws import Wanted as Drawn
from ..draws import text_of
from ..faults import Fault, Misfit
from ..files import write_text
from ..limits import GREATEST, GREATEST_EQUAL_TIME, MOST_JOBS, MOST_MACHINES, SEEDS, said
from ..naming import class_of
from ..numbers import decimal
from ..numbers import said as said_number
from ..program import Program, find_program, need_program
from ..rules import rule_of
from ..sheets import RULES, Demands, check_rule, cost_by, sheet_of
from ..texts import read_instance
from .frame import Command, Parser, Tell, add_program, positive

SAYS = """
Prints an instance of a class that a seed draws, as an instance text: for exercise sheets and comparisons.

CLASS is a name, as 'P|prec,p=1|Cmax'. JOBS is from 1 to 400, SEED from 0 to 2147483647. Without options it is
the instance that `msp trial CLASS JOBS SEED` draws; many of these are trivial. The options draw otherwise.

With --nonzero, --against or --whole a draw that is no sheet is left, and the seed draws again, numbers of its own that no other seed draws;
standard error has the draw. The naive rules of --against run each job as early as it can be, and cut none: list (as listed), spt, lpt, edd,
slack, weight, ratio, release, first and last (on the first and last machine of a flow shop), late-last (a late job itself to the end),
never-cut (the shortest that is there), from-start (levels from the wrong end).

Without options that draw otherwise, the instance is solved and its cost compared with that of the trial, unless its class has no
solver; without a program nothing is compared. It ends with 2 where the words do not fit, with 1 where the costs differ, or sheets are
equal, and with 3 where no draw is a sheet.
"""


@dataclass
class Wanted:
    """The words of the call."""
    name: str = ""
    jobs: str = ""
    seed: str = ""
    old_program: str | None = None
    times: tuple[int, int] | None = None
    releases: tuple[int, int] | None = None
    due: Fraction | None = None
    weights: tuple[int, int] | None = None
    machines: int | None = None
    roots: int | None = None
    depth: int | None = None
    width: int | None = None
    nonzero: bool = False
    against: list[str] = field(default_factory=list)
    whole: int | None = None
    sheets: int | None = None
    to: str | None = None
    program: str | None = None

    def shaped(self) -> bool:
        """Whether trees have a shape."""
        return bool(self.roots or self.depth or self.width)

    def otherwise(self) -> bool:
        """Whether something is drawn otherwise than trial does."""
        return self.shaped() or any(it is not None for it in (self.times, self.releases, self.due, self.weights, self.machines))


@dataclass
class Row:
    """A sheet that was written: its file, the draw, its least cost, and the cost by each naive rule."""
    sheet: str
    draw: int
    cost: Fraction
    by_rule: list[Fraction]


@dataclass
class Answer:
    """The instance text; or of several sheets the rules that fail, and a row for each. `differs` says that trial or two sheets do not fit."""
    text: str
    rules: list[str] = field(default_factory=list)
    sheets: list[Row] = field(default_factory=list)
    differs: bool = False


# What is wanted

def settled(wanted: Wanted, kind: ClassName) -> tuple[Drawn, Demands, int]:
    """How instances are drawn, what they have to be, and the seed; or a misfit."""
    numbers = max(len(wanted.jobs), len(wanted.seed)) <= 10 and wanted.jobs.isdecimal() and wanted.seed.isdecimal()
    if not numbers or not 1 <= int(wanted.jobs) <= MOST_JOBS or int(wanted.seed) >= SEEDS:
        raise Misfit("the words are CLASS JOBS SEED; --help shows more")
    against = list(rule_of(kind).mistakes) if wanted.against == ["usual"] else wanted.against
    drawn = Drawn(kind, int(wanted.jobs), zeros=wanted.times is None, due=wanted.due, machines=wanted.machines, roots=wanted.roots,
                  depth=wanted.depth, width=wanted.width)
    drawn.times, drawn.releases = wanted.times or drawn.times, wanted.releases or drawn.releases
    drawn.weights = wanted.weights or drawn.weights
    refuse_unused(wanted, kind, against)
    if drawn.times[1] < 1 or (drawn.times[1] > GREATEST_EQUAL_TIME and "p=p" in kind.items):
        raise Misfit(f"--times: no time from 1 to {said(GREATEST)} (with p=p, to {said(GREATEST_EQUAL_TIME)}) is in it")
    return drawn, Demands(wanted.nonzero, against, wanted.whole), int(wanted.seed)


def refuse_unused(wanted: Wanted, kind: ClassName, against: list[str]) -> None:
    """Refuses an option that the class has no place for."""
    if wanted.shaped() and kind.precedence not in ("intree", "outtree"):
        raise Misfit(f"--roots, --depth and --width do not fit: {wanted.name} has no trees")
    if (wanted.sheets is None) != (wanted.to is None):
        raise Misfit("--sheets COUNT and --to FOLDER go together")
    for rule in against:
        check_rule(rule, kind)
    for option, there, why in (("--times", "p=1" not in kind.items, "unit times"), ("--releases", "r" in kind.keys, "no release dates"),
                               ("--due", "d" in kind.keys, "no due dates"), ("--weights", "w" in kind.keys, "no weights"),
                               ("--machines", kind.machines is None, "a fixed number of machines")):
        if getattr(wanted, option[2:]) is not None and not there:
            raise Misfit(f"{option} does not fit: {wanted.name} has {why}")
    if wanted.machines is not None and not (2 if kind.kind == "J" else 1) <= wanted.machines <= MOST_MACHINES:
        raise Misfit(f"--machines is from 1 to {MOST_MACHINES}, and on J at least 2")


# What is drawn

def sheets(wanted: Wanted, count: int, folder: str, tell: Tell) -> Answer:
    """Writes sheets into a folder, and tells which are equal."""
    drawn, demands, first = settled(wanted, class_of(wanted.name))
    program = need_program(wanted.program)
    seen: dict[str, str] = {}
    rows: list[Row] = []
    os.makedirs(folder, exist_ok=True)
    equal = False
    for seed in range(first, first + count):
        sheet, name = sheet_of(drawn, demands, program, seed), f"sheet-{seed}"
        write_text(os.path.join(folder, f"{name}.txt"), sheet.text)
        rows.append(Row(name, sheet.draw, sheet.cost, [cost_by(rule, read_instance(sheet.text)) for rule in demands.against]))
        if sheet.text in seen:
            equal = True
            tell(f"{name} is equal to {seen[sheet.text]}: take wider --times, or more jobs")
        seen.setdefault(sheet.text, name)
    return Answer("", list(demands.against), rows, equal)


def cost_in(report: str) -> str | None:
    """The line with the cost in a report, or None."""
    return next((it for it in report.split("\n") if it.startswith("cost ")), None)


def differs(program: Program, wanted: Wanted, text: str) -> str | None:
    """How trial finds another cost than solve does for the text, or None."""
    trial, solved = program.call(["trial", wanted.name, wanted.jobs, str(int(wanted.seed))]), program.call(["solve"], text)
    if (trial.status, cost_in(trial.report)) == (solved.status, cost_in(solved.report)):
        return None
    return f"trial says {trial.report}{trial.note}\nsolve says {solved.report}{solved.note}"


def answer(wanted: Wanted, tell: Tell) -> Answer:
    """The instance or the sheets, and whether trial agrees."""
    if wanted.old_program is not None:
        tell("the word PROGRAM is called --program PROGRAM now")
        wanted.program = wanted.program or wanted.old_program
    kind = class_of(wanted.name)
    drawn, demands, seed = settled(wanted, kind)
    if wanted.sheets is not None and wanted.to is not None:
        return sheets(wanted, wanted.sheets, wanted.to, tell)
    if demands:
        sheet = sheet_of(drawn, demands, need_program(wanted.program), seed)
        tell(f"seed {seed}" + (f", draw {sheet.draw}" if sheet.draw else ""))
        text, again = sheet.text, bool(sheet.draw)
    else:
        text, again = text_of(drawn, seed), False
    if again or wanted.otherwise():
        return Answer(text)
    program = find_program(wanted.program)
    if program is None:
        tell("no built program, so nothing is compared")
        return Answer(text)
    why = differs(program, wanted, text)
    if why:
        tell(why)
    return Answer(text, differs=bool(why))


def show(found: Answer) -> None:
    """Prints the instance, or the table of the sheets."""
    if not found.sheets:
        print(found.text, end="")
        return
    table = csv.writer(sys.stdout, lineterminator="\n")
    table.writerow(["sheet", "draw", "cost", *found.rules])
    table.writerows([it.sheet, it.draw, *map(said_number, (it.cost, *it.by_rule))] for it in found.sheets)


def status(found: Answer) -> int:
    """1 where trial differs, or sheets are equal."""
    return int(found.differs)


# The words

def range_of(least: int, most: int) -> Callable[[str], tuple[int, int]]:
    """A reader of the words A:B."""
    def read(text: str) -> tuple[int, int]:
        low, _, high = text.partition(":")
        if not (low.isdecimal() and high.isdecimal() and least <= int(low) <= int(high) <= most):
            raise argparse.ArgumentTypeError(f"{text}: write A:B, two whole numbers from {least} to {most}")
        return int(low), int(high)
    return read


def loose(text: str) -> Fraction:
    """A reader of a looseness."""
    try:
        value = decimal(text, "--due")
    except Fault:
        value = Fraction(-1)
    if value < 0:
        raise argparse.ArgumentTypeError(f"{text}: write a decimal of at least 0")
    return value


def naive_rules(text: str) -> list[str]:
    """A reader of names of naive rules."""
    names = list(dict.fromkeys(text.split(",")))
    unknown = next((it for it in names if it not in RULES), None)
    if unknown is not None and names != ["usual"]:
        raise argparse.ArgumentTypeError(f"no such rule: {unknown}; write usual, or some of {', '.join(RULES)}")
    return names


def words(parser: Parser) -> None:
    """Adds the words."""
    parser.add_argument("name", metavar="CLASS", help="the name of a class")
    parser.add_argument("jobs", metavar="JOBS", help="how many jobs")
    parser.add_argument("seed", metavar="SEED", help="the number from which all follows")
    parser.add_argument("old_program", nargs="?", help=argparse.SUPPRESS)
    parser.add_argument("--times", metavar="A:B", type=range_of(0, GREATEST),
                        help="times from A to B instead of 1 to 100 (on O and F kinds A may be 0; the first operation of a job takes at least 1)")
    parser.add_argument("--releases", metavar="A:B", type=range_of(0, GREATEST), help="release dates from A to B instead of 0 to 999")
    parser.add_argument("--due", metavar="LOOSENESS", type=loose,
                        help="due dates behind the job's release date and work by at most LOOSENESS times the work of all jobs per machine: 0 "
                             "leaves no slack, 1 much; a decimal. Without it they are from 0 to 999")
    parser.add_argument("--weights", metavar="A:B", type=range_of(1, GREATEST),
                        help="weights from A to B instead of 1 to 100")
    parser.add_argument("--machines", metavar="M", type=int, help="M machines instead of 4, where the class does not fix their number")
    for option, what in (("--roots", "trees with so many roots"), ("--depth", "at most so many jobs in a path of a tree"),
                         ("--width", "at most so many arcs from a job of a tree (to it in an intree)")):
        parser.add_argument(option, metavar="N", type=positive, help=what)
    parser.add_argument("--nonzero", action="store_true", help="the least cost is not 0")
    parser.add_argument("--against", metavar="RULE,..", type=naive_rules,
                        help="naive rules fail, several with commas, as spt,weight; or usual, the usual mistakes of the class, where it has a "
                             "rule by hand (docs/teachers.md lists them)")
    parser.add_argument("--whole", type=int, choices=(1, 2), nargs="?", const=1, help="all moments of the best schedule are whole, or halves")
    parser.add_argument("--sheets", metavar="COUNT", type=positive,
                        help="writes so many sheets, sheet-SEED.txt from SEED on, into the folder of --to, and prints a table of their answers "
                             "as CSV: the sheet, the draw, the best cost, each rule's cost. Sheets that are equal are told")
    parser.add_argument("--to", metavar="FOLDER", help="the folder of the sheets")
    add_program(parser)


EXAMPLE = "make-instance '1||sumU' 8 7 --due 0.5 --against usual\nmake-instance 'F2||Cmax' 6 1 --sheets 30 --to sheets"
COMMAND = Command("make-instance", "CLASS JOBS SEED [OPTION ..]", SAYS, EXAMPLE, Wanted, words, answer, show, status)
