"""Every list of a folder, planned."""
from __future__ import annotations

import argparse
import io
import os
import sys
from contextlib import redirect_stdout
from dataclasses import dataclass, field, replace
from fractions import Fraction
from typing import Callable, TypeVar

from ..faults import Misfit, Refusal
from ..files import left_out, write_text
from ..program import Program, need_program
from ..schedules import read_schedule
from ..texts import read_instance
from ..units import Units, UnitWords
from . import from_csv, gantt, plan
from .frame import Command, Parser, Tell, add_program

SAYS = """
Plans every list of a folder: from-csv, solve, plan and gantt, for each NAME.csv and NAME.xlsx in it and in the folders in it.

The words behind the class are those of `from-csv`, for all lists alike, as --scale 2 --time-unit 1h --start '2026-03-02 08:00'. In
FOLDER/plans it writes of each list NAME.txt, the instance; NAME.names, names and units; NAME.report, what `solve` says; NAME.plan.csv,
the plan, with semicolons where the list has them; and NAME.svg, the picture; of a list in a folder in FOLDER in a folder of its name.
What an earlier call wrote there of the same list is removed first, so that no old plan stays where the list has a fault.

For each list a line on standard output says what it costs, in the units of the list, and what is late, or what is wrong with it. Each
file that is no list, and each list whose plan would be named like another's, is named on standard error as left out. It ends with 0 where
all lists have plans, with 1 where some have none or are left out, and with 2 where the words do not fit or there is no list.
"""
WRITTEN = ("txt", "names", "report", "plan.csv", "svg")
CURES = {
    3: "the program refuses what from-csv wrote: please report this",
    4: "count in a coarser unit (docs/mistakes.md has the limits of the solvers)",
    5: "choose shows classes near by that have one",
    9: "there is too little memory: try again",
}
W = TypeVar("W")
A = TypeVar("A")


@dataclass
class Wanted:
    """The words of the call."""
    folder: str = ""
    kind: str = ""
    words: list[str] = field(default_factory=list)
    program: str | None = None
    json: bool = False


@dataclass
class Planned:
    """A list: what it costs in the units of the instance and in words, and a line on the plan; or why it has none."""
    name: str
    cost: Fraction | None = None
    cost_said: str = ""
    summary: str = ""
    no_plan: str | None = None


@dataclass
class Answer:
    """The lists, and how many are left out, since their plans would be named like others."""
    lists: list[Planned]
    again: int


class Unplanned(Exception):
    """Why a list has no plan."""


def printed(command: Command[W, A], wanted: W) -> tuple[A, str]:
    """What a command answers, and what it prints."""
    def nothing(_: str) -> None:
        """No note is wanted."""

    found, out = command.answer(wanted, nothing), io.StringIO()
    with redirect_stdout(out):
        command.show(found)
    return found, out.getvalue()


@dataclass
class Planner:
    """Plans lists with the words of from-csv and a program."""
    folder: str
    words: from_csv.Wanted
    program: Program
    tell: Tell

    def name(self, path: str) -> str:
        """The name of a list, by its path in the folder."""
        return os.path.splitext(os.path.relpath(path, self.folder))[0]

    def instance(self, path: str, to: str) -> from_csv.Answer:
        """The instance of a list, and tells what was remarked."""
        notes: list[str] = []
        try:
            made = from_csv.answer(replace(self.words, file=path, names=f"{to}.names"), notes.append)
        except Misfit:
            raise
        except Refusal as fault:
            raise Unplanned("\n  ".join(str(fault).split("\n"))) from None
        for note in notes:
            self.tell(f"{self.name(path)}: {note}")
        return made

    def report(self, text: str) -> str:
        """The report of solve on an instance text."""
        ended, report, note = self.program.call(["solve"], text)
        if ended != 0:
            raise Unplanned(f"{note}: {CURES[ended]}" if ended in CURES else f"{note} (status {ended})")
        return report

    def plan(self, path: str) -> Planned:
        """Plans a list, and says what came of it."""
        name = self.name(path)
        to = os.path.join(self.folder, "plans", name)
        os.makedirs(os.path.dirname(to), exist_ok=True)
        for end in WRITTEN:
            if os.path.exists(f"{to}.{end}"):
                os.remove(f"{to}.{end}")
        made = self.instance(path, to)
        write_text(f"{to}.txt", made.instance)
        report = self.report(made.instance)
        write_text(f"{to}.report", report)
        files, names = (f"{to}.report", f"{to}.txt"), f"{to}.names"
        _, rows = printed(plan.COMMAND, plan.Wanted(names, file=files[0], instance=files[1], csv=not made.semicolons, semicolons=made.semicolons))
        write_text(f"{to}.plan.csv", rows)
        write_text(f"{to}.svg", printed(gantt.COMMAND, gantt.Wanted(names, file=files[0], instance=files[1]))[1])
        whole, _ = printed(plan.COMMAND, plan.Wanted(names, file=files[0], instance=files[1]))
        cost, kind = read_schedule(report).cost, read_instance(made.instance).kind
        return Planned(name, cost, Units(UnitWords(names)).cost_in_words(cost, kind.criterion), whole.summary)


def lists_in(folder: str, name_of: Callable[[str], str], tell: Tell) -> tuple[list[str], int]:
    """The lists in a folder and in the folders in it, and the number of those that are left out; each file that is, is told."""
    found: dict[str, str] = {}
    again = 0
    for place, folders, files in os.walk(folder):
        for path in left_out(place, folders, []):
            tell(f"left out: {path}: a link, or begins with a dot")
        folders[:] = [it for it in folders if os.path.join(place, it) != os.path.join(folder, "plans")]
        for file in sorted(files):
            path = os.path.join(place, file)
            if not file.lower().endswith((".csv", ".xlsx")) or file.startswith("."):
                tell(f"left out: {path}: no list NAME.csv or NAME.xlsx")
            elif name_of(path) in found:
                again += 1
                tell(f"left out: {path}: named like {found[name_of(path)]}")
            else:
                found[name_of(path)] = path
    return sorted(found.values()), again


def answer(wanted: Wanted, tell: Tell) -> Answer:
    """The lists of a folder, planned one after another."""
    if not os.path.isdir(wanted.folder):
        raise Misfit(f"there is no folder {wanted.folder}")
    words = from_csv.COMMAND.read([wanted.kind, *wanted.words])
    wanted.json = wanted.json or bool(vars(words).get("json"))
    planner = Planner(wanted.folder, words, need_program(wanted.program), tell)
    lists, again = lists_in(wanted.folder, planner.name, tell)
    if not lists:
        raise Misfit(f"there is no list NAME.csv or NAME.xlsx in {wanted.folder}")
    found = []
    for at, path in enumerate(lists, 1):
        if sys.stderr.isatty():
            tell(f"list {at} of {len(lists)}: {path}")
        try:
            found.append(planner.plan(path))
        except Unplanned as fault:
            found.append(Planned(planner.name(path), no_plan=str(fault)))
    return Answer(found, again)


def show(found: Answer) -> None:
    """Prints a line for each list."""
    for it in found.lists:
        print(f"{it.name}: no plan: {it.no_plan}" if it.no_plan is not None else f"{it.name}: {it.cost_said}; {it.summary}")


def status(found: Answer) -> int:
    """1 where a list has no plan or is left out."""
    return int(bool(found.again) or any(it.no_plan is not None for it in found.lists))


def add_words(parser: Parser) -> None:
    """Adds the words."""
    add_program(parser)
    parser.add_argument("folder", metavar="FOLDER", help="the folder of the lists")
    parser.add_argument("kind", metavar="CLASS", help="the class of all lists")
    parser.add_argument("words", metavar="WORD", nargs=argparse.REMAINDER, help="the words of from-csv; words of check-all stand in front of FOLDER")


COMMAND = Command("check-all", "[OPTION ..] FOLDER CLASS [WORD OF from-csv ..]", SAYS,
                  "check-all lists '1||Lmax' --time-unit 1h --start '2026-03-02 08:00'", Wanted, add_words, answer, show, status)
