"""Prints the schedule of a report of `solve` as a plan for the shop floor."""
from __future__ import annotations

import csv
import sys
from dataclasses import dataclass, field
from fractions import Fraction

from ..faults import Misfit
from ..plans import Rows, jobs_of, judged, moved_early, need_jobs, pieces_of, read_texts, rounded, summary, text_table
from ..program import need_program
from ..schedules import Schedule, cost_of, ends_of
from ..texts import Instance
from ..units import Units, UnitWords, unit_of
from ..workbooks import Sheets, write_workbook
from .frame import Command, Parser, Tell, add_program
from .unit_words import add_units

SAYS = """
Prints the schedule of a report of `solve` as a plan for the shop floor: who runs what, from when to when. All numbers are exact.

FILE (or standard input) is a report of `msp solve`, a schedule text, or an instance text with a schedule text behind it. The first
table has the pieces by machine (machine, job, start, end; in a job shop the operation too), the second one the jobs with their ends,
and where the instance is known with due dates and lateness, which is the end less the due date. With shifts the column pauses says where
a piece pauses with the plant, and the lateness is working time. Without a file of names the words below say the units, and a line on
standard error says what is taken for them. 10:00:00+1/3 is a third of a second behind 10:00.

With --early each piece begins as early as its machine, its job and what comes before it allow; with --round moments are rounded, and
neighbours share the rounded one. `msp check` judges both, and its cost is printed; else it is not said whether the schedule is feasible.

It ends with 1 where the rounded plan is not feasible, with 2 where the words do not fit, and with 3 where a text has a fault.
"""


@dataclass
class Wanted(UnitWords):
    """The words of the call."""
    file: str | None = None
    instance: str | None = None
    csv: bool = False
    semicolons: bool = False
    xlsx: str | None = None
    jobs: bool = False
    early: bool = False
    round: str | None = None
    program: str | None = None


@dataclass
class Answer:
    """A plan: its cost, its pieces and jobs as tables, what a calendar means, a line on the whole, and what `check` says of it once rounded. The
    table of jobs that people see has the lateness in words."""
    cost: Fraction
    pieces: Rows
    jobs: Rows
    notes: list[str]
    summary: str
    broken: str | None
    shown: Rows = field(repr=False)
    wanted: Wanted = field(repr=False)


def rounded_plan(schedule: Schedule, instance: Instance | None, units: Units, wanted: Wanted) -> tuple[Schedule, str | None]:
    """The schedule with rounded moments and the cost that `check` says; and what it says where it is not feasible, with the cost of these ends."""
    if instance is None:
        raise Misfit("--round needs --instance FILE: `msp check` judges the rounded plan")
    pieces = rounded(schedule, unit_of(wanted.round or ""), units)
    verdict = judged(pieces, instance, units, need_program(wanted.program))
    cost = cost_of(instance, ends_of(pieces)) if verdict.cost is None else verdict.cost
    return Schedule(cost, schedule.unit, pieces, schedule.first), None if verdict.feasible else verdict.broken


def answer(wanted: Wanted, tell: Tell) -> Answer:
    """The plan of a report."""
    units = Units(wanted, wanted.semicolons)
    for line in units.assumed:
        tell(line)
    instance, schedule = read_texts(wanted.file, wanted.instance)
    need_jobs(instance, schedule)
    units.need(schedule, instance)
    if wanted.early:
        schedule = moved_early(schedule, instance, units, lambda: need_program(wanted.program))
    broken = None
    if wanted.round:
        schedule, broken = rounded_plan(schedule, instance, units, wanted)
    for_file = wanted.csv or wanted.semicolons
    found = Answer(schedule.cost, pieces_of(schedule, instance, units, for_file), jobs_of(schedule, instance, units), units.notes(),
                   summary(schedule, instance, units, wanted.early or wanted.round is not None), broken,
                   jobs_of(schedule, instance, units, for_file=False), wanted)
    if broken is not None:
        tell(f"the plan rounded to {wanted.round} is not feasible: {broken}")
    for line in found.notes if for_file else []:
        tell(line)
    if wanted.xlsx:
        for line in write_workbook(wanted.xlsx, Sheets(schedule, instance, units)):
            tell(line)
    return found


def show(found: Answer) -> None:
    """Prints the tables, or those of a file."""
    wanted = found.wanted
    if wanted.csv or wanted.semicolons:
        table = found.jobs if wanted.jobs else found.pieces
        # (spreadsheets tell by the mark that the text is UTF-8)
        sys.stdout.write("\ufeff" if wanted.semicolons else "")
        csv.writer(sys.stdout, delimiter=";" if wanted.semicolons else ",", lineterminator="\n").writerows([table.head, *table.rows])
        return
    if wanted.xlsx:
        print(f"{wanted.xlsx}: {found.summary}")
        return
    tables = [text_table(found.shown), found.notes]
    tables = tables if wanted.jobs else [text_table(found.pieces), *tables, [found.summary]]
    print("\n\n".join("\n".join(it) for it in tables if it))


def words(parser: Parser) -> None:
    """Adds the words."""
    parser.add_argument("file", metavar="FILE", nargs="?", help="the report; without it standard input")
    parser.add_argument("--instance", metavar="FILE", help="the instance of the schedule")
    parser.add_argument("--csv", action="store_true", help="writes the pieces as CSV, with --jobs the jobs")
    parser.add_argument("--semicolons", action="store_true", help="the same with semicolons between the fields, decimal commas, dates as "
                        "02.03.2026 06:00, and a mark in front, as German spreadsheets want it")
    parser.add_argument("--xlsx", metavar="FILE", help="writes a workbook with the pieces and the jobs, where openpyxl is installed")
    parser.add_argument("--jobs", action="store_true", help="writes the jobs alone")
    parser.add_argument("--early", action="store_true", help="moves each piece as early as its order allows; needs --instance")
    parser.add_argument("--round", metavar="LENGTH", help="rounds moments, as to 1min; needs --instance")
    add_units(parser)
    add_program(parser)


def status(found: Answer) -> int:
    """1 where the rounded plan is not feasible."""
    return int(found.broken is not None)


EXAMPLE = "msp solve < orders.txt | plan --instance orders.txt --names orders.names --semicolons > plan.csv"
COMMAND = Command("plan", "[FILE] [OPTION ..]", SAYS, EXAMPLE, Wanted, words, answer, show, status)
