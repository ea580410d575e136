"""Makes a schedule text, which `msp check` reads behind the instance, of a plan as a list."""
from __future__ import annotations

import argparse
from dataclasses import dataclass, field
from fractions import Fraction

from ..faults import Fault, Misfit
from ..files import read_bytes
from ..judging import Words, judge
from ..numbers import fraction
from ..program import need_program
from ..readback import KEYS, PlanReader, schedule_text, settle_operations
from ..schedules import Piece, cost_of, ends_of
from ..spreadsheets import table_of
from ..texts import Instance, read_instance_at
from ..units import Spoken, Units, UnitWords, words_of_call
from .frame import Command, Parser, Tell, add_program
from .unit_words import add_units

SAYS = """
Makes a schedule text, which `msp check` reads behind the instance, of a plan as CSV, or as a workbook .xlsx, where openpyxl is installed.

The fields are separated by commas, or by semicolons with decimal commas; the first line names the columns job, machine, start and end,
as `plan --csv` writes them, and may name others. Each further line is a piece: a time without a break on one machine, counted from 1.
Moments are decimals or fractions as 10/3, or dates, 2026-03-02 06:00 or 02.03.2026 06:00. A column operation says which operation of its
job a piece is part of; without it the operation is the one with that machine, and where a job comes back to a machine, the first that
lacks work. Where the plant works in shifts, a moment outside of them counts as the work done by then; --check refuses it.

It ends with 2 where the words do not fit, with 3 where the plan has faults, which are told all at once with their lines and columns, and
with --check with 1 where the schedule is not feasible.
"""


@dataclass
class Wanted(UnitWords):
    """The words of the call."""
    first: str = ""
    file: str | None = None
    instance: str | None = None
    cost: str | None = None
    column: list[tuple[str, str]] = field(default_factory=list)
    encoding: str = "utf-8"
    sheet: str | None = None
    check: bool = False
    program: str | None = None


@dataclass
class Answer:
    """The schedule text; with --check whether it is feasible, the cost with its unit, and what is broken first."""
    schedule: str
    checked: bool = False
    feasible: bool | None = None
    cost: str | None = None
    broken: str | None = None


def cost_to_state(pieces: list[Piece], instance: Instance, stated: str | None, tell: Tell) -> Fraction:
    """The cost to be stated: what --cost says, or the true one; 0 where a job has no piece."""
    if stated is not None:
        with words_of_call():
            return fraction(stated, "--cost")
    ends = ends_of(pieces)
    missing = next((it.name for it in instance.jobs if it.name not in ends), None)
    if missing:
        tell(f"{missing} has no piece, so the schedule has no cost, and states 0")
        return Fraction(0)
    return cost_of(instance, ends)


def answer(wanted: Wanted, tell: Tell) -> Answer:
    """The schedule of a plan, and what `check` says of it."""
    path, file = (wanted.instance, wanted.first or None) if wanted.instance else (wanted.first, wanted.file)
    if not path:
        raise Misfit("which instance? to-schedule INSTANCE < plan.csv, or --instance FILE")
    units = Units(wanted)
    for line in units.assumed:
        tell(line)
    instance = read_instance_at(path)
    units.need(None, instance)
    table = table_of(read_bytes(file), wanted.encoding, wanted.sheet)
    for line in table.notes:
        tell(line)
    if not table.records:
        raise Fault("line 1: no columns")
    pieces = PlanReader(table, dict(wanted.column), instance, units, wanted.check).pieces()
    settle_operations(pieces, instance, table.line)
    text = schedule_text(pieces, cost_to_state(pieces, instance, wanted.cost, tell))
    if not wanted.check:
        return Answer(text)
    words_of_plan = Words(instance, Spoken(units), units.names.machines)
    verdict = judge(need_program(wanted.program), instance.text(), text, sorted(pieces, key=lambda it: (it.start, it.machine)), words_of_plan)
    cost = None if verdict.cost is None else units.cost(verdict.cost, instance.kind.criterion)
    return Answer(text, True, verdict.feasible, cost, verdict.broken or None)


def show(found: Answer) -> None:
    """Prints the schedule text, or what `check` says."""
    if not found.checked:
        print(found.schedule, end="")
    else:
        print(f"feasible, cost {found.cost}" if found.feasible else f"not feasible: {found.broken}")


def status(found: Answer) -> int:
    """1 where the schedule is not feasible."""
    return int(found.feasible is False)


def column_of(text: str) -> tuple[str, str]:
    """A reader of KEY=NAME."""
    key, _, name = text.partition("=")
    if key not in KEYS or not name.strip():
        raise argparse.ArgumentTypeError(f"{text}: write KEY=NAME; keys are {' '.join(KEYS)}")
    return key, name.strip()


def words(parser: Parser) -> None:
    """Adds the words."""
    parser.add_argument("first", metavar="INSTANCE", nargs="?", help="the instance of the schedule; or --instance FILE")
    parser.add_argument("file", metavar="PLAN", nargs="?", help="the plan; without it standard input")
    parser.add_argument("--instance", metavar="FILE", help="the instance of the schedule")
    parser.add_argument("--cost", metavar="X", help="the cost that the schedule states, else its true one")
    parser.add_argument("--column", metavar="KEY=NAME", type=column_of, action="append", help="the column NAME is meant: keys are job, machine, "
                        "operation, start and end")
    parser.add_argument("--encoding", metavar="E", help="the encoding of the plan where it is not UTF-8, as cp1252 from Windows")
    parser.add_argument("--sheet", metavar="NAME", help="the sheet of a workbook; without it the first one")
    parser.add_argument("--check", action="store_true", help="prints what `msp check` says of the schedule instead, in the words of the plan: the "
                        "line of a piece, the job's name, how much work is missing, or the cost")
    add_units(parser)
    add_program(parser)


COMMAND = Command("to-schedule", "INSTANCE [PLAN] [OPTION ..] < plan.csv > schedule.txt", SAYS,
                  "{ cat orders.txt; to-schedule orders.txt --names orders.names < plan.csv; } | msp check", Wanted, words, answer, show, status)
