"""Plans: the tables of a schedule for the shop floor, moments rounded for it, and what `check` says of the pieces that are shown."""
from __future__ import annotations

import math
from collections.abc import Callable
from dataclasses import dataclass
from fractions import Fraction

from .charts import clean
from .faults import Fault, Misfit
from .files import read_text
from .judging import Verdict, Words, judge
from .program import Program
from .schedules import Piece, Schedule, read_schedule, text_of
from .texts import Instance, read_instance, read_instance_at
from .timing import early
from .units import Spoken, Units

MOST_PAUSES = {False: 3, True: 100}  # (of a piece, in a table and in a file)


@dataclass
class Rows:
    """A table: its head and its rows."""
    head: list[str]
    rows: list[list[str]]


# What is read

def read_texts(file: str | None, path: str | None) -> tuple[Instance | None, Schedule]:
    """The instance, or None, and the schedule: of a report of `solve`, a schedule text, or an instance text with a schedule text behind it."""
    given = read_text(file)
    instance = read_instance(given) if given.startswith("msp 1\n") else None
    if path:
        instance = read_instance_at(path)
    return instance, read_schedule(given)


def need_jobs(instance: Instance | None, schedule: Schedule) -> None:
    """Refuses pieces of jobs that the instance does not have."""
    for piece in schedule.pieces if instance else []:
        if instance is not None and instance.job(piece.job) is None:
            raise Fault(f"line {piece.line}: the instance has no job {piece.job}")


def judged(pieces: list[Piece], instance: Instance, units: Units, program: Program) -> Verdict:
    """What `check` says of pieces, in the words of the list."""
    return judge(program, instance.text(), text_of(pieces, 0), pieces, Words(instance, Spoken(units), units.names.machines))


def moved_early(schedule: Schedule, instance: Instance | None, units: Units, program: Callable[[], Program]) -> Schedule:
    """The schedule with each piece as early as its order allows, and the cost that `check` says then."""
    if instance is None:
        raise Misfit("--early needs --instance FILE: what comes before a job, and when it is released, stands there")
    need_jobs(instance, schedule)
    before = judged(schedule.pieces, instance, units, program())
    if not before.feasible:
        raise Fault(f"the schedule is not feasible, and --early moves none that is not: {before.broken}")
    pieces = early(schedule.pieces, instance)
    after = judged(pieces, instance, units, program())
    if after.cost is None:
        raise Fault(f"the schedule that was moved is not feasible: {after.broken}")
    return Schedule(after.cost, schedule.unit, pieces, schedule.first, schedule.chain, schedule.solver)


def rounded(schedule: Schedule, unit: Fraction, units: Units) -> list[Piece]:
    """The pieces with all moments rounded to multiples of so many seconds from the start; neighbours share the rounded moment."""
    if units.time_unit is None:
        raise Misfit("--round needs --time-unit, or a file of names that says it: how long one unit of time is")
    one = unit / (units.time_unit / units.scale)

    def moment(value: Fraction) -> Fraction:
        return math.floor(value / one + Fraction(1, 2)) * one

    return [Piece(it.job, it.operation, it.machine, moment(it.start), moment(it.end), it.line) for it in schedule.pieces]


# Tables

def pieces_of(schedule: Schedule, instance: Instance | None, units: Units, for_file: bool) -> Rows:
    """The table of pieces by machine, with the first pauses of each."""
    several = any(it.operation not in (1, it.machine) for it in schedule.pieces)
    shop = instance.kind.kind == "J" if instance else several
    rows = []
    for it in sorted(schedule.pieces, key=lambda it: (it.machine, it.start, it.end)):
        operation = [str(it.operation)] if shop else []
        pauses = [units.pauses(it.start, it.end, MOST_PAUSES[for_file])] if units.calendar else []
        machine = units.names.machines.get(it.machine, str(it.machine))
        rows.append([machine, units.job(it.job), *operation, units.moment(it.start), units.moment(it.end, True), *pauses])
    return Rows(["machine", "job", *["operation"] * shop, "start", "end", *["pauses"] * bool(units.calendar)], rows)


def jobs_of(schedule: Schedule, instance: Instance | None, units: Units, for_file: bool = True) -> Rows:
    """The table of jobs in the order of the instance, with due dates and lateness where it has some; without an instance by their ends. The
    lateness is a number, but in words where moments are dates and no file is written."""
    ends = schedule.ends()
    if instance is None:
        return Rows(["job", "end"], [[units.job(it), units.moment(ends[it], True)] for it in sorted(ends, key=lambda it: (ends[it], it))])
    dated, length = any(it.due is not None for it in instance.jobs), units.length if for_file or units.start is None else Spoken(units).length
    rows = []
    for job in instance.jobs:
        end = ends.get(job.name)
        row = [units.job(job.name), "" if end is None else units.moment(end, True)]
        rows.append(row + ([units.moment(job.due_date, True), "" if end is None else length(end - job.due_date)] if dated else []))
    return Rows(["job", "end", *["due", "lateness"] * dated], rows)


def summary(schedule: Schedule, instance: Instance | None, units: Units, with_cost: bool) -> str:
    """A line on the whole plan; the cost is told where the rest does not say it, or it is asked for."""
    ends = schedule.ends()
    machines = len({it.machine for it in schedule.pieces})
    found = f"{len(ends)} job{'s' * (len(ends) != 1)} on {machines} machine{'s' * (machines != 1)}"
    found += f", done at {units.moment(max(ends.values()), True)}" if ends else ""
    criterion = str(instance.kind).rpartition("|")[2] if instance else (schedule.first or "").rpartition("|")[2]
    late = [ends[it.name] - it.due for it in (instance.jobs if instance else []) if it.due is not None and it.name in ends]
    # (when all is done, how many are late and how late is said already)
    if criterion and criterion not in ["Cmax"] * (not with_cost) + ["Lmax", "sumU"] * bool(late):
        found += f"; {units.cost_in_words(schedule.cost, criterion)}"
    if late:
        found += f"; {sum(it > 0 for it in late)} late, greatest lateness {units.length_in_words(max(late))}"
    return found


def text_table(table: Rows) -> list[str]:
    """The lines of a table in columns; numbers stand at the right, and control characters of names are no part of it."""
    rows = [table.head, *([clean(it) for it in row] for row in table.rows)]
    widths = [max(map(len, column)) for column in zip(*rows)]
    left = {at for at, name in enumerate(table.head) if name in ("job", "pauses")}
    return ["  ".join(it.ljust(width) if at in left else it.rjust(width) for at, (it, width) in enumerate(zip(row, widths))).rstrip() for row in rows]
