"""What `check` says of a schedule, in the words of the list: jobs by their names there, pieces by their lines, and how much work is missing."""
from __future__ import annotations

from dataclasses import dataclass
from fractions import Fraction
from typing import Mapping, Protocol, Sequence

from .faults import Fault
from .numbers import fraction, said
from .program import Program
from .schedules import Piece
from .texts import Instance, Job


class Shown(Protocol):
    """How jobs and lengths of time of an instance are shown: in the words of a list, or as they stand."""

    def job(self, name: str) -> str:
        """A job's name."""

    def length(self, value: Fraction) -> str:
        """A length of time."""


class AsTheyStand:
    """Jobs and lengths of time as they stand in the instance."""

    def job(self, name: str) -> str:
        """A job's name."""
        return name

    def length(self, value: Fraction) -> str:
        """A length of time."""
        return said(value)


@dataclass
class Verdict:
    """What check says: whether the schedule is feasible, what is broken first in words, its cost in the units of the instance (None where it is not
    feasible) and whether the stated one is that."""
    feasible: bool
    broken: str = ""
    cost: Fraction | None = None
    agrees: bool = False


def work_of(instance: Instance, job: Job, number: int, pieces: Sequence[Piece]) -> tuple[Fraction, Fraction]:
    """The work that an operation gets, and what it needs: lengths of time, on Q times the speed, on R in parts of the job."""
    those = [it for it in pieces if it.job == job.name and it.operation == number]
    if instance.kind.kind == "R":
        return sum(((it.end - it.start) / instance.time_on(job, number, it.machine) for it in those), Fraction(0)), Fraction(1)
    time = Fraction(instance.operations(job)[number - 1][1])
    if instance.kind.kind == "Q":
        return sum(((it.end - it.start) * instance.speeds[it.machine - 1] for it in those), Fraction(0)), time
    return sum((it.end - it.start for it in those), Fraction(0)), time


class Words:
    """Breaks of an instance's schedules in words; a piece is named by its line in the list or text, or by its moments where it has none."""

    def __init__(self, instance: Instance, shown: Shown, machine_names: Mapping[int, str] | None = None) -> None:
        self.instance, self.shown, self.machines = instance, shown, machine_names or {}

    def piece(self, found: Piece) -> str:
        """A piece, by its job, machine and line."""
        machine = self.machines.get(found.machine, str(found.machine))
        place = f"in line {found.line}" if found.line else f"from {said(found.start)} to {said(found.end)}"
        return f"the piece of {self.shown.job(found.job)} on machine {machine} {place}"

    def work(self, job: Job, number: int, pieces: Sequence[Piece]) -> str:
        """How much work an operation lacks, or has too much."""
        name = self.shown.job(job.name)
        got, needed = work_of(self.instance, job, number, pieces)
        what = name if len(self.instance.operations(job)) == 1 else f"operation {number} of {name}"
        if not any(it.job == job.name for it in pieces):
            return f"{name} has no piece: all {self.amount(needed)} of its work is missing"
        if got < needed:
            return f"{what} lacks work: {self.amount(needed - got)} of {self.amount(needed)} is missing"
        return f"{what} gets {self.amount(got - needed)} of work more than its {self.amount(needed)}"

    def amount(self, value: Fraction) -> str:
        """An amount of work in the units of the list."""
        return said(value) if self.instance.kind.kind in "QR" else self.shown.length(value)

    def broken(self, fields: Sequence[str], pieces: Sequence[Piece]) -> str:
        """A line `break` in words."""
        kind, *at = fields
        if kind in ("machine", "job"):
            one, other = (pieces[int(it) - 1] for it in at)
            return f"{self.piece(one)} and {self.piece(other)} overlap: one {kind}, two pieces at once"
        if kind == "arc":
            before, after = (self.shown.job(it) for it in self.instance.arcs[int(at[0]) - 1])
            return f"{after} begins before {before} has ended"
        if kind == "route":
            return f"operation {at[1]} of {self.shown.job(at[0])} begins before an earlier one has ended"
        if kind == "work":
            return self.work(self.instance.by_name[at[0]], int(at[1]), pieces)
        words = {"span": "does not last", "place": "has no such operation with work to do, or not on this machine",
                 "release": "begins before the release date"}[kind]
        return f"{self.piece(pieces[int(at[0]) - 1])} {words}"


def judge(program: Program, instance_text: str, schedule_text: str, pieces: Sequence[Piece], words: Words) -> Verdict:
    """What check says of a schedule text behind an instance text; a fault where it could not be read."""
    status, report, note = program.call(["check"], instance_text + schedule_text)
    if status > 1:
        raise Fault(note)
    return verdict_of(report, pieces, words)


def verdict_of(report: str, pieces: Sequence[Piece], words: Words) -> Verdict:
    """What a report of check says."""
    told = dict(line.split(" ", 1) for line in report.splitlines() if " " in line)
    if told["feasible"] == "no":
        return Verdict(False, words.broken(told["break"].split(" "), pieces))
    return Verdict(True, "", fraction(told["cost"], "cost"), told["agree"] == "yes")
