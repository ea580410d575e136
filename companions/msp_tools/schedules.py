"""Schedule texts and reports of `solve`: their pieces, when jobs end, and what that costs."""
from __future__ import annotations

import math
import re
from dataclasses import dataclass, field
from fractions import Fraction
from typing import Iterable, Mapping

from .faults import Fault
from .numbers import Number, fraction, whole
from .texts import Instance, Job


@dataclass
class Piece:
    """A piece of a schedule: operation and machine count from 1, the moments are exact, in the units of the instance. `line` is that of the text,
    or 0."""
    job: str
    operation: int
    machine: int
    start: Fraction
    end: Fraction
    line: int = 0


@dataclass
class Schedule:
    """A schedule text; of a report of `solve` also the chain (pairs of a row and a class) and the solver."""
    cost: Fraction
    unit: int
    pieces: list[Piece]
    first: str | None = None
    chain: list[tuple[int, str]] = field(default_factory=list)
    solver: str | None = None

    def ends(self) -> dict[str, Fraction]:
        """When each job that has a piece ends, by name."""
        return ends_of(self.pieces)


def ends_of(pieces: Iterable[Piece]) -> dict[str, Fraction]:
    """When each job that has one of the pieces ends, by name."""
    ends: dict[str, Fraction] = {}
    for piece in pieces:
        ends[piece.job] = max(piece.end, ends.get(piece.job, piece.end))
    return ends


# Costs

def cost_at(instance: Instance, job: Job, end: Number) -> Number:
    """What a job costs where it ends at a moment."""
    criterion = instance.kind.criterion
    if criterion == "fmax":
        steps = zip(job.curve[2::2], job.curve[3::2])
        return job.factor * (job.curve[0] * end + job.curve[1] + sum(add for above, add in steps if end > above))
    late = end - job.due if job.due is not None else 0
    if criterion == "Lmax":
        return late * job.factor
    return {"x": end, "C": end, "U": int(late > 0), "T": max(late, 0)}[criterion[-1]] * job.factor


def cost_of(instance: Instance, ends: Mapping[str, Number]) -> Fraction:
    """The cost of a schedule in which the jobs end so, by name; every job has an end."""
    values = [cost_at(instance, job, ends[job.name]) for job in instance.jobs]
    return Fraction(max(values) if instance.kind.criterion in ("Cmax", "Lmax", "fmax") else sum(values))


# Texts

class Reader:
    """Reads the lines of a schedule text or a report of `solve`, one after another."""

    def __init__(self) -> None:
        self.first: str | None = None
        self.chain: list[tuple[int, str]] = []
        self.solver: str | None = None
        self.cost: Fraction | None = None
        self.unit: int | None = None
        self.pieces: list[Piece] = []

    def front(self, where: str, word: str, rest: list[str]) -> None:
        """Reads a line in front of the line `schedule`."""
        if word == "start" and len(rest) == 1:
            self.first, self.chain = rest[0], []
        elif word == "row" and len(rest) == 2:
            self.chain.append((whole(rest[0], where), rest[1]))
        elif word == "solver" and len(rest) == 1:
            self.solver = rest[0]

    def line(self, number: int, line: str) -> Schedule | None:
        """Reads a line behind the line `schedule`; gives the schedule at its line `end`."""
        where, (word, *rest) = f"line {number}", line.split(" ")
        if word == "cost" and len(rest) == 1 and self.cost is None:
            self.cost = fraction(rest[0], where)
        elif word == "unit" and len(rest) == 1 and self.unit is None:
            self.unit = whole(rest[0], where)
            if self.unit < 1:
                raise Fault(f"{where}: a unit is at least 1")
        elif word == "piece" and len(rest) == 5 and self.unit is not None:
            numbers = [whole(it, where) for it in rest[1:]]
            moments = Fraction(numbers[2], self.unit), Fraction(numbers[3], self.unit)
            self.pieces.append(Piece(rest[0], numbers[0], numbers[1], *moments, number))
        elif line == "end" and self.unit is not None and self.cost is not None:
            return Schedule(self.cost, self.unit, self.pieces, self.first, self.chain, self.solver)
        else:
            raise Fault(f"{where}: not a line of a schedule here: {line}")
        return None


def read_schedule(text: str) -> Schedule:
    """The schedule of a schedule text, of a report of `solve`, or behind an instance text: from the line `schedule` on."""
    reader, begun = Reader(), False
    for number, line in enumerate(text.split("\n"), 1):
        if begun:
            found = reader.line(number, line)
            if found is not None:
                return found
        else:
            begun = line == "schedule"
            word, *rest = line.split(" ")
            reader.front(f"line {number}", word, rest)
    raise Fault("the line end of the schedule is missing" if begun else "there is no line schedule")


def stated_cost(text: str) -> Fraction:
    """The cost that a schedule text or a report of `solve` states, where nothing else of it is wanted."""
    stated = re.search(r"(?m)^cost (\S+)$", text)
    if stated is None:
        raise Fault("there is no line cost")
    return fraction(stated[1], "cost")


def need_jobs(pieces: Iterable[Piece], instance: Instance) -> None:
    """Refuses pieces of a job that the instance does not have, with the line."""
    unknown = next((it for it in pieces if instance.job(it.job) is None), None)
    if unknown:
        raise Fault(f"line {unknown.line}: the instance has no job {unknown.job}")


def text_of(pieces: Iterable[Piece], cost: Number) -> str:
    """A schedule text in the least unit."""
    those = list(pieces)
    unit = math.lcm(1, *(it.denominator for piece in those for it in (piece.start, piece.end)))
    lines = [f"piece {it.job} {it.operation} {it.machine} {it.start * unit} {it.end * unit}" for it in those]
    return "\n".join(["schedule", f"cost {cost}", f"unit {unit}", *lines, "end", ""])
