"""An instance in whole numbers, as timing and search see it: moments are counted in parts so small that all of them are whole.

Jobs, machines and places count from 0 here, operations from 1 as in the texts. Operations without work have no part in it.
"""
from __future__ import annotations

import math
from dataclasses import dataclass, field
from fractions import Fraction
from operator import mul
from typing import Callable, List, Mapping, NamedTuple, Sequence

from .numbers import Number
from .schedules import Piece
from .texts import Instance

Order = List[int]  # (jobs)


class Step(NamedTuple):
    """An operation of a shop's job: its number, its machine and its time."""
    number: int
    machine: int
    time: int


class Placed(NamedTuple):
    """A piece: job, operation, machine, and its moments in parts."""
    job: int
    number: int
    machine: int
    start: int
    end: int


def parts_of(instance: Instance) -> int:
    """Into how many parts a unit of time is divided, so that each time on each machine is whole."""
    if instance.kind.kind != "Q":
        return 1
    works = {instance.operations(it)[0][1] for it in instance.jobs}
    return math.lcm(1, *(speed // math.gcd(speed, work) for speed in instance.speeds for work in works))


@dataclass
class Problem:
    """An instance in whole numbers. `times` has for each job its time on each machine (but in shops), `steps` the operations of a shop, `free` when
    each machine is free first, and `later` when jobs may begin that may not begin at their release dates; both are given in units."""
    instance: Instance
    free: Sequence[Number] = ()
    later: Mapping[str, Number] = field(default_factory=dict)
    parts: int = 1
    count: int = 0
    machines: int = 1
    times: list[list[int]] = field(default_factory=list)
    steps: list[list[Step]] = field(default_factory=list)
    begins: list[int] = field(default_factory=list)  # (of the machines, in parts)
    release: list[int] = field(default_factory=list)
    due: list[int] = field(default_factory=list)
    weight: list[int] = field(default_factory=list)
    before: list[list[int]] = field(default_factory=list)
    after: list[list[int]] = field(default_factory=list)
    names: dict[str, int] = field(default_factory=dict)

    def __post_init__(self) -> None:
        """Fills what follows from the instance."""
        given = self.instance
        self.parts = math.lcm(parts_of(given), *(Fraction(it).denominator for it in (*self.free, *self.later.values())))
        self.count, self.machines = len(given.jobs), given.machines
        self.begins = [int(it * self.parts) for it in self.free] or [0] * self.machines
        self.names = {it.name: at for at, it in enumerate(given.jobs)}
        self.release = [int(max(it.release_date, self.later.get(it.name, 0)) * self.parts) for it in given.jobs]
        self.due = [(it.due or 0) * self.parts for it in given.jobs]
        self.weight = [it.factor for it in given.jobs]
        self.before, self.after = [[] for _ in given.jobs], [[] for _ in given.jobs]
        for one, other in given.arcs:
            self.before[self.names[other]].append(self.names[one])
            self.after[self.names[one]].append(self.names[other])
        if self.shop:
            self.steps = [[Step(number, (machine or 1) - 1, time) for number, (machine, time) in enumerate(given.operations(it), 1) if time]
                          for it in given.jobs]
        else:
            self.times = [[self.time_on(at, machine) for machine in range(self.machines)] for at in range(self.count)]

    def time_on(self, at: int, machine: int) -> int:
        """The time in parts of a job on a machine."""
        time = self.instance.time_on(self.instance.jobs[at], 1, machine + 1) * self.parts
        return time // self.instance.speeds[machine] if self.instance.speeds else time

    @property
    def shop(self) -> bool:
        """Whether jobs have an operation for each machine."""
        return self.instance.kind.kind in "OFJ"

    @property
    def open(self) -> bool:
        """Whether the operations of a job go in any order."""
        return self.instance.kind.kind == "O"

    @property
    def alike(self) -> bool:
        """Whether all machines take the same time for a job."""
        return self.instance.kind.kind in "1P"

    @property
    def cut(self) -> bool:
        """Whether work may be cut."""
        return "pmtn" in self.instance.kind.items

    @property
    def criterion(self) -> str:
        """The criterion."""
        return self.instance.kind.criterion

    @property
    def greatest(self) -> bool:
        """Whether the cost is that of the job that costs most, and else the sum."""
        return self.criterion in ("Cmax", "Lmax", "fmax")

    @property
    def dated(self) -> bool:
        """Whether jobs have release dates."""
        return any(self.release)

    @property
    def bound(self) -> bool:
        """Whether some job comes after another."""
        return any(self.before)

    def work(self, job: int) -> int:
        """The work of a job, all its operations, or its least time."""
        return sum(it.time for it in self.steps[job]) if self.shop else min(self.times[job])

    def operations(self) -> int:
        """The number of operations."""
        return sum(map(len, self.steps)) if self.shop else self.count

    def cost(self, ends: Sequence[int]) -> int:
        """The cost in parts (of counted jobs: as it is) of a schedule in which the jobs end so."""
        return self.costing()(ends)

    def costing(self) -> Callable[[Sequence[int]], int]:
        """The same as a function of the ends, for those who ask often."""
        kind, weight, due, jobs, total = self.criterion, self.weight, self.due, range(self.count), self.total
        if kind == "Lmax":
            return lambda ends: total([end - by for end, by in zip(ends, due)])
        if kind == "sumwC":
            return lambda ends: total([many * end for many, end in zip(weight, ends)])
        if kind[-1] == "T":
            return lambda ends: total([many * (end - by) for many, end, by in zip(weight, ends, due) if end > by])
        return lambda ends: total(self.costs(jobs, ends))

    def total(self, costs: Sequence[int]) -> int:
        """The cost of a schedule whose jobs cost so much."""
        return max(costs) if self.greatest else sum(costs)

    def costs(self, jobs: Sequence[int], ends: Sequence[int]) -> list[int]:
        """What jobs cost that end so, in their order."""
        kind = self.criterion
        if kind in ("Cmax", "sumC"):
            return list(ends)
        if kind == "Lmax":
            return [end - self.due[job] for job, end in zip(jobs, ends)]
        if kind == "sumwC":
            return list(map(mul, map(self.weight.__getitem__, jobs), ends))
        if kind[-1] == "U":
            return [self.weight[job] if end > self.due[job] else 0 for job, end in zip(jobs, ends)]
        if kind[-1] == "T":
            return [self.weight[job] * (end - self.due[job]) if end > self.due[job] else 0 for job, end in zip(jobs, ends)]
        return [self.curved(job, end) for job, end in zip(jobs, ends)]

    def curved(self, job: int, end: int) -> int:
        """What a job with a curve costs, in parts."""
        slope, base, *steps = self.instance.jobs[job].curve
        return slope * end + self.parts * (base + sum(more for above, more in zip(steps[::2], steps[1::2]) if end > above * self.parts))

    def said(self, cost: float | Fraction) -> Fraction:
        """A cost in units."""
        return Fraction(cost) if self.criterion[-1] == "U" else Fraction(cost) / self.parts

    def in_parts(self, cost: Fraction) -> Fraction:
        """A cost in parts."""
        return cost if self.criterion[-1] == "U" else cost * self.parts

    def pieces(self, placed: Sequence[Placed]) -> list[Piece]:
        """The pieces as the texts have them."""
        return [Piece(self.instance.jobs[it.job].name, it.number, it.machine + 1, Fraction(it.start, self.parts), Fraction(it.end, self.parts))
                for it in placed]


def ends_of(problem: Problem, placed: Sequence[Placed]) -> list[int]:
    """When each job ends."""
    found = [0] * problem.count
    for it in placed:
        found[it.job] = max(found[it.job], it.end)
    return found
