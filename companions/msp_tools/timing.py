"""Timing: how an order of jobs becomes a schedule, in three named ways, how pieces move early, and how an order is read where work may be cut.

- `list`: at the earliest moment at which a machine is free and a job can begin, the first such job of the order begins, on the free machine
  of least number. The order may name a job before one that it comes after.
- `serial`: in the order, each job as early as the ones in front of it allow; a machine may wait. On one machine and on machines that are
  alike some order gives a best schedule.
- `active`, in shops: of all operations that could begin before the earliest end of one on its machine, that of the first job begins.
- `early`: pieces keep their order, machines and lengths, and each moves as early as it can. No job ends later.

On machines that are not alike a job goes where it ends first. Where work may be cut, the first jobs of the order run from each end and each
release date on.
"""
from __future__ import annotations

import math
from bisect import bisect_right, insort
from fractions import Fraction
from heapq import heapify, heappop, heappush
from typing import Callable, Dict, Iterable, List, Sequence, Tuple

from .problems import Order, Placed, Problem, Step
from .schedules import Piece
from .texts import Instance

NEVER = math.inf
Choice = Callable[[int, Step, int], Tuple[float, ...]]  # (of a job, its operation and a moment: the least goes first)


def early(pieces: Iterable[Piece], instance: Instance) -> list[Piece]:
    """The pieces, each as early as the pieces before it on its machine and of its job allow, its release date, and the ends of the jobs that it
    comes after."""
    before: Dict[str, List[str]] = {}
    for first, then in instance.arcs:
        before.setdefault(then, []).append(first)
    machines: Dict[int, Fraction] = {}
    jobs = {it.name: Fraction(it.release_date) for it in instance.jobs}
    found = []
    for it in sorted(pieces, key=lambda it: (it.start, it.end)):
        start = max([machines.get(it.machine, Fraction(0)), jobs[it.job], *(jobs[other] for other in before.get(it.job, []))])
        end = start + it.end - it.start
        machines[it.machine] = jobs[it.job] = end
        found.append(Piece(it.job, it.operation, it.machine, start, end, it.line))
    return found


def allowed(problem: Problem, order: Sequence[int]) -> Order:
    """The order in which each job stands behind those that it comes after: the first job of the order that may go next, always."""
    if not problem.bound:
        return list(order)
    places = {job: at for at, job in enumerate(order)}
    waits = [len(it) for it in problem.before]
    ready = [places[job] for job in order if not waits[job]]
    heapify(ready)
    found: Order = []
    while ready:
        job = order[heappop(ready)]
        found.append(job)
        for other in problem.after[job]:
            waits[other] -= 1
            if not waits[other]:
                heappush(ready, places[other])
    return found


# One operation for each job

def by_places(order: Sequence[int]) -> Choice:
    """The choice that an order makes: the job that stands first, and of its operations that on the machine of least number."""
    places = {job: at for at, job in enumerate(order)}
    return lambda job, step, now: (places[job], step.machine)


def listed(problem: Problem, order: Sequence[int]) -> list[Placed]:
    """The schedule of an order by `list`."""
    return chosen(problem, by_places(order))


def soonest(free: Sequence[int], times: Sequence[int], now: int) -> int:
    """The machine on which a job ends first that may begin now, by when the machines are free, and its times on them."""
    return min(range(len(free)), key=lambda it: max(free[it], now) + times[it])


def chosen(problem: Problem, choice: Choice) -> list[Placed]:
    """The schedule in which a choice says what begins at the earliest moment at which something can."""
    if problem.shop:
        return dispatched(problem, choice, False)
    free, now = list(problem.begins), list(problem.release)
    waits = [len(it) for it in problem.before]
    steps = [Step(1, 0, min(it)) for it in problem.times]
    there = {job for job in range(problem.count) if not waits[job]}
    found = []
    while there:
        first = max(min(free), min(now[it] for it in there))
        job = min((it for it in there if now[it] <= first), key=lambda it: choice(it, steps[it], first))
        times = problem.times[job]
        at = next(it for it in range(problem.machines) if free[it] <= first) if problem.alike else soonest(free, times, first)
        start = max(free[at], first)
        free[at] = start + times[at]
        found.append(Placed(job, 1, at, start, free[at]))
        there.remove(job)
        for other in problem.after[job]:
            waits[other] -= 1
            now[other] = max(now[other], free[at])
            if not waits[other]:
                there.add(other)
    return found


def serial(problem: Problem, order: Sequence[int]) -> list[Placed]:
    """The schedule of an order by `serial`."""
    if problem.shop:
        return serial_shop(problem, allowed(problem, order))
    free = sorted((begin, at) for at, begin in enumerate(problem.begins))
    ends, found = [0] * problem.count, []
    for job in allowed(problem, order):
        now = max([problem.release[job], *(ends[it] for it in problem.before[job])])
        times = problem.times[job]
        if problem.alike:
            # (of the machines that are free by then the last one, so that the others can take what begins earlier)
            place = max(bisect_right(free, (now, problem.machines)) - 1, 0)
        else:
            begins = [begin for begin, _ in sorted(free, key=lambda it: it[1])]
            place = [at for _, at in free].index(soonest(begins, times, now))
        before, at = free.pop(place)
        start = max(before, now)
        ends[job] = start + times[at]
        insort(free, (ends[job], at))
        found.append(Placed(job, 1, at, start, ends[job]))
    return found


# Shops

def serial_shop(problem: Problem, order: Order) -> list[Placed]:
    """The schedule of a shop, one job behind another; in an open shop the operation goes next that can begin first."""
    free, ends, found = list(problem.begins), [0] * problem.count, []
    for job in order:
        now = max([problem.release[job], *(ends[it] for it in problem.before[job])])
        rest = list(problem.steps[job])
        while rest:
            step = rest[0]
            if problem.open:
                step = min((max(free[it.machine], now), -it.time, it) for it in rest)[2]
            rest.remove(step)
            start = max(free[step.machine], now)
            now = free[step.machine] = start + step.time
            found.append(Placed(job, step.number, step.machine, start, now))
        ends[job] = now
    return found


class Shop:
    """A shop whose operations are placed one after another: those that may go next by their machines, of each job one, and what begins (or with
    delays ends) first on each machine."""

    def __init__(self, problem: Problem, delays: bool) -> None:
        self.problem, self.delays, self.open = problem, delays, problem.open
        self.free = list(problem.begins)
        self.now = list(problem.release)
        self.rest = [list(it) for it in problem.steps]
        self.waits = [len(it) for it in problem.before]
        self.there: List[Dict[int, Step]] = [{} for _ in range(problem.machines)]
        for job in range(problem.count):
            if not self.waits[job]:
                self.come(job)
        self.first = [self.first_on(machine) for machine in range(problem.machines)]

    def come(self, job: int) -> List[int]:
        """Lets a job's next operation go, or in an open shop all of them; on which machines."""
        steps = self.rest[job] if self.open else self.rest[job][:1]
        for step in steps:
            self.there[step.machine][job] = step
        return [it.machine for it in steps]

    def first_on(self, machine: int) -> float:
        """When something begins first on a machine, or with delays ends first; never where nothing may go next there."""
        those, now, free = self.there[machine], self.now, self.free[machine]
        if not those:
            return NEVER
        if not self.delays:
            return max(free, min(map(now.__getitem__, those)))
        # (times by their place, which is faster than by their name)
        ends = [(free if free > now[job] else now[job]) + step[2] for job, step in those.items()]
        return min(ends)

    def open_ones(self) -> List[Tuple[int, Step, int]]:
        """The operations among which is chosen, with when they begin: those that begin first, or with delays before the first end on its machine."""
        first, now = min(self.first), self.now
        if self.delays:
            machine = self.first.index(first)
            free = self.free[machine]
            begins = [(job, step, free if free > now[job] else now[job]) for job, step in self.there[machine].items()]
            return [it for it in begins if it[2] < first]
        those = [self.there[at] for at, moment in enumerate(self.first) if moment == first]
        return [(job, step, int(first)) for them in those for job, step in them.items() if now[job] <= first]

    def place(self, job: int, step: Step, start: int) -> Placed:
        """Places an operation."""
        end = start + step.time
        self.free[step.machine] = self.now[job] = end
        rest = self.rest[job]
        rest.remove(step)
        del self.there[step.machine][job]
        changed = [step.machine, *[it.machine for it in rest if self.open]]
        if not rest:
            for other in self.problem.after[job]:
                self.waits[other] -= 1
                self.now[other] = max(self.now[other], end)
                if not self.waits[other]:
                    changed += self.come(other)
        elif not self.open:
            changed += self.come(job)
        for machine in set(changed):
            self.first[machine] = self.first_on(machine)
        return Placed(job, step.number, step.machine, start, end)


def dispatched(problem: Problem, choice: Choice, delays: bool) -> list[Placed]:
    """The schedule of a shop in which a choice decides what goes next: of what could begin first, or with delays by `active`."""
    shop, found = Shop(problem, delays), []
    for _ in range(problem.operations()):
        those = [(choice(*it), *it) for it in shop.open_ones()]
        _, job, step, start = min(those)
        found.append(shop.place(job, step, start))
    return found


def active(problem: Problem, order: Sequence[int]) -> list[Placed]:
    """The schedule of an order by `active`."""
    return dispatched(problem, by_places(order), True)


TIMINGS: Dict[str, Callable[[Problem, Sequence[int]], List[Placed]]] = {"list": listed, "serial": serial, "active": active}
