"""Schedules as orders of the jobs, where an order and its timing make the schedule: jobs that come after others, flow shops with one order on
all machines, and work that may be cut.

A neighbour moves a job to another place, no further than those let it that it comes after or before, or exchanges two. On machines that are
not alike the order says too on which machine a job is fixed, if on any: else it goes where it ends first.
"""
from __future__ import annotations

from bisect import bisect_right, insort
from typing import Callable, List, NamedTuple, Sequence

from .problems import Order, Problem
from .search import Draw

Decode = Callable[[Sequence[int], Sequence[int]], int]  # (the value of an order, with the machines on which jobs are fixed, or -1)


class State(NamedTuple):
    """An order, and for each job the machine on which it is fixed, or -1."""
    order: Order
    fixed: List[int]


class Sequences:
    """A space of orders."""

    def __init__(self, problem: Problem, draw: Draw, decode: Decode, fixes: bool = False) -> None:
        self.problem, self.draw, self.decode = problem, draw, decode
        self.fixes = fixes and problem.machines > 1
        self.order: Order = []
        self.fixed: List[int] = []
        self.places: List[int] = []
        self.value = 0
        self.next = State([], [])
        self.next_value = 0

    def back(self, state: State) -> None:
        """Holds a state."""
        self.hold(State(list(state.order), list(state.fixed)))
        self.value = self.decode(self.order, self.fixed)

    def state(self) -> State:
        """What is held, for later."""
        return State(list(self.order), list(self.fixed))

    def hold(self, state: State) -> None:
        """Holds lists."""
        self.order, self.fixed = state
        self.places = [0] * self.problem.count
        for place, job in enumerate(self.order):
            self.places[job] = place

    def take(self) -> None:
        """Holds the neighbour."""
        self.hold(self.next)
        self.value = self.next_value

    def neighbour(self) -> int | None:
        """A job moves, two are exchanged, or a job is fixed on a machine."""
        if self.fixes and self.draw.one() < 0.4:
            fixed = list(self.fixed)
            fixed[self.draw.below(self.problem.count)] = self.draw.below(self.problem.machines + 1) - 1
            self.next = State(self.order, fixed)
        else:
            order = self.changed()
            if order is None:
                return None
            self.next = State(order, self.fixed)
        self.next_value = self.decode(*self.next)
        return self.next_value

    def changed(self) -> Order | None:
        """The order with a change, or None."""
        count = self.problem.count
        if count < 2:
            return None
        place, step = self.draw.below(count), self.draw.near(count)
        other = place + step if self.draw.one() < 0.5 else place - step
        job = self.order[place]
        least = max((self.places[it] for it in self.problem.before[job]), default=-1) + 1
        most = min((self.places[it] for it in self.problem.after[job]), default=count) - 1
        other = min(max(other, least), most)
        if other == place:
            return None
        order = list(self.order)
        if not self.problem.bound and self.draw.one() < 0.4:
            order[place], order[other] = order[other], order[place]
        else:
            order.insert(other, order.pop(place))
        return order


# What an order costs

def by_serial(problem: Problem) -> Decode:
    """The cost of an order by `serial`, jobs of one operation."""
    release, before, count, alike = problem.release, problem.before, problem.count, problem.alike
    first_times = [it[0] for it in problem.times]

    def cost_alike(order: Sequence[int], _: Sequence[int]) -> int:
        free, ends = sorted(problem.begins), [0] * count
        for job in order:
            now = release[job]
            for other in before[job]:
                if ends[other] > now:
                    now = ends[other]
            begin = free.pop(max(bisect_right(free, now) - 1, 0))
            end = (begin if begin > now else now) + first_times[job]
            ends[job] = end
            insort(free, end)
        return problem.cost(ends)

    def cost_apart(order: Sequence[int], fixed: Sequence[int]) -> int:
        return problem.cost([it[1] for it in placed_apart(problem, order, fixed)])

    return cost_alike if alike else cost_apart


def placed_apart(problem: Problem, order: Sequence[int], fixed: Sequence[int]) -> list[tuple[int, int]]:
    """The machine and the end of each job, in an order, on machines that are not alike."""
    free = list(problem.begins)
    found = [(0, 0)] * problem.count
    for job in order:
        now = max([problem.release[job], *(found[it][1] for it in problem.before[job])])
        at = fixed[job]
        if at < 0:
            end, at = min((max(begin, now) + time, at) for at, (begin, time) in enumerate(zip(free, problem.times[job])))
        else:
            end = max(free[at], now) + problem.times[job][at]
        free[at] = end
        found[job] = at, end
    return found


def by_permutation(problem: Problem) -> Decode:
    """The cost of an order in a flow shop that has it on all machines."""
    pairs = [[(it.machine, it.time) for it in those] for those in problem.steps]

    def cost(order: Sequence[int], _: Sequence[int]) -> int:
        free, ends = list(problem.begins), [0] * problem.count
        for job in order:
            now = problem.release[job]
            for other in problem.before[job]:
                if ends[other] > now:
                    now = ends[other]
            for machine, time in pairs[job]:
                begin = free[machine]
                free[machine] = now = (begin if begin > now else now) + time
            ends[job] = now
        return problem.cost(ends)

    return cost
