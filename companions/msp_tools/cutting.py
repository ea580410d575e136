"""How an order is read where work may be cut: from each end and each release date on its first jobs run that can.

On machines of different speeds the first jobs have the fastest ones. In a shop each job in turn takes its next operation (in an open shop
that on the machine of least number) whose machine is not taken.
"""
from __future__ import annotations

from fractions import Fraction
from typing import Dict, List, Sequence, Tuple

from .numbers import Number
from .problems import Problem
from .schedules import Piece, cost_of

Run = Dict[int, Tuple[int, int]]  # (from each job that runs to its operation, counted in its list from 0, and its machine)


class Clock:
    """The run of an order: what is left of each operation, and what runs now."""

    def __init__(self, problem: Problem, order: Sequence[int]) -> None:
        self.problem = problem
        self.places = {job: at for at, job in enumerate(order)}
        given = problem.instance
        self.speeds = given.speeds or [1] * problem.machines
        self.fastest = sorted(range(problem.machines), key=lambda it: -self.speeds[it])
        self.left: List[Dict[int, Number]] = [
            {at: step.time for at, step in enumerate(problem.steps[job])} if problem.shop
            else {0: given.operations(given.jobs[job])[0][1] * problem.parts} for job in range(problem.count)]
        self.ends: List[Number] = [0] * problem.count
        self.waits = [len(it) for it in problem.before]
        self.there = [job for job in order if not self.waits[job]]
        self.now: Number = 0

    def runs(self, before: Run) -> Run:
        """What runs from now on: where it can be, a job on the machine that it had."""
        problem, found = self.problem, {}
        those = [job for job in self.there if problem.release[job] <= self.now]
        if problem.shop:
            taken = set()
            for job in those:
                left = self.left[job]
                for at in sorted(left) if problem.open else [min(left)]:
                    machine = problem.steps[job][at].machine
                    if machine not in taken:
                        taken.add(machine)
                        found[job] = at, machine
                        break
            return found
        those = those[: problem.machines]
        if not problem.alike:
            return {job: (0, machine) for job, machine in zip(those, self.fastest)}
        kept = {job: before[job] for job in those if job in before}
        taken = {machine for _, machine in kept.values()}
        free = iter([it for it in range(problem.machines) if it not in taken])
        return {job: kept[job] if job in kept else (0, next(free)) for job in those}

    def step(self, run: Run) -> Number:
        """How long what runs goes on: to the next end or release date."""
        spans: List[Number] = [self.span(self.left[job][at], machine) for job, (at, machine) in run.items()]
        spans += [self.problem.release[job] - self.now for job in self.there if self.problem.release[job] > self.now]
        return min(spans)

    def span(self, left: Number, machine: int) -> Number:
        """How long the rest of an operation takes."""
        speed = self.speeds[machine]
        return left if speed == 1 else Fraction(left) / speed

    def pass_on(self, run: Run, span: Number) -> None:
        """Lets what runs go on for a while."""
        self.now += span
        for job, (at, machine) in run.items():
            left = self.left[job]
            left[at] -= span * self.speeds[machine]
            if left[at] <= 0:
                del left[at]
                if not left:
                    self.end(job)

    def end(self, job: int) -> None:
        """A job has ended."""
        self.ends[job] = self.now
        self.there.remove(job)
        for other in self.problem.after[job]:
            self.waits[other] -= 1
            if not self.waits[other]:
                self.there.append(other)
                self.there.sort(key=self.places.__getitem__)


def cut_ends(problem: Problem, order: Sequence[int]) -> List[Number]:
    """When the jobs end, in parts."""
    clock = Clock(problem, order)
    run: Run = {}
    while clock.there:
        run = clock.runs(run)
        clock.pass_on(run, clock.step(run))
    return clock.ends


def cut_cost(problem: Problem, order: Sequence[int]) -> Fraction:
    """The cost of an order, in parts."""
    given, parts = problem.instance, problem.parts
    ends = {job.name: end if parts == 1 else Fraction(end) / parts for job, end in zip(given.jobs, cut_ends(problem, order))}
    return problem.in_parts(cost_of(given, ends))


def cut_pieces(problem: Problem, order: Sequence[int]) -> list[Piece]:
    """The pieces of an order."""
    clock, found = Clock(problem, order), []
    run: Run = {}
    open_pieces: Dict[Tuple[int, int, int], Piece] = {}
    while clock.there:
        run = clock.runs(run)
        begin = Fraction(clock.now) / problem.parts
        clock.pass_on(run, clock.step(run))
        end = Fraction(clock.now) / problem.parts
        going: Dict[Tuple[int, int, int], Piece] = {}
        for job, (at, machine) in run.items():
            key = job, at, machine
            if key in open_pieces:
                going[key] = open_pieces[key]
                going[key].end = end
            else:
                number = problem.steps[job][at].number if problem.shop else 1
                going[key] = Piece(problem.instance.jobs[job].name, number, machine + 1, begin, end)
                found.append(going[key])
        open_pieces = going
    return found
