"""All semi-active schedules of a problem without preemption.

All criteria are regular: no job ending earlier costs more. So some best schedule begins each operation as early as the operations
before it on its machine and of its job, its release date and its predecessors let it: it is semi-active. Each of these is met
once, its operations being laid in the order of their begins. A branch is left only where its cost so far reaches the best found.
"""
from fractions import Fraction
from math import lcm
from typing import NamedTuple, Optional

from .judge import Best, Piece
from .problem import Problem


class _Step(NamedTuple):
    """An operation that can be laid next: end and begin in parts of the unit, its job and place, and its machine."""
    end: int
    begin: int
    job: int
    place: int
    machine: int


class _Model:
    """What stays the same: the unit, the times of operations in it, the predecessors of jobs, and what jobs cost."""

    def __init__(self, problem: Problem) -> None:
        self.problem = problem
        times = [time for job in problem.jobs for operation in job.operations for time in operation.times.values()]
        self.unit = lcm(*(time.denominator for time in times))
        self.times = [[{machine: int(time * self.unit) for machine, time in operation.times.items()}
                       for operation in job.operations] for job in problem.jobs]
        self.before: list[list[int]] = [[] for _ in problem.jobs]
        for one, two in problem.arcs:
            self.before[two].append(one)
        self.costs: dict[tuple[int, int], int] = {}

    def cost(self, job: int, end: int) -> int:
        """What a job costs that ends at a moment, times the unit."""
        known = self.costs.get((job, end))
        if known is None:
            known = int(self.unit * self.problem.jobs[job].cost(self.problem.criterion, Fraction(end, self.unit)))
            self.costs[job, end] = known
        return known

    def with_job(self, cost: Optional[int], job: int, end: int) -> int:
        """The cost so far with that of one more job."""
        mine = self.cost(job, end)
        if cost is None:
            return mine
        return max(cost, mine) if self.problem.criterion.endswith("max") else cost + mine


class _Search:
    """The schedule so far, and the best one found."""

    def __init__(self, model: _Model) -> None:
        self.model = model
        self.left = [list(range(len(operations))) for operations in model.times]
        self.machine_free = [0] * model.problem.machines
        self.job_free = [job.release * model.unit for job in model.problem.jobs]
        self.laid: list[_Step] = []
        self.best: Optional[int] = None         # times the unit
        self.found: list[_Step] = []

    def steps(self) -> list[_Step]:
        """All operations that can be laid next, none beginning before the last one that was."""
        last = (self.laid[-1].begin, self.laid[-1].job) if self.laid else (0, -1)
        found = []
        for job, left in enumerate(self.left):
            before = self.model.before[job]
            if not left or any(self.left[other] for other in before):
                continue
            ready = max([self.job_free[job]] + [self.job_free[other] for other in before])
            for place in left[:1] if self.model.problem.ordered else left:
                for machine, time in self.model.times[job][place].items():
                    begin = max(ready, self.machine_free[machine])
                    if (begin, job) >= last:
                        found.append(_Step(begin + time, begin, job, place, machine))
        found.sort()
        return found

    def run(self, cost: Optional[int]) -> None:
        """All ways to go on from the schedule so far, whose ended jobs have a cost."""
        if not any(self.left):
            self.best, self.found = cost, list(self.laid)
            return
        for step in self.steps():
            later = cost
            if len(self.left[step.job]) == 1:
                later = self.model.with_job(cost, step.job, step.end)
            if self.best is None or later is None or later < self.best:
                self.lay(step, later)

    def lay(self, step: _Step, cost: Optional[int]) -> None:
        """All ways to go on with an operation, which is taken back behind them."""
        kept = (self.machine_free[step.machine], self.job_free[step.job], list(self.left[step.job]))
        self.machine_free[step.machine] = self.job_free[step.job] = step.end
        self.left[step.job].remove(step.place)
        self.laid.append(step)
        self.run(cost)
        self.laid.pop()
        self.machine_free[step.machine], self.job_free[step.job], self.left[step.job] = kept


def least_uncut(problem: Problem) -> Best:
    """The least cost of all semi-active schedules, and the first of them that has it."""
    model = _Model(problem)
    search = _Search(model)
    search.run(None)
    if search.best is None:
        raise ValueError("no schedule: arcs have a cycle")
    return Best(Fraction(search.best, model.unit), tuple(
        Piece(step.job, problem.jobs[step.job].operations[step.place].number, step.machine,
              Fraction(step.begin, model.unit), Fraction(step.end, model.unit)) for step in search.found))
