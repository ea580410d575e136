"""All schedules of a problem with preemption whose pieces begin and end on a grid of 1/k.

Time goes in slots of 1/k. In each slot each machine runs one operation or rests. Slot after slot all ways are followed: for each
vector of work that is left, the least cost of the jobs that have ended. A best schedule may need a finer grid, so the least cost
here is only known not to be below that of all schedules.
"""
from dataclasses import replace
from fractions import Fraction
from math import lcm
from typing import Iterator, NamedTuple, Optional

from .judge import Best, Piece
from .problem import Problem

_Left = tuple[int, ...]                         # the work that is left of each operation
_Run = tuple[tuple[int, int], ...]              # machines with the operations that they run in a slot


class _Operation(NamedTuple):
    """An operation of the grid: its job, its number in the text, its work, and what each machine does of it in a slot."""
    job: int
    number: int
    work: int
    done: dict[int, int]


class _Reached(NamedTuple):
    """How a vector of work was reached: the cost so far times parts, the vector one slot before, and what ran in that slot."""
    cost: int
    before: _Left
    run: _Run


def _operations(problem: Problem, parts: int) -> Iterator[_Operation]:
    for place, job in enumerate(problem.jobs):
        for operation in job.operations:
            shares = {machine: 1 / (parts * time) for machine, time in operation.times.items()}
            work = lcm(*(share.denominator for share in shares.values()))
            yield _Operation(place, operation.number, work, {machine: int(share * work) for machine, share in shares.items()})


def grid_size(problem: Problem, parts: int) -> int:
    """How many vectors of work there may be on a grid."""
    size = 1
    for operation in _operations(problem, parts):
        size *= operation.work + 1
    return size


class _Grid:
    """The slots of a problem on a grid."""

    def __init__(self, problem: Problem, parts: int) -> None:
        self.problem = problem
        self.parts = parts
        self.operations = tuple(_operations(problem, parts))
        self.of_job = [[place for place, operation in enumerate(self.operations) if operation.job == job]
                       for job in range(len(problem.jobs))]
        self.known: dict[tuple[_Left, int], list[tuple[_Left, _Run]]] = {}
        self.costs: dict[tuple[int, int], int] = {}

    def horizon(self) -> int:
        """Slots that suffice: a slot in which all machines rest is needed only before the last release date."""
        slots = sum(operation.work // min(operation.done.values()) + 1 for operation in self.operations)
        return max(job.release for job in self.problem.jobs) * self.parts + slots

    def can_run(self, left: _Left, slot: int) -> list[int]:
        """The operations that may run in a slot."""
        ended = [not any(left[place] for place in places) for places in self.of_job]
        found = []
        for place, operation in enumerate(self.operations):
            job = operation.job
            if left[place] == 0 or self.problem.jobs[job].release * self.parts > slot:
                continue
            if not all(ended[one] for one, two in self.problem.arcs if two == job):
                continue
            if self.problem.ordered and any(left[other] for other in self.of_job[job] if other < place):
                continue
            found.append(place)
        return found

    def moves(self, left: _Left, slot: int) -> list[tuple[_Left, _Run]]:
        """The vectors that a slot can lead to, each once, with what runs."""
        released = min(slot, max(job.release for job in self.problem.jobs) * self.parts)
        known = self.known.get((left, released))
        if known is None:
            able = self.can_run(left, slot)
            ways: dict[_Left, _Run] = {left: ()}
            for machine in range(self.problem.machines):
                for vector, run in list(ways.items()):
                    for further in self._with(machine, able, vector, run):
                        ways.setdefault(*further)
            known = list(ways.items())
            self.known[left, released] = known
        return known

    def _with(self, machine: int, able: list[int], left: _Left, run: _Run) -> Iterator[tuple[_Left, _Run]]:
        """What a machine can run besides the others."""
        busy = {self.operations[place].job for _, place in run}
        for place in able:
            done = self.operations[place].done.get(machine)
            if done is not None and self.operations[place].job not in busy and done <= left[place]:
                yield left[:place] + (left[place] - done,) + left[place + 1:], run + ((machine, place),)

    def cost_after(self, cost: int, left: _Left, run: _Run, slot: int) -> int:
        """The cost so far behind a slot, of all jobs that have ended."""
        for _, place in run:
            job = self.operations[place].job
            if left[place] == 0 and not any(left[other] for other in self.of_job[job]):
                mine = self.costs.get((job, slot))
                if mine is None:
                    mine = int(self.parts * self.problem.jobs[job].cost(self.problem.criterion, Fraction(slot + 1, self.parts)))
                    self.costs[job, slot] = mine
                cost = max(cost, mine) if self.problem.criterion.endswith("max") else cost + mine
        return cost

    def follow(self, layer: dict[_Left, _Reached], slot: int, limit: Optional[int]) -> dict[_Left, _Reached]:
        """What can be reached by a slot at a cost below a limit."""
        following: dict[_Left, _Reached] = {}
        for left, reached in layer.items():
            for later, run in self.moves(left, slot):
                cost = self.cost_after(reached.cost, later, run, slot)
                if (limit is None or cost < limit) and (later not in following or cost < following[later].cost):
                    following[later] = _Reached(cost, left, run)
        return following

    def pieces(self, layers: list[dict[_Left, _Reached]], last: _Reached) -> tuple[Piece, ...]:
        """The pieces that lead to the end, slots of one operation on one machine that touch made one."""
        found: list[Piece] = []
        for slot in range(len(layers) - 1, -1, -1):
            begin, end = Fraction(slot, self.parts), Fraction(slot + 1, self.parts)
            for machine, place in last.run:
                piece = Piece(self.operations[place].job, self.operations[place].number, machine, begin, end)
                behind = next((other for other in found if other.begin == end and replace(other, begin=begin, end=end) == piece), None)
                if behind is not None:
                    found.remove(behind)
                    piece = replace(piece, end=behind.end)
                found.append(piece)
            last = layers[slot][last.before]
        return tuple(found)


def least_on_grid(problem: Problem, parts: int) -> Optional[Best]:
    """The least cost of all schedules on a grid of 1/parts, and one that has it, or None where the grid has no schedule."""
    grid = _Grid(problem, parts)
    start = tuple(operation.work for operation in grid.operations)
    layers = [{start: _Reached(-10 ** 30 if problem.criterion.endswith("max") else 0, start, ())}]
    ended = (0,) * len(start)
    best: Optional[Best] = None
    limit: Optional[int] = None
    for slot in range(grid.horizon()):
        following = grid.follow(layers[-1], slot, limit)
        if ended in following:
            last = following.pop(ended)
            limit = last.cost
            best = Best(Fraction(limit, parts), grid.pieces(layers, last))
        if not following:
            break
        layers.append(following)
    return best
