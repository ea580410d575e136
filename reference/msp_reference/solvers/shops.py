"""Solvers of open shops, flow shops and job shops."""
from typing import Iterable, NamedTuple

from ..instance import Instance
from ..schedule import Piece, Schedule
from ..timetable import Slice, split
from .parallel import by_falling_weight

_Order = list[tuple[int, int]]                  # the jobs of a machine, each with its operation there


def johnson_order(pairs: Iterable[tuple[int, int, int]]) -> list[int]:
    """The jobs in Johnson's order, from their first times, second times and numbers."""
    given = list(pairs)
    first = sorted((one, j) for one, two, j in given if one <= two)
    last = sorted((-two, j) for one, two, j in given if one > two)
    return [j for _, j in first + last]


class _Timing:
    """Each operation as early as it can, the operations of each machine in the given order."""

    def __init__(self, inst: Instance, orders: list[_Order]) -> None:
        self.inst = inst
        self.waiting = [list(reversed(order)) for order in orders]
        self.machine_free = [0] * len(orders)
        self.job_free = [0] * len(inst.jobs)
        self.left = [[oper for oper, (_, time) in enumerate(job.needs) if time > 0] for job in inst.jobs]
        self.pieces: list[Piece] = []

    def run(self) -> list[Piece]:
        """The pieces of all operations."""
        while any(self.waiting):
            for machine, order in enumerate(self.waiting):
                while order and self.left[order[-1][0]][0] == order[-1][1]:
                    self.place(machine, *order.pop())
        return self.pieces

    def place(self, machine: int, j: int, oper: int) -> None:
        """The next operation of a machine begins as early as it can."""
        begin = max(self.machine_free[machine], self.job_free[j])
        end = begin + self.inst.jobs[j].needs[oper][1]
        self.pieces.append(Piece(j, oper, machine, begin, end))
        self.machine_free[machine] = self.job_free[j] = end
        self.left[j].pop(0)


def johnson(inst: Instance) -> Schedule:
    """First a <= b by increasing a, then the others by decreasing b."""
    order = johnson_order((job.needs[0][1], job.needs[1][1], j) for j, job in enumerate(inst.jobs))
    return Schedule(1, _Timing(inst, [[(j, oper) for j in order if inst.jobs[j].needs[oper][1] > 0] for oper in (0, 1)]).run())


def jackson(inst: Instance) -> Schedule:
    """Johnson's order for each direction, with the jobs of one machine between."""
    both: list[list[tuple[int, int, int]]] = [[], []]
    alone: list[_Order] = [[], []]
    for j, job in enumerate(inst.jobs):
        machine = job.needs[0][0]
        if len(job.needs) == 1:
            alone[machine].append((j, 0))
        else:
            both[machine].append((job.needs[0][1], job.needs[1][1], j))
    order = [johnson_order(pairs) for pairs in both]
    return Schedule(1, _Timing(inst, [[(j, 0) for j in order[machine]] + alone[machine] + [(j, 1) for j in order[1 - machine]]
                                      for machine in (0, 1)]).run())


class _Special(NamedTuple):
    """The job that runs alone first and last, its lesser machine, its other machine, and the other jobs in their order."""
    job: int
    lesser: int
    other: int
    rest: list[int]


def _special(times: list[tuple[int, int]]) -> _Special:
    first = [j for j, (one, two) in enumerate(times) if one <= two]
    second = [j for j, (one, two) in enumerate(times) if one > two]
    turned = max((times[j][0] for j in first), default=-1) < max((times[j][1] for j in second), default=-1)
    lesser, other = (1, 0) if turned else (0, 1)
    if turned:
        first, second = second, first
    special = max(first, key=lambda j: (times[j][lesser], -j))
    return _Special(special, lesser, other, [j for j in first if j != special] + second)


def open2(inst: Instance) -> Schedule:
    """Gonzalez and Sahni: one job is first on one machine and last on the other."""
    times = [(job.needs[0][1], job.needs[1][1]) for job in inst.jobs]
    special, lesser, other, rest = _special(times)
    free, ready = [0, 0], [0] * len(times)
    pieces = []
    runs = [(special, other)] + [(j, machine) for machine in (lesser, other) for j in rest] + [(special, lesser)]
    for j, machine in runs:
        if times[j][machine] == 0:
            continue
        begin = max(free[machine], ready[j])
        free[machine] = ready[j] = begin + times[j][machine]
        pieces.append(Piece(j, machine, machine, begin, free[machine]))
    return Schedule(1, pieces)


def from_slices(slices: Iterable[Slice], in_shop: bool) -> list[Piece]:
    """The pieces of slices, touching pieces of one job on one machine made one; in a shop each machine has its operation."""
    pieces: list[Piece] = []
    last: dict[int, int] = {}
    moment = 0
    for length, columns in slices:
        for machine, j in enumerate(columns):
            before = last.get(machine)
            if j >= 0 and before is not None and pieces[before].job == j and pieces[before].end == moment:
                pieces[before] = pieces[before]._replace(end=moment + length)
            elif j >= 0:
                last[machine] = len(pieces)
                pieces.append(Piece(j, machine if in_shop else 0, machine, moment, moment + length))
        moment += length
    return pieces


def open_cut(inst: Instance) -> Schedule:
    """The times split into slices; the cost is the greatest load or job length."""
    cells = [[job.needs[machine][1] for job in inst.jobs] for machine in range(inst.machines)]
    return Schedule(1, from_slices(split(cells), True))


def open_weights(inst: Instance) -> Schedule:
    """Jobs of equal operations by falling weight, as many as machines at a time, in a circle."""
    time, pieces = inst.time(0), []
    for number, j in enumerate(by_falling_weight(inst)):
        block, place = divmod(number, inst.machines)
        for machine in range(inst.machines):
            slot = block * inst.machines + (machine - place) % inst.machines
            pieces.append(Piece(j, machine, machine, slot * time, (slot + 1) * time))
    return Schedule(1, pieces)
