"""Solvers on parallel machines: identical with preemption, and uniform and unrelated ones."""
import heapq
from fractions import Fraction
from math import lcm
from typing import Optional

from ..assignment import Positions, assign_positions
from ..instance import Instance
from ..schedule import Piece, Schedule
from .one_machine import by_due_date
from .unit_jobs import least_met


def by_falling_time(inst: Instance) -> list[int]:
    """The jobs by time, the longest first, ties to the lesser number."""
    return sorted(range(len(inst.jobs)), key=lambda j: (-inst.time(j), j))


def by_falling_weight(inst: Instance) -> list[int]:
    """The jobs by weight, the greatest first, ties to the lesser number."""
    return sorted(range(len(inst.jobs)), key=lambda j: (-inst.jobs[j].weight, j))


def wrap(inst: Instance) -> Schedule:
    """The jobs in order fill machine after machine up to the optimum (McNaughton)."""
    times = [inst.time(j) for j in range(len(inst.jobs))]
    unit = inst.machines
    bound = max(max(times) * unit, sum(times))
    pieces, machine, moment = [], 0, 0
    for j, time in enumerate(times):
        left = time * unit
        while left > 0:
            if moment == bound:
                machine, moment = machine + 1, 0
            length = min(left, bound - moment)
            pieces.append(Piece(j, 0, machine, moment, moment + length))
            moment += length
            left -= length
    return Schedule(unit, pieces)


def uniform(inst: Instance) -> Schedule:
    """The longest jobs take the least multipliers k/s, ties to the lesser machine."""
    unit = lcm(*inst.speeds)
    waiting = [(Fraction(1, speed), machine, 1) for machine, speed in enumerate(inst.speeds)]
    heapq.heapify(waiting)
    on_machine: list[list[int]] = [[] for _ in inst.speeds]
    for j in by_falling_time(inst):
        _, machine, multiple = heapq.heappop(waiting)
        on_machine[machine].append(j)
        heapq.heappush(waiting, (Fraction(multiple + 1, inst.speeds[machine]), machine, multiple + 1))
    pieces = []
    for machine, jobs in enumerate(on_machine):
        moment = 0
        for j in reversed(jobs):
            end = moment + inst.time(j) * unit // inst.speeds[machine]
            pieces.append(Piece(j, 0, machine, moment, end))
            moment = end
    return Schedule(unit, pieces)


def position_assignment(inst: Instance) -> Positions:
    """The least assignment of jobs to positions on unrelated machines, with its prices."""
    return assign_positions([[time for _, time in job.needs] for job in inst.jobs], inst.machines)


def unrelated(inst: Instance) -> Schedule:
    """A least assignment of jobs to positions from the end of each machine."""
    places = position_assignment(inst).places
    pieces = []
    for machine in range(inst.machines):
        moment = 0
        mine = sorted(((place[1], j) for j, place in enumerate(places) if place[0] == machine), reverse=True)
        for _, j in mine:
            end = moment + inst.jobs[j].needs[machine][1]
            pieces.append(Piece(j, 0, machine, moment, end))
            moment = end
    return Schedule(1, pieces)


def cut_sum(inst: Instance) -> Schedule:
    """The longest jobs on the last places of the machines, one machine after another."""
    order = by_falling_time(inst)
    pieces = []
    for machine in range(inst.machines):
        moment = 0
        for j in reversed(order[machine::inst.machines]):
            pieces.append(Piece(j, 0, machine, moment, moment + inst.time(j)))
            moment += inst.time(j)
    return Schedule(1, pieces)


def cut_weights(inst: Instance) -> Schedule:
    """Jobs of equal time by falling weight, one for each machine at a time."""
    time, pieces = inst.time(0), []
    for number, j in enumerate(by_falling_weight(inst)):
        block, machine = divmod(number, inst.machines)
        pieces.append(Piece(j, 0, machine, block * time, (block + 1) * time))
    return Schedule(1, pieces)


# Due dates on identical machines with preemption.

class _Climb:
    """Jobs laid one after another on machines whose ends go down like stairs; all moments times the machines."""

    def __init__(self, inst: Instance, bound: int, end_by: int) -> None:
        self.inst = inst
        self.bound = bound                      # by which a job may end after its due date
        self.end_by = end_by                    # when all jobs have to end
        self.ends = [(0, machine) for machine in range(inst.machines)]      # the latest end first
        self.pieces: list[Piece] = []

    def lay(self, j: int) -> bool:
        """Whether a job can be laid so that it ends in time, and then it is."""
        time = self.inst.time(j) * self.inst.machines
        due = max(0, min(self.inst.jobs[j].due * self.inst.machines + self.bound, self.end_by))
        end, machine = self.ends[0]
        if end + time <= due:
            self.pieces.append(Piece(j, 0, machine, end, end + time))
            self.ends[0] = (end + time, machine)
            return True
        last = max(k for k, (end, _) in enumerate(self.ends) if end + time > due)
        if last == self.inst.machines - 1:
            return False
        self.lay_on_two(j, last, due)
        return True

    def lay_on_two(self, j: int, last: int, due: int) -> None:
        """A job runs on the machine with the later end up to its due moment, and before that on the next one."""
        (upper, fuller), (lower, other) = self.ends[last:last + 2]
        if upper < due:
            self.pieces.append(Piece(j, 0, fuller, upper, due))
        rest = lower + self.inst.time(j) * self.inst.machines - (due - upper)
        self.pieces.append(Piece(j, 0, other, lower, rest))
        self.ends[last:last + 2] = [(rest, other)]
        self.ends.insert(0, (due, fuller))


def _climb(inst: Instance, order: list[int], bound: int, end_by: int) -> Optional[list[Piece]]:
    """The pieces of jobs that end by their due dates and a bound, and by an end, or None."""
    climb = _Climb(inst, bound, end_by)
    return climb.pieces if all(climb.lay(j) for j in order) else None


def stairs(inst: Instance) -> Schedule:
    """By due date, each job on two machines whose ends enclose the last begin that it can have.

    First the least bound on the lateness is found, and then the least end, in parts of the number of machines, that it allows.
    """
    unit, order = inst.machines, by_due_date(inst)
    times = [inst.time(j) for j in order]
    last = unit * sum(times)
    low = unit * max(time - inst.jobs[j].due for time, j in zip(times, order))
    high = last - unit * inst.jobs[order[0]].due
    bound = least_met(low, high, lambda bound: _climb(inst, order, bound, last) is not None)
    end_by = least_met(unit * max(times), last, lambda end: _climb(inst, order, bound, end) is not None)
    return Schedule(unit, _climb(inst, order, bound, end_by) or [])
