"""Solvers that assign jobs to slots of time, or to places on uniform machines."""
from math import lcm
from typing import Callable, NamedTuple

from ..assignment import assign
from ..instance import Instance, Job, job_cost
from ..schedule import Piece, Schedule

FORBIDDEN = 2 ** 90
_Value = Callable[[Job, int, int], int]         # what a job costs that ends at a moment, times the unit


def late_cost(job: Job, end: int, unit: int = 1) -> int:
    """The weighted tardiness of a job, times the unit."""
    return job.weight * max(0, end - unit * job.due)


def count_cost(job: Job, end: int, unit: int = 1) -> int:
    """The weight of a job that is late."""
    return job.weight if end > unit * job.due else 0


# Slots of unit jobs.

def earliest_slots(inst: Instance, machines: int) -> list[tuple[int, int]]:
    """The unit slots (begin, machine) of the earliest schedule on so many machines."""
    slots, moment, used = [], 0, 0
    for release in sorted(job.release for job in inst.jobs):
        if used == machines:
            moment, used = moment + 1, 0
        if release > moment:
            moment, used = release, 0
        slots.append((moment, used))
        used += 1
    return slots


def _assigned_begins(inst: Instance, begins: list[int], length: int, value: _Value) -> list[int]:
    """The number of the slot of each job in a least assignment, a job lasting so long from its slot's begin."""
    table = [[value(job, begin + length, 1) if begin >= job.release else FORBIDDEN for begin in begins] for job in inst.jobs]
    return assign(table, len(begins))


def _in_slots(inst: Instance, value: _Value) -> Schedule:
    slots = earliest_slots(inst, inst.machines)
    places = _assigned_begins(inst, [begin for begin, _ in slots], 1, value)
    return Schedule(1, [Piece(j, 0, slots[place][1], slots[place][0], slots[place][0] + 1) for j, place in enumerate(places)])


def slots_late(inst: Instance) -> Schedule:
    """Least weighted tardiness over slots."""
    return _in_slots(inst, late_cost)


def slots_count(inst: Instance) -> Schedule:
    """Least weight of late jobs over slots."""
    return _in_slots(inst, count_cost)


def _in_lines(inst: Instance, value: _Value) -> Schedule:
    """A least assignment to the earliest slots of the first machine, then without waiting."""
    begins = [begin for begin, _ in earliest_slots(inst, 1)]
    places = _assigned_begins(inst, begins, inst.machines, value)
    return Schedule(1, [Piece(j, machine, machine, begins[place] + machine, begins[place] + machine + 1)
                        for j, place in enumerate(places) for machine in range(inst.machines)])


def lines_late(inst: Instance) -> Schedule:
    """Least weighted tardiness on a flow shop of unit operations."""
    return _in_lines(inst, late_cost)


def lines_count(inst: Instance) -> Schedule:
    """Least weight of late jobs on a flow shop of unit operations."""
    return _in_lines(inst, count_cost)


# Places of jobs of equal times on uniform machines.

class _Places(NamedTuple):
    """The common multiple of the speeds, and over it the earliest places (end, machine)."""
    unit: int
    places: list[tuple[int, int]]


def _earliest_places(inst: Instance) -> _Places:
    unit, time = lcm(*inst.speeds), inst.time(0)
    ends = [(number * time * (unit // speed), machine) for machine, speed in enumerate(inst.speeds)
            for number in range(1, len(inst.jobs) + 1)]
    return _Places(unit, sorted(ends)[:len(inst.jobs)])


def _place_piece(inst: Instance, unit: int, j: int, place: tuple[int, int]) -> Piece:
    end, machine = place
    return Piece(j, 0, machine, end - inst.time(j) * (unit // inst.speeds[machine]), end)


def places_most(inst: Instance) -> Schedule:
    """From the last of the earliest places to the first, the job of least cost there."""
    unit, places = _earliest_places(inst)
    left, pieces = set(range(len(inst.jobs))), []
    for place in reversed(places):
        _, last = min((job_cost(inst.jobs[j], place[0], unit), j) for j in left)
        left.remove(last)
        pieces.append(_place_piece(inst, unit, last, place))
    return Schedule(unit, pieces)


def _in_places(inst: Instance, value: _Value) -> Schedule:
    """A least assignment of the jobs to the earliest places.

    All jobs are as long on a machine, so a later place is never better than an earlier one.
    """
    unit, places = _earliest_places(inst)
    table = [[value(job, end, unit) for end, _ in places] for job in inst.jobs]
    chosen = assign(table, len(places))
    return Schedule(unit, [_place_piece(inst, unit, j, places[place]) for j, place in enumerate(chosen)])


def places_late(inst: Instance) -> Schedule:
    """Least weighted tardiness over places."""
    return _in_places(inst, late_cost)


def places_count(inst: Instance) -> Schedule:
    """Least weight of late jobs over places."""
    return _in_places(inst, count_cost)
