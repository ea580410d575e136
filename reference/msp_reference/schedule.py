"""Schedules: feasibility with the first break, cost, and the settled form."""
from fractions import Fraction
from math import gcd
from typing import Callable, NamedTuple, Optional

from .classes import (CMAX, LMAX, FMAX, SUMC, SUMWC, SUMU, SUMWU, SUMT, ONE_OPERATION, UNIFORM, UNRELATED, FLOW_SHOPS, JOB_SHOPS)
from .instance import Instance, Job, job_cost


class Piece(NamedTuple):
    """A piece of work: job, operation and machine from 0, and two moments in parts of the unit."""
    job: int
    oper: int
    machine: int
    begin: int
    end: int


class Schedule(NamedTuple):
    """A schedule: its unit, at least 1, and its pieces."""
    unit: int
    pieces: list[Piece]


class Solution(NamedTuple):
    """A schedule with its cost."""
    schedule: Schedule
    cost: Fraction


class Break(NamedTuple):
    """The first condition that a schedule breaks: its word, and the pieces, the arc or the job and operation, from 0."""
    word: str
    numbers: tuple[int, ...]


def solution(inst: Instance, schedule: Schedule) -> Solution:
    """A schedule together with its cost for an instance."""
    return Solution(schedule, cost(inst, schedule))


def settle(schedule: Schedule) -> Schedule:
    """The same schedule in the lowest unit, its pieces by beginning, then machine."""
    divisor = schedule.unit
    for piece in schedule.pieces:
        divisor = gcd(divisor, piece.begin, piece.end)
    pieces = [piece._replace(begin=piece.begin // divisor, end=piece.end // divisor) for piece in schedule.pieces]
    pieces.sort(key=lambda piece: (piece.begin, piece.machine))
    return Schedule(schedule.unit // divisor, pieces)


def cost(inst: Instance, schedule: Schedule) -> Fraction:
    """The cost of a feasible schedule."""
    ends = [-1] * len(inst.jobs)
    for piece in schedule.pieces:
        ends[piece.job] = max(ends[piece.job], piece.end)
    values = [_job_value(inst.cls.crit, job, end, schedule.unit) for job, end in zip(inst.jobs, ends)]
    return Fraction(max(values) if inst.cls.crit in (CMAX, LMAX, FMAX) else sum(values), schedule.unit)


def _job_value(crit: int, job: Job, end: int, unit: int) -> int:
    """The cost of a job that ends, times the unit."""
    if crit == FMAX:
        return job_cost(job, end, unit)
    late = end - unit * job.due
    if crit in (SUMU, SUMWU):
        return unit * (job.weight if crit == SUMWU else 1) if late > 0 else 0
    tardy = max(0, late)
    return {CMAX: end, LMAX: late, SUMC: end, SUMWC: job.weight * end, SUMT: tardy}.get(crit, job.weight * tardy)


def operations(inst: Instance, job: int) -> list[int]:
    """The numbers of the operations of a job with work to do."""
    if inst.cls.env in ONE_OPERATION:
        return [0]
    return [oper for oper, (_, time) in enumerate(inst.jobs[job].needs) if time > 0]


def _may_run(inst: Instance, piece: Piece) -> bool:
    """Whether a piece names an operation with work and a machine that may run it."""
    needs = inst.jobs[piece.job].needs
    if inst.cls.env in ONE_OPERATION:
        return piece.oper == 0 and 0 <= piece.machine < inst.machines
    return 0 <= piece.oper < len(needs) and needs[piece.oper][1] > 0 and needs[piece.oper][0] == piece.machine


def first_break(inst: Instance, schedule: Schedule) -> Optional[Break]:
    """The first broken condition, or None if the schedule is feasible."""
    pieces, unit = schedule.pieces, schedule.unit
    for number, piece in enumerate(pieces):
        if not 0 <= piece.begin < piece.end:
            return Break("span", (number,))
    for number, piece in enumerate(pieces):
        if not _may_run(inst, piece):
            return Break("place", (number,))
    overlap = _overlap("machine", pieces, lambda piece: piece.machine) or _overlap("job", pieces, lambda piece: piece.job)
    if overlap:
        return overlap
    for number, piece in enumerate(pieces):
        if piece.begin < unit * inst.jobs[piece.job].release:
            return Break("release", (number,))
    return _order_break(inst, pieces) or _route_break(inst, pieces) or _work_break(inst, schedule)


def _overlap(word: str, pieces: list[Piece], key: Callable[[Piece], int]) -> Optional[Break]:
    order = sorted(range(len(pieces)), key=lambda number: (key(pieces[number]), pieces[number].begin, number))
    for first, second in zip(order, order[1:]):
        if key(pieces[first]) == key(pieces[second]) and pieces[second].begin < pieces[first].end:
            return Break(word, (first, second))
    return None


def _spans(pieces: list[Piece], key: Callable[[Piece], tuple[int, ...]]) -> dict[tuple[int, ...], tuple[int, int]]:
    """The first begin and the last end of the pieces with each key."""
    found: dict[tuple[int, ...], tuple[int, int]] = {}
    for piece in pieces:
        begin, end = found.get(key(piece), (piece.begin, piece.end))
        found[key(piece)] = min(begin, piece.begin), max(end, piece.end)
    return found


def _order_break(inst: Instance, pieces: list[Piece]) -> Optional[Break]:
    spans = _spans(pieces, lambda piece: (piece.job,)) if inst.arcs else {}
    for place, (before, after) in enumerate(inst.arcs):
        if (before,) in spans and (after,) in spans and spans[(after,)][0] < spans[(before,)][1]:
            return Break("arc", (place,))
    return None


def _route_break(inst: Instance, pieces: list[Piece]) -> Optional[Break]:
    if inst.cls.env not in FLOW_SHOPS + JOB_SHOPS:
        return None
    spans = _spans(pieces, lambda piece: (piece.job, piece.oper))
    latest, last_job = 0, -1
    for (job, oper), (begin, end) in sorted(spans.items()):
        if job != last_job:
            latest, last_job = 0, job
        if begin < latest:
            return Break("route", (job, oper))
        latest = max(latest, end)
    return None


def _work_break(inst: Instance, schedule: Schedule) -> Optional[Break]:
    of_operation: dict[tuple[int, int], list[Piece]] = {}
    for piece in schedule.pieces:
        of_operation.setdefault((piece.job, piece.oper), []).append(piece)
    for job in range(len(inst.jobs)):
        for oper in operations(inst, job):
            pieces = of_operation.get((job, oper), [])
            if not inst.cls.cut and len(pieces) != 1 or not _work_done(inst, schedule.unit, (job, oper), pieces):
                return Break("work", (job, oper))
    return None


def _work_done(inst: Instance, unit: int, operation: tuple[int, int], pieces: list[Piece]) -> bool:
    """Whether the pieces of an operation do exactly its work."""
    job, oper = operation
    needs = inst.jobs[job].needs
    if inst.cls.env in UNRELATED:
        return sum(Fraction(piece.end - piece.begin, needs[piece.machine][1]) for piece in pieces) == unit
    if inst.cls.env in UNIFORM:
        return sum((piece.end - piece.begin) * inst.speeds[piece.machine] for piece in pieces) == unit * needs[0][1]
    return sum(piece.end - piece.begin for piece in pieces) == unit * needs[oper][1]
