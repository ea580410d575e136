"""The carrying rows: `down` rewrites an instance, `back` brings a solution back.

The cost of a brought-back schedule is always computed anew from its definition.
"""
from math import lcm
from typing import Iterable, Optional, Sequence

from .classes import Class, FMAX, SUMU, UNIFORM, USES_DUE, USES_WEIGHT, fixed_machines
from .instance import Arc, Instance, Job, NO_CURVE
from .rows import goes
from .schedule import Piece, Schedule, Solution, solution
from .solvers.assigned import earliest_slots


def down(row: int, inst: Instance) -> Instance:
    """The lower instance of a carrying row that applies to the instance's class."""
    cls = goes(row, inst.cls)
    if cls is None:
        raise ValueError(f"row {row} does not apply to {inst.cls}")
    arcs, jobs = inst.arcs, _jobs_down(row, inst)
    if row in (45, 46, 47, 48, 51, 52):
        arcs = _turned(arcs)
    machines = fixed_machines(cls.env) or inst.machines
    speeds = inst.speeds or (1,) * machines
    return Instance(cls, machines, speeds if cls.env in UNIFORM else (), tuple(_tidy(cls, job) for job in jobs), arcs)


def _jobs_down(row: int, inst: Instance) -> Iterable[Job]:
    if row == 9:
        return [job._replace(curve=(1, -job.due, ())) for job in inst.jobs]
    if row in (26, 27):
        return [_on_unrelated(job, inst.speeds) for job in inst.jobs]
    if row == 47:
        return [job._replace(due=-job.release) for job in inst.jobs]
    if row == 48:
        greatest = max(job.due for job in inst.jobs)
        return [job._replace(release=greatest - job.due) for job in inst.jobs]
    if row in (51, 52):
        return [job._replace(weight=job.needs[0][1], needs=((0, job.weight),)) for job in inst.jobs]
    return [job._replace(needs=_needs_down(row, inst, job)) for job in inst.jobs]


def _needs_down(row: int, inst: Instance, job: Job) -> tuple[tuple[int, int], ...]:
    if row in (23, 24):
        return tuple((machine, job.needs[0][1]) for machine in range(inst.machines))
    if row in (28, 29, 30, 31):
        return job.needs + ((len(job.needs), 0),)
    if row in (39, 40):
        return tuple(need for need in job.needs if need[1] > 0)
    if row == 54:
        return tuple((machine, 1) for machine, _ in job.needs)
    return job.needs


def _tidy(cls: Class, job: Job) -> Job:
    """A job whose fields that the class does not use have the values that the class demands."""
    return Job(job.release if cls.heads else 0, job.due if cls.crit in USES_DUE else 0,
               job.weight if cls.crit in USES_WEIGHT else 1, job.needs, job.curve if cls.crit == FMAX else NO_CURVE)


def _turned(arcs: Sequence[Arc]) -> tuple[Arc, ...]:
    return tuple((after, before) for before, after in arcs)


def _on_unrelated(job: Job, speeds: tuple[int, ...]) -> Job:
    multiple = lcm(*speeds)
    time = job.needs[0][1]
    slope, base, steps = job.curve
    return job._replace(
        release=job.release * multiple, due=job.due * multiple,
        needs=tuple((machine, time * multiple // speed) for machine, speed in enumerate(speeds)),
        curve=(slope, base * multiple, tuple((above * multiple, add * multiple) for above, add in steps)))


def back(row: int, inst: Instance, lower: Solution) -> Solution:
    """A solution of an instance from one of its lower instance."""
    unit, pieces = lower.schedule
    if row in (26, 27):
        unit = unit * lcm(*inst.speeds)
    elif row in (39, 40):
        numbers = [[oper for oper, need in enumerate(job.needs) if need[1] > 0] for job in inst.jobs]
        pieces = [piece._replace(oper=numbers[piece.job][piece.oper]) for piece in pieces]
    elif row in (45, 46, 47, 48):
        turn = int(lower.cost * unit)
        pieces = [piece._replace(begin=turn - piece.end, end=turn - piece.begin) for piece in pieces]
    elif row == 50:
        ends = {piece.job: piece.end for piece in sorted(pieces, key=lambda piece: piece.end)}
        pieces = _in_order(inst, unit, sorted(ends, key=lambda j: (ends[j], j)))
    elif row in (51, 52):
        begins = sorted(pieces, key=lambda piece: piece.begin, reverse=True)
        pieces = _in_order(inst, unit, [piece.job for piece in begins])
    elif row == 54:
        time = inst.time(0)
        pieces = [piece._replace(begin=piece.begin * time, end=piece.end * time) for piece in _without_gaps(pieces)]
    return solution(inst, Schedule(unit, pieces))


def _in_order(inst: Instance, unit: int, order: Iterable[int]) -> list[Piece]:
    """The jobs on one machine, uncut, in an order from moment 0 without gaps."""
    pieces, moment = [], 0
    for j in order:
        end = moment + unit * inst.time(j)
        pieces.append(Piece(j, 0, 0, moment, end))
        moment = end
    return pieces


def _without_gaps(pieces: list[Piece]) -> list[Piece]:
    """The same pieces without the stretches of time in which no machine works."""
    gone, busy_until = 0, 0
    moved = []
    for piece in sorted(pieces, key=lambda piece: piece.begin):
        gone += max(0, piece.begin - busy_until)
        busy_until = max(busy_until, piece.end)
        moved.append(piece._replace(begin=piece.begin - gone, end=piece.end - gone))
    return moved


def carry(inst: Instance, rows: Iterable[int]) -> list[Instance]:
    """The instances along a chain, the given one first."""
    instances = [inst]
    for row in rows:
        instances.append(down(row, instances[-1]))
    return instances


def bring(instances: Sequence[Instance], rows: Sequence[int], lower: Solution) -> Solution:
    """A solution of the last instance of a chain brought back to the first."""
    for inst, row in zip(reversed(instances[:-1]), reversed(rows)):
        lower = back(row, inst, lower)
    return lower


# The two threshold rows, and unit jobs for Lmax over the moments that count.

def shifted(inst: Instance, bound: int, crit: int) -> Instance:
    """The instance with its due dates raised by a bound and another criterion."""
    return inst._replace(cls=inst.cls._replace(crit=crit), jobs=tuple(job._replace(due=job.due + bound) for job in inst.jobs))


def squeezed(inst: Instance, bound: int) -> Optional[Instance]:
    """Unit jobs for Lmax as an instance for sumU over the moments of the earliest slots, or None."""
    if any(job.due + bound < job.release + 1 for job in inst.jobs):
        return None
    kept = sorted({begin for begin, _ in earliest_slots(inst, inst.machines)})
    jobs = tuple(job._replace(release=sum(1 for moment in kept if moment < job.release),
                              due=sum(1 for moment in kept if moment + 1 <= job.due + bound)) for job in inst.jobs)
    return inst._replace(cls=inst.cls._replace(crit=SUMU), jobs=jobs)
