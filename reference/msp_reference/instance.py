"""Instances, the conditions of a class on an instance, and cycles of arcs."""
from math import lcm
from typing import NamedTuple, Optional, Sequence

from .classes import (CHAINS, Class, EQUAL, FMAX, FLOW_SHOPS, FREE, INTREE, JOB_SHOPS, OPEN_SHOPS, OUTTREE, SHORT_ROUTES,
                      UNIFORM, UNIT, UNRELATED, USES_DUE, USES_WEIGHT, fixed_machines)

MOST_JOBS = 400
MOST_MACHINES = 32
MOST_ARCS = 20_000
MOST_OPERATIONS = 32
MOST_STEPS = 16
LONGEST_NAME = 32
GREATEST = 10 ** 9
GREATEST_EQUAL_TIME = 10 ** 6
GREATEST_SPEED = 10 ** 6
GREATEST_MULTIPLE = 2 ** 30

Need = tuple[int, int]                                  # a machine and a time
Curve = tuple[int, int, tuple[tuple[int, int], ...]]    # a slope, a base, and steps: a threshold and an add
Arc = tuple[int, int]                                   # the job before, and the job after
NO_CURVE: Curve = (0, 0, ())


class Job(NamedTuple):
    """A job: dates, weight, the needs of its operations, and its curve for fmax."""
    release: int = 0
    due: int = 0
    weight: int = 1
    needs: tuple[Need, ...] = ()
    curve: Curve = NO_CURVE


class Instance(NamedTuple):
    """An instance: its class, machines, speeds, jobs and arcs, jobs and machines counted from 0."""
    cls: Class
    machines: int
    speeds: tuple[int, ...]
    jobs: tuple[Job, ...]
    arcs: tuple[Arc, ...]

    def time(self, job: int) -> int:
        """The time of the first operation of a job."""
        return self.jobs[job].needs[0][1]


def job_cost(job: Job, end: int, scale: int = 1) -> int:
    """The curve of a job at the moment end/scale, times scale."""
    slope, base, steps = job.curve
    return slope * end + scale * (base + sum(add for above, add in steps if scale * above < end))


def least_time(env: int) -> int:
    """The least time that an operation may have in an environment."""
    return 0 if env in OPEN_SHOPS or env in FLOW_SHOPS else 1


def zero_needs(cls: Class, job: Job) -> bool:
    """Whether all times of a job on an open or flow shop are 0."""
    return (cls.env in OPEN_SHOPS or cls.env in FLOW_SHOPS) and not any(time for _, time in job.needs)


def repeated_machine(cls: Class, job: Job) -> bool:
    """Whether neighbours of a job shop's route are on one machine."""
    return cls.env in JOB_SHOPS and any(one[0] == two[0] for one, two in zip(job.needs, job.needs[1:]))


def wrong_degree(cls: Class, job_count: int, arcs: Sequence[Arc]) -> Optional[int]:
    """The least job with too many arcs for chains, intree or outtree, or None."""
    leaving, entering = [0] * job_count, [0] * job_count
    for before, after in arcs:
        leaving[before] += 1
        entering[after] += 1
    for j in range(job_count):
        if cls.order in (CHAINS, INTREE) and leaving[j] > 1 or cls.order in (CHAINS, OUTTREE) and entering[j] > 1:
            return j
    return None


def followers(job_count: int, arcs: Sequence[Arc]) -> list[list[int]]:
    """For each job the jobs at the ends of its arcs, in their order."""
    after: list[list[int]] = [[] for _ in range(job_count)]
    for one, two in arcs:
        after[one].append(two)
    return after


def topological(job_count: int, arcs: Sequence[Arc]) -> list[int]:
    """All jobs, each once, so that every arc goes forward; fewer where arcs have a cycle."""
    after = followers(job_count, arcs)
    entering = [0] * job_count
    for _, j in arcs:
        entering[j] += 1
    ready = [j for j in range(job_count) if entering[j] == 0]
    order = []
    while ready:
        j = ready.pop()
        order.append(j)
        for k in after[j]:
            entering[k] -= 1
            if entering[k] == 0:
                ready.append(k)
    return order


def cycle(job_count: int, arcs: Sequence[Arc]) -> Optional[int]:
    """The least job from which a path of at least one arc leads to itself, or None."""
    known = tuple(set(arcs))
    if len(topological(job_count, known)) == job_count:
        return None
    after = followers(job_count, known)
    return next(j for j in range(job_count) if _leads_to(after, j, j))


def _leads_to(after: list[list[int]], start: int, wanted: int) -> bool:
    seen: set[int] = set()
    waiting = [start]
    while waiting:
        for k in after[waiting.pop()]:
            if k == wanted:
                return True
            if k not in seen:
                seen.add(k)
                waiting.append(k)
    return False


def paths_from(inst: Instance) -> list[int]:
    """For each job the jobs to which a path of at least one arc leads, as bits."""
    after = followers(len(inst.jobs), inst.arcs)
    reach = [0] * len(inst.jobs)
    for j in reversed(topological(len(inst.jobs), inst.arcs)):
        for k in after[j]:
            reach[j] |= reach[k] | 1 << k
    return reach


# The conditions of a class.

def check(inst: Instance, carried: bool = False) -> Optional[str]:
    """The first condition of the class that fails, in words, or None; a carried instance has wider limits."""
    width = 2 ** 30 if carried and inst.cls.env in UNRELATED else 1
    dates = (2 if carried else 1) * GREATEST * width
    broken = _machines_break(inst)
    if broken:
        return broken
    for j, job in enumerate(inst.jobs):
        fits = (_needs_fit(inst, job, width) and _times_fit(inst, job) and _dates_fit(inst.cls, job, dates)
                and _curve_fits(inst.cls, job, dates, width))
        if not fits:
            return f"job {j}"
    if carried and max(j.due for j in inst.jobs) - min(j.due for j in inst.jobs) > 2 * GREATEST * width:
        return "due dates far apart"
    return _arcs_break(inst)


def _machines_break(inst: Instance) -> Optional[str]:
    if not 1 <= len(inst.jobs) <= MOST_JOBS:
        return "jobs"
    if inst.machines != (fixed_machines(inst.cls.env) or inst.machines) or not 1 <= inst.machines <= MOST_MACHINES:
        return "machines"
    if inst.cls.env not in UNIFORM:
        return "speeds" if inst.speeds else None
    if len(inst.speeds) != inst.machines or not all(1 <= speed <= GREATEST_SPEED for speed in inst.speeds):
        return "speeds"
    return "multiple" if lcm(*inst.speeds) > GREATEST_MULTIPLE else None


def _arcs_break(inst: Instance) -> Optional[str]:
    if len(inst.arcs) > MOST_ARCS or len(set(inst.arcs)) != len(inst.arcs) or (inst.arcs and inst.cls.order == FREE):
        return "arcs"
    if not all(0 <= j < len(inst.jobs) for arc in inst.arcs for j in arc):
        return "arcs"
    return None if wrong_degree(inst.cls, len(inst.jobs), inst.arcs) is None else "degree"


def _needs_fit(inst: Instance, job: Job, width: int) -> bool:
    cls = inst.cls
    places = [machine for machine, _ in job.needs]
    if cls.env in JOB_SHOPS:
        fits = (1 <= len(places) <= (2 if cls.env in SHORT_ROUTES else MOST_OPERATIONS)
                and all(0 <= machine < inst.machines for machine in places) and not repeated_machine(cls, job))
    elif cls.env in OPEN_SHOPS + FLOW_SHOPS + UNRELATED:
        fits = places == list(range(inst.machines)) and not zero_needs(cls, job)
    else:
        fits = places == [0]
    greatest = GREATEST_EQUAL_TIME if cls.times == EQUAL else GREATEST * width
    return fits and all(least_time(cls.env) <= time <= greatest for _, time in job.needs)


def _times_fit(inst: Instance, job: Job) -> bool:
    wanted = {UNIT: 1, EQUAL: inst.time(0)}.get(inst.cls.times)
    return wanted is None or all(time == wanted for _, time in job.needs)


def _dates_fit(cls: Class, job: Job, dates: int) -> bool:
    return (0 <= job.release <= dates and (cls.heads or job.release == 0)
            and -dates <= job.due <= dates and (cls.crit in USES_DUE or job.due == 0)
            and 1 <= job.weight <= GREATEST and (cls.crit in USES_WEIGHT or job.weight == 1))


def _curve_fits(cls: Class, job: Job, dates: int, width: int) -> bool:
    slope, base, steps = job.curve
    if cls.crit != FMAX:
        return job.curve == NO_CURVE
    return (0 <= slope <= GREATEST and -dates <= base <= dates and len(steps) <= MOST_STEPS
            and all(0 <= number <= GREATEST * width for step in steps for number in step))
