"""Solvers by lists for jobs of unit and equal times on identical machines."""
import heapq
from bisect import bisect_right
from functools import lru_cache
from typing import Callable

from ..instance import Instance, followers, job_cost, paths_from, topological
from ..schedule import Piece, Schedule


def list_unit_jobs(inst: Instance, key: Callable[[int], tuple[int, int]]) -> Schedule:
    """At each whole moment the free jobs of least key run, on machines in order."""
    before: list[set[int]] = [set() for _ in inst.jobs]
    for one, two in inst.arcs:
        before[two].add(one)
    left, done = set(range(len(inst.jobs))), set[int]()
    pieces, moment = [], 0
    while left:
        free = sorted((j for j in left if before[j] <= done), key=key)[:inst.machines]
        for machine, j in enumerate(free):
            pieces.append(Piece(j, 0, machine, moment, moment + 1))
        left.difference_update(free)
        done.update(free)
        moment += 1
    return Schedule(1, pieces)


def levels_of(inst: Instance) -> list[int]:
    """The number of arcs on the longest path that leaves each job."""
    level = [0] * len(inst.jobs)
    after = followers(len(inst.jobs), inst.arcs)
    for j in reversed(topological(len(inst.jobs), inst.arcs)):
        for k in after[j]:
            level[j] = max(level[j], level[k] + 1)
    return level


def levels(inst: Instance) -> Schedule:
    """At each moment the free jobs of highest level (Hu)."""
    level = levels_of(inst)
    return list_unit_jobs(inst, lambda j: (-level[j], j))


def lexical_labels(inst: Instance) -> list[int]:
    """The labels of Coffman and Graham, from 1 on."""
    count = len(inst.jobs)
    reach = paths_from(inst)
    behind = [0] * count                        # jobs to which a path of two or more arcs leads
    for one, two in inst.arcs:
        behind[one] |= reach[two]
    after = followers(count, [arc for arc in inst.arcs if not behind[arc[0]] >> arc[1] & 1])
    label = [0] * count
    for following in range(1, count + 1):
        _, best = min((sorted((label[k] for k in after[j]), reverse=True), j) for j in range(count)
                      if label[j] == 0 and all(label[k] for k in after[j]))
        label[best] = following
    return label


def lexical(inst: Instance) -> Schedule:
    """At each moment the free jobs of greatest label run."""
    label = lexical_labels(inst)
    return list_unit_jobs(inst, lambda j: (-label[j], j))


def search(inst: Instance) -> Schedule:
    """At each whole moment the released jobs of least due date run."""
    waiting = sorted(range(len(inst.jobs)), key=lambda j: (inst.jobs[j].release, j))
    ready: list[tuple[int, int]] = []
    pieces = []
    moment, following = 0, 0
    while ready or following < len(waiting):
        if not ready:
            moment = max(moment, inst.jobs[waiting[following]].release)
        while following < len(waiting) and inst.jobs[waiting[following]].release <= moment:
            heapq.heappush(ready, (inst.jobs[waiting[following]].due, waiting[following]))
            following += 1
        for machine in range(min(inst.machines, len(ready))):
            _, j = heapq.heappop(ready)
            pieces.append(Piece(j, 0, machine, moment, moment + 1))
        moment += 1
    return Schedule(1, pieces)


def least_met(low: int, high: int, met: Callable[[int], bool]) -> int:
    """The least whole number from low on that is met, where high is met, by halving."""
    while low < high:
        middle = (low + high) // 2
        if met(middle):
            high = middle
        else:
            low = middle + 1
    return high


def lowered(inst: Instance, due: list[int]) -> list[int]:
    """Due slots lowered: all that comes after a job by some due slot has to fit behind the job."""
    low = list(due)
    for j, after in _jobs_after(inst):
        for count, slot in enumerate(sorted(low[k] for k in after), 1):
            low[j] = min(low[j], slot - -(-count // inst.machines))
    return low


@lru_cache(maxsize=1)
def _jobs_after(inst: Instance) -> list[tuple[int, list[int]]]:
    """Each job with the jobs to which a path leads from it, these before it."""
    reach = paths_from(inst)
    return [(j, [k for k in range(len(inst.jobs)) if reach[j] >> k & 1])
            for j in reversed(topological(len(inst.jobs), inst.arcs))]


def due_slots(inst: Instance) -> Schedule:
    """Jobs of equal time in slots by lowered due slot, for the least bound that they keep."""
    count, time = len(inst.jobs), inst.time(0)
    costs = [[job_cost(job, time * slot) for slot in range(1, count + 1)] for job in inst.jobs]

    def listed(bound: int) -> tuple[list[int], list[Piece]]:
        low = lowered(inst, [bisect_right(line, bound) for line in costs])
        return low, list_unit_jobs(inst, lambda j: (low[j], j)).pieces

    def met(bound: int) -> bool:
        low, pieces = listed(bound)
        return all(piece.end <= low[piece.job] for piece in pieces)

    bound = least_met(max(line[0] for line in costs), max(line[-1] for line in costs), met)
    return Schedule(1, [piece._replace(begin=piece.begin * time, end=piece.end * time) for piece in listed(bound)[1]])
