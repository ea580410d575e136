"""Solvers on one machine."""
import heapq
from fractions import Fraction
from typing import Iterable, NamedTuple, Optional

from ..instance import Instance, job_cost, topological
from ..schedule import Piece, Schedule


def sequence(inst: Instance, order: Iterable[int]) -> Schedule:
    """The jobs on one machine in an order from moment 0 without gaps."""
    pieces, moment = [], 0
    for j in order:
        end = moment + inst.time(j)
        pieces.append(Piece(j, 0, 0, moment, end))
        moment = end
    return Schedule(1, pieces)


def smith(inst: Instance) -> Schedule:
    """Greatest ratio of weight to time first."""
    return sequence(inst, sorted(range(len(inst.jobs)), key=lambda j: (Fraction(-inst.jobs[j].weight, inst.time(j)), j)))


def lawler(inst: Instance) -> Schedule:
    """From the end: of the jobs without a successor left, the one of least cost goes last."""
    successors_left = [0] * len(inst.jobs)
    before: list[list[int]] = [[] for _ in inst.jobs]
    for one, two in inst.arcs:
        successors_left[one] += 1
        before[two].append(one)
    left = set(range(len(inst.jobs)))
    total = sum(inst.time(j) for j in left)
    order = []
    while left:
        _, last = min((job_cost(inst.jobs[j], total), j) for j in left if successors_left[j] == 0)
        order.append(last)
        left.remove(last)
        total -= inst.time(last)
        for j in before[last]:
            successors_left[j] -= 1
    return sequence(inst, reversed(order))


def by_due_date(inst: Instance) -> list[int]:
    """The jobs by due date, ties to the lesser number."""
    return sorted(range(len(inst.jobs)), key=lambda j: (inst.jobs[j].due, j))


def moore(inst: Instance) -> Schedule:
    """By due date; at an overrun the longest accepted job is dropped."""
    accepted: list[int] = []
    total = 0
    for j in by_due_date(inst):
        accepted.append(j)
        total += inst.time(j)
        if total > inst.jobs[j].due:
            longest = min(accepted, key=lambda k: (-inst.time(k), k))
            accepted.remove(longest)
            total -= inst.time(longest)
    return sequence(inst, accepted + [j for j in range(len(inst.jobs)) if j not in set(accepted)])


def horn(inst: Instance) -> Schedule:
    """A job of greatest ratio is joined behind its predecessor, again and again.

    A joined job keeps the number of its first member. A job without a predecessor is joined behind the start of the schedule.
    """
    start = len(inst.jobs)
    parent = [start] * start
    for before, after in inst.arcs:
        parent[after] = before
    head_of = list(range(start + 1))            # the joined job of which a job is a member
    members = [[j] for j in range(start)] + [[]]
    time = [inst.time(j) for j in range(start)]
    weight = [job.weight for job in inst.jobs]
    left = set(range(start))
    while left:
        best = min(left, key=lambda j: (Fraction(-weight[j], time[j]), j))
        left.remove(best)
        front = head_of[parent[best]]
        for j in members[best]:
            head_of[j] = front
        members[front].extend(members[best])
        if front != start:
            time[front] += time[best]
            weight[front] += weight[best]
    return sequence(inst, members[start])


def raised_heads(inst: Instance) -> list[int]:
    """Release dates raised along the arcs: no job may begin before a predecessor's earliest end."""
    head = [job.release for job in inst.jobs]
    before: list[list[int]] = [[] for _ in inst.jobs]
    for one, two in inst.arcs:
        before[two].append(one)
    for j in topological(len(inst.jobs), inst.arcs):
        for k in before[j]:
            head[j] = max(head[j], head[k] + inst.time(k))
    return head


class Block(NamedTuple):
    """A stretch without idle time of the earliest schedule of some jobs."""
    begin: int
    end: int
    jobs: list[int]


def _blocks_of(inst: Instance, head: list[int], jobs: Iterable[int]) -> list[Block]:
    found: list[Block] = []
    for j in sorted(jobs, key=lambda j: (head[j], j)):
        if not found or found[-1].end < head[j]:
            found.append(Block(head[j], head[j], []))
        last = found[-1]
        found[-1] = Block(last.begin, last.end + inst.time(j), last.jobs + [j])
    return found


class Blocks(NamedTuple):
    """The pieces of the schedule by blocks, all blocks met with their least cost at the end, and the raised release dates."""
    pieces: list[Piece]
    met: list[tuple[int, list[int]]]
    head: list[int]


def block_schedule(inst: Instance) -> Blocks:
    """Blocks of the earliest schedule; the least costly job at a block's end takes what is left, and the others go on."""
    head = raised_heads(inst)
    after: list[set[int]] = [set() for _ in inst.jobs]
    for one, two in inst.arcs:
        after[one].add(two)
    found = Blocks([], [], head)
    waiting = _blocks_of(inst, head, range(len(inst.jobs)))
    while waiting:
        block = waiting.pop()
        inside = set(block.jobs)
        cost, last = min((job_cost(inst.jobs[j], block.end), j) for j in block.jobs if not after[j] & inside)
        found.met.append((cost, block.jobs))
        rest = _blocks_of(inst, head, inside - {last})
        moment = block.begin
        for inner in rest + [Block(block.end, block.end, [])]:
            if moment < inner.begin:
                found.pieces.append(Piece(last, 0, 0, moment, inner.begin))
            moment = inner.end
        waiting.extend(rest)
    return found


def blocks(inst: Instance) -> Schedule:
    """The schedule by blocks."""
    return Schedule(1, block_schedule(inst).pieces)


def shortest(inst: Instance) -> Schedule:
    """Least remaining time first, with preemption at release dates."""
    releases = sorted((job.release, j) for j, job in enumerate(inst.jobs))
    remaining = [inst.time(j) for j in range(len(inst.jobs))]
    ready: list[tuple[int, int]] = []
    pieces: list[Piece] = []
    moment, following = 0, 0
    while ready or following < len(releases):
        if not ready:
            moment = max(moment, releases[following][0])
        while following < len(releases) and releases[following][0] <= moment:
            j = releases[following][1]
            heapq.heappush(ready, (remaining[j], j))
            following += 1
        time, j = heapq.heappop(ready)
        end = min([moment + time] + [release for release, _ in releases[following:following + 1]])
        if pieces and pieces[-1].job == j and pieces[-1].end == moment:
            pieces[-1] = pieces[-1]._replace(end=end)
        else:
            pieces.append(Piece(j, 0, 0, moment, end))
        if end - moment < time:
            heapq.heappush(ready, (time - (end - moment), j))
        moment = end
    return Schedule(1, pieces)


def late_table_fits(inst: Instance) -> bool:
    """Whether the times add up to at most 10^6."""
    return sum(inst.time(j) for j in range(len(inst.jobs))) <= 10 ** 6


class _State(NamedTuple):
    """Jobs that are on time: their total time, their weight, the last of them, and the state without it."""
    time: int
    weight: int
    last: int = -1
    rest: Optional["_State"] = None


def late_table(inst: Instance) -> Schedule:
    """The greatest weight on time for each total time, job by job in order of due dates."""
    states = [_State(0, 0)]                     # times and weights both rise
    for j in by_due_date(inst):
        time, job = inst.time(j), inst.jobs[j]
        added = [_State(state.time + time, state.weight + job.weight, j, state)
                 for state in states if state.time + time <= job.due]
        merged: list[_State] = []
        for state in heapq.merge(states, added, key=lambda state: (state.time, -state.weight)):
            if not merged or state.weight > merged[-1].weight:
                merged.append(state)
        states = merged
    chosen: set[int] = set()
    best: Optional[_State] = states[-1]
    while best is not None:
        chosen.add(best.last)
        best = best.rest
    order = [j for j in by_due_date(inst) if j in chosen]
    return sequence(inst, order + [j for j in range(len(inst.jobs)) if j not in chosen])


def equal_heads(inst: Instance) -> Schedule:
    """By raised release date, each job as early as it can."""
    head, pieces, moment = raised_heads(inst), [], 0
    for j in sorted(range(len(inst.jobs)), key=lambda j: (head[j], j)):
        begin = max(moment, head[j])
        moment = begin + inst.time(j)
        pieces.append(Piece(j, 0, 0, begin, moment))
    return Schedule(1, pieces)
