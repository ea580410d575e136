"""The step of late jobs to a window of time, and the windows with which it is made. No bound rests on how they are chosen.

Where jobs are counted that are late, release dates and due dates say where a job has to be that is not late. The jobs of a window are looked at
alone; of other windows, apart from it, that have more work than time, some job is late.
"""
from __future__ import annotations

from bisect import bisect_right, insort
from fractions import Fraction
from operator import attrgetter
from typing import Dict, Iterator, List, NamedTuple, Sequence, Tuple

from .classes import ClassName
from .loosenings import Loosening, alone, changed, earliest, kept, least_time, no_release
from .texts import Instance, Job

Span = Tuple[int, int]  # (two moments)
MOMENTS = 60  # (release dates, and due dates)
BEST = 6  # (windows that are looked at alone, of each kind)


def in_windows(kind: ClassName) -> ClassName | None:
    """The class without release dates, of late jobs without precedence, where no machine has a speed."""
    return no_release(kind) if kind.criterion[-1] == "U" and not kind.precedence and kind.kind != "Q" else None


def in_time(job: Job, given: Instance) -> bool:
    """Whether a job alone ends by its due date."""
    return earliest(job, given) <= job.due_date


def inside(given: Instance, span: Span) -> List[Job]:
    """The jobs that may end by their due dates, and have to be in a window then."""
    return [it for it in given.jobs if span[0] <= it.release_date and it.due_date <= span[1] and in_time(it, given)]


def room(given: Instance, those: Sequence[Job], span: Span) -> int:
    """How much work the jobs of a window can have if all are in time. On one machine without cuts one of them begins first, and another ends last."""
    if given.kind.kind != "1" or "pmtn" in given.kind.items or len(those) < 2:
        return given.machines * (span[1] - span[0])
    first, last = min(those, key=attrgetter("release_date")), max(those, key=attrgetter("due_date"))
    if first is not last:
        return last.due_date - first.release_date
    others = [it for it in those if it is not first]
    return max(max(it.due_date for it in others) - first.release_date, last.due_date - min(it.release_date for it in others))


def least_late(given: Instance, span: Span) -> int:
    """The least weight of the jobs of a window, where they have more work than time; else 0."""
    those = inside(given, span)
    work = sum(least_time(it, given) for it in those)
    return min(it.factor for it in those) if those and work > room(given, those, span) else 0


def windows(spans: Sequence[Span]) -> Loosening:
    """The step to the jobs of the first of some windows that do not overlap."""
    first = spans[0]

    def edit(given: Instance) -> Instance:
        return kept(given, [changed(it, {"due": it.due_date - first[0]}) for it in inside(given, first)])

    def value(cost: Fraction, given: Instance) -> Fraction:
        names = {it.name for span in spans for it in inside(given, span)}
        return cost + sum(least_late(given, it) for it in spans[1:]) + sum(alone(given, [it for it in given.jobs if it.name not in names]))
    listed = ",".join(f"{begin}-{end}" for begin, end in spans)
    return Loosening(f"windows:{listed}", "the jobs of a window of time, and of others one that is late", in_windows, edit, value)


# The windows

class Window(NamedTuple):
    """A window with more work than time: about the least weight that is late, and the least weight of its jobs."""
    span: Span
    weight: float
    least: int


def spread(moments: List[int]) -> List[int]:
    """Moments, at most so many, evenly spread among them, with the last."""
    return moments if len(moments) <= MOMENTS else [moments[(at + 1) * len(moments) // MOMENTS - 1] for at in range(MOMENTS)]


def lightest(those: Sequence[Tuple[float, int, int]], work: int) -> float:
    """About the least weight of jobs that take so much time, by their weights for time, the least first."""
    found = 0.0
    for rate, time, weight in those:
        if time >= work:
            return found + rate * work
        found, work = found + weight, work - time
    return found


def full(given: Instance) -> Iterator[Window]:
    """The windows with more work than time, from some release dates to some due dates."""
    jobs = sorted((it for it in given.jobs if in_time(it, given)), key=lambda it: (it.due_date, it.name))
    ends = spread(sorted({it.due_date for it in jobs}))
    for first in spread(sorted({it.release_date for it in jobs})):
        coming = [it for it in jobs if it.release_date >= first][::-1]
        there: List[Tuple[float, int, int]] = []
        those: List[Job] = []
        for last in ends:
            while coming and coming[-1].due_date <= last:
                those.append(coming.pop())
                time = least_time(those[-1], given)
                insort(there, (those[-1].factor / max(time, 1), time, those[-1].factor))
            more = sum(it[1] for it in there) - room(given, those, (first, last))
            if there and more > 0:
                yield Window((first, last), lightest(there, more), min(it[2] for it in there))


def apart(those: Sequence[Window], span: Span) -> List[Span]:
    """Windows that overlap neither each other nor one that is given, with the greatest sum of least weights."""
    best: List[Tuple[int, List[Span]]] = [(0, [])]
    moments = [0]
    for it in sorted(those, key=lambda it: (it.span[1], it.span)):
        begin, end = it.span
        at = bisect_right(moments, begin) - 1
        if (end <= span[0] or begin >= span[1]) and best[at][0] + it.least > best[-1][0]:
            best.append((best[at][0] + it.least, [*best[at][1], it.span]))
            moments.append(end)
    return best[-1][1]


def windows_for(given: Instance) -> List[List[Span]]:
    """Some windows with much more work than time, as they are and up to the last due date, each with others apart from it; and where one has room,
    that of a job apart from all others."""
    those = sorted(full(given), key=lambda it: (-it.weight, it.span))
    end = max(it.due_date for it in given.jobs)
    begins: Dict[int, Span] = {it.span[0]: (it.span[0], end) for it in those}
    firsts = dict.fromkeys([*(it.span for it in those[:BEST]), *list(begins.values())[:BEST]])
    every = apart(those, (0, 0))
    alone_there = [(it.release_date, it.due_date) for it in given.jobs if in_time(it, given)]
    free = [it for it in alone_there if all(it[1] <= begin or it[0] >= last for begin, last in every)]
    return [[it, *apart(those, it)] for it in firsts] + [[it, *every] for it in free[:1] if every]
