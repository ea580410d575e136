"""Numbers with which steps of bounds are made: shares of machines, factors of lateness, and moments. No bound rests on how they are chosen.

All are whole numbers that follow from the instance, by so many rounds of a search that gets finer.
"""
from __future__ import annotations

import heapq
from dataclasses import dataclass
from fractions import Fraction
from operator import mul, truediv

from .limits import GREATEST
from .loosenings import gains, shares_of, work_of
from .texts import Instance, Job

ROUNDS = 60
SHARES = 1000  # (about the sum of all)
SCALE = 16
MOMENTS = 40


# Shares of unrelated machines

def shares_for(given: Instance) -> tuple[int, ...]:
    """Shares by which the jobs, each at its cheapest machine, are most work for their sum; a machine that gets much is made dearer."""
    prices = [1.0] * given.machines
    best, found = Fraction(-1), (1,) * given.machines
    for turn in range(ROUNDS):
        shares = tuple(max(1, round(SHARES * it / sum(prices))) for it in prices)
        loads = [0] * given.machines
        for job in given.jobs:
            costs = [share * time for share, time in zip(shares, job.times)]
            loads[costs.index(min(costs))] += job.times[costs.index(min(costs))]
        work = Fraction(sum(work_of(job, given, shares) for job in given.jobs), sum(shares))
        if work > best:
            best, found = work, shares
        mean = sum(loads) / len(loads) or 1.0
        prices = [price * max(0.5, min(2.0, (1 + (load / mean - 1) / (turn + 2)))) for price, load in zip(prices, loads)]
    return found


# Factors of lateness

@dataclass
class Model:
    """The jobs on one fast machine, in small parts of time: the time of each there, when the first can begin, and by when each is done there
    that is not late."""
    times: list[int]
    first: int
    dues: list[int]

    def lateness(self, factors: list[int]) -> list[int]:
        """How late the jobs are that are done by factor and time."""
        rates = list(map(truediv, factors, self.times))
        found, now = [0] * len(factors), self.first
        for at in sorted(range(len(factors)), key=rates.__getitem__, reverse=True):
            now += self.times[at]
            found[at] = now - self.dues[at]
        return found


def model_of(given: Instance) -> Model:
    """The model of jobs on one or several machines."""
    shares = shares_for(given) if given.kind.kind == "R" and given.kind.general else shares_of(given, ())
    parts = 2 * sum(shares) * max(given.speeds, default=1)
    times = [work_of(it, given, shares) * parts // sum(shares) for it in given.jobs]
    more = [int(it * parts) for it in gains(given, shares)] if given.kind.kind in "PQR" else [0] * len(given.jobs)
    return Model(times, min(it.release_date for it in given.jobs) * parts, [it.due_date * parts - gain for it, gain in zip(given.jobs, more)])


def by_search(given: Instance) -> tuple[tuple[int, ...], int]:
    """Factors for which the least weighted lateness is great, with their scale: those of jobs that are late in the best order are raised."""
    model, weights = model_of(given), [it.factor for it in given.jobs]
    scale = max(1, min(SCALE, GREATEST // max(weights)))
    most = [scale * it for it in weights]
    best, factors, found = -1, most, tuple(most)
    for turn in range(ROUNDS):
        late = model.lateness(factors)
        value = sum(map(mul, factors, late))
        if value > best:
            best, found = value, tuple(factors)
        sizes = [abs(it) for it in late]
        mean = sum(sizes) / len(late) or 1.0
        raised = [factor + top * (it / mean) / (turn + 2) for factor, top, it in zip(factors, most, late)]
        factors = [0 if it <= 0 else top if it >= top else round(it) for it, top in zip(raised, most)]
    return found, scale


def cut_ends(given: Instance, jobs: list[Job]) -> dict[str, int]:
    """When jobs end on one machine, at each moment the one that is done first running."""
    waiting = sorted(jobs, key=lambda it: it.release_date)
    left: list[tuple[int, str]] = []
    ends, now = {}, 0
    while waiting or left:
        now = now if left else max(now, waiting[0].release_date)
        while waiting and waiting[0].release_date <= now:
            job = waiting.pop(0)
            heapq.heappush(left, (work_of(job, given, (1,)), job.name))
        time, name = heapq.heappop(left)
        span = min(time, waiting[0].release_date - now) if waiting else time
        now += span
        if span < time:
            heapq.heappush(left, (time - span, name))
        else:
            ends[name] = now
    return ends


def late_ones(given: Instance) -> tuple[tuple[int, ...], int]:
    """The least weight for the jobs that are late where those that are early are left out, round after round, and 0 for these."""
    jobs = list(given.jobs)
    for _ in range(ROUNDS):
        ends = cut_ends(given, jobs)
        late = [it for it in jobs if ends[it.name] > it.due_date]
        if len(late) in (0, len(jobs)):
            break
        jobs = late
    names, least = {it.name for it in jobs}, min(it.factor for it in given.jobs)
    return tuple(least * (it.name in names) for it in given.jobs), 1


def factors_for(given: Instance) -> list[tuple[tuple[int, ...], int]]:
    """Factors of lateness with their scales: the weights, those that are found, and on one machine the late jobs alone."""
    found = [(tuple(it.factor for it in given.jobs), 1), by_search(given)]
    if given.kind.kind == "1":
        found.append(late_ones(given))
    return [it for at, it in enumerate(found) if any(it[0]) and it not in found[:at]]


# Moments

def moments_for(given: Instance) -> list[int]:
    """Release dates but for the least, at most so many, evenly spread among them."""
    dates = sorted({it.release_date for it in given.jobs})[1:]
    return dates if len(dates) <= MOMENTS else [dates[at * len(dates) // MOMENTS] for at in range(MOMENTS)]
