"""Schedules as the sequences of the machines: where each job has one operation, and none comes after another; on one machine also where they do,
as long as costs are added.

A neighbour moves a job to another place, or exchanges two. Only the sequences that change are costed anew, and sums only where they change.
"""
from __future__ import annotations

from itertools import accumulate
from typing import List, NamedTuple, Sequence

from .problems import Placed, Problem
from .search import Draw

Sequences = List[List[int]]


def ranked(problem: Problem) -> list[list[int]] | None:
    """The rank of each job on each machine, where the best order on a machine is known; else None."""
    kind, jobs = problem.criterion, range(problem.count)
    keys: list[list[tuple[float, int]]]
    if kind == "Cmax":
        keys = [[(problem.release[job], job) for job in jobs]] * problem.machines
    elif problem.dated:
        return None
    elif kind == "Lmax":
        keys = [[(problem.due[job], job) for job in jobs]] * problem.machines
    elif kind in ("sumC", "sumwC"):
        # (a weight of 0 stands last)
        keys = [[(ratio(problem.times[job][at], problem.weight[job]), job) for job in jobs] for at in range(problem.machines)]
    else:
        return None
    found = []
    for those in keys:
        order = sorted(jobs, key=those.__getitem__)
        ranks = [0] * problem.count
        for rank, job in enumerate(order):
            ranks[job] = rank
        found.append(ranks)
    return found


def within_arcs(problem: Problem, lane: List[int], job: int, place: int) -> int:
    """The place of a job's that is next to another one, behind all jobs of its machine that it comes after, and before those that come after it."""
    least = max((lane.index(it) for it in problem.before[job]), default=-1) + 1
    most = min((lane.index(it) for it in problem.after[job]), default=len(lane)) - 1
    return min(max(place, least), most)


def ratio(time: int, weight: int) -> float:
    """Time for weight."""
    return time / weight if weight else float("inf")


class Stretch(NamedTuple):
    """Jobs that follow each other on a machine, from a place on: when they end, and what they cost."""
    at: int
    first: int
    jobs: List[int]
    ends: List[int]
    costs: List[int]


class Lanes:
    """A space of sequences, one for each machine. Values are costs with what breaks ties in their last digits."""

    def __init__(self, problem: Problem, draw: Draw) -> None:
        self.problem, self.draw = problem, draw
        self.machines = problem.machines
        self.times = [[it[at] for it in problem.times] for at in range(problem.machines)]
        self.ranks = None if problem.bound else ranked(problem)
        # (the machines of a job, the fastest first, where they are not alike)
        self.prefers = [] if problem.alike else [sorted(range(self.machines), key=it.__getitem__) for it in problem.times]
        self.counted = problem.criterion[-1] == "U"
        self.dated = problem.dated
        span = max([*problem.release, *problem.begins]) + sum(max(it) for it in problem.times) + 1
        self.base = span * span * self.machines if problem.criterion == "Cmax" else span * self.machines if self.counted else 1
        self.lanes: Sequences = [[] for _ in range(self.machines)]
        self.values: list[int] = []
        self.where: list[int] = [0] * problem.count
        self.value = 0
        self.moves: list[tuple[int, list[int], int]] = []
        # (a sum of costs is looked at from the first job that moves on, until no job ends elsewhere than before)
        self.summed = not problem.greatest and not self.counted
        self.known: list[tuple[list[int], list[int]] | None] = [None] * self.machines
        self.stretch: Stretch | None = None
        self.next_value = 0
        self.looks_at_costly = problem.greatest and self.ranks is None
        self.costly: tuple[int, int, int] | None = None

    # Values

    def ends(self, at: int, sequence: Sequence[int]) -> list[int]:
        """When the jobs of a sequence end on a machine."""
        return self.ends_from(at, sequence, self.problem.begins[at])

    def ends_from(self, at: int, sequence: Sequence[int], now: int) -> list[int]:
        """When the jobs of a sequence end on a machine that is free from some moment on."""
        times = self.times[at]
        if not self.dated:
            return list(accumulate(map(times.__getitem__, sequence), initial=now))[1:]
        release, found = self.problem.release, []
        for job in sequence:
            if release[job] > now:
                now = release[job]
            now += times[job]
            found.append(now)
        return found

    def lane_value(self, at: int, sequence: Sequence[int]) -> int:
        """The value of a sequence on a machine."""
        if self.counted:
            return self.counted_value(at, sequence)
        if not sequence:
            return -(10**40) if self.problem.greatest else 0
        ends = self.ends(at, sequence)
        if self.problem.criterion == "Cmax":
            return ends[-1] * self.base + ends[-1] * ends[-1]
        return self.problem.total(self.problem.costs(sequence, ends))

    def counted_value(self, at: int, sequence: Sequence[int]) -> int:
        """The weight of the jobs that are late where none that would be late runs, and when the others end."""
        times, release, due, weight = self.times[at], self.problem.release, self.problem.due, self.problem.weight
        now, late = self.problem.begins[at], 0
        for job in sequence:
            begin = release[job]
            end = (begin if begin > now else now) + times[job]
            if end <= due[job]:
                now = end
            else:
                late += weight[job]
        return late * self.base + now

    def whole(self, values: Sequence[int]) -> int:
        """The value of a schedule whose machines have these values."""
        if not self.problem.greatest:
            return sum(values)
        if self.base == 1:
            return max(values)
        return max(values) // self.base * self.base + sum(it % self.base for it in values if it > 0)

    def value_of(self, cost: int) -> int:
        """The greatest value that a schedule of a cost can have."""
        return cost * self.base + self.base - 1

    # The space

    def state(self) -> Sequences:
        """The sequences, for later."""
        return [list(it) for it in self.lanes]

    def back(self, state: Sequences) -> None:
        """Holds sequences."""
        self.lanes = [list(it) for it in state]
        if self.ranks:
            for lane, ranks in zip(self.lanes, self.ranks):
                lane.sort(key=ranks.__getitem__)
        for at, lane in enumerate(self.lanes):
            for job in lane:
                self.where[job] = at
        self.values = [self.lane_value(at, lane) for at, lane in enumerate(self.lanes)]
        self.value, self.costly = self.whole(self.values), None
        self.known = [None] * self.machines

    def take(self) -> None:
        """Holds the neighbour."""
        it = self.stretch
        known = self.known[it.at] if it else None
        if it and known:
            for those, new in zip((self.lanes[it.at], *known), it[2:]):
                those[it.first: it.first + len(it.jobs)] = new
            self.values[it.at] += self.next_value - self.value
        else:
            for at, lane, value in self.moves:
                self.lanes[at], self.values[at], self.known[at] = lane, value, None
                for job in lane:
                    self.where[job] = at
        self.value, self.costly = self.next_value, None

    def neighbour(self) -> int | None:
        """A job moves, or two are exchanged."""
        job = self.draw.below(self.problem.count)
        self.stretch = None
        if self.looks_at_costly and self.draw.one() < 0.5:
            changed = self.around_costly()
        elif self.ranks or self.machines > 1 and self.draw.one() < 0.6:
            changed = self.across(self.costly_job() if self.problem.greatest and self.draw.one() < 0.5 else job)
        elif self.summed:
            return self.within_sum(self.where[job], job)
        else:
            changed = self.within(self.where[job], job)
        if not changed:
            return None
        self.moves = [(at, lane, self.lane_value(at, lane)) for at, lane in changed]
        values = list(self.values)
        for at, _, value in self.moves:
            values[at] = value
        self.next_value = self.whole(values)
        return self.next_value

    def costly_job(self) -> int:
        """A job of the machine that costs most."""
        lane = self.lanes[self.values.index(max(self.values))]
        return lane[self.draw.below(len(lane))]

    def find_costly(self) -> tuple[int, int, int]:
        """The machine with the job that costs most, the place of that job, and that of the first one without a pause before it."""
        at = self.values.index(max(self.values))
        lane = self.lanes[at]
        ends = self.ends(at, lane)
        costs = self.problem.costs(lane, ends)
        place = first = costs.index(max(costs))
        while first > 0 and ends[first - 1] == ends[first] - self.times[at][lane[first]]:
            first -= 1
        return at, place, first

    def around_costly(self) -> list[tuple[int, list[int]]]:
        """The job that costs most goes before one in front of it, or one in front of it behind it or to another machine."""
        if self.costly is None:
            self.costly = self.find_costly()
        at, place, first = self.costly
        chosen = first + self.draw.below(place - first + 1)
        if self.machines > 1 and self.draw.one() < 0.5:
            return self.across(self.lanes[at][chosen])
        lane = list(self.lanes[at])
        if chosen == place:
            lane.insert(first + self.draw.below(place - first + 1), lane.pop(place))
        else:
            lane.insert(place, lane.pop(chosen))
        return [(at, lane)]

    def moved(self, at: int, job: int) -> tuple[int, list[int]] | None:
        """A job at another place of its sequence, or exchanged with another: from which place on, and the jobs from there as far as they move."""
        lane = self.lanes[at]
        if len(lane) < 2:
            return None
        place = lane.index(job)
        step = self.draw.near(len(lane))
        other = place + step if self.draw.one() < 0.5 else place - step
        if self.problem.bound:
            other = within_arcs(self.problem, lane, job, other)
        if not 0 <= other < len(lane) or other == place:
            return None
        those = lane[min(place, other): max(place, other) + 1]
        if not self.problem.bound and self.draw.one() < 0.4:
            those[0], those[-1] = those[-1], those[0]
        elif other > place:
            those.append(those.pop(0))
        else:
            those.insert(0, those.pop())
        return min(place, other), those

    def within(self, at: int, job: int) -> list[tuple[int, list[int]]]:
        """A job at another place of its sequence, or exchanged with another."""
        found = self.moved(at, job)
        if found is None:
            return []
        first, those = found
        lane = list(self.lanes[at])
        lane[first: first + len(those)] = those
        return [(at, lane)]

    def within_sum(self, at: int, job: int) -> int | None:
        """The same, where the costs are added: those of the other jobs stay."""
        found, known = self.moved(at, job), self.known[at]
        if found is None:
            return None
        if known is None:
            ends = self.ends(at, self.lanes[at])
            known = self.known[at] = ends, self.problem.costs(self.lanes[at], ends)
        first, jobs = found
        ends = self.ends_from(at, jobs, known[0][first - 1] if first else self.problem.begins[at])
        behind = first + len(jobs)
        while self.dated and behind < len(known[0]) and ends[-1] != known[0][behind - 1]:
            more = self.lanes[at][behind: behind + len(jobs)]
            jobs += more
            ends += self.ends_from(at, more, ends[-1])
            behind += len(more)
        costs = self.problem.costs(jobs, ends)
        self.stretch = Stretch(at, first, jobs, ends, costs)
        self.next_value = self.value + sum(costs) - sum(known[1][first: behind])
        return self.next_value

    def across(self, job: int) -> list[tuple[int, list[int]]]:
        """A job on another machine, or exchanged with one of another."""
        at = self.where[job]
        to = self.prefers[job][self.draw.near(self.machines + 1) - 1] if self.prefers else self.draw.below(self.machines)
        if to == at:
            return []
        one, other = list(self.lanes[at]), list(self.lanes[to])
        place = one.index(job)
        if other and self.draw.one() < 0.5:
            near = self.draw.below(len(other))
            back = other[near]
            one[place], other[near] = back, job
            self.settle(at, one)
            self.settle(to, other)
        else:
            del one[place]
            if self.ranks:
                other.append(job)
                self.settle(to, other)
            else:
                other.insert(min(self.draw.below(len(other) + 1), len(other)), job)
        return [(at, one), (to, other)]

    def settle(self, at: int, lane: list[int]) -> None:
        """Puts a sequence into the order that is best on its machine, where it is known."""
        if self.ranks:
            lane.sort(key=self.ranks[at].__getitem__)

    # Schedules

    def placed(self, state: Sequences) -> list[Placed]:
        """The pieces of sequences; where late jobs are counted those that would be late go last."""
        found = []
        for at, lane in enumerate(state):
            sequence = self.behind(at, lane) if self.counted else lane
            for job, end in zip(sequence, self.ends(at, sequence)):
                found.append(Placed(job, 1, at, end - self.times[at][job], end))
        return found

    def behind(self, at: int, lane: Sequence[int]) -> list[int]:
        """A sequence with the jobs that would be late behind the others."""
        now, kept, late = self.problem.begins[at], [], []
        for job in lane:
            end = max(now, self.problem.release[job]) + self.times[at][job]
            if end <= self.problem.due[job]:
                kept.append(job)
                now = end
            else:
                late.append(job)
        return kept + late


def lanes_of(problem: Problem, placed: Sequence[Placed]) -> Sequences:
    """The sequences of a schedule."""
    found: Sequences = [[] for _ in range(problem.machines)]
    for it in sorted(placed, key=lambda it: it.start):
        found[it.machine].append(it.job)
    return found
