"""Uniform machines with preemption for the makespan: profiles of machines that are filled and then split into slices."""
from fractions import Fraction
from math import lcm
from typing import Iterable, NamedTuple

from ..instance import Instance
from ..schedule import Schedule
from ..timetable import split
from .parallel import by_falling_time
from .shops import from_slices


def uniform_cut_fits(inst: Instance) -> bool:
    """Whether the unit that the fill may need stays within 10^13."""
    spread = max(inst.speeds) - min(inst.speeds) or 1
    return bool(sum(inst.speeds) * spread ** (inst.machines - 1) * lcm(*inst.speeds) <= 10 ** 13)


def uniform_cut_bound(inst: Instance) -> Fraction:
    """The optimum on uniform machines with preemption."""
    works = sorted((inst.time(j) for j in range(len(inst.jobs))), reverse=True)
    speeds = sorted(inst.speeds, reverse=True)
    bound = Fraction(sum(works), sum(speeds))
    for count in range(1, min(len(speeds) - 1, len(works)) + 1):
        bound = max(bound, Fraction(sum(works[:count]), sum(speeds[:count])))
    return bound


class _Segment(NamedTuple):
    """A machine between two moments."""
    begin: Fraction
    end: Fraction
    machine: int


_Profile = list[_Segment]                       # a machine for each moment from 0 to the bound


def _between(profile: _Profile, begin: Fraction, end: Fraction) -> _Profile:
    """The part of a profile between two moments."""
    cut = (_Segment(max(begin, first), min(end, last), machine) for first, last, machine in profile)
    return [segment for segment in cut if segment.begin < segment.end]


class _Fill:
    """The matrix of times of each job on each machine, machine by machine."""

    def __init__(self, inst: Instance) -> None:
        self.inst = inst
        self.bound = uniform_cut_bound(inst)
        self.cells = [[Fraction(0)] * len(inst.jobs) for _ in inst.speeds]
        order = sorted(range(inst.machines), key=lambda machine: (-inst.speeds[machine], machine))
        self.profiles = [[_Segment(Fraction(0), self.bound, machine)] for machine in order]

    def fill(self) -> None:
        """Gives all jobs their times, the longest first."""
        jobs = by_falling_time(self.inst)
        while jobs:
            work = Fraction(self.inst.time(jobs[0]))
            works = [self._work(profile) for profile in self.profiles]
            if work in works:
                self.give(jobs.pop(0), self.profiles.pop(works.index(work)))
            elif work > works[-1]:
                self._give_two(jobs.pop(0), max(place for place, able in enumerate(works) if able > work))
            else:
                self._lay(jobs)
                return

    def _work(self, profile: _Profile) -> Fraction:
        return sum(((end - begin) * self.inst.speeds[machine] for begin, end, machine in profile), Fraction(0))

    def give(self, j: int, segments: Iterable[_Segment]) -> None:
        """A job runs in some stretches."""
        for begin, end, machine in segments:
            self.cells[machine][j] += end - begin

    def _give_two(self, j: int, place: int) -> None:
        """A job takes the front of a profile and the rest of the next one; what they leave is one profile."""
        upper, lower = self.profiles[place:place + 2]
        moment = self._crossing(upper, lower, self.inst.time(j))
        start = Fraction(0)
        self.give(j, _between(upper, start, moment) + _between(lower, moment, self.bound))
        self.profiles[place:place + 2] = [_between(lower, start, moment) + _between(upper, moment, self.bound)]

    def _crossing(self, upper: _Profile, lower: _Profile, work: int) -> Fraction:
        """The moment up to which the upper profile, and after it the lower one, does this work."""
        moments = sorted({moment for segment in upper + lower for moment in segment[:2]})
        speeds, done = self.inst.speeds, self._work(lower)
        for begin, end in zip(moments, moments[1:]):
            gain = speeds[_between(upper, begin, end)[0].machine] - speeds[_between(lower, begin, end)[0].machine]
            if gain > 0 and done + gain * (end - begin) >= work:
                return begin + (work - done) / gain
            done += gain * (end - begin)
        raise AssertionError("no such moment")

    def _lay(self, jobs: list[int]) -> None:
        """Lay jobs one after another through the profiles, from the last profile to the first."""
        stretches = [segment for profile in reversed(self.profiles) for segment in profile]
        for j in jobs:
            left = Fraction(self.inst.time(j))
            while left > 0:
                begin, end, machine = stretches.pop(0)
                length = min(end - begin, left / self.inst.speeds[machine])
                self.give(j, [_Segment(begin, begin + length, machine)])
                left -= length * self.inst.speeds[machine]
                if begin + length < end:
                    stretches.insert(0, _Segment(begin + length, end, machine))


def uniform_cut(inst: Instance) -> Schedule:
    """A matrix of times filled profile by profile, then split into slices."""
    fill = _Fill(inst)
    fill.fill()
    unit = lcm(fill.bound.denominator, *(time.denominator for line in fill.cells for time in line))
    whole = [[int(time * unit) for time in line] for line in fill.cells]
    return Schedule(unit, from_slices(split(whole), False))
