"""What is left of a plan at a moment: the instance of the jobs that are not done, and what runs on.

Where jobs have release dates moments stay what they are, and no release date is before now. Else moments count from now: due dates and curves
are moved. What a class cannot say is told: work that has begun and stays on its machine, and what does not keep the time that all share.
"""
from __future__ import annotations

import math
from dataclasses import dataclass, field, replace
from fractions import Fraction
from typing import Dict, Iterator, List, Mapping, Optional, Sequence, Tuple

from .classes import MACHINES, ClassName
from .faults import Fault, Misfit
from .schedules import Piece
from .texts import Instance, Job

Operation = Tuple[str, int]  # (a job and its operation, from 1)


@dataclass
class Happened:
    """What happened: the moment, what is done though the plan says otherwise, what time is left of an operation, machines that are out of
    order, jobs that came, and jobs that are gone. Of a job without an operation the number is 0: all of them, or the one that runs."""
    now: int
    done: List[Operation] = field(default_factory=list)
    left: Dict[Operation, int] = field(default_factory=dict)
    failed: List[int] = field(default_factory=list)
    rush: Optional[Instance] = None
    gone: List[str] = field(default_factory=list)


@dataclass
class Running:
    """An operation that has begun: its machine, and what is left of its time there."""
    job: str
    number: int
    machine: int
    left: int


@dataclass
class Leftover:
    """What is left: the instance, the moment from which it counts, what runs on and stays where it is, the operations behind it in the old order with
    their machines (None: whichever), the machines as they are counted now by the old ones, and what is to be known."""
    instance: Instance
    origin: int
    running: List[Running]
    order: List[Tuple[str, int, Optional[int]]]
    machines: Dict[int, int]
    told: List[str]


class Taker:
    """Takes stock of a plan."""

    def __init__(self, given: Instance, pieces: Sequence[Piece], happened: Happened) -> None:
        self.given, self.happened = given, happened
        self.cut = "pmtn" in given.kind.items
        self.told: List[str] = []
        self.pieces: Dict[Operation, List[Piece]] = {}
        for it in sorted(pieces, key=lambda it: (it.start, it.end)):
            self.pieces.setdefault((it.job, it.operation), []).append(it)
        self.check_words()
        self.done: List[Operation] = []
        self.running: List[Running] = []
        self.rest: Dict[Operation, int] = {}

    def check_words(self) -> None:
        """Refuses words on jobs, operations and machines that the instance does not have."""
        for name, number in [*self.happened.done, *self.happened.left, *((it, 0) for it in self.happened.gone)]:
            job = self.given.job(name)
            if job is None:
                raise Misfit(f"the instance has no job {name}")
            if number > len(self.given.operations(job)):
                raise Misfit(f"{name} has no operation {number}")
        for machine in self.happened.failed:
            if machine > self.given.machines:
                raise Misfit(f"--failed {machine}: the instance has {self.given.machines} machine{'s' * (self.given.machines > 1)}")
            if self.given.machines == 1:
                raise Misfit("--failed 1: there is no other machine, and no class has one that comes back: plan from the moment at which it does")

    # What is done, and what runs

    def work(self, it: Operation) -> int:
        """The time of an operation, on its machine."""
        job = self.given.by_name[it[0]]
        at = self.pieces[it][0].machine if it in self.pieces else 1
        return self.given.time_on(job, it[1], at)

    def said_left(self, it: Operation) -> Optional[int]:
        """The time that is said to be left of an operation; where only the job is named, of the first that is not done."""
        return self.happened.left.get(it, self.happened.left.get((it[0], 0)) if len(self.operations(it[0])) == 1 or self.is_first(it) else None)

    def operations(self, name: str) -> List[int]:
        """The operations of a job that have work to do."""
        return [number for number, (_, time) in enumerate(self.given.operations(self.given.by_name[name]), 1) if time]

    def is_first(self, it: Operation) -> bool:
        """Whether an operation is the first of its job that is not ended by now."""
        open_ones = [number for number in self.operations(it[0]) if not self.is_ended((it[0], number))]
        return bool(open_ones) and open_ones[0] == it[1]

    def is_ended(self, it: Operation) -> bool:
        """Whether the plan ends an operation by now."""
        return bool(self.pieces.get(it)) and all(piece.end <= self.happened.now for piece in self.pieces[it])

    def take(self) -> None:
        """Finds what is done, what runs, and what is left of each other operation that has begun."""
        taken: List[int] = []
        for it in sorted(self.pieces, key=lambda it: (self.pieces[it][0].start, it)):
            name, _ = it
            pieces, left = self.pieces[it], self.said_left(it)
            waits = self.waits(it)
            if name in self.happened.gone:
                continue
            if self.is_done(it, left) and not waits:
                self.done.append(it)
            elif pieces[0].start < self.happened.now and not waits and (self.cut or pieces[0].machine not in taken):
                self.begun(it, left, taken)
            elif left is not None:
                self.rest[it] = left

    def is_done(self, it: Operation, left: Optional[int]) -> bool:
        """Whether an operation is done."""
        return left is None and self.is_ended(it) or it in self.happened.done or (it[0], 0) in self.happened.done

    def waits(self, it: Operation) -> bool:
        """Whether something is not done that comes before an operation: then it cannot have begun."""
        name, number = it
        before = [(name, one) for one in self.operations(name) if one < number] if self.given.kind.kind in "FJ" else []
        jobs = [one for one, other in self.given.arcs if other == name and one not in self.happened.gone]
        before += [(one, number) for one in jobs for number in self.operations(one)]
        return any(one not in self.done for one in before)

    def begun(self, it: Operation, left: Optional[int], taken: List[int]) -> None:
        """An operation has begun: it runs on, or where work may be cut what is left of it goes on anywhere."""
        pieces, now = self.pieces[it], self.happened.now
        machine = pieces[0].machine
        speed = self.given.speeds[machine - 1] if self.given.speeds else 1
        if self.cut:
            spent = sum(((min(piece.end, Fraction(now)) - piece.start) * self.rate(it, piece.machine) for piece in pieces if piece.start < now),
                        Fraction(0))
            self.rest[it] = self.whole(it, self.work(it) - spent) if left is None else left
            return
        if machine in self.happened.failed:
            self.told.append(f"{it[0]} had begun on machine {machine}, which has failed: it begins again")
            return
        taken.append(machine)
        rest = self.whole(it, (pieces[-1].end - now) * speed) if left is None else left
        self.rest[it] = max(rest, 1)
        self.running.append(Running(it[0], it[1], machine, max(rest, 1)))

    def rate(self, it: Operation, machine: int) -> Fraction:
        """How much of an operation a machine does in a unit of time, counted in its time on the machine where it begins."""
        if self.given.kind.kind == "R":
            return Fraction(self.work(it), self.given.time_on(self.given.by_name[it[0]], it[1], machine))
        return Fraction(self.given.speeds[machine - 1] if self.given.speeds else 1)

    def whole(self, it: Operation, value: Fraction) -> int:
        """What is left, as a whole number of at least 1."""
        found = max(math.ceil(value), 1)
        if found != value:
            self.told.append(f"what is left of {it[0]} is {value}, and counts as {found}")
        return found


# The instance of it

def left_of(given: Instance, pieces: Sequence[Piece], happened: Happened) -> Leftover:
    """What is left of a plan; a fault where nothing is, or no class has it."""
    taker = Taker(given, pieces, happened)
    taker.take()
    origin, running = happened.now, taker.running
    done = set(taker.done)
    if given.kind.kind == "1" and running:
        # (one machine: what runs ends, and all else comes behind it)
        only = running[0]
        origin += only.left
        taker.told.append(f"{only.job} runs until {origin}, and what is left begins then")
        done.add((only.job, only.number))
        running = []
    return Builder(taker, origin, running, done).leftover()


class Builder:
    """Builds the instance of what is left."""

    def __init__(self, taker: Taker, origin: int, running: List[Running], done: set[Operation]) -> None:
        self.taker, self.given, self.happened = taker, taker.given, taker.happened
        self.origin, self.running, self.done = origin, running, done
        self.told = taker.told
        self.dated = "r" in self.given.kind.items
        self.shift = 0 if self.dated else origin

    def leftover(self) -> Leftover:
        """What is left."""
        jobs = [*self.jobs(), *self.rushed()]
        if not jobs:
            raise Fault(f"nothing is left to plan at {self.happened.now}")
        names = {it.name for it in jobs}
        arcs = [it for it in [*self.given.arcs, *(self.happened.rush.arcs if self.happened.rush else [])] if names.issuperset(it)]
        kind, machines = self.kind(jobs), self.machines()
        time = self.given.time if "p=p" in kind.items else None
        found = Instance(kind, len(machines), [self.given.speeds[old - 1] for old in machines] if self.given.speeds else [], time, jobs, arcs)
        self.say_pinned(kind)
        if not self.dated and self.origin:
            counted = ", and costs too" if kind.criterion in ("Cmax", "sumC", "sumwC") else ""
            self.told.append(f"moments count from {self.origin} on{counted}")
        running = [replace(it, machine=machines[it.machine]) for it in self.running]
        return Leftover(found, self.origin, running, list(self.order(machines, names)), machines, self.told)

    def jobs(self) -> Iterator[Job]:
        """The jobs that are not done, with what is left of them."""
        for job in self.given.jobs:
            rest = [number for number in self.taker.operations(job.name) if (job.name, number) not in self.done]
            if rest and job.name not in self.happened.gone:
                yield self.moved(self.shortened(job, rest))

    def rest(self, job: Job, number: int) -> Optional[int]:
        """What is left of an operation, or None where it is all of it."""
        return self.taker.rest.get((job.name, number))

    def shortened(self, job: Job, rest: Sequence[int]) -> Job:
        """A job without what is done."""
        kind, given = self.given.kind.kind, self.given
        if kind == "J":
            steps = [(number, job.route[number - 1]) for number in rest]
            return replace(job, route=[(machine, self.rest(job, number) or time) for number, (machine, time) in steps])
        if kind in "OF":
            spent = [0 if number not in rest else self.rest(job, number) or time for number, (_, time) in enumerate(given.operations(job), 1)]
            return replace(job, times=spent)
        left = self.rest(job, 1)
        if kind == "R":
            pieces = self.taker.pieces.get((job.name, 1))
            times = [given.time_on(job, 1, machine) for machine in range(1, given.machines + 1)]
            if left is not None:
                # (on other machines the same share of its time)
                share = Fraction(left, times[pieces[0].machine - 1 if pieces else 0])
                times = [max(1, math.ceil(share * time)) for time in times]
            return replace(job, times=[time for machine, time in enumerate(times, 1) if machine not in self.happened.failed])
        return replace(job, time=given.time_on(job, 1, 1) if left is None else left)

    def moved(self, job: Job) -> Job:
        """A job with its dates as they count now."""
        release = max(job.release or 0, self.origin) if self.dated else None
        due = None if job.due is None else job.due - self.shift
        return replace(job, release=release, due=due, curve=moved_curve(job.curve, self.shift))

    def rushed(self) -> Iterator[Job]:
        """The jobs that came."""
        rush = self.happened.rush
        if rush is None:
            return
        if (rush.kind, rush.machines, rush.speeds, rush.time) != (self.given.kind, self.given.machines, self.given.speeds, self.given.time):
            raise Fault(f"--rush: its class and machines are those of the plan, {self.given.kind}")
        for job in rush.jobs:
            if self.given.job(job.name):
                raise Fault(f"--rush: there is a job {job.name} already")
            rest = [number for number, (_, time) in enumerate(rush.operations(job), 1) if time]
            yield self.moved(self.shortened(job, rest))

    # The class

    def kind(self, jobs: List[Job]) -> ClassName:
        """The class of what is left: another one where a job does not keep the time that all share, or a machine has failed."""
        kind = self.given.kind
        if not kind.general:
            if self.keeps_shared(jobs):
                for job in jobs:
                    job.time, job.times = None, []
                    job.route = [(machine, None) for machine, _ in job.route]
            else:
                kind = replace(kind, items=tuple(it for it in kind.items if it not in ("p=1", "p=p")))
                for job in jobs:
                    job.route = [(machine, self.given.shared if time is None else time) for machine, time in job.route]
                self.told.append(f"what is left does not take the time that all share: the class becomes {kind}")
        if self.happened.failed:
            kind = self.on_fewer(kind)
        return kind

    def keeps_shared(self, jobs: Sequence[Job]) -> bool:
        """Whether all that is left takes the shared time."""
        shared = self.given.shared
        return all(it in (None, shared) for job in jobs for it in (job.time, *job.times, *(time for _, time in job.route)))

    def on_fewer(self, kind: ClassName) -> ClassName:
        """The class with fewer machines. In shops what is left has no work on those that failed."""
        if kind.kind in "OFJ":
            for job in self.given.jobs:
                for number in self.taker.operations(job.name):
                    machine, _ = self.given.operations(job)[number - 1]
                    if machine in self.happened.failed and (job.name, number) not in self.done and job.name not in self.happened.gone:
                        raise Fault(f"{job.name} has work on machine {machine}, which has failed: no class has a machine that comes back; "
                                    f"--gone {job.name} leaves the job out")
            return kind
        count = self.given.machines - len(set(self.happened.failed))
        if count < 1:
            raise Misfit("--failed: no machine is left, and no class has one that comes back")
        if kind.machines is None:
            return kind
        environment = "1" if count == 1 and kind.kind == "P" else f"{kind.kind}{count}" if f"{kind.kind}{count}" in MACHINES else kind.kind
        found = replace(kind, environment=environment)
        self.told.append(f"{count} machine{'s are' if count > 1 else ' is'} left: the class becomes {found}")
        return found

    def machines(self) -> Dict[int, int]:
        """From the old number of each machine to the new one; in shops they stay."""
        shop = self.given.kind.kind in "OFJ"
        left = [it for it in range(1, self.given.machines + 1) if shop or it not in self.happened.failed]
        found = {old: new for new, old in enumerate(left, 1)}
        for old, new in found.items():
            if old != new:
                self.told.append(f"machine {old} is counted as {new}")
        return found

    def say_pinned(self, kind: ClassName) -> None:
        """Says what the class cannot: that what has begun stays on its machine, and goes on at once."""
        for it in self.running:
            where = f" ({replace(kind, environment='R')} has times for each machine)" if kind.kind in "PQ" else ""
            self.told.append(f"{it.job} runs on machine {it.machine} until {self.happened.now + self.span(it)}: {kind} cannot say so{where}; "
                             "the plan keeps it there, and the bound does not")

    def span(self, it: Running) -> Fraction:
        """How long what runs goes on."""
        return Fraction(it.left, self.given.speeds[it.machine - 1] if self.given.speeds else 1)

    def order(self, machines: Mapping[int, int], names: set[str]) -> Iterator[Tuple[str, int, Optional[int]]]:
        """What is left and does not run, in the old order; the jobs that came last."""
        runs = {(it.job, it.number) for it in self.running}
        for it in sorted(self.taker.pieces, key=lambda it: (self.taker.pieces[it][0].start, it)):
            if it[0] in names and it not in self.done and it not in runs:
                yield it[0], self.number(it), machines.get(self.taker.pieces[it][0].machine)
        rush = self.happened.rush
        if rush is not None:
            yield from ((job.name, number, None) for job in rush.jobs for number, (_, time) in enumerate(rush.operations(job), 1) if time)

    def number(self, it: Operation) -> int:
        """The number that an operation has among what is left: routes lose what is done."""
        if self.given.kind.kind != "J":
            return it[1]
        return sum((it[0], number) not in self.done for number in range(1, it[1] + 1))


def moved_curve(curve: Sequence[int], shift: int) -> List[int]:
    """A curve whose moments count from another one: what is past by then is added at once."""
    if not curve:
        return []
    slope, base, *steps = curve
    pairs = list(zip(steps[::2], steps[1::2]))
    # (a threshold that is past costs from the first moment on)
    base += slope * shift + sum(add for above, add in pairs if above < shift)
    return [slope, base, *(it for above, add in pairs if above >= shift for it in (above - shift, add))]
