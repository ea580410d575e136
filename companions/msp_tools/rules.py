"""Rules as a student does them by hand, step by step: tables of steps, and the schedule that they give.

Nothing here looks at the program: print-sheet compares each schedule with what `check` and `solve` say, before anything is written.
"""
from __future__ import annotations

from dataclasses import dataclass, field
from fractions import Fraction
from typing import Callable, Iterable, Iterator, Mapping, Protocol, Sequence, Tuple, Union

from .classes import ClassName
from .faults import Misfit
from .handins import by_order
from .numbers import Number, said
from .relaxations import time_of
from .schedules import Piece, cost_at
from .texts import Instance, Job

Cell = Union[str, Number]
Cells = Tuple[Cell, ...]
Items = Tuple[Tuple[str, ...], ...]


class Step(Protocol):
    """A step of a rule, as a row of a table."""

    def cells(self) -> Cells:
        """The cells of the row, texts and numbers."""


@dataclass
class Steps:
    """Steps of one kind, as a table; `cells` of a step gives its row, texts and numbers."""
    heads: tuple[str, ...]
    steps: Sequence[Step]

    def rows(self) -> list[list[str]]:
        """The rows of the table, as texts."""
        return [[it if isinstance(it, str) else said(it) for it in step.cells()] for step in self.steps]


@dataclass
class Solution:
    """What a rule finds: its tables with sentences in front and behind, and the pieces of the schedule."""
    tables: list[Steps]
    pieces: list[Piece]
    before: list[str] = field(default_factory=list)
    behind: list[str] = field(default_factory=list)


def listed(jobs: Iterable[Job]) -> str:
    """Names of jobs in a row."""
    return ", ".join(it.name for it in jobs) or "none"


def with_values(pairs: Iterable[tuple[Job, Number]]) -> str:
    """Names of jobs, each with a value."""
    return ", ".join(f"{job.name}: {said(value)}" for job, value in pairs)


def in_order(instance: Instance, jobs: Iterable[Job]) -> list[Piece]:
    """The pieces of jobs in this order, each as early as it can be."""
    return by_order([(it.name, 0) for it in jobs], instance)[0]


# Moore and Hodgson: fewest late jobs

@dataclass
class Taken:
    """One more job is taken, and where it ends late the longest one is dropped."""
    job: Job
    end: int
    dropped: Job | None
    kept: list[Job]

    def cells(self) -> Cells:
        """The cells of the row."""
        return (self.job.name, self.job.due_date, self.end, "no" if self.dropped else "yes",
                self.dropped.name if self.dropped else "", listed(self.kept))


def moore(instance: Instance) -> Solution:
    """Jobs by due dates; where one ends late, the longest so far is dropped."""
    kept: list[Job] = []
    late: list[Job] = []
    steps: list[Taken] = []
    for job in sorted(instance.jobs, key=lambda it: it.due_date):
        kept = [*kept, job]
        end = sum(time_of(it, instance) for it in kept)
        dropped = max(kept, key=lambda it: time_of(it, instance)) if end > job.due_date else None
        if dropped:
            kept = [it for it in kept if it is not dropped]
            late.append(dropped)
        steps.append(Taken(job, end, dropped, kept))
    heads = ("job taken", "due date $d_j$", "ends at", "on time", "dropped", "kept, in this order")
    return Solution([Steps(heads, steps)], in_order(instance, kept + late),
                    behind=[f"On time, in this order: {listed(kept)}.", f"Late, behind them in any order: {listed(late)}."])


# Johnson: two machines in a row

@dataclass
class Grouped:
    """A job in one of Johnson's groups, at its place in the order."""
    place: int
    job: Job
    times: list[int]
    group: int

    def cells(self) -> Cells:
        """The cells of the row."""
        return self.place, self.job.name, *self.times, self.group


def johnson(instance: Instance) -> Solution:
    """Group 1 by rising times on machine 1, then group 2 by falling times on machine 2."""
    times = {it.name: [time for _, time in instance.operations(it)] for it in instance.jobs}
    first = sorted((it for it in instance.jobs if times[it.name][0] <= times[it.name][1]), key=lambda it: times[it.name][0])
    second = sorted((it for it in instance.jobs if times[it.name][0] > times[it.name][1]), key=lambda it: -times[it.name][1])
    steps = [Grouped(place, job, times[job.name], 1 if place <= len(first) else 2) for place, job in enumerate(first + second, 1)]
    heads = ("place", "job", "time on machine 1 $p_{1j}$", "time on machine 2 $p_{2j}$", "group")
    return Solution([Steps(heads, steps)], in_order(instance, first + second),
                    before=[f"Group 1, shortest on machine 1 first: {listed(first)}.", f"Group 2, longest on machine 2 first: {listed(second)}."])


# Hu: jobs of one unit in trees

@dataclass
class Level:
    """The jobs of a level."""
    level: int
    jobs: list[Job]

    def cells(self) -> Cells:
        """The cells of the row."""
        return self.level, listed(self.jobs)


@dataclass
class Slot:
    """A unit of time: the jobs that are free with their levels, and those that run."""
    start: int
    free: list[tuple[Job, int]]
    running: list[Job]

    def cells(self) -> Cells:
        """The cells of the row."""
        return self.start, self.start + 1, with_values(self.free), listed(self.running)


def levels_of(jobs: Iterable[Job], arcs: Iterable[tuple[str, str]]) -> dict[str, int]:
    """The level of each job, by name: how many jobs are on the longest path along the arcs from it to an end, itself included."""
    after = {it.name: [other for one, other in arcs if one == it.name] for it in jobs}
    found: dict[str, int] = {}
    while len(found) < len(after):
        for name in after:
            if name not in found and all(it in found for it in after[name]):
                found[name] = 1 + max((found[it] for it in after[name]), default=0)
    return found


def highest_levels(instance: Instance) -> Solution:
    """In each unit of time the free jobs of the greatest levels."""
    levels = levels_of(instance.jobs, instance.arcs)
    done: set[str] = set()
    slots: list[Slot] = []
    pieces: list[Piece] = []
    while len(done) < len(instance.jobs):
        free = [it for it in instance.jobs if it.name not in done and all(one in done for one, other in instance.arcs if other == it.name)]
        free.sort(key=lambda it: -levels[it.name])
        now, running = len(slots), free[: instance.machines]
        slots.append(Slot(now, [(it, levels[it.name]) for it in free], running))
        pieces += [Piece(it.name, 1, machine, Fraction(now), Fraction(now + 1), 0) for machine, it in enumerate(running, 1)]
        done.update(it.name for it in running)
    table = [Level(level, [it for it in instance.jobs if levels[it.name] == level]) for level in sorted(set(levels.values()), reverse=True)]
    return Solution([Steps(("level", "jobs"), table), Steps(("from", "to", "free jobs with levels", "run"), slots)], pieces)


# McNaughton: jobs that may be cut

@dataclass
class Filled:
    """A piece of a job on a machine, and what is left of the job for the next machine."""
    piece: Piece
    rest: Fraction

    def cells(self) -> Cells:
        """The cells of the row."""
        cut = f"{said(self.rest)} left for machine {self.piece.machine + 1}" if self.rest else ""
        return self.piece.machine, self.piece.job, self.piece.start, self.piece.end, cut


def mcnaughton(instance: Instance) -> Solution:
    """Fills one machine after another up to the bound; what does not fit goes on at the start of the next."""
    times = [time_of(it, instance) for it in instance.jobs]
    share = Fraction(sum(times), instance.machines)
    end = max(share, Fraction(max(times)))
    steps: list[Filled] = []
    machine, now = 1, Fraction(0)
    for job, time in zip(instance.jobs, times):
        rest = Fraction(time)
        while rest:
            length = min(rest, end - now)
            rest -= length
            steps.append(Filled(Piece(job.name, 1, machine, now, now + length, 0), rest))
            machine, now = (machine, now + length) if now + length < end else (machine + 1, Fraction(0))
    before = [f"The longest job takes {max(times)}. All jobs take {sum(times)}, which is {said(share)} per machine. "
              f"The greater one is the bound: {said(end)}."]
    return Solution([Steps(("machine", "job", "from", "to", "cut"), steps)], [it.piece for it in steps], before)


# Smith: sums of completion times

@dataclass
class Turn:
    """A job at its place, and when it ends."""
    place: int
    job: Job
    time: int
    end: int

    def cells(self) -> Cells:
        """The cells of the row."""
        return self.place, self.job.name, self.time, self.end


@dataclass
class Ratio(Turn):
    """The same with a weight."""
    weight: int

    def cells(self) -> Cells:
        """The cells of the row."""
        return self.place, self.job.name, self.time, self.weight, Fraction(self.time, self.weight), self.end, self.weight * self.end


def turns(order: Iterable[Job], instance: Instance) -> Iterator[tuple[int, Job, int, int]]:
    """Place, job, time and end of jobs one behind another."""
    end = 0
    for place, job in enumerate(order, 1):
        end += time_of(job, instance)
        yield place, job, time_of(job, instance), end


def shortest(instance: Instance) -> Solution:
    """Jobs by rising times."""
    order = sorted(instance.jobs, key=lambda it: time_of(it, instance))
    heads = ("place", "job", "processing time $p_j$", "ends at $C_j$")
    return Solution([Steps(heads, [Turn(*it) for it in turns(order, instance)])], in_order(instance, order))


def smith(instance: Instance) -> Solution:
    """Jobs by rising ratios of time to weight."""
    order = sorted(instance.jobs, key=lambda it: Fraction(time_of(it, instance), it.factor))
    heads = ("place", "job", "processing time $p_j$", "weight $w_j$", "ratio $p_j/w_j$", "ends at $C_j$", "$w_j C_j$")
    return Solution([Steps(heads, [Ratio(*it, it[1].factor) for it in turns(order, instance)])], in_order(instance, order))


# Lawler: least greatest cost, from the last place

@dataclass
class Last:
    """A place, filled from the end: the jobs that may stand there with their costs, and the one of the least cost."""
    place: int
    end: int
    candidates: list[tuple[Job, Number]]
    chosen: Job

    def cells(self) -> Cells:
        """The cells of the row."""
        return self.place, self.end, with_values(self.candidates), self.chosen.name


def lawler(instance: Instance) -> Solution:
    """From the last place on: among the jobs with none behind them, the one that costs least there."""
    rest, end = list(instance.jobs), sum(time_of(it, instance) for it in instance.jobs)
    steps: list[Last] = []
    while rest:
        names = {it.name for it in rest}
        before = {one for one, other in instance.arcs if other in names}
        costs = [(it, cost_at(instance, it, end)) for it in rest if it.name not in before]
        chosen = min(costs, key=lambda it: it[1])[0]
        steps.append(Last(len(rest), end, costs, chosen))
        rest = [it for it in rest if it is not chosen]
        end -= time_of(chosen, instance)
    order = [it.chosen for it in reversed(steps)]
    compared = "lateness" if instance.kind.criterion == "Lmax" else "costs"
    heads = ("place", "ends at", f"jobs that may stand there, with their {compared}", "chosen")
    return Solution([Steps(heads, steps)], in_order(instance, order), behind=[f"Read from the first place on: {listed(order)}."])


# Switching at release dates

@dataclass
class Switch:
    """A stretch of time without a release: the jobs that are there with what the rule compares, the one that runs, the one that is cut."""
    start: Fraction
    end: Fraction
    there: list[tuple[Job, Number]]
    running: Job
    cut: Job | None

    def cells(self) -> Cells:
        """The cells of the row."""
        return self.start, self.end, with_values(self.there), self.running.name, self.cut.name if self.cut else ""


def switching(instance: Instance, compared: Callable[[Job, Mapping[str, Fraction]], Fraction], head: str) -> Solution:
    """At each release date and each end the job that is there and has the least of what is compared; a running job stays where equal."""
    rest = {it.name: Fraction(time_of(it, instance)) for it in instance.jobs}
    now, last = Fraction(min(it.release_date for it in instance.jobs)), None
    steps: list[Switch] = []
    pieces: list[Piece] = []
    while any(rest.values()):
        there = [(it, compared(it, rest)) for it in instance.jobs if rest[it.name] and it.release_date <= now]
        coming = min((it.release_date for it in instance.jobs if it.release_date > now), default=None)
        if not there and coming is not None:
            now = Fraction(coming)
            continue
        running = min(there, key=lambda it: (it[1], it[0] is not last))[0]
        end = now + rest[running.name] if coming is None else min(now + rest[running.name], Fraction(coming))
        cut = last if last is not running and last is not None and rest[last.name] else None
        steps.append(Switch(now, end, list(there), running, cut))
        if pieces and running is last and pieces[-1].end == now:
            pieces[-1].end = end
        else:
            pieces.append(Piece(running.name, 1, 1, now, end, 0))
        rest[running.name] -= end - now
        now, last = end, running
    return Solution([Steps(("from", "to", f"jobs that are there, with {head}", "runs", "cut"), steps)], pieces)


def shortest_remaining(instance: Instance) -> Solution:
    """Shortest remaining time first."""
    return switching(instance, lambda job, rest: rest[job.name], "remaining times")


def earliest_due(instance: Instance) -> Solution:
    """Earliest due date first, among the jobs that are there."""
    return switching(instance, lambda job, rest: Fraction(job.due_date), "due dates")


# Which rule fits a class

@dataclass(frozen=True)
class Rule:
    """A rule: its name, what a student does, the classes that it is for, its work, and usual mistakes (naive rules of sheets)."""
    name: str
    words: str
    environments: tuple[str, ...]
    items: Items
    criteria: tuple[str, ...]
    solve: Callable[[Instance], Solution]
    mistakes: tuple[str, ...]


TIMES: Items = ((), ("p=p",), ("p=1",))
SWITCHING = tuple(("pmtn", "r", *it) for it in TIMES)
IN_ORDER = tuple((order, *times) for order in ("chains", "intree", "outtree", "prec") for times in TIMES)
LAWLER = ("Lawler's rule",
          "Fill the last place first. Among the jobs with no successor left, take the one that costs least where it ends there; "
          "then the place before it.", ("1",))
TREES = tuple((it, "p=1") for it in ("chains", "intree", "outtree"))
CUT = tuple(("pmtn", *it) for it in TIMES)
IDENTICAL = ("P2", "P3", "P")
RULES = (
    Rule("Moore and Hodgson's rule",
         "Take the jobs by their due dates. Where one ends late, drop the longest job taken so far; the dropped ones go to the end.",
         ("1",), TIMES, ("sumU",), moore, ("edd", "late-last")),
    Rule("Johnson's rule",
         "Jobs that take no longer on machine 1 than on machine 2 are group 1, the others group 2. Group 1 goes first, by rising times "
         "on machine 1; then group 2, by falling times on machine 2.",
         ("F2",), TIMES, ("Cmax",), johnson, ("spt", "first", "last")),
    Rule("Hu's rule",
         "The level of a job is the number of jobs on the longest path from it to an end. In each unit of time, run the free jobs of the "
         "greatest levels.",
         IDENTICAL, TREES, ("Cmax",), highest_levels, ("list", "from-start")),
    Rule("McNaughton's wrap",
         "No schedule ends before the longest job can, nor before the work per machine is done. Fill one machine after another up to "
         "that bound; a job that does not fit is cut, and goes on at the start of the next machine.",
         IDENTICAL, CUT, ("Cmax",), mcnaughton, ("list", "lpt")),
    Rule("Shortest processing time first", "Order the jobs by rising processing times.", ("1",), TIMES, ("sumC",), shortest, ("list", "lpt")),
    Rule("Smith's rule", "Order the jobs by rising ratios of processing time to weight.", ("1",), TIMES, ("sumwC",), smith, ("spt", "weight")),
    Rule(*LAWLER, TIMES, ("Lmax",), lawler, ("spt", "slack")),
    Rule(*LAWLER, IN_ORDER, ("Lmax",), lawler, ("list", "edd")),
    Rule(*LAWLER, TIMES + IN_ORDER, ("fmax",), lawler, ("list", "spt")),
    Rule("Shortest remaining time first", "At each release date and each end, run the job that is there and has the least time left.",
         ("1",), SWITCHING, ("sumC",), shortest_remaining, ("release", "never-cut")),
    Rule("Earliest due date first, with preemption",
         "At each release date and each end, run the job that is there and has the earliest due date.",
         ("1",), SWITCHING, ("Lmax",), earliest_due, ("release", "edd")),
)


def rule_of(kind: ClassName) -> Rule:
    """The rule for a class; a misfit where there is none."""
    found = next((it for it in RULES if kind.environment in it.environments and kind.items in it.items and kind.criterion in it.criteria), None)
    if found is None:
        raise Misfit(f"no rule by hand for {kind}; print-sheet --help lists the classes that have one")
    return found
