"""Planning again: what is left of a plan is planned anew, and going on in the old order is one of the plans that are tried."""
from __future__ import annotations

from dataclasses import dataclass, field, replace
from fractions import Fraction
from typing import Dict, List, Optional, Sequence, Tuple

from .bounds import Bound
from .faults import Fault
from .judging import AsTheyStand, Words, judge
from .leftover import Happened, Leftover, Running, left_of
from .problems import Placed, Problem, ends_of
from .priorities import Tried
from .program import Program
from .proposals import Planner, Proposal, Search
from .schedules import Piece, Schedule, need_jobs, text_of
from .texts import Instance
from .timing import soonest

GOING_ON = "going on"


@dataclass
class Begin:
    """When an operation begins, and on which machine: by the old plan (None: it is new), and by the new one, both in the moments of the old."""
    job: str
    operation: int
    before: Optional[Fraction]
    now: Fraction
    machine_before: Optional[int]
    machine: int


@dataclass
class Replanned:
    """A new plan: the instance of what is left, the moment from which it counts, the proposal, begins, and what is to be known."""
    instance: Instance = field(repr=False)
    origin: int
    proposal: Proposal
    begins: List[Begin]
    told: List[str]
    machines: Dict[int, int] = field(default_factory=dict, repr=False)  # (from old numbers to those of the instance)


class Rest:
    """What is searched: all but what runs, with when machines and jobs are free of it. `running` has the pieces of what runs, `shorter` says by how
    many operations the routes of jobs are shorter."""

    def __init__(self, left: Leftover) -> None:
        self.given = left.instance
        self.base = Fraction(left.origin if "r" in self.given.kind.items else 0)
        self.free = [self.base] * self.given.machines
        self.later: Dict[str, Fraction] = {}
        self.jobs = dict(self.given.by_name)
        self.running: List[Piece] = []
        self.shorter: Dict[str, int] = {}
        for it in left.running:
            self.take(it)
        arcs = [it for it in self.given.arcs if it[0] in self.jobs and it[1] in self.jobs]
        self.problem = Problem(replace(self.given, jobs=list(self.jobs.values()), arcs=arcs), self.free, self.later)

    def take(self, it: Running) -> None:
        """Takes out what runs."""
        end = self.base + Fraction(it.left, self.given.speeds[it.machine - 1] if self.given.speeds else 1)
        job, kind = self.jobs[it.job], self.given.kind.kind
        number = it.number if kind in "OF" else 1
        self.running.append(Piece(it.job, number, it.machine, self.base, end))
        self.free[it.machine - 1] = end
        operations = [(at, 0 if at == number else time) for at, (_, time) in enumerate(self.given.operations(job), 1)]
        if any(time for _, time in operations):
            shorter = replace(job, route=job.route[1:]) if kind == "J" else replace(job, times=[time for _, time in operations])
            self.jobs[it.job], self.later[it.job] = shorter, end
            self.shorter[it.job] = int(kind == "J")
        else:
            del self.jobs[it.job]
            self.later.update((other, max(end, self.later.get(other, end))) for one, other in self.given.arcs if one == it.job)


class Replanner(Planner):
    """Plans what is left, with what runs kept where it is."""

    def __init__(self, program: Program, left: Leftover, wanted: Search, old: Sequence[Piece]) -> None:
        super().__init__(program, left.instance, wanted)
        self.left, self.old = left, old
        rest = Rest(left)
        self.problem, self.running, self.shorter = rest.problem, rest.running, rest.shorter

    def whole(self, pieces: List[Piece]) -> List[Piece]:
        """The plan: what runs, and the pieces that were searched for."""
        return [*self.running, *(replace(it, operation=it.operation + self.shorter.get(it.job, 0)) for it in pieces)]

    def begin(self) -> None:
        """Tries going on in the old order, and the rules."""
        super().begin()
        if self.problem.cut:
            self.plans.append((GOING_ON, self.clipped()))
        else:
            placed = carried_on(self.problem, [(name, number - self.shorter.get(name, 0), machine) for name, number, machine in self.left.order])
            self.tried.append(Tried(GOING_ON, "early", self.problem.cost(ends_of(self.problem, placed)), placed, []))
            self.plans.append((GOING_ON, self.whole(self.problem.pieces(placed))))

    def clipped(self) -> List[Piece]:
        """The pieces of the old plan from now on, as they stand."""
        origin = Fraction(self.left.origin)
        shift = Fraction(0) if "r" in self.instance.kind.items else origin
        return [replace(it, start=max(it.start, origin) - shift, end=it.end - shift, machine=self.left.machines.get(it.machine, it.machine))
                for it in self.old if it.end > origin and self.instance.job(it.job)]

    def look(self, bounds: Sequence[Bound]) -> None:
        """Looks for plans; where nothing is left but what runs, there is one."""
        if self.problem.count == 0:
            self.plans.append((GOING_ON, self.running))
        elif self.running:
            # (a solver does not know that it runs)
            self.look_further(bounds)
        else:
            super().look(bounds)

    def target(self, bound: Bound | None) -> int | None:
        """What is searched for costs less than the whole where something runs, so no cost of it is known to be least."""
        return None if self.running else super().target(bound)


def carried_on(problem: Problem, order: Sequence[Tuple[str, int, Optional[int]]]) -> List[Placed]:
    """The schedule of operations one after another, each as early as it can on its machine; where none is named, on that where it ends first."""
    free, ends, found = list(problem.begins), [0] * problem.count, []
    for name, number, machine in order:
        job = problem.names[name]
        now = max([problem.release[job], ends[job], *(ends[it] for it in problem.before[job])])
        if problem.shop:
            step = next(it for it in problem.steps[job] if it.number == number)
            at, time = step.machine, step.time
        else:
            times = problem.times[job]
            at = machine - 1 if machine else soonest(free, times, now)
            time = times[at]
        start = max(free[at], now)
        free[at] = ends[job] = start + time
        found.append(Placed(job, number, at, start, start + time))
    return found


def replanned(program: Program, given: Instance, old: Schedule, happened: Happened, wanted: Search) -> Replanned:
    """The new plan of what is left of an old one, which is feasible."""
    need_feasible(program, given, old.pieces)
    left = left_of(given, old.pieces, happened)
    proposal = Replanner(program, left, wanted, old.pieces).proposal()
    return Replanned(left.instance, left.origin, proposal, begins_of(given, old.pieces, left, proposal), left.told, left.machines)


def need_feasible(program: Program, given: Instance, pieces: List[Piece]) -> None:
    """Refuses an old plan that is not feasible."""
    need_jobs(pieces, given)
    verdict = judge(program, given.text(), text_of(pieces, 0), pieces, Words(given, AsTheyStand()))
    if not verdict.feasible:
        raise Fault(f"the old plan is not feasible: {verdict.broken}")


def begins_of(given: Instance, old: Sequence[Piece], left: Leftover, proposal: Proposal) -> List[Begin]:
    """Old and new begins of what does not run, in the order of the new ones."""
    shift = 0 if "r" in left.instance.kind.items else left.origin
    machines = {new: number for number, new in left.machines.items()}
    first: Dict[Tuple[str, int], Piece] = {}
    for it in sorted(old, key=lambda it: (it.start, it.end)):
        first.setdefault((it.job, it.operation), it)
    found: List[Begin] = []
    seen = {(it.job, it.number) for it in left.running}
    for it in sorted(proposal.pieces, key=lambda it: (it.start, it.machine)):
        number = old_number(given, left.instance, it)
        if (it.job, number) not in seen:
            seen.add((it.job, number))
            before = first.get((it.job, number))
            found.append(Begin(it.job, number, before.start if before else None, it.start + shift, before.machine if before else None,
                               machines[it.machine]))
    return found


def old_number(given: Instance, left: Instance, piece: Piece) -> int:
    """The number that an operation had in the old instance: routes lost what was done."""
    before, now = given.job(piece.job), left.job(piece.job)
    if given.kind.kind != "J" or before is None or now is None:
        return piece.operation
    return piece.operation + len(before.route) - len(now.route)
