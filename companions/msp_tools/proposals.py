"""A plan for an instance of any class that `check` can judge: its cost, the greatest lower bound, and what is known of the gap between them.

Nothing that is searched here is proved, and nothing of it needs to be: what a schedule costs, and that it is feasible, `check` says, and what
nobody comes below follows from what `solve` says, or from a certificate that `accept` takes.
"""
from __future__ import annotations

import math
from dataclasses import dataclass, field, replace
from fractions import Fraction
from typing import Callable, Iterator, List, Mapping, Sequence, Tuple

from .bounds import Bound, bounds_of
from .cutting import cut_cost, cut_pieces
from .faults import Fault, Misfit
from .improving import SEARCH, cut, standard_tries, uncut
from .judging import AsTheyStand, Verdict, Words, judge
from .priorities import Tried, tried
from .problems import Placed, Problem, ends_of
from .minizinc import schedule_by
from .numbers import said
from .program import Program
from .schedules import Piece, Schedule, read_schedule, text_of
from .schedules import ends_of as ends_by_name
from .search import Draw, Effort
from .texts import Instance
from .timing import early, listed, serial

Heard = Callable[[str], None]
MOST_RELATED = 12  # (schedules of relaxations)


@dataclass
class Candidate:
    """A schedule of a rule: the rule, how it was timed, and its cost."""
    rule: str
    timing: str
    cost: Fraction


@dataclass
class Proposal:
    """A feasible schedule with its cost by `check`, what found it, the greatest bound, the gap between them and what is known of it: `proved`
    (nothing costs less, and that rests on the program alone), `argued` (nothing costs less, by the steps of docs/bounds.md) or `open`."""
    instance: Instance = field(repr=False)
    name: str
    cost: Fraction
    found: str
    bound: Bound | None
    gap: Fraction | None
    word: str
    pieces: List[Piece]
    candidates: List[Candidate] = field(default_factory=list)
    interrupted: bool = False
    bounds: Sequence[Bound] = field(default=(), repr=False)

    def text(self) -> str:
        """The report: lines on cost and bound, and the schedule text."""
        lines = [f"start {self.name}", f"found {self.found}", f"cost {self.cost}"]
        if self.bound is not None:
            lines += [f"bound {self.bound.value}", *(f"step {it.words}" for it in self.bound.steps), f"by {self.bound.solved}"]
        lines += [f"gap {self.gap}"] if self.gap is not None else []
        lines += [self.word, *["interrupted"] * self.interrupted]
        return "\n".join([*lines, text_of(self.pieces, self.cost)])


@dataclass
class Search:
    """How a plan is looked for: how many neighbours are looked at (without it the standard), a seed, a schedule to begin with, within how many
    nodes Gecode is asked (without it not at all), and who hears of better ones."""
    tries: int | None = None
    seed: int = 1
    begin: Schedule | None = None
    nodes: int | None = None
    heard: Heard = field(default=lambda line: None, repr=False)


def by_names(problem: Problem, ends: Mapping[str, Fraction]) -> List[int]:
    """The jobs in the order in which they end."""
    return sorted(range(problem.count), key=lambda it: (ends[problem.instance.jobs[it].name], it))


def begun(problem: Problem, name: str, pieces: Sequence[Piece]) -> Tried:
    """A schedule that is given, each piece as early as its order allows."""
    if problem.cut:
        return Tried(name, "as it is", math.inf, [], by_names(problem, ends_by_name(pieces)))
    moved = early(joined(pieces), problem.instance)
    placed = [Placed(problem.names[it.job], it.operation, it.machine - 1, int(it.start * problem.parts), int(it.end * problem.parts)) for it in moved]
    return Tried(name, "early", problem.cost(ends_of(problem, placed)), placed, [])


def joined(pieces: Sequence[Piece]) -> List[Piece]:
    """The pieces, those of an operation as one: in a class without cuts they follow each other on one machine."""
    found: dict[Tuple[str, int], Piece] = {}
    for it in sorted(pieces, key=lambda it: it.start):
        key = it.job, it.operation
        found[key] = replace(it, start=found[key].start) if key in found else it
    return list(found.values())


class Planner:
    """Makes the proposal for an instance."""

    def __init__(self, program: Program, instance: Instance, wanted: Search) -> None:
        self.program, self.instance, self.wanted = program, instance, wanted
        self.problem = Problem(instance)
        self.words = Words(instance, AsTheyStand())
        self.tried: List[Tried] = []
        self.plans: List[Tuple[str, List[Piece]]] = []
        self.interrupted = False

    def judged(self, pieces: List[Piece]) -> Verdict:
        """What `check` says of pieces."""
        return judge(self.program, self.instance.text(), text_of(pieces, 0), pieces, self.words)

    def related(self, bounds: Sequence[Bound]) -> Iterator[Tried]:
        """The schedules of the relaxations of the greatest bounds, as orders of the jobs by their ends; each order once."""
        names, problem = set(self.problem.names), self.problem
        orders: dict[Tuple[int, ...], str] = {}
        for bound in bounds:
            if len(orders) == MOST_RELATED:
                break
            ends = read_schedule(bound.evidence).ends() if bound.evidence.startswith("start ") else {}
            if names.issubset(ends):
                orders.setdefault(tuple(by_names(problem, ends)), f"schedule of {bound.solved}")
        for those, rule in orders.items():
            order = list(those)
            if problem.cut:
                yield Tried(rule, "cut", float(cut_cost(problem, order)), [], order)
                continue
            for timing, timed in (("list", listed), ("serial", serial)):
                placed = timed(problem, order)
                yield Tried(rule, timing, problem.cost(ends_of(problem, placed)), placed, order)

    def target(self, bound: Bound | None) -> int | None:
        """The cost in parts below which nothing is."""
        return None if bound is None else math.ceil(self.problem.in_parts(bound.value))

    def heard(self, cost: float) -> None:
        """A better schedule was found."""
        self.wanted.heard(f"cost {said(self.problem.said(cost))}")

    def search(self, bound: Bound | None) -> None:
        """Searches, from the best of what was tried."""
        tries = standard_tries(self.problem) if self.wanted.tries is None else self.wanted.tries
        effort, draw = Effort(tries, self.target(bound), self.heard), Draw(self.wanted.seed)
        if self.problem.cut:
            self.plans.append((SEARCH, self.whole(cut(self.problem, self.tried, effort, draw))))
            self.without_cuts(tries, bound)
        else:
            name, placed = uncut(self.problem, self.tried, effort, draw)
            self.plans.append((name, self.whole(self.problem.pieces(placed))))
        self.interrupted = self.interrupted or effort.interrupted

    def without_cuts(self, tries: int, bound: Bound | None) -> None:
        """Searches for a schedule that cuts nothing."""
        kind = replace(self.instance.kind, items=tuple(it for it in self.instance.kind.items if it != "pmtn"))
        problem = Problem(replace(self.instance, kind=kind), self.problem.free, self.problem.later)
        effort = Effort(tries, self.target(bound), self.heard)
        if not self.interrupted:
            name, placed = uncut(problem, list(tried(problem)), effort, Draw(self.wanted.seed))
            self.plans.append((f"{name} without cuts", problem.pieces(placed)))
            self.interrupted = effort.interrupted

    def best(self) -> Tuple[str, List[Piece], Fraction]:
        """The best schedule that `check` finds feasible."""
        found = [(name, pieces, verdict.cost) for name, pieces in self.plans for verdict in [self.judged(pieces)] if verdict.cost is not None]
        if not found:
            raise Fault("no schedule was found that check can judge")
        return min(found, key=lambda it: it[2])

    def begin(self) -> None:
        """Takes the schedules that are given, and tries the rules."""
        if self.wanted.begin:
            name, pieces = "the given schedule", self.wanted.begin.pieces
            verdict = self.judged(pieces)
            if not verdict.feasible:
                raise Fault(f"{name} is not feasible: {verdict.broken}")
            self.plans.append((name, pieces))
            self.tried.append(begun(self.problem, name, pieces))
            self.wanted.heard(f"cost {said(verdict.cost or Fraction(0))}, of {name}")
        self.tried += tried(self.problem)

    def ask_gecode(self) -> None:
        """Takes the schedule of Gecode as one more."""
        if self.wanted.nodes is None:
            return
        if self.problem.cut:
            raise Misfit("--by minizinc is for classes in which work is not cut")
        placed = schedule_by(self.problem, self.wanted.nodes, self.wanted.seed)
        if placed:
            self.plans.append(("minizinc", self.problem.pieces(placed)))
            self.tried.append(begun(self.problem, "minizinc", self.problem.pieces(placed)))

    def keep_best_rule(self) -> None:
        """Keeps the schedule of the best rule as a plan."""
        best = min(self.tried, key=lambda it: it.cost)
        pieces = cut_pieces(self.problem, best.order) if self.problem.cut else self.problem.pieces(best.placed)
        self.plans.append((f"{best.rule} by {best.timing}", self.whole(pieces)))

    def whole(self, pieces: List[Piece]) -> List[Piece]:
        """The plan of the pieces that were searched for."""
        return pieces

    def need_judge(self) -> None:
        """Refuses an instance that has a fault, and a class of which `check` judges no schedule."""
        self.program.report(["check"], self.instance.text() + text_of([], 0))

    def bounds(self) -> Tuple[Bound, ...]:
        """The lower bounds, the greatest first."""
        try:
            found = bounds_of(self.instance, self.program, self.wanted.heard)
        except KeyboardInterrupt:
            self.interrupted = True
            return ()
        for it in found[:1]:
            self.wanted.heard(f"bound {said(it.value)}")
        return found

    def look(self, bounds: Sequence[Bound]) -> None:
        """Looks for schedules; what is interrupted goes on with what there is."""
        solved = next((it for it in bounds if not it.steps and it.evidence.startswith("start ")), None)
        if solved is not None:
            schedule = read_schedule(solved.evidence)
            self.plans.append((f"solver {schedule.solver}", schedule.pieces))
        else:
            self.look_further(bounds)

    def look_further(self, bounds: Sequence[Bound]) -> None:
        """Tries the rules, and searches."""
        try:
            self.begin()
            self.tried += self.related(bounds)
            self.ask_gecode()
        except KeyboardInterrupt:
            self.interrupted = True
        if self.tried:
            self.keep_best_rule()
        if not self.interrupted:
            self.search(next(iter(bounds), None))

    def proposal(self) -> Proposal:
        """The proposal."""
        self.need_judge()
        bounds = self.bounds()
        self.look(bounds)
        name, pieces, cost = self.best()
        bound = next(iter(bounds), None)
        gap = None if bound is None else cost - bound.value
        word = bound.word if bound is not None and gap == 0 else "open"
        return Proposal(self.instance, str(self.instance.kind), cost, name, bound, gap, word, pieces, self.candidates(), self.interrupted, bounds)

    def candidates(self) -> List[Candidate]:
        """What was tried, the best first."""
        return [Candidate(it.rule, it.timing, self.problem.said(it.cost)) for it in sorted(self.tried, key=lambda it: it.cost) if it.cost != math.inf]



def proposal_of(program: Program, instance: Instance, wanted: Search) -> Proposal:
    """The proposal for an instance. ProgramRefusal: 3 where it has a fault, 4 a limit, 5 where `check` judges no schedule of its class."""
    return Planner(program, instance, wanted).proposal()


def candidates_of(program: Program, instance: Instance, wanted: Search) -> List[Candidate]:
    """What the rules find, and the schedules of relaxations, the best first."""
    planner = Planner(program, instance, wanted)
    planner.need_judge()
    planner.begin()
    planner.tried += planner.related(planner.bounds())
    planner.ask_gecode()
    return planner.candidates()
