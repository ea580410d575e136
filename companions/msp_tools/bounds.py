"""Lower bounds of an instance: lists of steps to classes with a solver, and certificates that `accept` takes on the instance itself.

    from msp_tools.bounds import bounds_of
    best = bounds_of(instance)[0]
    best.value, best.word, [step.words for step in best.steps]

docs/bounds.md has the steps with their proofs.
"""
from __future__ import annotations

import functools
import itertools
from dataclasses import dataclass, field, replace
from fractions import Fraction
from typing import Callable, Dict, Iterator, Sequence, Tuple

from .classes import ClassName
from .faults import Fault
from .factors import factors_for, moments_for, shares_for
from .loosenings import (STEPS, Loosening, alone, beyond, fast, is_whole, lateness, least_time, lone, machine, released_from,
                         times_by_machine, with_item, without)
from .numbers import fraction
from .program import Program, need_program
from .schedules import stated_cost
from .texts import Instance
from .windows import in_windows, windows, windows_for

Tell = Callable[[str], None]


@dataclass(frozen=True)
class Step:
    """A step that was made: its name, with numbers or a job behind a colon; what it did; and the text of the instance behind it."""
    name: str
    words: str
    text: str = field(repr=False)


@dataclass(frozen=True)
class Bound:
    """A lower bound. `solved` is the class at which `solve` gave the optimum, or the kind of the certificate that `accept` took on the
    instance; then, or where there is no step, the word is proved, and else argued. `evidence` is the report, or the certificate."""
    value: Fraction
    steps: Tuple[Step, ...]
    solved: str
    word: str
    evidence: str = field(default="", repr=False)


def silent(_: str) -> None:
    """Tells nothing."""


# Chains of steps

@dataclass(frozen=True)
class Chain:
    """Steps that were made, and the instances: the given one, and that behind each step."""
    steps: Tuple[Loosening, ...]
    instances: Tuple[Instance, ...]

    @property
    def last(self) -> Instance:
        """The last instance."""
        return self.instances[-1]

    def value(self, cost: Fraction) -> Fraction:
        """What the least cost of the last instance says of the given one."""
        for step, given in reversed(list(zip(self.steps, self.instances))):
            cost = step.value(cost, given)
        return cost


# (steps to other criteria)
CRITERIA: dict[str, Sequence[str]] = {
    "sumwC": ("least-weight",), "sumU": ("greatest",), "sumwU": ("least-weight", "greatest", "least-weight greatest"),
    "sumT": ("late-by-one", "greatest"),
    "sumwT": ("least-weight", "late-by-one", "least-weight late-by-one", "greatest", "least-weight greatest")}
# (what is left out, in the order in which the steps are made; of each place one further is looser)
LEFT_OUT = (("", "no-due"), ("", "no-precedence"), ("", "no-release"), ("", "equal", "equal unit"), ("", "cut", "one-machine"))
# (the same where all times are equal already)
LEFT_OUT_OF_EQUAL = (*LEFT_OUT[:3], ("", "unit"), *LEFT_OUT[4:])


class Finder:
    """Finds the chains from an instance to classes with a solver."""

    def __init__(self, given: Instance, solved: Callable[[ClassName], bool], tell: Tell) -> None:
        self.given, self.solved, self.tell = given, solved, tell
        self.taken = True  # (whether the solver took the last instance of the chain that was found last)
        self.texts: Dict[int, Tuple[Instance, str]] = {}

    def text(self, given: Instance) -> str:
        """The text of an instance, which several chains may have."""
        if id(given) not in self.texts:
            self.texts[id(given)] = given, given.text()
        return self.texts[id(given)][1]

    def further(self, chain: Chain, *steps: Loosening) -> Chain | None:
        """The chain with steps more, or None where one cannot be made. That numbers leave the limits of texts is told."""
        for step in steps:
            made = step.made(chain.last)
            fault = beyond(made) if made else None
            if fault:
                self.tell(f"no step {step.name.split(':')[0]} from {chain.last.kind}: {fault}")
            if made is None or fault:
                return None
            chain = Chain((*chain.steps, step), (*chain.instances, made))
        return chain

    def by_names(self, chain: Chain, names: str) -> Chain | None:
        """The same with steps by their names; unrelated machines become one by shares."""
        found: Chain | None = chain
        for name in names.split():
            shared = found and name == "one-machine" and found.last.kind.kind == "R" and found.last.kind.general
            found = self.further(found, fast(shares_for(found.last)) if shared else STEPS[name]) if found else None
        return found

    def ways(self, chain: Chain, *several: str) -> Iterator[Chain]:
        """The chain itself, and those with steps more, as far as they can be made."""
        yield chain
        for names in several:
            found = self.by_names(chain, names)
            if found:
                yield found

    def left_out(self, chain: Chain) -> Iterator[Chain]:
        """The chains to classes with a solver that leave out least; more where the instance is beyond a limit of that solver."""
        found: list[tuple[int, ...]] = []
        for places, names, kind in classes_behind(chain.last.kind):
            if not any(looser(places, it, kind) for it in found) and self.solved(kind):
                further = self.by_names(chain, names)
                if further:
                    self.taken = True
                    yield further
                    if self.taken:
                        found.append(places)

    def by_lateness(self, chain: Chain) -> Iterator[Chain]:
        """The chains to sums of completion times for tardiness, but in shops."""
        if chain.last.kind.criterion in ("sumT", "sumwT") and chain.last.kind.kind in "1PQR":
            for factors, scale in factors_for(chain.last):
                found = self.further(chain, lateness(factors, scale))
                yield from self.ways(found, "least-weight") if found else ()

    def in_shop(self, chain: Chain) -> Iterator[Chain]:
        """The chains to one machine of a shop, and on to the lateness there."""
        if chain.last.kind.kind in "OFJ":
            for number in range(1, chain.last.machines + 1):
                found = self.further(chain, machine(number))
                if found:
                    yield found
                    yield from self.by_lateness(found)

    def later_jobs(self, chain: Chain) -> Iterator[Chain]:
        """The chains to the jobs that are released from some moment on, without further dates, arcs and whole jobs."""
        kind = chain.last.kind
        names = "no-precedence " * bool(kind.precedence) + "no-release" + " cut" * ("pmtn" not in kind.items)
        loose = class_behind(kind, names)
        if kind.kind == "P" and loose and self.solved(loose) and not self.solved(with_item(loose, "r")):
            for moment in moments_for(chain.last):
                found = self.further(chain, released_from(moment))
                found = self.by_names(found, names) if found else None
                if found:
                    yield found

    def by_windows(self, chain: Chain) -> Iterator[Chain]:
        """The chains to the jobs of windows of time, where the given instance counts late jobs."""
        if self.given.kind.criterion[-1] == "U" and in_windows(chain.last.kind):
            for spans in windows_for(chain.last):
                found = self.further(chain, windows(spans))
                if found:
                    yield from self.left_out(found)

    def with_dates(self, chain: Chain) -> Chain:
        """The chain with release dates raised and due dates lowered along the arcs, as far as that can be."""
        for name in ("heads", "tails"):
            chain = self.by_names(chain, name) or chain
        return chain

    def one_job(self, chain: Chain) -> Iterator[Chain]:
        """The chain to the job that costs most at its earliest end."""
        chain = self.with_dates(self.by_names(chain, "fastest") or chain)
        if chain.last.kind.kind != "Q":
            costs = alone(chain.last, chain.last.jobs)
            found = self.further(chain, lone(chain.last.jobs[costs.index(max(costs))].name))
            if found:
                yield found

    def all(self) -> Iterator[Chain]:
        """All chains."""
        first = Chain((), (self.given,))
        if self.solved(self.given.kind):
            yield first
            return
        yield from self.one_job(first)
        criteria = self.ways(first, *CRITERIA.get(self.given.kind.criterion, ()))
        for one in itertools.chain(criteria, self.by_lateness(first)):
            for two in self.ways(one, *(["fastest"] if self.given.kind.precedence else []), "least-times"):
                dated = self.with_dates(two)
                for three in [two, dated] if dated.steps != two.steps else [two]:
                    yield from self.left_out(three)
                yield from self.later_jobs(dated)
                yield from self.by_windows(dated)
                for three in self.in_shop(dated):
                    yield from self.left_out(three)
                    yield from self.by_windows(three)


def class_behind(kind: ClassName, names: str) -> ClassName | None:
    """The class behind steps, or None."""
    found: ClassName | None = kind
    for name in names.split():
        found = STEPS[name].to(found) if found else None
    return found


@functools.lru_cache(maxsize=None)
def classes_behind(kind: ClassName) -> Sequence[Tuple[Tuple[int, ...], str, ClassName]]:
    """What can be left out of a class, least first: its places, the names of the steps, and the class behind them."""
    several = LEFT_OUT if kind.general else LEFT_OUT_OF_EQUAL
    ways = sorted(itertools.product(*(range(len(it)) for it in several)), key=lambda it: (sum(it), it))
    named = [(places, " ".join(them[at] for them, at in zip(several, places))) for places in ways]
    behind = [(places, names, class_behind(kind, names)) for places, names in named]
    return [(places, names, it) for places, names, it in behind if it]


def looser(places: Sequence[int], others: Sequence[int], kind: ClassName) -> bool:
    """Whether what is left out at places is looser than at others. (One fast machine says more of sums of ends without release dates.)"""
    if kind.criterion in ("sumC", "sumwC") and places[-1] == others[-1] == len(LEFT_OUT[-1]) - 1:
        return False
    return all(one >= it for one, it in zip(places, others))


# What the program says

NARROWER = {"Lmax": "Cmax", "fmax": "Cmax", "sumwC": "sumC", "sumwU": "sumU", "sumwT": "sumT"}


def narrowest(kind: ClassName) -> ClassName:
    """The class of unit times, without weights and due dates of the greatest cost: rows lead from it to the given one, so it has a solver where that
    one has."""
    return replace(with_item(without(kind, "p=p"), "p=1"), criterion=NARROWER.get(kind.criterion, kind.criterion))


class Asked:
    """The program, with what it said kept."""

    def __init__(self, program: Program, tell: Tell = silent) -> None:
        self.program, self.tell = program, tell
        self.classes: Dict[ClassName, bool] = {}
        self.reports: Dict[str, str | None] = {}

    def solved(self, kind: ClassName) -> bool:
        """Whether a class has a solver."""
        if kind not in self.classes:
            narrower = narrowest(kind)
            possible = narrower == kind or Asked.solved(self, narrower)
            self.classes[kind] = possible and self.program.call(["trial", str(kind), "1", "1"]).status == 0
        return self.classes[kind]

    def report(self, text: str) -> str | None:
        """The report of `solve`, or None where the instance is beyond a limit; a fault where the program does not read the text."""
        if text not in self.reports:
            status, report, note = self.program.call(["solve"], text)
            if status not in (0, 4, 5):
                raise Fault(note)
            if status == 4:
                self.tell(f"no bound at {text.splitlines()[1][6:]}: {note}")
            self.reports[text] = report if status == 0 else None
        return self.reports[text]


def by_steps(asked: Asked, given: Instance, tell: Tell) -> Iterator[Bound]:
    """The bounds by steps; of an instance that its own solver takes the optimum."""
    beyond_it = asked.solved(given.kind) and asked.report(given.text()) is None
    finder = Finder(given, lambda kind: asked.solved(kind) and not (beyond_it and kind == given.kind), tell)
    for chain in finder.all():
        report = asked.report(finder.text(chain.last))
        finder.taken = report is not None
        if report is not None:
            value, whole = chain.value(stated_cost(report)), STEPS["whole"]
            if chain.steps and is_whole(given.kind) and value.denominator > 1:
                chain, value = Chain((whole, *chain.steps), (given, *chain.instances)), whole.value(value, given)
            steps = [Step(step.name, step.words, finder.text(it)) for step, it in zip(chain.steps, chain.instances[1:])]
            yield Bound(value, tuple(steps), str(chain.last.kind), "argued" if steps else "proved", report)


def certified(given: Instance) -> Iterator[Instance]:
    """Instances for which `certify` may give evidence that `accept` takes on the given one."""
    kind = given.kind
    free = replace(given, jobs=[replace(it, release=None) for it in given.jobs], arcs=[], time=None)
    if (kind.kind, kind.criterion) == ("1", "fmax"):
        jobs = [replace(it, time=least_time(it, given), release=it.release_date) for it in given.jobs]
        yield replace(given, kind=ClassName("1", ("pmtn", "prec", "r"), "fmax"), jobs=jobs)
    elif kind.kind in "PQ" and kind.criterion == "Cmax":
        yield from by_slots(given)
        timed = [replace(it, time=least_time(it, given)) for it in free.jobs]
        yield replace(free, kind=ClassName(kind.kind, ("pmtn",), "Cmax"), jobs=timed)
    elif kind.kind in "OFJ" and kind.criterion == "Cmax":
        spent = [replace(it, times=times_by_machine(it, given), route=[]) for it in free.jobs]
        yield replace(free, kind=ClassName("O", ("pmtn",), "Cmax"), jobs=spent)
    elif kind.kind == "R" and kind.criterion == "sumC" and "pmtn" not in kind.items:
        each_machine = [replace(it, times=it.times or [given.shared] * given.machines) for it in free.jobs]
        yield replace(free, kind=ClassName("R", (), "sumC"), jobs=each_machine)


def by_slots(given: Instance) -> Iterator[Instance]:
    """The same, of uncut unit jobs on identical machines with arcs."""
    kind = given.kind
    if "p=1" in kind.items and "pmtn" not in kind.items and kind.kind == "P":
        jobs = [replace(it, release=None) for it in given.jobs]
        if given.machines == 2 and kind.precedence:
            yield replace(given, kind=ClassName("P2", ("prec", "p=1"), "Cmax"), jobs=jobs)
        elif kind.precedence in ("chains", "intree"):
            yield replace(given, kind=ClassName("P", ("intree", "p=1"), "Cmax"), jobs=jobs)


def by_certificates(program: Program, given: Instance) -> Iterator[Bound]:
    """The bounds that `accept` takes on the instance itself; or, of lateness on one machine, on it with the lateness as a curve."""
    curved = STEPS["curves"].made(given) if (given.kind.kind, given.kind.criterion) == ("1", "Lmax") else None
    steps = (Step("curves", STEPS["curves"].words, curved.text()),) if curved else ()
    judged = curved or given
    for it in certified(judged):
        status, report, _ = program.call(["certify"], it.text())
        if status == 0:
            text = report[report.index("certificate\n"):]
            said = program.call(["accept"], judged.text() + text)
            found = dict(line.split(" ", 1) for line in said.report.splitlines() if " " in line)
            if said.status == 0 and found["accepted"] == "yes":
                yield Bound(fraction(found["bound"], "bound"), steps, found["kind"], "argued" if steps else "proved", text)


def bounds_of(instance: Instance, program: Program | None = None, tell: Tell = silent) -> tuple[Bound, ...]:
    """The lower bounds of an instance, the greatest first, of equal ones those that are proved and those of fewer steps."""
    asked = Asked(program or need_program(), tell)
    found: dict[tuple[Fraction, str], Bound] = {}
    for bound in itertools.chain(by_certificates(asked.program, instance), by_steps(asked, instance, tell)):
        key = bound.value, bound.solved
        if key not in found or len(found[key].steps) > len(bound.steps):
            found[key] = bound
    return tuple(sorted(found.values(), key=lambda it: (-it.value, it.word != "proved", len(it.steps))))


def of_each_class(bounds: Sequence[Bound]) -> Iterator[Bound]:
    """The first of the bounds of each class that was solved, and of each kind of certificate."""
    seen: set[str] = set()
    for bound in bounds:
        if bound.solved not in seen:
            seen.add(bound.solved)
            yield bound
