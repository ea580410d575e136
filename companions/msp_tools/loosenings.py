"""The steps of lower bounds: each loosens an instance, and says how the least cost there bounds the one here.

docs/bounds.md has for each step its condition, what it does to the text, its inequality and a proof. `companions/verify` makes the steps
again by other code.
"""
from __future__ import annotations

import math
from dataclasses import dataclass, replace
from fractions import Fraction
from typing import Any, Callable, Dict, Iterable, Sequence

from .classes import ITEMS, ClassName
from .limits import GREATEST, GREATEST_EQUAL_TIME, said
from .schedules import cost_at
from .texts import KEYS, Instance, Job

Edit = Callable[[Instance], Instance]
Value = Callable[[Fraction, Instance], Fraction]
GREATEST_OF_ALL = ("Cmax", "Lmax", "fmax")


def as_it_is(given: Instance) -> Instance:
    """No edit."""
    return given


def the_same(cost: Fraction, _: Instance) -> Fraction:
    """A bound that is the cost itself."""
    return cost


@dataclass(frozen=True)
class Loosening:
    """A step: its name, with a machine or a job behind it; what it does; the class to which it leads, or None; the edit of the parts of the
    instance; and the bound for a least cost there."""
    name: str
    words: str
    to: Callable[[ClassName], "ClassName | None"]
    edit: Edit = as_it_is
    value: Value = the_same
    fits: Callable[[Instance], bool] = lambda given: True

    def made(self, given: Instance) -> Instance | None:
        """The loosened instance, or None where the class or the instance has no such step, or no job is left."""
        kind = self.to(given.kind)
        if kind is None or not self.fits(given):
            return None
        made = tidy(replace(self.edit(given), kind=kind))
        return made if made.jobs else None


def tidy(given: Instance) -> Instance:
    """The instance without what its class has no place for."""
    keys = given.kind.keys
    gone: dict[str, Any] = {name: None for key, name in KEYS.items() if key not in keys}
    if given.kind.criterion != "fmax":
        gone["curve"] = []
    return each(given, lambda job: {name: none for name, none in gone.items() if getattr(job, name) != none})


def beyond(given: Instance) -> str | None:
    """What leaves the limits of texts, in words, or None."""
    for job in given.jobs:
        numbers = [job.due or 0, job.time or 0, job.release or 0, job.weight or 0, *job.times, *[it or 0 for _, it in job.route], *job.curve]
        greatest = max(numbers + [-min(numbers)])
        if greatest > GREATEST:
            return f"{greatest} of {job.name} is above {said(GREATEST)}"
    return None


# Parts of classes and instances

def without(kind: ClassName, *items: str) -> ClassName:
    """The class without some items."""
    return replace(kind, items=tuple(it for it in kind.items if it not in items))


def with_item(kind: ClassName, item: str) -> ClassName:
    """The class with one item more."""
    return kind if item in kind.items else replace(kind, items=tuple(sorted((*kind.items, item), key=ITEMS.index)))


def each(given: Instance, change: Callable[[Job], Dict[str, Any]]) -> Instance:
    """The instance with fields of its jobs changed; a job of which none changes stays."""
    changes = [(job, change(job)) for job in given.jobs]
    return replace(given, jobs=[changed(job, fields) if fields else job for job, fields in changes])


def changed(job: Job, fields: Dict[str, Any]) -> Job:
    """The job with other values of some fields."""
    return Job(**{**vars(job), **fields})


def kept(given: Instance, jobs: list[Job]) -> Instance:
    """The instance with some of its jobs, and the arcs between them."""
    names = {it.name for it in jobs}
    return replace(given, jobs=jobs, arcs=[it for it in given.arcs if names.issuperset(it)])


def least_time(job: Job, given: Instance) -> int:
    """The least time from a job's begin to its end, on machines without speeds."""
    return sum(time for _, time in given.operations(job))


def earliest(job: Job, given: Instance) -> int:
    """The earliest end of a job."""
    return job.release_date + least_time(job, given)


def alone(given: Instance, jobs: Iterable[Job]) -> list[Fraction]:
    """What jobs cost at their earliest ends."""
    return [Fraction(cost_at(given, job, earliest(job, given))) for job in jobs]


def least_weight(given: Instance) -> int:
    """The least weight."""
    return min(it.factor for it in given.jobs)


def later(job: Job, shift: int) -> dict[str, Any]:
    """The fields of a job whose cost at a moment is that of the given one so much later, but for sums of completion times."""
    found: dict[str, Any] = {} if job.due is None else {"due": job.due - shift}
    if job.curve:
        slope, base, *steps = job.curve
        pairs = [(above - shift, add) for above, add in zip(steps[::2], steps[1::2])]
        found["curve"] = [slope, base + slope * shift + sum(add for above, add in pairs if above < 0),
                          *(it for pair in pairs if pair[0] >= 0 for it in pair)]
    return found


def multiplied(given: Instance, factor: int) -> Instance:
    """The instance with its moments and, by curves, its costs multiplied; times of jobs stay."""
    def change(job: Job) -> dict[str, Any]:
        dates = {"release": job.release, "due": job.due}
        curve = [*job.curve[:1], *(it * factor for it in job.curve[1:])]
        return {**{key: it * factor for key, it in dates.items() if it is not None}, "curve": curve}
    return each(given, change)


def divided(cost: Fraction, given: Instance, factor: int) -> Fraction:
    """A cost where moments were multiplied."""
    return cost if given.kind.criterion in ("sumU", "sumwU") else cost / factor


# What is left out

def cut(kind: ClassName) -> ClassName | None:
    """The class in which jobs may be cut."""
    return None if "pmtn" in kind.items else with_item(kind, "pmtn")


def no_precedence(kind: ClassName) -> ClassName | None:
    """The class without precedence."""
    return without(kind, kind.precedence) if kind.precedence else None


def no_release(kind: ClassName) -> ClassName | None:
    """The class without release dates."""
    return without(kind, "r") if "r" in kind.items else None


def first_release(given: Instance) -> int:
    """The least release date."""
    return min(it.release_date for it in given.jobs)


def from_first(given: Instance) -> Instance:
    """All jobs are there at the least release date, from which time is counted."""
    first = first_release(given)
    return each(given, lambda job: {**later(job, first), "release": None})


def after_first(cost: Fraction, given: Instance) -> Fraction:
    """A cost of completion times that were counted from the least release date."""
    counted = {"Cmax": 1, "sumC": len(given.jobs), "sumwC": sum(it.factor for it in given.jobs)}
    return cost + first_release(given) * counted.get(given.kind.criterion, 0)


def released_from(moment: int) -> Loosening:
    """The step to the jobs that are released at a moment or later."""
    return Loosening(f"from:{moment}", f"the jobs that are released from {moment} on", later_ones,
                     lambda given: kept(given, [it for it in given.jobs if it.release_date >= moment]))


def later_ones(kind: ClassName) -> ClassName | None:
    """The class of some of the jobs, where the greatest cost counts."""
    return kind if "r" in kind.items and kind.criterion in GREATEST_OF_ALL else None


# Times

def equal(kind: ClassName) -> ClassName | None:
    """The class of equal times."""
    return with_item(kind, "p=p") if kind.general else None


def all_times(given: Instance) -> list[int]:
    """The times of all operations, on all machines that may run them."""
    return [it for job in given.jobs for it in (job.times if given.kind.kind == "R" else [time for _, time in given.operations(job)])]


def of_least_time(given: Instance) -> Instance:
    """Every operation takes the least time, at most 10^6."""
    made = each(given, lambda job: {"time": None, "times": [], "route": [(machine, None) for machine, _ in job.route]})
    return replace(made, time=min(*all_times(given), GREATEST_EQUAL_TIME))


def has_equal(given: Instance) -> bool:
    """Whether no operation takes no time, so that all can be made equal."""
    return min(all_times(given)) > 0


def unit(kind: ClassName) -> ClassName | None:
    """The class of unit times."""
    return with_item(without(kind, "p=p"), "p=1") if "p=p" in kind.items else None


def in_units(given: Instance) -> Instance:
    """Time is counted in shared times: release dates are rounded down, due dates and thresholds up."""
    shared = given.shared

    def change(job: Job) -> dict[str, Any]:
        found: dict[str, Any] = {} if job.release is None else {"release": job.release // shared}
        found.update({} if job.due is None else {"due": -(-job.due // shared)})
        if job.curve:
            steps = [-(-it // shared) if at % 2 == 0 else it for at, it in enumerate(job.curve[2:])]
            found["curve"] = [job.curve[0] * shared, job.curve[1], *steps]
        return found
    return replace(each(given, change), time=None)


def by_units(cost: Fraction, given: Instance) -> Fraction:
    """A cost where time was counted in shared times."""
    return cost if given.kind.criterion in ("sumU", "sumwU", "fmax") else cost * given.shared


# Machines

def one_machine(kind: ClassName) -> ClassName | None:
    """One machine, on which jobs may be cut, for identical, uniform and unrelated ones."""
    return with_item(replace(kind, environment="1"), "pmtn") if kind.kind in "PQ" or kind.kind == "R" and kind.general else None


def shares_of(given: Instance, shares: Sequence[int]) -> Sequence[int]:
    """Of each machine its speed, or on unrelated ones its share of a fast one."""
    return shares if given.kind.kind == "R" and shares else given.speeds or [1] * given.machines


def work_of(job: Job, given: Instance, shares: Sequence[int]) -> int:
    """The time of a job on a machine as fast as all together, times the sum of the shares."""
    return min(it * time for it, time in zip(shares, job.times)) if job.times else least_time(job, given)


def gains(given: Instance, shares: Sequence[int]) -> list[Fraction]:
    """For each job half of the time by which it takes longer on one machine than on the fast one."""
    total, most = sum(shares), max(given.speeds, default=1)
    return [(Fraction(least_time(it, given), most) - Fraction(work_of(it, given, shares), total)) / 2 for it in given.jobs]


def fast(shares: Sequence[int] = ()) -> Loosening:
    """The step to one machine as fast as all of them together."""
    def edit(given: Instance) -> Instance:
        those = shares_of(given, shares)
        timed = each(given, lambda job: {"time": work_of(job, given, those), "times": []}) if given.kind.kind == "R" else given
        return replace(multiplied(timed, sum(those)), machines=1, speeds=[])

    def value(cost: Fraction, given: Instance) -> Fraction:
        those = shares_of(given, shares)
        bound = divided(cost, given, sum(those))
        if given.kind.criterion in ("sumC", "sumwC") and not given.kind.precedence and "r" not in given.kind.items:
            bound += sum(it.factor * gain for it, gain in zip(given.jobs, gains(given, those)))
        return bound
    listed = ":" + ",".join(map(str, shares)) if shares else ""
    return Loosening(f"one-machine{listed}", "one machine, as fast as all of them", one_machine, edit, value)


def fastest(kind: ClassName) -> ClassName | None:
    """Identical machines for uniform ones."""
    return replace(kind, environment="P" + kind.environment[1:]) if kind.kind == "Q" else None


def all_fastest(given: Instance) -> Instance:
    """All machines are as fast as the fastest, with moments multiplied by its speed."""
    return replace(multiplied(given, max(given.speeds)), speeds=[])


def least_times(kind: ClassName) -> ClassName | None:
    """Identical machines for unrelated ones."""
    return replace(kind, environment="P" + kind.environment[1:]) if kind.kind == "R" else None


def of_least_times(given: Instance) -> Instance:
    """Each job takes its least time on every machine."""
    return each(given, lambda job: {"time": min(job.times), "times": []} if job.times else {})


def times_by_machine(job: Job, given: Instance) -> list[int]:
    """The time of a job on each machine of a shop."""
    found = [0] * given.machines
    for number, time in given.operations(job):
        found[(number or 1) - 1] += time
    return found



# Precedence

def heads(kind: ClassName) -> ClassName | None:
    """The class with release dates, where there is precedence and no machine has a speed."""
    return with_item(kind, "r") if kind.precedence and kind.kind != "Q" else None


def has_arcs(given: Instance) -> bool:
    """Whether there are arcs."""
    return bool(given.arcs)


def along(given: Instance) -> list[tuple[Job, list[str]]]:
    """The jobs, each behind those before it, with the names of these; jobs on a cycle are left out."""
    before: dict[str, list[str]] = {it.name: [] for it in given.jobs}
    for first, second in given.arcs:
        before[second].append(first)
    found: dict[str, tuple[Job, list[str]]] = {}
    waiting = list(given.jobs)
    while waiting:
        ready = [it for it in waiting if all(name in found for name in before[it.name])]
        if not ready:
            break
        found.update((it.name, (it, before[it.name])) for it in ready)
        waiting = [it for it in waiting if it.name not in found]
    return list(found.values())


def with_heads(given: Instance) -> Instance:
    """No job is released before those ahead of it can have ended."""
    release = {it.name: it.release_date for it in given.jobs}
    for job, before in along(given):
        release[job.name] = max([release[job.name], *(release[it] + least_time(given.by_name[it], given) for it in before)])
    return each(given, lambda job: {"release": release[job.name]})


def tails(kind: ClassName) -> ClassName | None:
    """The class of the greatest lateness, where there is precedence and no machine has a speed."""
    fits = kind.precedence and kind.kind != "Q" and kind.criterion in ("Cmax", "Lmax")
    return replace(kind, criterion="Lmax") if fits else None


def as_lateness(given: Instance) -> Instance:
    """An instance of Cmax as one of Lmax, with due dates 0; others as they are."""
    if given.kind.criterion != "Cmax":
        return given
    return replace(each(given, lambda job: {"due": 0}), kind=replace(given.kind, criterion="Lmax"))


def with_tails(given: Instance) -> Instance:
    """Each job is due so early that those behind it can be done in time."""
    given = as_lateness(given)
    due = {it.name: it.due_date for it in given.jobs}
    for job, before in reversed(along(given)):
        for it in before:
            due[it] = min(due[it], due[job.name] - least_time(job, given))
    return each(given, lambda job: {"due": due[job.name]})


# One machine of a shop, and one job

@dataclass(frozen=True)
class Stay:
    """What a job does on a machine of a shop: the earliest begin, the time there, and the least time between its end there and the end."""
    head: int
    time: int
    tail: int


def stay_of(job: Job, given: Instance, number: int) -> Stay | None:
    """What a job does on a machine, or None where it has no operation there."""
    steps = [(machine, time) for machine, time in given.operations(job) if time]
    there = [at for at, (machine, _) in enumerate(steps) if machine == number]
    if not there:
        return None
    work = sum(steps[at][1] for at in there)
    if given.kind.kind == "O":
        return Stay(job.release_date, work, 0)
    front, back = steps[:there[0]], steps[there[-1] + 1:]
    return Stay(job.release_date + sum(time for _, time in front), work, sum(time for _, time in back))


def of_one(kind: ClassName) -> ClassName | None:
    """The class of one machine of a shop."""
    if kind.kind not in "OFJ":
        return None
    items = ("pmtn", "prec", "r") if kind.precedence else ("pmtn", "r")
    return ClassName("1", items, "Lmax" if kind.criterion == "Cmax" else kind.criterion)


def machine(number: int) -> Loosening:
    """The step to one machine of a shop."""
    def edit(given: Instance) -> Instance:
        given, jobs = as_lateness(given), []
        for job in given.jobs:
            stay = stay_of(job, given, number)
            if stay:
                fields = {**later(job, stay.tail), "time": stay.time, "release": stay.head, "times": [], "route": []}
                jobs.append(changed(job, fields))
        return replace(kept(given, jobs), machines=1, time=None)

    def value(cost: Fraction, given: Instance) -> Fraction:
        rest = alone(given, [job for job in given.jobs if not any(at == number and time for at, time in given.operations(job))])
        if given.kind.criterion in GREATEST_OF_ALL:
            return max([cost, *rest])
        if given.kind.criterion in ("sumC", "sumwC"):
            stays = [(job, stay_of(job, given, number)) for job in given.jobs]
            cost += sum(job.factor * stay.tail for job, stay in stays if stay)
        return cost + sum(rest)
    return Loosening(f"machine:{number}", f"machine {number} alone, each job with the least time in front of it and behind it", of_one, edit, value)


def curve_of(job: Job, criterion: str) -> list[int]:
    """The cost of a job as a curve; where it is tardiness, its lateness times the weight."""
    if criterion == "fmax":
        return job.curve
    if criterion[-1] == "U":
        return [0, 0, job.due_date, job.factor] if job.due_date >= 0 else [0, job.factor]
    return [job.factor, -job.factor * (job.due or 0)]


def lone(name: str) -> Loosening:
    """The step to one job alone, on one machine."""
    def edit(given: Instance) -> Instance:
        job = given.by_name[name]
        one = Job(name, time=least_time(job, given), release=job.release_date, curve=curve_of(job, given.kind.criterion))
        return replace(given, machines=1, speeds=[], time=None, jobs=[one], arcs=[])

    def value(cost: Fraction, given: Instance) -> Fraction:
        if given.kind.criterion in GREATEST_OF_ALL:
            return cost
        return max(cost, Fraction(0)) + sum(alone(given, [it for it in given.jobs if it.name != name]))
    return Loosening(f"job:{name}", f"job {name} alone, the others at their earliest ends",
                     lambda kind: None if kind.kind == "Q" else ClassName("1", ("pmtn", "r"), "fmax"), edit, value)


# Criteria

def other(*pairs: str) -> Callable[[ClassName], "ClassName | None"]:
    """The class with another criterion, by pairs as `sumT sumC`."""
    found = dict(it.split(" ") for it in pairs)
    return lambda kind: replace(kind, criterion=found[kind.criterion]) if kind.criterion in found else None


def late_by_one(kind: ClassName) -> ClassName | None:
    """The class that counts late jobs, where moments are whole."""
    return other("sumT sumU", "sumwT sumwU")(kind) if is_whole(kind) else None


def is_whole(kind: ClassName) -> bool:
    """Whether some best schedule of each instance has whole moments alone."""
    return "pmtn" not in kind.items and kind.kind != "Q"


def lateness(factors: Sequence[int], scale: int) -> Loosening:
    """The step from tardiness to lateness, of each job with a factor over a scale, at most its weight; jobs of factor 0 are left out."""
    def edit(given: Instance) -> Instance:
        return kept(given, [changed(job, {"weight": factor}) for job, factor in zip(given.jobs, factors) if factor])

    def value(cost: Fraction, given: Instance) -> Fraction:
        due = sum(factor * job.due_date for job, factor in zip(given.jobs, factors))
        return max((cost - due) / scale, Fraction(0))
    return Loosening(f"lateness:{','.join(map(str, factors))}/{scale}", "tardiness is at least lateness, weighed by factors",
                     other("sumT sumwC", "sumwT sumwC"), edit, value)


def with_curves(given: Instance) -> Instance:
    """The cost of each job as a curve, where the class is one of weights or of a greatest value."""
    if given.kind.criterion in ("sumT", "sumU"):
        return given
    return each(given, lambda job: {"curve": curve_of(job, given.kind.criterion)})


def by_greatest(cost: Fraction, given: Instance) -> Fraction:
    """The greatest tardiness; or whether a job is late."""
    return Fraction(int(cost > 0)) if given.kind.criterion == "sumU" else max(cost, Fraction(0))


LEAST_WEIGHT = ("sumwC sumC", "sumwU sumU", "sumwT sumT")
GREATEST_COST = ("sumU Lmax", "sumT Lmax", "sumwU fmax", "sumwT fmax")
STEPS = {it.name: it for it in (
    Loosening("cut", "jobs may be cut", cut),
    Loosening("no-precedence", "precedence left out", no_precedence, lambda given: replace(given, arcs=[])),
    Loosening("no-due", "due dates left out but for the greatest one", other("Lmax Cmax"), as_it_is,
              lambda cost, given: cost - max(it.due_date for it in given.jobs)),
    Loosening("no-release", "release dates left out but for the least one", no_release, from_first, after_first),
    Loosening("equal", "each operation takes the least time of all", equal, of_least_time, fits=has_equal),
    Loosening("unit", "time counted in the shared time", unit, in_units, by_units),
    fast(),
    Loosening("fastest", "each machine as fast as the fastest", fastest, all_fastest,
              lambda cost, given: divided(cost, given, max(given.speeds))),
    Loosening("least-times", "each job takes its least time on every machine", least_times, of_least_times),
    Loosening("heads", "release dates raised along the arcs", heads, with_heads, fits=has_arcs),
    Loosening("tails", "due dates lowered along the arcs", tails, with_tails, fits=has_arcs),
    Loosening("least-weight", "all weights the least one", other(*LEAST_WEIGHT), as_it_is, lambda cost, given: cost * least_weight(given)),
    Loosening("late-by-one", "a late job is late by 1 at least", late_by_one),
    Loosening("greatest", "a sum is at least its greatest part", other(*GREATEST_COST), with_curves, by_greatest),
    Loosening("whole", "the least cost is a whole number", lambda kind: kind if is_whole(kind) else None, as_it_is,
              lambda cost, given: Fraction(math.ceil(cost))),
    Loosening("curves", "lateness as a curve", other("Cmax fmax", "Lmax fmax"), with_curves))}
