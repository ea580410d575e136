"""Which drawn instances make sheets: seeds of their own, naive rules that must fail, best schedules in whole numbers or halves."""
from __future__ import annotations

import hashlib
from dataclasses import dataclass
from fractions import Fraction
from typing import Callable, Sequence

from .classes import ClassName
from .draws import Wanted, text_of
from .faults import Fault, Misfit
from .handins import by_order
from .limits import SEEDS
from .numbers import Number
from .program import Program
from .relaxations import time_of
from .rules import levels_of
from .schedules import cost_of, read_schedule
from .texts import Instance, Job, read_instance

MOST_DRAWS = 200


# Naive rules: the usual mistakes

Order = Callable[[Instance], Sequence[Job]]

@dataclass(frozen=True)
class Naive:
    """A naive rule: in words, the order in which it takes the jobs, what the class has to have, and on which kinds of machines."""
    words: str
    order: Order
    needs: str = ""
    kinds: str = "1PF"


def by_key(key: Callable[[Job], Number]) -> Order:
    """The order by a key of each job; equal ones as listed."""
    return lambda instance: sorted(instance.jobs, key=key)


def work_of(job: Job) -> int:
    """The time of a job, or all its times."""
    return (job.time or 0) + sum(job.times)


def late_last(instance: Instance) -> list[Job]:
    """By due dates; a job that would end late goes to the end itself, whatever is longer."""
    kept: list[Job] = []
    late: list[Job] = []
    end = 0
    for job in sorted(instance.jobs, key=lambda it: it.due_date):
        on_time = end + time_of(job, instance) <= job.due_date
        (kept if on_time else late).append(job)
        end += time_of(job, instance) if on_time else 0
    return kept + late


def never_cut(instance: Instance) -> list[Job]:
    """Whenever the machine is free the shortest of the jobs that are there, to its end."""
    rest, now = list(instance.jobs), 0
    order: list[Job] = []
    while rest:
        there = [it for it in rest if it.release_date <= now]
        if there:
            order.append(min(there, key=lambda it: time_of(it, instance)))
            rest.remove(order[-1])
            now += time_of(order[-1], instance)
        else:
            now = min(it.release_date for it in rest)
    return order


def from_start(instance: Instance) -> list[Job]:
    """Jobs with the longest path in front of them first: levels counted from the wrong end."""
    levels = levels_of(instance.jobs, [(other, one) for one, other in instance.arcs])
    return sorted(instance.jobs, key=lambda it: -levels[it.name])


RULES = {
    "list": Naive("as they are listed", lambda instance: instance.jobs),
    "spt": Naive("shortest time first", by_key(work_of)),
    "lpt": Naive("longest time first", by_key(lambda job: -work_of(job))),
    "edd": Naive("earliest due date first", by_key(lambda job: job.due_date), "due dates"),
    "weight": Naive("greatest weight first", by_key(lambda job: -job.factor), "weights"),
    "ratio": Naive("least time by weight first", by_key(lambda job: Fraction(work_of(job), job.factor)), "weights"),
    "release": Naive("earliest release date first", by_key(lambda job: job.release_date), "release dates"),
    "slack": Naive("least due date less time first", by_key(lambda job: job.due_date - work_of(job)), "due dates"),
    "late-last": Naive("by due dates, and a late job itself to the end", late_last, "due dates", "1"),
    "never-cut": Naive("the shortest job that is there, to its end", never_cut, "release dates", "1"),
    "from-start": Naive("levels counted from the start", from_start, "precedence", "1P"),
    "first": Naive("shortest on the first machine first", by_key(lambda job: job.times[0]), "times on machines", "F"),
    "last": Naive("longest on the last machine first", by_key(lambda job: -job.times[-1]), "times on machines", "F"),
}


def has(kind: ClassName, need: str) -> bool:
    """Whether a class has what a rule needs."""
    return {"": True, "due dates": "d" in kind.keys, "weights": "w" in kind.keys, "release dates": "r" in kind.keys,
            "precedence": kind.precedence is not None, "times on machines": kind.general}[need]


def check_rule(name: str, kind: ClassName) -> None:
    """Refuses a rule that the class has no place for."""
    rule = RULES[name]
    if kind.kind not in "1PF":
        raise Misfit(f"--against {name}: an order makes no schedule in {kind}")
    if not has(kind, rule.needs):
        raise Misfit(f"--against {name}: {kind} has no {rule.needs}")
    if kind.kind not in rule.kinds:
        raise Misfit(f"--against {name} is for {' and '.join(rule.kinds)} alone")


def cost_by(rule: str, instance: Instance) -> Fraction:
    """The cost of the schedule that a rule makes: among the jobs that may come next, the first by the rule; no job is cut."""
    rest = list(RULES[rule].order(instance))
    words: list[tuple[str, int]] = []
    done: set[str] = set()
    while rest:
        job = next(it for it in rest if all(one in done for one, other in instance.arcs if other == it.name))
        rest.remove(job)
        words.append((job.name, 0))
        done.add(job.name)
    return cost_of(instance, by_order(words, instance)[1])


# Draws

def seed_of_its_own(seed: int, draw: int) -> int:
    """The seed of a draw: the given one first, then numbers that no neighbour draws too."""
    return seed if draw == 0 else int(hashlib.sha256(f"{seed} {draw}".encode()).hexdigest(), 16) % SEEDS


@dataclass
class Demands:
    """What a drawn instance has to be to make a sheet: of a cost that is not 0, unsolved by naive rules, with moments whole (1) or halves (2)."""
    nonzero: bool = False
    against: Sequence[str] = ()
    whole: int | None = None

    def __bool__(self) -> bool:
        return bool(self.nonzero or self.against or self.whole)


def misses(report: str, text: str, demands: Demands) -> str | None:
    """Why a solved instance is no sheet of the kind that is wanted, or None."""
    schedule = read_schedule(report)
    if demands.nonzero and schedule.cost == 0:
        return "has cost 0"
    if demands.whole and demands.whole % schedule.unit:
        return "has moments that are not whole" if demands.whole == 1 else "has moments that are not halves"
    if demands.against:
        instance = read_instance(text)
        solved = [it for it in demands.against if cost_by(it, instance) == schedule.cost]
        return f"is solved by {solved[0]}, {RULES[solved[0]].words}" if solved else None
    return None


@dataclass
class Sheet:
    """A drawn instance: its text, the number of the draw, and its least cost."""
    text: str
    draw: int
    cost: Fraction


def sheet_of(drawn: Wanted, demands: Demands, program: Program, seed: int) -> Sheet:
    """The first draw of a seed that is a sheet as it is wanted."""
    why = None
    for draw in range(MOST_DRAWS):
        text = text_of(drawn, seed_of_its_own(seed, draw))
        status, report, note = program.call(["solve"], text)
        if status != 0:
            raise Misfit(f"a sheet needs a cost, and solve says: {note}")
        why = misses(report, text, demands)
        if why is None:
            return Sheet(text, draw, read_schedule(report).cost)
    raise Fault(f"every one of the {MOST_DRAWS} draws of seed {seed} {why}: take a smaller --due, other --times or more jobs")
