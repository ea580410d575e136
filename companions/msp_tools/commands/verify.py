"""Whether the evidence in a folder shows what it says: each step is made again, by code that `propose` does not use."""
from __future__ import annotations

import os
from dataclasses import dataclass, field, replace
from fractions import Fraction
from functools import reduce
from operator import attrgetter
from typing import Any, Callable, Dict, Iterable, List, Tuple

from ..classes import ITEMS, ClassName
from ..faults import Fault, Misfit, Refusal
from ..files import read_text
from ..numbers import fraction
from ..program import Program, need_program
from ..schedules import cost_at
from ..texts import Instance, Job, read_instance
from .frame import Command, Parser, Tell, add_program

SAYS = """
Says whether the evidence in a folder, as propose --evidence writes it, shows the cost and the bounds that it states. `check` judges the
schedule. Each step of a bound is made again, by code of its own, and has to give the text in the folder; `solve` is asked for the optimum
behind the last one, or `accept` judges the certificate; the inequalities of the steps (docs/bounds.md) then give the bound.

It ends with 0 where all holds and no bound is above the cost, with 1 where something does not, and with 2 where there is no such folder.
"""
Back = Callable[[Fraction], Fraction]  # (the bound for a least cost behind a step)
Form = Tuple[Any, Callable[[], "Given"], Back]  # (the condition of a step, the instance behind it, and the way back)
same: Back = Fraction


def need(holds: Any, why: str) -> None:
    """Refuses what does not hold."""
    if not holds:
        raise Fault(why)


def later(job: Job, shift: int) -> Dict[str, Any]:
    """A job that costs at a moment what the given one costs so much later, but for sums of completion times."""
    pairs = [(above - shift, add) for above, add in zip(job.curve[2::2], job.curve[3::2])]
    base = [job.curve[1] + job.curve[0] * shift + sum(add for above, add in pairs if above < 0)] if job.curve else []
    return {"due": None if job.due is None else job.due - shift, "curve": job.curve[:1] + base + [it for one in pairs if one[0] >= 0 for it in one]}


class Given(Instance):
    """An instance, with the steps that can be made from it."""

    def each(self, change: Callable[[Job], Dict[str, Any]]) -> Given:
        """The instance with values of its jobs changed."""
        return replace(self, jobs=[replace(it, **change(it)) for it in self.jobs])

    def to(self, less: Iterable[Any] = (), more: Iterable[str] = (), **parts: str) -> Given:
        """The instance in the class with items less or more and other parts; what that class has no place for goes."""
        items = {*self.kind.items}.difference(less).union(more)
        kind = replace(self.kind, items=tuple(it for it in ITEMS if it in items), **parts)
        gone: Dict[str, Any] = {name: None for key, name in (("r", "release"), ("d", "due"), ("w", "weight")) if key not in kind.keys}
        return replace(self, kind=kind).each(lambda it: {**gone, "curve": it.curve if kind.criterion == "fmax" else []})

    def kept(self, jobs: List[Job]) -> Given:
        """The instance with some of its jobs, and the arcs between them."""
        names = {it.name for it in jobs}
        return replace(self, jobs=jobs, arcs=[it for it in self.arcs if names.issuperset(it)])

    def length(self, job: Job) -> int:
        """The least time from the begin of a job to its end, without speeds."""
        return sum(time for _, time in self.operations(job))

    def curve(self, job: Job) -> List[int]:
        """A curve that is at most the cost of a job."""
        late = [0, 0, job.due or 0, job.factor] if (job.due or 0) >= 0 else [0, job.factor]
        return late if self.kind.criterion[-1] == "U" else job.curve or [job.factor, -job.factor * (job.due or 0)]

    def late(self) -> Given:
        """An instance of Cmax as one of Lmax, with due dates 0."""
        return self.to(criterion="Lmax").each(lambda it: {"due": 0}) if self.kind.criterion == "Cmax" else self

    def quick(self, factor: int) -> Given:
        """The instance with its moments and the costs of its curves multiplied, and without speeds."""
        return replace(self, speeds=[]).each(lambda it: {"release": it.release_date * factor, "due": (it.due or 0) * factor,
                                                         "curve": it.curve[:1] + [number * factor for number in it.curve[1:]]})

    def simple(self, _: str) -> Dict[str, Form]:
        """What is left out, and times."""
        items, criterion, time, first = self.kind.items, self.kind.criterion, self.shared, min(it.release_date for it in self.jobs)
        least = min(it for job in self.jobs for it in job.times or [time for _, time in self.operations(job)])
        count = {"Cmax": 1, "sumC": len(self.jobs), "sumwC": sum(it.factor for it in self.jobs)}.get(criterion, 0)
        return {
            "cut": ("pmtn" not in items, lambda: self.to(more=["pmtn"]), same),
            "no-precedence": (self.kind.precedence, lambda: replace(self.to([self.kind.precedence]), arcs=[]), same),
            "no-release": ("r" in items, lambda: self.each(lambda it: later(it, first)).to(["r"]), lambda cost: cost + first * count),
            "equal": (self.kind.general and least > 0, lambda: replace(self, time=min(least, 10**6)).each(lambda it: {
                "time": None, "times": [], "route": [(at, None) for at, _ in it.route]}).to(more=["p=p"]), same),
            "unit": ("p=p" in items, lambda: self.each(lambda it: {"release": it.release_date // time, "due": -(-(it.due or 0) // time), "curve": [
                n * time if at == 0 else n if at % 2 else -(-n // time) for at, n in enumerate(it.curve)]}).to(["p=p"], ["p=1"]),
                     lambda cost: cost if criterion == "fmax" or criterion[-1] == "U" else cost * time)}

    def several(self, which: str) -> Dict[str, Form]:
        """One machine for all, of which each has its speed or a share; all as fast as the fastest; the least time of each job on all."""
        kind, most, alike = self.kind, max(self.speeds or [1]), "P" + self.kind.environment[1:]
        shares = [int(it) for it in which.split(",")] if which.replace(",", "").isdigit() else self.speeds or [1] * self.machines
        fits, counts = kind.kind == "R" and kind.general and len(shares) == self.machines and min(shares) > 0, kind.criterion[-1] == "U"
        work = {job.name: min(share * time for share, time in zip(shares, job.times)) if fits else self.length(job) for job in self.jobs}
        total, free = sum(shares) or 1, kind.criterion in ("sumC", "sumwC") and not kind.precedence and "r" not in kind.items
        more = free * sum(it.factor * (Fraction(self.length(it), most) - Fraction(work[it.name], total)) / 2 for it in self.jobs)
        return {
            "one-machine": (fits or kind.kind in "PQ" and not which, lambda: replace(self.quick(total), machines=1).each(lambda it: {
                "time": work[it.name] if kind.general else None, "times": []}).to(more=["pmtn"], environment="1"),
                            lambda cost: cost if counts else cost / total + more),
            "fastest": (kind.kind == "Q", lambda: self.quick(most).to(environment=alike), lambda cost: cost if counts else cost / most),
            "least-times": (kind.kind == "R", lambda: self.each(lambda it: {
                "time": min(it.times, default=None), "times": []}).to(environment=alike), same)}

    def criteria(self, which: str) -> Dict[str, Form]:
        """Other criteria, and some of the jobs."""
        old, kind, least, late = self.kind.criterion, self.kind.kind, min(it.factor for it in self.jobs), self.kind.criterion[-1] == "T"
        curved, whole = self.each(lambda it: {"curve": self.curve(it)}), "pmtn" not in self.kind.items and kind != "Q"
        *factors, scale = [int(it) for it in which.replace("/", ",").split(",")] if late and "/" in which else [-1, 1]
        fits = len(factors) == len(self.jobs) and all(0 <= factor <= scale * it.factor for factor, it in zip(factors, self.jobs))
        spans = [[int(it) for it in one.split("-")] for one in which.split(",") if "-" in one] or [[0, 0]]
        those = [[it for it in self.jobs if x <= it.release_date <= (it.due or 0) - self.length(it) <= y - self.length(it)] for x, y in spans]
        ids = [it.name for it in sum(those, [])]
        more = sum(cost_at(self, it, it.release_date + self.length(it)) for it in self.jobs if it.name not in ids)
        more += sum(min(it.factor for it in one) for one, (x, y) in zip(those[1:], spans[1:]) if sum(map(self.length, one)) > (max(
            (b.due_date - a.release_date for a in one for b in one if a is not b), default=y) if kind == "1" and whole else self.machines * (y - x)))
        return {
            "windows": (old[-1] == "U" and "r" in self.kind.items and not self.kind.precedence and kind != "Q" and len({*ids}) == len(ids),
                        lambda: self.kept([replace(it, due=it.due_date - spans[0][0]) for it in those[0]]).to(["r"]), lambda cost: cost + more),
            "from": ("r" in self.kind.items and "max" in old, lambda: self.kept([it for it in self.jobs if it.release_date >= int(which)]), same),
            "no-due": (old == "Lmax", lambda: self.to(criterion="Cmax"), lambda cost: cost - max(it.due_date for it in self.jobs)),
            "least-weight": ("w" in old, lambda: self.to(criterion=old.replace("w", "")), lambda cost: cost * least),
            "lateness": (late and fits, lambda: self.kept([replace(it, weight=factor) for factor, it in zip(factors, self.jobs) if factor]).to(
                criterion="sumwC"), lambda cost: max((cost - sum(x * (y.due or 0) for x, y in zip(factors, self.jobs))) / scale, Fraction(0))),
            "late-by-one": (late and whole, lambda: self.to(criterion=old.replace("T", "U")), same),
            "greatest": (late or old[-1] == "U", lambda: curved.to(criterion="fmax" if "w" in old else "Lmax"),
                         lambda cost: Fraction(cost > 0) if old == "sumU" else max(cost, Fraction(0))),
            "curves": (old in ("Cmax", "Lmax"), lambda: curved.to(criterion="fmax"), same),
            "whole": (whole, lambda: self, lambda cost: Fraction(-(-cost // 1)))}

    def along(self, _: str) -> Dict[str, Form]:
        """Release dates raised, and due dates lowered, along the arcs."""
        fits, times = self.kind.precedence and self.arcs and self.kind.kind != "Q", {it.name: self.length(it) for it in self.jobs}
        heads, tails = {it.name: it.release_date for it in self.jobs}, {it.name: it.due or 0 for it in self.late().jobs}
        for one, two in self.arcs * len(self.jobs):
            heads[two], tails[one] = max(heads[two], heads[one] + times[one]), min(tails[one], tails[two] - times[two])
        return {"heads": (fits, lambda: self.to(more=["r"]).each(lambda it: {"release": heads[it.name]}), same),
                "tails": (fits and self.kind.criterion in ("Cmax", "Lmax"), lambda: self.late().each(lambda it: {"due": tails[it.name]}), same)}

    def alone(self, which: str) -> Dict[str, Form]:
        """One machine of a shop, with heads and tails; or one job, with its cost as a curve; other jobs cost what they do at their earliest ends."""
        dated, jobs, greatest, more = self.late(), [], self.kind.criterion[-3:] == "max", Fraction(0)
        early = {it.name: Fraction(cost_at(self, it, it.release_date + self.length(it))) for it in self.jobs}
        for job in dated.jobs:
            steps = [it for it in self.operations(job) if it[1]]
            there = [at for at, it in enumerate(steps) if str(it[0]) == which]
            if there:
                head, tail = (sum(time for _, time in those) * (self.kind.kind != "O") for those in (steps[:there[0]], steps[there[-1] + 1:]))
                shifted = replace(job, release=job.release_date + head, **later(job, tail))
                jobs.append(replace(shifted, time=sum(steps[at][1] for at in there), times=[], route=[]))
                more += job.factor * tail * (self.kind.criterion[-1] == "C")
        rest = [early[it.name] for it in self.jobs if it.name not in [job.name for job in jobs]]
        one = [Job(it.name, time=self.length(it), release=it.release_date, curve=self.curve(it)) for it in self.jobs if it.name == which]
        return {"machine": (self.kind.kind in "OFJ", lambda: replace(dated.kept(jobs), machines=1, time=None, kind=ClassName(
                    "1", ("pmtn", "prec", "r") if self.kind.precedence else ("pmtn", "r"), dated.kind.criterion)),
                            lambda cost: max([cost, *rest]) if greatest else cost + sum(rest) + more),
                "job": (self.kind.kind != "Q" and one, lambda: replace(self.kept(one), kind=ClassName("1", ("pmtn", "r"), "fmax"), machines=1),
                        lambda cost: cost if greatest else max(cost, Fraction(0)) + sum(early[it] for it in early if it != which))}

    def made(self, step: str) -> Tuple[Given, Back]:
        """The instance behind a step, and the way back."""
        name, _, which = step.partition(":")
        steps = (self.simple, self.several, self.alone, self.criteria, self.along)
        condition, instance, back = next((form for some in steps for key, form in some(which).items() if key == name), (False, lambda: self, same))
        need(condition, f"the step {step} cannot be made from {self.kind}")
        return instance(), back


@dataclass
class Wanted:
    """The words of the call."""
    folder: str = ""
    program: str | None = None


@dataclass
class Answer:
    """The class, the cost of the schedule, the bounds (value, word, and by what), and what does not hold."""
    name: str = ""
    cost: Fraction | None = None
    bounds: List[Tuple[Fraction, str, str]] = field(default_factory=list)
    fault: str | None = None
    status: int = 0


def said(program: Program, word: str, text: str, *wanted: str) -> Dict[str, str]:
    """What the program says of a text, by the first words of its lines, among which are those that are wanted."""
    lines = program.call([word], text).report.split("\n")
    need({*wanted}.issubset(lines), f"msp {word} does not say {' and '.join(wanted)}")
    return dict(it.split(" ", 1) for it in lines if " " in it)


def bound(program: Program, front: str, x: Given, line: str) -> Tuple[Fraction, str, str]:
    """The bound of a line: its value, its word, and its steps with what is behind them."""
    (value, word, *steps), backs = line.split(" "), [same]
    for number, step in enumerate(steps, 1):
        x, back = x.made(step)
        backs.append(back)
        need(x.text() == read_text(f"{front}-step-{number}.txt"), f"the step {step} does not make {os.path.basename(front)}-step-{number}.txt")
    if os.path.exists(f"{front}-certificate.txt"):
        end = said(program, "accept", x.text() + read_text(f"{front}-certificate.txt"), "accepted yes")
    else:
        end = said(program, "solve", x.text(), f"start {x.kind}")
        report = "schedule\n" + read_text(f"{front}-report.txt").partition("\nschedule\n")[2]
        said(program, "check", x.text() + report, f"cost {end['cost']}", "agree yes")
    found = reduce(lambda cost, back: back(cost), reversed(backs), fraction(end.get("bound") or end["cost"], "bound"))
    need((str(found), word) == (value, "argued" if steps else "proved"), f"the steps of {line} give {found}")
    return found, word, ", ".join([*steps, end.get("kind") or str(x.kind)])


def answer(wanted: Wanted, _: Tell) -> Answer:
    """What the evidence shows, up to what does not hold."""
    if not os.path.isdir(wanted.folder):
        raise Misfit(f"there is no folder {wanted.folder}")
    program, folder, found = need_program(wanted.program), wanted.folder, Answer()
    try:
        text, schedule = read_text(f"{folder}/instance.txt"), read_text(f"{folder}/schedule.txt")
        judged, given = said(program, "check", text + schedule, "agree yes"), Given(**vars(read_instance(text)))
        need(given.text() == text, "instance.txt is not as it is printed")
        found.name, found.cost = str(given.kind), fraction(judged["cost"], "cost")
        for number, line in enumerate(read_text(f"{folder}/bounds.txt").splitlines(), 1):
            found.bounds.append(bound(program, f"{folder}/bound-{number}", given, line))
            need(found.bounds[-1][0] <= found.cost, "a bound is above the cost")
    except (Refusal, LookupError, ValueError, ArithmeticError) as fault:
        found.fault, found.status = str(fault), 1
    return found


def show(found: Answer) -> None:
    """Prints what holds, and what does not."""
    print(f"class {found.name}\ncost {found.cost}" if found.name else "nothing holds")
    print(*[f"bound {x[0]} {x[1]} by {x[2]}" for x in found.bounds], "verified " + (f"no: {found.fault}" if found.fault else "yes"), sep="\n")


def words(parser: Parser) -> None:
    """Adds the words."""
    parser.add_argument("folder", metavar="FOLDER", help="the folder that propose --evidence wrote")
    add_program(parser)


COMMAND = Command("verify", "FOLDER [OPTION ..]", SAYS, "verify evidence", Wanted, words, answer, show, attrgetter("status"))
