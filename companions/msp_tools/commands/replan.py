"""A new plan of what is left of an old one."""
from __future__ import annotations

import re
from dataclasses import dataclass, field
from fractions import Fraction
from typing import Dict, List, Mapping, Tuple

from ..faults import Misfit
from ..files import read_text
from ..leftover import Happened
from ..numbers import decimal, said
from ..program import need_program
from ..proposals import Search
from ..replanning import Begin, Replanned, replanned
from ..schedules import read_schedule, text_of
from ..texts import Instance, read_instance_at
from ..units import Units, UnitWords, words_of_call, write_names
from .frame import Command, Parser, Tell, add_program, positive

SAYS = """
Plans again, from an old plan and a moment: the instance of what is left, and a plan of it.

INSTANCE is the instance of the old plan, PLAN its schedule text, or a report of solve or propose. What the old plan ends by now is done, and what
it has begun runs, unless the words say otherwise; JOB is a job, or in a shop JOB:N its operation N. What is printed is the instance of what is left
and the new plan behind it: check, plan and gantt read it. With release dates moments stay what they are; without them they count from now,
and costs too, and that is told. Going on in the old order is one of the plans that are tried, so the new one is never dearer.

Old and new begins are told on standard error, with cost, bound and the word of propose, and what no class can say: what has begun stays on
its machine, but the instance does not demand it; what is left of a job of a class with p=1 or p=p has a time of its own, and the class
becomes another; a machine that comes back has no class.

With the file that from-csv --names wrote, MOMENT and TIME are those of the list, as dates where it has them, jobs may be called as there, and
begins, cost and bound are told so. The instance that is printed may count from another moment: --new-names writes a file of names that is its own.

It ends with 0 where there is a plan, with 1 where the search was interrupted, with 2 where the words do not fit, and with 3 where a text has a
fault, or nothing is left.
"""
OPERATION = re.compile(r"([A-Za-z0-9_.-]{1,32})(?::([0-9]{1,2}))?")


@dataclass
class Wanted:
    """The words of the call."""
    instance: str = ""
    plan: str = ""
    now: str = ""
    done: List[str] = field(default_factory=list)
    left: List[str] = field(default_factory=list)
    failed: List[str] = field(default_factory=list)
    rush: str | None = None
    gone: List[str] = field(default_factory=list)
    tries: int | None = None
    seed: int = 1
    names: str | None = None
    new_names: str | None = None
    program: str | None = None


def operation(text: str, word: str, listed: Mapping[str, str]) -> Tuple[str, int]:
    """A job, or JOB:N; jobs have their names in the list, too."""
    front, _, last = text.rpartition(":")
    if text in listed or front in listed and last.isdecimal():
        return (listed[text], 0) if text in listed else (listed[front], int(last))
    found = OPERATION.fullmatch(text)
    if not found:
        raise Misfit(f"{word} {text}: a job, or JOB:N for its operation N")
    return found[1], int(found[2] or 0)


def number(text: str, word: str, units: Units, moment: bool) -> int:
    """A moment or a length of time: a whole number from 0, or with a file of names as the list has it, where that is whole in the instance."""
    if units.names.path:
        with words_of_call():
            value = units.read_moment(text, word) if moment else decimal(text, word) / units.factor
        if value.denominator > 1 or value < 0:
            raise Misfit(f"{word} {text}: the instance counts in whole numbers, and this is {said(value)}")
        return int(value)
    if not re.fullmatch(r"[0-9]{1,18}", text):
        raise Misfit(f"{word} {text}: a whole number from 0, in the units of the instance")
    return int(text)


def machine(text: str) -> int:
    """A machine that failed."""
    if "=" in text:
        raise Misfit(f"--failed {text}: no class has a machine that comes back; plan without it, or from the moment at which it does")
    if not text.isdecimal() or int(text) < 1:
        raise Misfit(f"--failed {text}: the number of a machine, from 1")
    return int(text)


def happened_by(wanted: Wanted, units: Units) -> Happened:
    """What happened, by the words."""
    listed, left = {original: name for name, original in units.names.jobs.items()}, {}
    for text in wanted.left:
        name, mark, time = text.rpartition("=")
        if not mark or number(time, f"--left {name}", units, False) < 1:
            raise Misfit(f"--left {text}: JOB=TIME, with a time from 1")
        left[operation(name, "--left", listed)] = number(time, f"--left {name}", units, False)
    if not wanted.now:
        raise Misfit("--now MOMENT is wanted")
    rush = read_instance_at(wanted.rush) if wanted.rush else None
    return Happened(number(wanted.now, "--now", units, True), [operation(it, "--done", listed) for it in wanted.done], left,
                    [machine(it) for it in wanted.failed], rush, [listed.get(it, it) for it in wanted.gone])


def answer(wanted: Wanted, tell: Tell) -> Replanned:
    """The new plan."""
    if wanted.new_names and not wanted.names:
        raise Misfit("--new-names FILE is for a list with --names FILE")
    program, given, units = need_program(wanted.program), read_instance_at(wanted.instance), Units(UnitWords(names=wanted.names))
    units.need(None, given)
    old = read_schedule(read_text(wanted.plan))
    found = replanned(program, given, old, happened_by(wanted, units), Search(wanted.tries, wanted.seed))
    for line in (*found.told, *in_words(found, units)):
        tell(line)
    if wanted.new_names:
        write_names(wanted.new_names, [(it.name, units.job(it.name)) for it in found.instance.jobs], words_left(found, given, units))
    return found


def words_left(found: Replanned, given: Instance, units: Units) -> Dict[str, str]:
    """What a file of names says of what is left: where moments count from now on, that is the start, and machines have their new numbers."""
    left = {word: value for word, value in units.names.words.items() if not word.startswith("machine ")}
    now = units.at(Fraction(found.origin))
    if now and "r" not in given.kind.items:
        left["start"] = now.said()
    left.update({f"machine {new}": units.names.machines[old] for old, new in found.machines.items() if old in units.names.machines})
    return left


def in_words(found: Replanned, units: Units) -> List[str]:
    """Cost, bound and begins."""
    plan, criterion = found.proposal, found.instance.kind.criterion
    cost = units.cost_in_words(plan.cost, criterion) if units.names.path else f"cost {said(plan.cost)}"
    below = (units.cost(plan.bound.value, criterion) if units.names.path else said(plan.bound.value)) if plan.bound else ""
    lines = [cost + f", nothing is below {below}" * bool(plan.bound) + f": {plan.word}; found by {plan.found}"]
    moved = [it for it in found.begins if it.before != it.now or it.machine_before != it.machine]
    return [*lines, *(moved_in_words(it, units) for it in moved), f"{len(found.begins) - len(moved)} begin as before"]


def moved_in_words(it: Begin, units: Units) -> str:
    """An operation that begins at another moment, or on another machine."""
    def on_machine(at: int | None) -> str:
        return f" on {units.names.machines.get(at or 0, f'machine {at}')}" if it.machine_before != it.machine else ""

    name = units.job(it.job) if it.operation == 1 else f"{units.job(it.job)}:{it.operation}"
    before = "it is new" if it.before is None else f"before at {units.moment(it.before)}{on_machine(it.machine_before)}"
    return f"{name} begins at {units.moment(it.now)}{on_machine(it.machine)}, {before}"


def show(found: Replanned) -> None:
    """Prints the instance, and the plan behind it."""
    print(found.instance.text() + text_of(found.proposal.pieces, found.proposal.cost), end="")


def status(found: Replanned) -> int:
    """1 where the search was interrupted."""
    return int(found.proposal.interrupted)


def words(parser: Parser) -> None:
    """Adds the words."""
    parser.add_argument("instance", metavar="INSTANCE", help="the instance of the old plan")
    parser.add_argument("plan", metavar="PLAN", help="the old plan")
    parser.add_argument("--now", metavar="MOMENT", default="", help="the moment now, in the units of the instance; it is wanted always")
    parser.add_argument("--done", metavar="JOB", action="append", default=[], help="is done, though the plan ends it later")
    parser.add_argument("--left", metavar="JOB=TIME", action="append", default=[], help="so much of its time is left, whatever the plan says")
    parser.add_argument("--failed", metavar="MACHINE", action="append", default=[], help="is out of order from now on")
    parser.add_argument("--rush", metavar="FILE", help="an instance of the same class whose jobs have come")
    parser.add_argument("--gone", metavar="JOB", action="append", default=[], help="is called off")
    parser.add_argument("--tries", metavar="N", type=positive, help="how many schedules the search looks at; without it what takes seconds")
    parser.add_argument("--names", metavar="FILE", help="the file that from-csv --names wrote: jobs, moments and costs are those of the list")
    parser.add_argument("--new-names", metavar="FILE", help="writes the file of names of what is left, for plan and gantt")
    parser.add_argument("--seed", metavar="N", type=positive, default=1, help="another sequence of what the search draws; without it 1")
    add_program(parser)


EXAMPLE = "replan orders.txt orders.plan --now 480 --left saw=30 --gone oak > today.txt\nreplan shop.txt shop.plan --now 24 --failed 2 | plan"
COMMAND = Command("replan", "INSTANCE PLAN --now MOMENT [OPTION ..]", SAYS, EXAMPLE, Wanted, words, answer, show, status)
