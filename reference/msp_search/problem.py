"""Scheduling problems as the search sees them, and the reader of their texts.

An operation has, for each machine that may run it, the time that it takes there. All else follows from that: identical machines
give it one time, uniform ones its work over their speeds, unrelated ones any times, and shops a single machine.
"""
import re
from dataclasses import dataclass
from fractions import Fraction
from typing import Iterator, Mapping, Optional

CRITERIA = ("Cmax", "Lmax", "fmax", "sumC", "sumwC", "sumU", "sumwU", "sumT", "sumwT")
_MACHINES = {"1": 1, "P2": 2, "P3": 3, "Q2": 2, "R2": 2, "O2": 2, "O3": 3, "F2": 2, "F3": 3, "J2": 2}


class Unreadable(Exception):
    """A text that the search cannot read, with the line."""


@dataclass(frozen=True)
class Operation:
    """An operation with work to do: its number in the text, and its time on each machine that may run it, machines from 0."""
    number: int
    times: Mapping[int, Fraction]


@dataclass(frozen=True)
class Job:
    """A job: its name, its dates and weight, its curve, and its operations."""
    name: str
    release: int
    due: int
    weight: int
    curve: tuple[int, ...]                      # slope, base, and then a threshold and an add for each step
    operations: tuple[Operation, ...]

    def cost(self, criterion: str, end: Fraction) -> Fraction:
        """What the job costs where it ends at a moment."""
        late = max(end - self.due, Fraction(0))
        if criterion == "fmax":
            slope, base, *steps = self.curve
            return slope * end + base + sum(add for above, add in zip(steps[::2], steps[1::2]) if above < end)
        weight = self.weight if "w" in criterion else 1
        kinds = {"Cmax": end, "Lmax": end - self.due, "C": end, "U": Fraction(late > 0), "T": late}
        return weight * kinds[criterion.replace("sum", "").replace("w", "")]


@dataclass(frozen=True)
class Problem:
    """An instance: its criterion, its machines and jobs, and which job comes before which one."""
    criterion: str
    cut: bool                                   # whether operations may be cut
    ordered: bool                               # whether the operations of a job go in their order
    machines: int
    jobs: tuple[Job, ...]
    arcs: tuple[tuple[int, int], ...]

    def total(self, costs: list[Fraction]) -> Fraction:
        """The cost of a schedule from those of its jobs."""
        return max(costs) if self.criterion.endswith("max") else sum(costs, Fraction(0))


@dataclass
class _Head:
    """What the lines before the jobs say."""
    environment: str
    cut: bool = False
    arbitrary: bool = True                      # whether jobs have times of their own
    criterion: str = ""
    machines: int = 1
    speeds: tuple[int, ...] = ()
    time: int = 1


class _Reader:
    """The lines of a text, one after another."""

    def __init__(self, text: str) -> None:
        self.lines = text.split("\n")
        self.line = 0

    def take(self, *words: str) -> Optional[list[str]]:
        """The fields behind the first word of the next line, if it is one of these."""
        fields = self.lines[self.line].split(" ") if self.line < len(self.lines) else [""]
        if fields[0] not in words:
            return None
        self.line += 1
        return fields if len(words) > 1 else fields[1:]

    def need(self, word: str) -> list[str]:
        """The fields behind the first word of the next line, which has to be this one."""
        fields = self.take(word)
        if fields is None:
            raise self.fault(f"`{word}` is wanted")
        return fields

    def fault(self, what: str) -> Unreadable:
        """A fault of the line that is next."""
        return Unreadable(f"line {self.line + 1}: {what}")


def read(text: str) -> tuple[Problem, str]:
    """The problem of an instance text at the front of a text, and what stands behind it."""
    reader = _Reader(text)
    try:
        problem = _problem(reader)
    except (ValueError, KeyError, IndexError) as fault:
        reader.line -= 1
        raise reader.fault(f"not understood ({fault})") from None
    return problem, "\n".join(reader.lines[reader.line:])


def _problem(reader: _Reader) -> Problem:
    if reader.need("msp") != ["1"]:
        raise ValueError("version")
    head = _head(reader)
    jobs: dict[str, Job] = {}
    while True:
        fields = reader.take("job")
        if fields is None:
            break
        jobs[fields[0]] = _job(reader, head, fields)
    places = {name: place for place, name in enumerate(jobs)}
    arcs = []
    while True:
        fields = reader.take("arc")
        if fields is None:
            break
        arcs.append((places[fields[0]], places[fields[1]]))
    reader.need("end")
    return Problem(head.criterion, head.cut, head.environment[0] in "FJ", head.machines, tuple(jobs.values()), tuple(arcs))


def _head(reader: _Reader) -> _Head:
    environment, items, criterion = reader.need("class")[0].split("|")
    head = _Head(environment)
    head.criterion = criterion.replace("_", "").replace("j", "")
    if head.criterion not in CRITERIA:
        raise ValueError(criterion)
    head.cut = "pmtn" in items.split(",")
    times = re.search(r"\bp_?i?j?=(1|p)", items)
    head.arbitrary = times is None
    fixed = _MACHINES.get(environment)
    head.machines = fixed if fixed else int(reader.need("machines")[0])
    if environment[0] == "Q":
        head.speeds = tuple(map(int, reader.need("speeds")))
    if times and times[1] == "p":
        head.time = int(reader.need("time")[0])
    return head


def _job(reader: _Reader, head: _Head, fields: list[str]) -> Job:
    keys = {key: int(number) for key, number in (field.split("=") for field in fields[1:])}
    operations = tuple(_operations(reader, head, keys.get("p", head.time)))
    curve = tuple(map(int, reader.need("curve"))) if head.criterion == "fmax" else ()
    return Job(fields[0], keys.get("r", 0), keys.get("d", 0), keys.get("w", 1), curve, operations)


def _operations(reader: _Reader, head: _Head, time: int) -> Iterator[Operation]:
    kind = head.environment[0]
    if kind == "J":
        route = list(map(int, reader.need("route")))
        times = route[1::2] if head.arbitrary else [time] * len(route)
        for number, (machine, spent) in enumerate(zip(route[::2] if head.arbitrary else route, times)):
            yield Operation(number, {machine - 1: Fraction(spent)})
        return
    spread = list(map(int, reader.need("times"))) if kind in "ROF" and head.arbitrary else [time] * head.machines
    if kind in "OF":
        for machine, spent in enumerate(spread):
            if spent > 0:
                yield Operation(machine, {machine: Fraction(spent)})
    else:
        speeds = head.speeds or (1,) * head.machines
        yield Operation(0, {machine: Fraction(spent, speed) for machine, (spent, speed) in enumerate(zip(spread, speeds))})
