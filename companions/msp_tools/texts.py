"""Instance texts, read as they stand and printed again, with exact numbers.

Nothing here judges an instance: that is the program's work. A text that does not have the form of docs/formats.md raises a Fault that
names the line.
"""
from __future__ import annotations

from dataclasses import dataclass, field
from functools import cached_property
from typing import Optional, Tuple

from .classes import ClassName, class_named
from .faults import Fault
from .files import read_text
from .numbers import whole

Step = Tuple[int, Optional[int]]  # (a machine from 1 and a time, which is None where times are shared)


@dataclass
class Job:
    """A job of an instance text; what its class does not have is None or empty. Times and dates are whole numbers in one unit, from the moment 0:
    `times` one for each machine (R kinds) or operation (O and F kinds), `route` and `curve` as their lines have them. `line` is that of the text."""
    name: str
    line: int = 0
    time: int | None = None
    release: int | None = None
    due: int | None = None
    weight: int | None = None
    times: list[int] = field(default_factory=list)
    route: list[Step] = field(default_factory=list)
    curve: list[int] = field(default_factory=list)  # (slope, base, and a threshold and an add for each step)

    @property
    def release_date(self) -> int:
        """The release date, 0 where the class has none."""
        return self.release or 0

    @property
    def due_date(self) -> int:
        """The due date of a class that has them."""
        if self.due is None:
            raise Fault(f"line {self.line}: {self.name} has no due date")
        return self.due

    @property
    def factor(self) -> int:
        """The weight, 1 where the class has none."""
        return 1 if self.weight is None else self.weight


@dataclass
class Instance:
    """An instance text as it stands. `lines` is the number of its lines, `arcs` has pairs of names."""
    kind: ClassName
    machines: int
    speeds: list[int]
    time: int | None
    jobs: list[Job]
    arcs: list[tuple[str, str]]
    lines: int = 0

    @cached_property
    def by_name(self) -> dict[str, Job]:
        """The jobs by their names."""
        return {it.name: it for it in self.jobs}

    def job(self, name: str) -> Job | None:
        """The job of the name, or None."""
        return self.by_name.get(name)

    @property
    def shared(self) -> int:
        """The time that all operations share, in a class of equal times."""
        return self.time if self.time is not None and "p=1" not in self.kind.items else 1

    def operations(self, job: Job) -> list[tuple[int | None, int]]:
        """For each operation of a job its machine (None where any runs it) and its time; on R kinds the least one."""
        if self.kind.kind == "J":
            return [(machine, self.shared if time is None else time) for machine, time in job.route]
        if self.kind.kind in "OF":
            return list(enumerate(job.times or [self.shared] * self.machines, 1))
        if self.kind.kind == "R":
            return [(None, min(job.times, default=self.shared))]
        return [(None, self.shared if job.time is None else job.time)]

    def time_on(self, job: Job, number: int, machine: int) -> int:
        """The time of an operation, counted from 1, on a machine."""
        if self.kind.kind == "R":
            return job.times[machine - 1] if job.times else self.shared
        return self.operations(job)[number - 1][1]

    def text(self) -> str:
        """The instance text."""
        return text_of(self)


KEYS = {"p": "time", "r": "release", "d": "due", "w": "weight"}


class Reader:
    """Reads the lines of an instance text, one after another."""

    def __init__(self) -> None:
        self.kind: ClassName | None = None
        self.machines: int | None = None
        self.speeds: list[int] = []
        self.time: int | None = None
        self.jobs: list[Job] = []
        self.arcs: list[tuple[str, str]] = []

    def head(self, number: int, line: str) -> None:
        """Reads one of the two first lines."""
        word, *rest = line.split(" ")
        if number == 1 and line != "msp 1":
            raise Fault("line 1: an instance text begins with the line msp 1")
        if number == 2:
            self.kind = class_named(rest[0]) if word == "class" and len(rest) == 1 else None
            if self.kind is None:
                raise Fault("line 2: the line class and a name stands here")

    def line(self, number: int, line: str) -> None:
        """Reads a further line."""
        where, (word, *rest) = f"line {number}", line.split(" ")
        if word == "machines" and len(rest) == 1:
            self.machines = whole(rest[0], where)
        elif word == "speeds":
            self.speeds = [whole(it, where) for it in rest]
        elif word == "time" and len(rest) == 1:
            self.time = whole(rest[0], where)
        elif word == "job" and rest:
            self.jobs.append(job_of(rest, number))
        elif word in ("times", "route", "curve") and self.jobs:
            self.numbers(word, [whole(it, where) for it in rest])
        elif word == "arc" and len(rest) == 2:
            self.arcs.append((rest[0], rest[1]))
        else:
            raise Fault(f"{where}: not a line of an instance: {line}")

    def numbers(self, word: str, numbers: list[int]) -> None:
        """Gives the last job the numbers of a line."""
        job = self.jobs[-1]
        if word == "times":
            job.times = numbers
        elif word == "curve":
            job.curve = numbers
        elif self.kind is not None and self.kind.general:
            job.route = list(zip(numbers[::2], numbers[1::2]))
        else:
            job.route = [(it, None) for it in numbers]


def job_of(fields: list[str], number: int) -> Job:
    """The job of the fields behind the word job."""
    job = Job(fields[0], number)
    for it in fields[1:]:
        if it[:1] not in KEYS or it[1:2] != "=":
            raise Fault(f"line {number}: not a key of a job: {it}")
        setattr(job, KEYS[it[0]], whole(it[2:], f"line {number}"))
    return job


def read_instance(text: str) -> Instance:
    """The instance at the front of a text; what stands behind its line `end` is not looked at."""
    reader, lines = Reader(), text.split("\n")
    for number, line in enumerate(lines, 1):
        if number <= 2:
            reader.head(number, line)
        elif line == "end":
            break
        else:
            reader.line(number, line)
    else:
        raise Fault(f"line {len(lines)}: the line end is missing")
    kind = reader.kind
    machines = reader.machines if kind is None else kind.machines or reader.machines
    if kind is None or machines is None:
        raise Fault("line 3: the line machines is missing")
    return Instance(kind, machines, reader.speeds, reader.time, reader.jobs, reader.arcs, number)


def read_instance_at(path: str) -> Instance:
    """The instance of a file; faults have its path in front."""
    try:
        return read_instance(read_text(path))
    except Fault as fault:
        raise Fault(f"{path}: {fault}") from None


def text_of(instance: Instance) -> str:
    """The text of an instance."""
    kind, lines = instance.kind, ["msp 1", f"class {instance.kind}"]
    lines += [] if kind.machines else [f"machines {instance.machines}"]
    lines += ["speeds " + " ".join(map(str, instance.speeds))] if instance.speeds else []
    lines += [f"time {instance.time}"] if "p=p" in kind.items else []
    keys = [(key, KEYS[key]) for key in kind.keys]
    for job in instance.jobs:
        lines.append(f"job {job.name}" + "".join([f" {key}={getattr(job, name)}" for key, name in keys]))
        route = [it for step in job.route for it in step if it is not None]
        lines += [f"{word} " + " ".join(map(str, those)) for word, those in (("times", job.times), ("route", route), ("curve", job.curve)) if those]
    lines += [f"arc {before} {after}" for before, after in instance.arcs]
    return "\n".join([*lines, "end", ""])
