"""Instances of a class that a seed draws: what `msp trial` draws where nothing else is wanted."""
from __future__ import annotations

from dataclasses import dataclass, field
from fractions import Fraction

from typing import List, Union

from .classes import ClassName
from .faults import Misfit
from .limits import SEEDS

Fields = List[Union[str, int]]


@dataclass
class Wanted:
    """How an instance is drawn: ranges of numbers, the looseness of due dates, the number of machines, and the shape of trees."""
    kind: ClassName
    jobs: int
    times: tuple[int, int] = (1, 100)
    releases: tuple[int, int] = (0, 999)
    weights: tuple[int, int] = (1, 100)
    zeros: bool = True  # (whether an operation of a shop may take no time though the times begin at 1)
    due: Fraction | None = None
    machines: int | None = None
    roots: int | None = None
    depth: int | None = None
    width: int | None = None
    shared: int = field(default=1, init=False)  # (the time of every job, where all take one)


class Draws:
    """Numbers that follow from a seed, one after another."""

    def __init__(self, seed: int) -> None:
        self.seed = seed

    def below(self, count: int) -> int:
        """A number from 0 to count - 1, of at most 2^15."""
        self.seed = (1103515245 * self.seed + 12345) % SEEDS
        return self.seed // 65536 % count

    def between(self, least: int, most: int) -> int:
        """A number from least to most; one draw where the range is small."""
        count = most - least + 1
        return least + (self.below(count) if count <= 2**15 else (self.below(2**15) * 2**15 + self.below(2**15)) % count)


def route_of(draws: Draws, wanted: Wanted, machines: int) -> list[int]:
    """The machines and times of a route, as fields: no two neighbours are on one machine."""
    fields: list[int] = []
    last: int | None = None
    for _ in range(draws.between(1, 2 if "n<=2" in wanted.kind.items else 4)):
        last = draws.below(machines) if last is None else (last + 1 + draws.below(machines - 1)) % machines
        fields.append(last + 1)
        if wanted.kind.general:
            fields.append(draws.between(max(wanted.times[0], 1), wanted.times[1]))
    return fields


def times_of(draws: Draws, wanted: Wanted, machines: int) -> tuple[str, list[Fields], int]:
    """The keys and lines with the times of a job, and the work that it needs at least: by its shortest machine on R."""
    kind, (least, most) = wanted.kind.kind, wanted.times
    if kind == "J":
        route = route_of(draws, wanted, machines)
        return "", [["route", *route]], sum(route[1::2]) if wanted.kind.general else len(route) * wanted.shared
    if not wanted.kind.general:
        return "", [], wanted.shared * (machines if kind in "OF" else 1)
    if kind in "1PQ":
        time = draws.between(max(least, 1), most)
        return f" p={time}", [], time
    lowest = 0 if kind in "OF" and wanted.zeros else max(least, 1) if kind == "R" else least
    times = [draws.between(max(least, 1) if m == 0 else lowest, most) for m in range(machines)]
    return "", [["times", *times]], min(times) if kind == "R" else sum(times)


def curve_of(draws: Draws) -> Fields:
    """The fields of a cost curve."""
    curve: Fields = ["curve", draws.below(10), draws.below(1000) - 500]
    for _ in range(draws.below(3)):
        curve += [draws.below(2000), draws.below(100)]
    return curve


@dataclass
class Drawn:
    """A job that was drawn: its keys, further lines, release date and work."""
    name: str
    keys: str
    lines: list[Fields]
    release: int
    work: int


def jobs_of(draws: Draws, wanted: Wanted, machines: int) -> list[Drawn]:
    """The jobs; due dates behind release date and work are not in them yet."""
    found = []
    for number in range(1, wanted.jobs + 1):
        keys, lines, work = times_of(draws, wanted, machines)
        release = draws.between(*wanted.releases) if "r" in wanted.kind.keys else 0
        keys += f" r={release}" if "r" in wanted.kind.keys else ""
        due = draws.below(1000) if "d" in wanted.kind.keys and wanted.due is None else None
        keys += f" d={due}" if due is not None else ""
        keys += f" w={draws.between(*wanted.weights)}" if "w" in wanted.kind.keys else ""
        lines += [curve_of(draws)] if wanted.kind.criterion == "fmax" else []
        found.append(Drawn(f"j{number}", keys, lines, release, work))
    return found


def with_due_dates(draws: Draws, looseness: Fraction, jobs: list[Drawn], machines: int, speeds: list[int]) -> None:
    """Gives the jobs due dates by a looseness: in front of a weight, behind the work on the fastest machine."""
    slack = looseness * sum(it.work for it in jobs) // (sum(speeds) or machines)
    for job in jobs:
        due = job.release + -(-job.work // max(speeds or [1])) + draws.between(0, int(slack))
        front, mark, weight = job.keys.partition(" w=")
        job.keys = f"{front} d={due}{mark}{weight}"


def arcs_of(draws: Draws, items: tuple[str, ...], jobs: int) -> list[tuple[int, int]]:
    """The arcs, as pairs of jobs from 1."""
    arcs: list[tuple[int, int]] = []
    if "chains" in items:
        arcs = [(j, j + 1) for j in range(1, jobs) if draws.below(3)]
    elif "intree" in items:
        arcs = [(j, j + 1 + draws.below(min(jobs - j, 5))) for j in range(1, jobs) if draws.below(3)]
    elif "outtree" in items:
        arcs = [(j - 1 - draws.below(min(j - 1, 5)), j) for j in range(2, jobs + 1) if draws.below(3)]
    elif "prec" in items:
        arcs = [(j - 1 - draws.below(min(j - 1, 5)), j) for j in range(2, jobs + 1) for _ in range(2)]
    return list(dict.fromkeys(arcs))


def tree_of(draws: Draws, wanted: Wanted) -> list[tuple[int, int]]:
    """The arcs of a tree of a shape: so many roots, at most so many jobs in a path, at most so many arcs at a job."""
    jobs = wanted.jobs
    roots, depth, width = min(wanted.roots or 1, jobs), wanted.depth or jobs, wanted.width or jobs
    level, children = {it: 0 for it in range(1, roots + 1)}, dict.fromkeys(range(1, jobs + 1), 0)
    arcs = []
    for job in range(roots + 1, jobs + 1):
        free = [it for it in level if level[it] < depth - 1 and children[it] < width]
        if not free:
            raise Misfit("--depth, --width and --roots leave no place for all jobs")
        parent = free[draws.below(len(free))]
        level[job], children[parent] = level[parent] + 1, children[parent] + 1
        arcs.append((parent, job))
    # (an intree is an outtree turned round, its root the last job)
    return arcs if wanted.kind.precedence == "outtree" else [(jobs + 1 - job, jobs + 1 - parent) for parent, job in reversed(arcs)]


def text_of(wanted: Wanted, seed: int) -> str:
    """The instance text that a seed draws."""
    kind, draws = wanted.kind, Draws(seed)
    machines = kind.machines or wanted.machines or 4
    lines = ["msp 1", f"class {kind}"] + ([] if kind.machines else [f"machines {machines}"])
    speeds = [draws.between(1, 4) for _ in range(machines)] if kind.kind == "Q" else []
    lines += ["speeds " + " ".join(map(str, speeds))] if speeds else []
    wanted.shared = draws.between(max(wanted.times[0], 1), wanted.times[1]) if "p=p" in kind.items else 1
    lines += [f"time {wanted.shared}"] if "p=p" in kind.items else []
    jobs = jobs_of(draws, wanted, machines)
    shaped = wanted.roots or wanted.depth or wanted.width
    arcs = tree_of(draws, wanted) if shaped else arcs_of(draws, kind.items, wanted.jobs)
    if wanted.due is not None:
        with_due_dates(draws, wanted.due, jobs, machines, speeds)
    for job in jobs:
        lines += [f"job {job.name}{job.keys}", *(" ".join(map(str, it)) for it in job.lines)]
    lines += [f"arc j{before} j{after}" for before, after in arcs]
    return "\n".join([*lines, "end", ""])
