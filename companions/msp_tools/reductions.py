"""Chains of reductions between classes: which rows of `rows` apply to a class, and the nearest chains to and from classes of known results.

That is worked out from the texts of the rows and the conditions beyond them, which docs/rows.md has; the atlas compares it with `why`.
"""
from __future__ import annotations

import csv
import io
import itertools
import re
from collections import deque
from typing import Callable, Dict, Iterable, Iterator, List, Mapping, Sequence, Tuple

from .classes import CRITERIA, ENVIRONMENTS, PRECEDENCE, class_named
from .faults import Fault
from .literature import Reason, Why

Row = Tuple[int, int]  # (a row's number, and the number of the class to which it leads)
Steps = List[List[Row]]  # (for each class the rows that apply)
Parts = Dict[str, str]
KINDS = ("easy", "pseudo", "hard", "strong")
CLAIMS = {"easy": ("easy",), "pseudo": ("pseudo",), "hard": ("hard", "strong"), "strong": ("strong",)}
RESIZING = (26, 27)  # (rows that do not keep the size of numbers: no chain of a pseudo or strong entry takes them)
TURNING = (47, 48)
# (the conditions of rows beyond their texts, as docs/rows.md has them: rows, and the classes to which they do not apply)
CONDITIONS: tuple[tuple[tuple[int, ...], Callable[[Parts], bool]], ...] = (
    ((26, 27, 28, 29, 30, 31, 51, 52), lambda parts: parts["times"] != "general"),
    ((45, 46, 47, 48), lambda parts: parts["environment"][0] in "FJ"),
    ((45, 46, 49, 50, 51, 52, 54), lambda parts: parts["release"] == "r"),
    ((49, 50, 51, 52), lambda parts: parts["environment"] != "1"),
    ((51, 52), lambda parts: parts["cut"] == "pmtn"),
)
OF_CRITERIA: dict[int, tuple[str, ...]] = {45: ("Cmax",), 46: ("Cmax",), 51: ("sumwC",), 52: ("sumwC",), 54: ("Cmax", "sumC", "sumwC")}
TURNED = {"intree": "outtree", "outtree": "intree"}


# Neighbours

def parts_of(name: str) -> Parts:
    """The parts of a class that rows change."""
    kind = class_named(name)
    if kind is None:
        raise Fault(f"{name} is no class")
    return {"environment": kind.environment + (" with n<=2" if "n<=2" in kind.items else ""), "cut": "pmtn" if "pmtn" in kind.items else "uncut",
            "order": kind.precedence or "none", "release": "r" if "r" in kind.items else "no r",
            "times": next((it for it in kind.items if it.startswith("p=")), "general"), "criterion": kind.criterion}


def name_of(parts: Parts) -> str:
    """The name of a class by its parts."""
    environment, _, short = parts["environment"].partition(" with ")
    items = (parts["cut"], parts["order"], parts["release"], parts["times"], short)
    return f"{environment}|{','.join(it for it in items if it not in ('uncut', 'none', 'no r', 'general', ''))}|{parts['criterion']}"


def all_names() -> list[str]:
    """The names of all classes, in order of rank: a bound on the operations of a job counts as machines of its own, before those without it."""
    machines = [it for it in ENVIRONMENTS if it[0] != "J"] + ["J2 with n<=2", "J with n<=2", "J2", "J"]
    parts = (machines, ("uncut", "pmtn"), ("none", *PRECEDENCE), ("no r", "r"), ("general", "p=1", "p=p"), CRITERIA)
    return [name_of(dict(zip(("environment", "cut", "order", "release", "times", "criterion"), it))) for it in itertools.product(*parts)]


def part_named(word: str) -> str:
    """Which part of a class a word in the text of a row is."""
    if word in ("pmtn", "uncut"):
        return "cut"
    if word in ("none", *PRECEDENCE):
        return "order"
    if word in ("r", "no r"):
        return "release"
    if word in ("p=1", "p=p", "general"):
        return "times"
    return "criterion" if word in CRITERIA else "environment"


def sides_of(text: str) -> list[Parts]:
    """The parts on the left and on the right of the text of a row."""
    left, right = re.sub(r" by \w+$", "", text).split(" to ")
    return [{part_named(it): it for it in side.split(", ")} for side in (left, right)]


def lower(row: int, sides: Sequence[Parts], parts: Parts) -> str | None:
    """The name of the class to which a row leads, or None."""
    left, right = sides
    if any(parts[part] != word for part, word in left.items()) or any(row in rows and unfit(parts) for rows, unfit in CONDITIONS):
        return None
    if row in OF_CRITERIA and parts["criterion"] not in OF_CRITERIA[row]:
        return None
    changed = {**parts, **right}
    if row in TURNING:
        changed["order"] = TURNED.get(parts["order"], parts["order"])
    return name_of(changed)


def neighbours_of(names: Sequence[str], rows: Mapping[int, str]) -> Steps:
    """For each class the rows that apply, each with the number of the class to which it leads."""
    number = {name: at for at, name in enumerate(names)}
    sides = {row: sides_of(text) for row, text in rows.items()}
    found = []
    for name in names:
        parts = parts_of(name)
        steps = [(row, lower(row, sides[row], parts)) for row in rows]
        found.append([(row, number[it]) for row, it in steps if it is not None])
    return found


def turned(steps: Steps) -> list[list[int]]:
    """For each class those from which rows lead to it."""
    above: list[list[int]] = [[] for _ in steps]
    for at, those in enumerate(steps):
        for _, following in those:
            above[following].append(at)
    return above


def order_of_leaving(steps: Steps) -> list[int]:
    """The classes in the order in which a walk in depth leaves them."""
    order, seen = [], [False] * len(steps)
    for root in range(len(steps)):
        stack = [] if seen[root] else [(root, 0)]
        seen[root] = True
        while stack:
            at, place = stack.pop()
            if place < len(steps[at]):
                stack.append((at, place + 1))
                following = steps[at][place][1]
                if not seen[following]:
                    seen[following] = True
                    stack.append((following, 0))
            else:
                order.append(at)
    return order


def problems_of(steps: Steps) -> list[list[int]]:
    """The classes that lead to each other, where there are several (strong components), each in order of rank."""
    above = turned(steps)
    taken, found = [False] * len(steps), []
    for root in reversed(order_of_leaving(steps)):
        group, waiting = [], [root]
        while waiting:
            at = waiting.pop()
            if not taken[at]:
                taken[at] = True
                group.append(at)
                waiting += above[at]
        if len(group) > 1:
            found.append(sorted(group))
    return sorted(found)


# Chains

Entry = Tuple[str, str, str]  # (a class, a verdict and a source)


def entries_of(results: str) -> list[Entry]:
    """The class, the verdict and the source of each record of known results."""
    records = [it for it in csv.reader(io.StringIO(results.removeprefix("\ufeff"), newline="")) if it]
    return [(name_of(parts_of(name)), verdict, source) for name, verdict, source in records[1:]]


def chains_to(wanted: Iterable[int], steps: Steps) -> dict[int, list[Row]]:
    """From each class of which chains lead to a wanted one to the rows of the nearest such chain, the least rows where several are."""
    above = turned(steps)
    distance = dict.fromkeys(wanted, 0)
    waiting = deque(distance)
    found: dict[int, list[Row]] = {}
    while waiting:
        at = waiting.popleft()
        nearer = next(((row, it) for row, it in steps[at] if distance.get(it) == distance[at] - 1), None)
        found[at] = [nearer, *found[nearer[1]]] if nearer else []
        for it in above[at]:
            if it not in distance:
                distance[it] = distance[at] + 1
                waiting.append(it)
    return found


def chains_from(starts: Iterable[int], steps: Steps) -> dict[int, tuple[int, list[Row]]]:
    """From each class to which chains lead from one of the starts to the first such start, and the rows of the nearest chain from there."""
    found: dict[int, tuple[int, list[Row]]] = {}
    for start in starts:
        waiting = deque([] if start in found else [start])
        found.setdefault(start, (start, []))
        while waiting:
            at = waiting.popleft()
            for row, it in steps[at]:
                if it not in found:
                    found[it] = (start, [*found[at][1], (row, it)])
                    waiting.append(it)
    return found


def label_by(kinds: set[str]) -> str:
    """The label that the chains of a class give, by their kinds."""
    if "easy" in kinds:
        return "both" if "hard" in kinds else "easy"
    if "pseudo" in kinds:
        return "torn" if "strong" in kinds else "weak" if "hard" in kinds else "pseudo"
    return "strong" if "strong" in kinds else "hard" if "hard" in kinds else "open"


class Chains:
    """The nearest chains of all classes, by the rule of docs/formats.md for `why`; clashes are left out."""

    def __init__(self, names: Sequence[str], steps: Steps, results: str) -> None:
        self.names = names
        number = {name: at for at, name in enumerate(names)}
        keeping = [[(row, it) for row, it in those if row not in RESIZING] for those in steps]
        listed: dict[str, list[int]] = {kind: [] for kind in KINDS}
        self.records: dict[str, dict[int, tuple[int, str]]] = {kind: {} for kind in KINDS}
        for at, (name, verdict, source) in enumerate(entries_of(results), 1):
            for kind in KINDS:
                if verdict in CLAIMS[kind]:
                    listed[kind].append(number[name])
                    self.records[kind].setdefault(number[name], (at, source))
        self.down = {"easy": chains_to(listed["easy"], steps), "pseudo": chains_to(listed["pseudo"], keeping)}
        self.rising = {"hard": chains_from(listed["hard"], steps), "strong": chains_from(listed["strong"], keeping)}

    def reasons(self, at: int) -> Iterator[Reason]:
        """The chains of a class."""
        for kind in KINDS:
            if kind in self.down and at in self.down[kind] and (kind == "easy" or at not in self.down["easy"]):
                rows, start = self.down[kind][at], at
                entry = rows[-1][1] if rows else at
            elif kind in self.rising and at in self.rising[kind]:
                start, rows = self.rising[kind][at]
                entry = start
            else:
                continue
            yield Reason(kind, *self.records[kind][entry], self.names[start], [(row, self.names[it]) for row, it in rows])


def whys_of(names: Sequence[str], labels: Mapping[str, str], steps: Steps, results: str) -> dict[str, Why]:
    """What `why` says of each class but for clashes; a fault where the label is not the one that its chains give."""
    chains = Chains(names, steps, results)
    found = {name: Why(name, labels[name], list(chains.reasons(at))) for at, name in enumerate(names)}
    for why in found.values():
        if label_by({it.kind for it in why.reasons}) != why.label:
            raise Fault(f"label says {why.label} of {why.name}, and its chains are {', '.join(it.kind for it in why.reasons) or 'none'}")
    return found
