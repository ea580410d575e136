"""Classes near by: relaxations, whose best costs bound an instance from below, and others, whose schedules may serve.

A move leads from a class to another. It says what becomes of the instance, by sed where that can be, and of a class whose schedules may
serve as an edit of its parts. Moves follow each other. `bounds` makes the relaxations of an instance; `check` judges each schedule.
"""
from __future__ import annotations

from dataclasses import dataclass, replace
from typing import Callable, Iterator, List

from .classes import ClassName, class_named
from .loosenings import STEPS, Edit, as_it_is, each, lateness, of_one, with_item, without
from .texts import Instance, Job


@dataclass
class Move:
    """A step to another class: in words, by sed (None: sed does not do it), and by an edit of the instance."""
    kind: ClassName
    words: str
    sed: str | None = ""
    edit: Edit = as_it_is

    def instance(self, given: Instance) -> Instance:
        """The instance of the other class."""
        return replace(self.edit(given), kind=self.kind)


# Parts of classes and instances

def time_of(job: Job, given: Instance) -> int:
    """The time of a job of one operation on identical machines."""
    return given.operations(job)[0][1]


DROP = {"r": ("/^job/s/ r=[0-9]*//", {"release": None}), "d": ("/^job/s/ d=-*[0-9]*//", {"due": None}),
        "w": ("/^job/s/ w=[0-9]*//", {"weight": None}), "p": ("/^job/s/ p=[0-9]*//", {"time": None})}


def dropped(before: ClassName, after: ClassName) -> tuple[str, Edit]:
    """How keys of jobs go that the other class has no place for: by sed, and as an edit."""
    keys = [it for it in before.keys if it not in after.keys]
    fields = {name: None for key in keys for name in DROP[key][1]}
    return ";".join(DROP[key][0] for key in keys), lambda given: each(given, lambda job: fields)


# Relaxations

def by_hand(name: str, before: ClassName, after: ClassName) -> str | None:
    """The expression of sed that makes a step, where the class and what goes with it is all that changes; or None."""
    curved = before.criterion != "fmax" and after.criterion == "fmax"
    if curved or name in ("no-due", "equal", "unit", "one-machine", "fastest", "least-times"):
        return None
    return dropped(before, after)[0] + "/^arc /d" * (name == "no-precedence")


def relaxations(kind: ClassName) -> Iterator[Move]:
    """The moves to classes whose best cost bounds that of each instance from below: the steps of docs/bounds.md that lead to a wider class."""
    for name, step in STEPS.items():
        to = step.to(kind) if name not in ("heads", "tails", "curves", "whole") else None
        if to:
            yield Move(to, step.words, by_hand(name, kind, to))
    for to, words in ((lateness((), 1).to(kind), "tardiness is at least lateness"),
                      (of_one(kind), "a machine alone, each job with the least time in front of it and behind it")):
        if to:
            yield Move(to, words, None)


# Classes whose schedules may serve

INSTEAD = {"Cmax": ("sumC",), "Lmax": ("sumC",), "sumwC": ("sumC",), "sumU": ("Lmax",), "sumwU": ("sumU", "Lmax"), "sumT": ("Lmax", "sumC"),
           "sumwT": ("sumwC", "Lmax")}


def restrictions(kind: ClassName) -> Iterator[Move]:
    """The moves to classes whose schedules may serve: always, or where the instance is as the words say."""
    if "pmtn" in kind.items:
        yield Move(without(kind, "pmtn"), "no job is cut")
    yield from by_order(kind)
    if "r" in kind.items:
        yield Move(without(kind, "r"), "where all release dates are 0", *dropped(kind, without(kind, "r")))
    if kind.general and kind.kind in "1PQ":
        to = with_item(kind, "p=1")
        yield Move(to, "where all times are 1", *dropped(kind, to))
    yield from on_fewer_machines(kind)
    if kind.kind == "J" and "n<=2" not in kind.items:
        yield Move(with_item(kind, "n<=2"), "where no job has more than two operations")
    for criterion in INSTEAD.get(kind.criterion, ()):
        to = replace(kind, criterion=criterion)
        yield Move(to, f"best for {criterion} instead", *dropped(kind, to))


def by_order(kind: ClassName) -> Iterator[Move]:
    """Narrower kinds of precedence."""
    narrower = {"prec": ("intree", "outtree"), "intree": ("chains",), "outtree": ("chains",)}.get(kind.precedence or "", ())
    for order in narrower:
        to = replace(kind, items=tuple(order if it == kind.precedence else it for it in kind.items))
        yield Move(to, "where the arcs are chains" if order == "chains" else f"where the arcs are an {order}")
    if kind.precedence:
        yield Move(without(kind, kind.precedence), "where there are no arcs")


def on_fewer_machines(kind: ClassName) -> Iterator[Move]:
    """Fewer machines."""
    if kind.environment in ("P", "Q", "R", "O", "F", "J"):
        where = "on two of the machines alone" if kind.environment == "P" else "where there are two machines"
        yield Move(replace(kind, environment=f"{kind.environment}2"), where, "/^machines /d", lambda given: replace(given, machines=2))
    if kind.kind == "P" or kind.environment == "Q":
        where = "on one of the machines alone" if kind.kind == "P" else "where there is one machine of speed 1"
        gone = {"P": "/^machines /d", "Q": "/^machines /d;/^speeds /d"}.get(kind.environment, "")
        yield Move(replace(kind, environment="1"), where, gone, lambda given: replace(given, machines=1, speeds=[]))


# Ways of several moves

Way = List[Move]

def nearest(solved: Callable[[ClassName], bool], kind: ClassName, moves: Callable[[ClassName], Iterator[Move]], most: int = 3) -> list[Way]:
    """The nearest classes for which `solved` holds: each with the moves that lead there, all of one number."""
    level: dict[ClassName, Way] = {kind: []}
    seen = {kind}
    for _ in range(most):
        further: dict[ClassName, Way] = {}
        for one, way in level.items():
            for move in moves(one):
                if move.kind not in seen and class_named(str(move.kind)):
                    further.setdefault(move.kind, [*way, move])
        seen.update(further)
        found = [way for it, way in further.items() if solved(it)]
        if found:
            return found
        level = further
    return []


def moved(given: Instance, way: Way) -> list[Instance]:
    """The instances along the moves, the given one first."""
    found = [given]
    for move in way:
        found.append(move.instance(found[-1]))
    return found


def by_sed(way: Way) -> str | None:
    """The expression that makes the moves, or None."""
    edits = [it.sed for it in way]
    return None if None in edits else ";".join([f"2s/.*/class {way[-1].kind}/", *(it for it in edits if it)])
