"""The local search that is the same for all classes: late acceptance, over what a space says of its neighbours.

A neighbour is taken where it costs no more than now, or than what was taken some steps ago; how many decides how long the search wanders,
and each round wanders longer than the one before. Nothing here looks at a clock: `tries` is how many neighbours are looked at.
"""
from __future__ import annotations

import contextlib
import random
from dataclasses import dataclass, field
from typing import Callable, Generic, Iterator, Protocol, TypeVar

S = TypeVar("S")
Heard = Callable[[float], None]
FIRST_MEMORY = 8


class Space(Protocol[S]):
    """Schedules and their neighbours: one schedule is held, with its value (the less the better)."""
    value: int

    def neighbour(self) -> int | None:
        """Looks at a neighbour, and gives its value; None where what was drawn is none."""

    def take(self) -> None:
        """Holds the neighbour that was looked at last."""

    def state(self) -> S:
        """What is held, for later."""

    def back(self, state: S) -> None:
        """Holds what was held before."""


@dataclass
class Effort:
    """How much is searched: the tries that are left, the value at which the search ends, and who hears of each better schedule."""
    tries: int
    target: int | None = None
    heard: Heard = field(default=lambda value: None, repr=False)
    interrupted: bool = False

    @contextlib.contextmanager
    def until_interrupted(self) -> Iterator[None]:
        """What is interrupted ends the search, and what was found stays."""
        try:
            yield
        except KeyboardInterrupt:
            self.tries, self.interrupted = 0, True

    @contextlib.contextmanager
    def part(self, most: int | None = None) -> Iterator[Effort]:
        """Half of it, or at most so many tries, for what is searched before the rest."""
        tries = self.tries // 2 if most is None else min(self.tries // 2, most)
        before = Effort(tries, self.target, self.heard)
        yield before
        self.tries = 0 if before.interrupted else self.tries - tries
        self.interrupted = before.interrupted

    def met(self, value: int) -> bool:
        """Whether a value is one below which nothing is."""
        return self.target is not None and value <= self.target


@dataclass
class Best(Generic[S]):
    """The best schedule so far."""
    value: int
    state: S


def climb(space: Space[S], effort: Effort, memory: int, best: Best[S]) -> None:
    """One round: from what is held, until nothing better was found for as many tries as the memory has times ten."""
    late, at, idle, least = [space.value] * memory, 0, 0, space.value
    patience = 10 * memory + 100
    while effort.tries > 0 and idle < patience:
        effort.tries -= 1
        idle += 1
        value = space.neighbour()
        if value is not None and (value <= space.value or value <= late[at]):
            space.take()
            if value < least:
                least, idle = value, 0
                if value < best.value:
                    best.value, best.state = value, space.state()
                    effort.heard(value)
                    if effort.met(value):
                        return
        late[at] = min(late[at], space.value)
        at = at + 1 if at + 1 < memory else 0


def search(space: Space[S], effort: Effort, starts: list[S]) -> Best[S]:
    """The best that rounds find: the first ones from each start, then from the best and from a start in turn, with longer and longer memory."""
    best = Best(space.value, space.state())
    memory, turn = FIRST_MEMORY, 0
    while effort.tries > 0 and not effort.met(best.value):
        space.back(starts[turn % len(starts)] if turn < len(starts) or turn % 2 else best.state)
        if space.value < best.value:
            best.value, best.state = space.value, space.state()
        with effort.until_interrupted():
            climb(space, effort, memory, best)
            if space.value == best.value:
                # (where many cost the same, the next round goes on from another one)
                best.state = space.state()
        turn += 1
        if turn >= len(starts):
            memory *= 2
    return best


class Draw:
    """Numbers that follow from a seed; the same on every machine."""

    def __init__(self, seed: int) -> None:
        self.one = random.Random(seed).random

    def below(self, count: int) -> int:
        """A number from 0 to count - 1."""
        return int(self.one() * count)

    def near(self, count: int) -> int:
        """A number from 1 to count - 1, small ones more often."""
        share = self.one()
        return 1 + int(share * share * share * (count - 1))
