"""Pieces of work on several processors at once, told on standard error as they go on."""
from __future__ import annotations

import argparse
import sys
import time
from multiprocessing import get_context
from typing import Callable, Iterator, Sequence, TypeVar

from msp_tools.commands.frame import positive

P = TypeVar("P")
A = TypeVar("A")
OFTEN, SELDOM = 0.5, 30.0  # (seconds between two lines: on a terminal, elsewhere)
BLOCK = 50


def add_processors(reader: argparse.ArgumentParser) -> None:
    """How many pieces run at once."""
    reader.add_argument("--processors", type=positive, default=1)


def side_by_side(name: str, work: Callable[[P], A], pieces: Sequence[P], processors: int) -> Iterator[A]:
    """What the pieces give, in the order in which they end, where each runs alone in its process. With several processors, or on a terminal, a line
    says how many have ended."""
    progress = Progress(name, len(pieces), processors > 1)
    if processors == 1 or len(pieces) < 2:
        yield from progress.through(map(work, pieces))
        return
    with get_context("fork").Pool(processors) as pool:
        yield from progress.through(pool.imap_unordered(work, pieces))


def blocks(count: int) -> list[range]:
    """The numbers below a count, in blocks."""
    return [range(first, min(first + BLOCK, count)) for first in range(0, count, BLOCK)]


class Progress:
    """The line of progress: on a terminal one that changes, elsewhere one now and then."""

    def __init__(self, name: str, count: int, wanted: bool) -> None:
        self.name, self.count, self.done = name, count, 0
        self.begun = self.told = time.monotonic()
        self.terminal = sys.stderr.isatty()
        self.wanted = wanted or self.terminal

    def through(self, those: Iterator[A]) -> Iterator[A]:
        """Counts what comes."""
        for it in those:
            self.done += 1
            self.tell()
            yield it

    def tell(self) -> None:
        """Tells how far it is, where enough time has passed, and at the end."""
        now, last = time.monotonic(), self.done == self.count
        if not self.wanted or now - self.told < (OFTEN if self.terminal else SELDOM) and not last:
            return
        self.told, (minutes, seconds) = now, divmod(int(now - self.begun), 60)
        line = f"{self.name}: {self.done} of {self.count}, {minutes} min {seconds} s"
        print(f"\r{line}" if self.terminal else line, end="" if self.terminal and not last else "\n", file=sys.stderr, flush=True)
