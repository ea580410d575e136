"""Reachability between classes, worked out once in a process: chains, verdicts, labels, clashes and the frontier.

A set of classes is a whole number whose bit at the rank of a class says whether the class belongs to it.
"""
from functools import lru_cache
from typing import Callable, Iterable, Iterator, NamedTuple, Optional, Sequence

from .classes import CLASS_COUNT, Class, rank, unrank
from .results import Entry
from .rows import carries, every_row, keeps_size, successors

Rows = Callable[[int], bool]


class Chain(NamedTuple):
    """A chain of rows: its first class, its rows, and the class to which each row leads."""
    start: Class
    rows: tuple[int, ...]
    classes: tuple[Class, ...]

    def last(self) -> Class:
        """The class at the chain's end."""
        return self.classes[-1] if self.classes else self.start


def bits_of(classes: Iterable[Class]) -> int:
    """The set of some classes."""
    found = bytearray((CLASS_COUNT + 7) // 8)
    for cls in classes:
        number = rank(cls)
        found[number >> 3] |= 1 << (number & 7)
    return int.from_bytes(found, "little")


def in_order(bits: int) -> Iterator[int]:
    """The ranks of the classes of a set, the least first."""
    whole = bits.to_bytes((CLASS_COUNT + 7) // 8, "little")
    return (at * 8 + place for at, byte in enumerate(whole) if byte for place in range(8) if byte >> place & 1)


# Walks from one class.

def reachable(start: Class, allowed: Rows = every_row) -> set[Class]:
    """The classes to which chains of allowed rows lead from a class."""
    seen = {start}
    waiting = [start]
    while waiting:
        for row, lower in successors(waiting.pop()):
            if lower not in seen and allowed(row):
                seen.add(lower)
                waiting.append(lower)
    return seen


def nearest(start: Class, wanted: Iterable[Class], allowed: Rows = every_row) -> Optional[Chain]:
    """The chain to the nearest wanted class: at each class the least row that comes nearer to one."""
    goal = set(wanted)
    layers = [[start]]
    seen = {start}
    while not goal.intersection(layers[-1]):
        following = {lower for cls in layers[-1] for row, lower in successors(cls) if lower not in seen and allowed(row)}
        if not following:
            return None
        seen.update(following)
        layers.append(list(following))
    towards = [goal.intersection(layers[-1])]   # for each layer, the last one first, the classes from which a chain goes on
    for layer in reversed(layers[:-1]):
        towards.append({cls for cls in layer if any(lower in towards[-1] and allowed(row) for row, lower in successors(cls))})
    rows, classes = [], [start]
    for nearer in reversed(towards[:-1]):
        row, lower = next(step for step in successors(classes[-1]) if step[1] in nearer and allowed(step[0]))
        rows.append(row)
        classes.append(lower)
    return Chain(start, tuple(rows), tuple(classes[1:]))


@lru_cache(maxsize=None)
def route(start: Class, target: Class) -> Optional[Chain]:
    """The chain of carrying rows from one class to another, or None."""
    return nearest(start, [target], carries)


# All chains at once.

class Closure(NamedTuple):
    """For each class by rank the classes that it reaches, itself among them, and those that reach it."""
    below: list[int]
    above: list[int]


@lru_cache(maxsize=None)
def closure(allowed: Rows) -> Closure:
    """All chains of allowed rows."""
    edges: list[list[int]] = [[] for _ in range(CLASS_COUNT)]
    turned: list[list[int]] = [[] for _ in range(CLASS_COUNT)]
    for number in range(CLASS_COUNT):
        for row, lower in successors(unrank(number)):
            if allowed(row):
                edges[number].append(rank(lower))
                turned[rank(lower)].append(number)
    components = list(_components(edges))
    return Closure(_reach(edges, components), _reach(turned, components[::-1]))


def _reach(edges: Sequence[Sequence[int]], components: Iterable[list[int]]) -> list[int]:
    """What each class reaches, from components that each stand behind all that they reach."""
    reach = [1 << number for number in range(CLASS_COUNT)]
    for component in components:
        bits = 0
        for number in component:
            bits |= 1 << number
            for lower in edges[number]:
                bits |= reach[lower]
        for number in component:
            reach[number] = bits
    return reach


def _components(edges: Sequence[Sequence[int]]) -> Iterator[list[int]]:
    """The strongly connected components, each after all that it reaches (Tarjan 1972)."""
    low: dict[int, int] = {}                    # the least number of a class on the stack to which a class is known to lead
    on_stack: dict[int, None] = {}
    for root, below in enumerate(edges):
        work = [] if root in low else [(root, len(low), iter(below))]
        if work:
            low[root] = len(low)
            on_stack[root] = None
        while work:
            node, index, rest = work[-1]
            lower = next((other for other in rest if other not in low or other in on_stack), None)
            if lower is None:
                work.pop()
                if work:
                    low[work[-1][0]] = min(low[work[-1][0]], low[node])
                if low[node] == index:
                    yield list(_popped(on_stack, node))
            elif lower in low:
                low[node] = min(low[node], low[lower])
            else:
                work.append((lower, len(low), iter(edges[lower])))
                low[lower] = len(low)
                on_stack[lower] = None


def _popped(on_stack: dict[int, None], last: int) -> Iterator[int]:
    """The newest classes of the stack down to a given one, taken off."""
    while last in on_stack:
        yield on_stack.popitem()[0]


# Verdicts.

class Verdicts:
    """What follows from listed results: the sets of easy, pseudo, hard and strong classes."""

    def __init__(self, entries: Sequence[Entry]) -> None:
        self.entries = entries
        every, small = closure(every_row), closure(keeps_size)
        self.easy = _union(every.above, self.listed("easy"))
        self.pseudo = self.easy | _union(small.above, self.listed("pseudo"))
        self.hard = _union(every.below, self.listed("hard", "strong"))
        self.strong = _union(small.below, self.listed("strong"))

    def listed(self, *verdicts: str) -> list[Class]:
        """The classes that are listed with one of these verdicts, in the order of the entries."""
        return [entry.cls for entry in self.entries if entry.verdict in verdicts]

    def label(self, cls: Class) -> str:
        """The printed label of a class."""
        number = rank(cls)
        return _LABELS[self.easy >> number & 1, self.pseudo >> number & 1, self.hard >> number & 1, self.strong >> number & 1]

    def labels(self) -> list[str]:
        """The printed labels of all classes by rank."""
        sets = [f"{bits:0{CLASS_COUNT}b}"[::-1] for bits in (self.easy, self.pseudo, self.hard, self.strong)]
        return [_LABELS[easy == "1", pseudo == "1", hard == "1", strong == "1"] for easy, pseudo, hard, strong in zip(*sets)]

    def why_easy(self, cls: Class) -> Optional[Chain]:
        """The chain from a class to the nearest class listed easy, or None."""
        return nearest(cls, self.listed("easy")) if self.easy >> rank(cls) & 1 else None

    def why_pseudo(self, cls: Class) -> Optional[Chain]:
        """The chain that keeps size from a class to the nearest class listed pseudo, or None."""
        return nearest(cls, self.listed("pseudo"), keeps_size) if self.pseudo >> rank(cls) & 1 else None

    def why_hard(self, cls: Class) -> Optional[Chain]:
        """The chain to a class from the first class listed hard or strong that leads to it."""
        return _first_chain(self.listed("hard", "strong"), [cls], every_row)

    def why_strong(self, cls: Class) -> Optional[Chain]:
        """The chain that keeps size to a class from the first class listed strong."""
        return _first_chain(self.listed("strong"), [cls], keeps_size)

    def clash(self) -> Optional[Chain]:
        """The chain from the first class listed hard that leads to a class listed easy, or None."""
        return _first_chain(self.listed("hard", "strong"), self.listed("easy"), every_row)

    def strong_clash(self) -> Optional[Chain]:
        """The chain that keeps size from the first class listed strong to one listed pseudo."""
        return _first_chain(self.listed("strong"), self.listed("pseudo"), keeps_size)

    def frontier(self) -> tuple[list[Class], ...]:
        """Maximal easy, minimal hard, minimal open and maximal open classes, by rank."""
        below, above = closure(every_row)
        unsettled = ((1 << CLASS_COUNT) - 1) & ~self.easy & ~self.hard
        return tuple([unrank(number) for number in in_order(among) if not one[number] & among & ~other[number]]
                     for among, one, other in ((self.easy, below, above), (self.hard, above, below),
                                               (unsettled, above, below), (unsettled, below, above)))


def _label(easy: int, pseudo: int, hard: int, strong: int) -> str:
    if easy:
        return "both" if hard else "easy"
    if pseudo:
        return "torn" if strong else "weak" if hard else "pseudo"
    return "strong" if strong else "hard" if hard else "open"


_LABELS = {(easy, pseudo, hard, strong): _label(easy, pseudo, hard, strong)
           for easy in (0, 1) for pseudo in (0, 1) for hard in (0, 1) for strong in (0, 1)}


def _union(reach: Sequence[int], classes: Iterable[Class]) -> int:
    bits = 0
    for number in {rank(cls) for cls in classes}:
        bits |= reach[number]
    return bits


def _first_chain(starts: Iterable[Class], wanted: Sequence[Class], allowed: Rows) -> Optional[Chain]:
    goal = bits_of(wanted)
    below = closure(allowed).below
    return next((nearest(start, wanted, allowed) for start in starts if below[rank(start)] & goal), None)
