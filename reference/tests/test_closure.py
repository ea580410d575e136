"""Verdicts, frontier and chains by plain walks."""
import random
import unittest
from typing import Callable

from msp_reference import rows
from msp_reference.classes import CLASS_COUNT, Class, unrank
from msp_reference.closure import Verdicts, nearest, reachable
from msp_reference.names import class_named
from msp_reference.results import Entry

Reach = Callable[[Class], set[Class]]


def entries(draw: random.Random, classes: list[Class]) -> list[Entry]:
    """Some listed results, half of them of related classes, so that they clash now and then."""
    some = draw.sample(classes, draw.choice((1, 3, 6)))
    some += [draw.choice(sorted(reachable(cls))) for cls in some]
    return [Entry(cls, draw.choice(("easy", "pseudo", "hard", "strong")), b"s") for cls in some]


def wanted_label(cls: Class, listed: list[Entry]) -> str:
    """The label of a class by the chains that lead from it and to it."""
    below, small = reachable(cls), reachable(cls, rows.keeps_size)
    easy = any(entry.cls in below for entry in listed if entry.verdict == "easy")
    pseudo = easy or any(entry.cls in small for entry in listed if entry.verdict == "pseudo")
    hard = any(cls in reachable(entry.cls) for entry in listed if entry.verdict in ("hard", "strong"))
    strong = any(cls in reachable(entry.cls, rows.keeps_size) for entry in listed if entry.verdict == "strong")
    for holds, label in ((easy and hard, "both"), (easy, "easy"), (pseudo and strong, "torn"), (pseudo and hard, "weak"),
                         (strong, "strong"), (hard, "hard"), (pseudo, "pseudo")):
        if holds:
            return label
    return "open"


class Walks(unittest.TestCase):
    """The closures as bits against one walk for each class."""

    def setUp(self) -> None:
        self.all = [unrank(number) for number in range(CLASS_COUNT)]

    def test_labels(self) -> None:
        """Labels of some classes, and of all in one list."""
        draw = random.Random("closures")
        for _ in range(4):
            listed = entries(draw, self.all)
            verdicts = Verdicts(listed)
            labels = verdicts.labels()
            for number in draw.sample(range(CLASS_COUNT), 120):
                cls = unrank(number)
                self.assertEqual(wanted_label(cls, listed), verdicts.label(cls))
                self.assertEqual(labels[number], verdicts.label(cls))
            strongly = any(two.cls in reachable(one.cls, rows.keeps_size) for one in listed for two in listed
                           if (one.verdict, two.verdict) == ("strong", "pseudo"))
            self.assertEqual(strongly, bool(verdicts.strong_clash()))
            clash = any(two.cls in reachable(one.cls) for one in listed for two in listed
                        if one.verdict in ("hard", "strong") and two.verdict == "easy")
            self.assertEqual(clash, bool(verdicts.clash()))

    def test_frontier(self) -> None:
        """A class is maximal where each class of its kind to which it leads also leads back, and minimal the other way round."""
        draw = random.Random("frontier")
        verdicts = Verdicts(entries(draw, self.all))
        labels = verdicts.labels()
        maximal_easy, minimal_hard, minimal_open, maximal_open = [set(classes) for classes in verdicts.frontier()]
        kinds = {cls: (label in ("easy", "both"), label in ("hard", "strong", "weak", "torn", "both"), label in ("open", "pseudo"))
                 for cls, label in zip(self.all, labels)}
        for kind, found in ((0, maximal_easy), (2, maximal_open)):
            for cls in draw.sample(self.all, 300) + list(found)[:100]:
                peers = [lower for lower in reachable(cls) if kinds[lower][kind]]
                self.assertEqual(kinds[cls][kind] and all(cls in reachable(lower) for lower in peers), cls in found)
        for kind, found in ((1, minimal_hard), (2, minimal_open)):
            for cls in list(found)[:50]:
                self.assertTrue(kinds[cls][kind])
                leading = [other for other in draw.sample(self.all, 300) if kinds[other][kind] and cls in reachable(other)]
                self.assertTrue(all(other in reachable(cls) for other in leading))

    def test_strictly_below(self) -> None:
        """A class that leads to another, which does not lead back."""
        self.assertIn(class_named("1||sumwU"), reachable(class_named("1||Lmax")))
        self.assertNotIn(class_named("1||Lmax"), reachable(class_named("1||sumwU")))

    def test_chains(self) -> None:
        """A chain is a shortest one, and its row numbers are the least, place by place."""
        draw = random.Random("chains")
        done = 0
        while done < 40:
            start = draw.choice(self.all)
            below = sorted(reachable(start))
            wanted = set(draw.sample(below, min(2, len(below))))
            chain = nearest(start, wanted)
            self.assertIsNotNone(chain)
            if chain is None or len(chain.rows) > 4:
                continue
            done += 1
            options = next(found for found in (chains_of(start, wanted, length) for length in range(5)) if found)
            self.assertEqual(min(options), chain.rows)


def chains_of(start: Class, wanted: set[Class], length: int) -> list[tuple[int, ...]]:
    """The rows of all chains of just this length to a wanted class."""
    if length == 0:
        return [()] if start in wanted else []
    return [(row, *rest) for row, lower in rows.successors(start) for rest in chains_of(lower, wanted, length - 1)]


if __name__ == "__main__":
    unittest.main()
