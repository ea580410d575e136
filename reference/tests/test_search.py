"""The exhaustive search: instances worked by hand, and two independent ways for three classes."""
import random
import unittest
from fractions import Fraction
from itertools import permutations, product

import msp_search


def best(name: str, *lines: str, parts: int = 1) -> Fraction:
    """The least cost that the search finds, whose schedule is feasible and has that cost."""
    problem, rest = msp_search.read("\n".join(["msp 1", f"class {name}", *lines, "end", ""]))
    found = msp_search.least(problem, parts)
    assert rest == "" and msp_search.broken(problem, found.pieces) is None
    assert msp_search.cost_of(problem, found.pieces) == found.cost
    again = msp_search.read_schedule(problem, msp_search.schedule_text(problem, found))
    assert again.cost == found.cost and set(again.pieces) == set(found.pieces)
    return found.cost


class ByHand(unittest.TestCase):
    """Instances whose least cost is worked out by hand."""

    def test_one_machine(self) -> None:
        """By Smith's ratios 2, 1 and 1/3: 2·1 + 2·3 + 1·6; due dates in order; one job late; tardiness; costs that grow."""
        self.assertEqual(14, best("1||sumwC", "job a p=3 w=1", "job b p=1 w=2", "job c p=2 w=2"))
        self.assertEqual(5, best("1||Lmax", "job a p=2 d=4", "job b p=3 d=-2"))
        self.assertEqual(1, best("1||sumU", "job a p=2 d=3", "job b p=3 d=5", "job c p=2 d=6", "job d p=4 d=8"))
        self.assertEqual(3, best("1||sumT", "job a p=2 d=1", "job b p=2 d=2"))
        self.assertEqual(8, best("1|prec|fmax", "job a p=2", "curve 1 0", "job b p=3", "curve 0 0 5 10", "job c p=1", "curve 2 -4",
                                 "arc a b"))

    def test_waiting(self) -> None:
        """A long job waits for a short and heavy one that is released at 1: 10·2 + 1·12, and not 1·10 + 10·11."""
        self.assertEqual(32, best("1|r|sumwC", "job a p=10 r=0 w=1", "job b p=1 r=1 w=10"))
        self.assertEqual(11, best("1|r|Cmax", "job a p=1 r=0", "job b p=1 r=10"))

    def test_machines(self) -> None:
        """3 + 3 against 2 + 2 + 2; two jobs at speeds 3 and 2; times of their own; a chain on two machines."""
        self.assertEqual(6, best("P2||Cmax", *(f"job j{number} p={time}" for number, time in enumerate((3, 3, 2, 2, 2)))))
        self.assertEqual(Fraction(11, 3), best("Q||sumC", "machines 2", "speeds 3 2", "job a p=5", "job b p=4"))
        self.assertEqual(8, best("R||sumC", "machines 2", "job a", "times 1 9", "job b", "times 2 3", "job c", "times 3 5"))
        self.assertEqual(3, best("P2|chains,p=1|Cmax", "job a", "job b", "job c", "job d", "arc a b", "arc b c"))
        self.assertEqual(6, best("P2|p=p|sumwU", "time 6", "job a d=6 w=7", "job b d=6 w=9", "job c d=11 w=6"))

    def test_shops(self) -> None:
        """Johnson's order b a c; an open shop as long as its longest job; two routes against each other; times of 0."""
        self.assertEqual(7, best("F2||Cmax", "job a", "times 3 2", "job b", "times 1 4", "job c", "times 2 0"))
        self.assertEqual(8, best("O2||Cmax", "job a", "times 3 5", "job b", "times 4 1"))
        self.assertEqual(8, best("J2|n<=2|Cmax", "job a", "route 1 2", "job b", "route 2 3", "job c", "route 1 2 2 2", "job d",
                                 "route 2 1 1 4"))
        self.assertEqual(4, best("J2|p=1|sumC", "job a", "route 1 2", "job b", "route 2 1"))
        self.assertEqual(3, best("F3||Cmax", "job a", "times 0 0 3", "job b", "times 2 0 0"))

    def test_grids(self) -> None:
        """9/2 needs halves; a preempted job; 5/2 with speeds 3 and 1, which needs quarters; an open shop."""
        shared = ("machines 2", "job a p=3", "job b p=3", "job c p=3")
        self.assertEqual(5, best("P|pmtn|Cmax", *shared))
        self.assertEqual(Fraction(9, 2), best("P|pmtn|Cmax", *shared, parts=2))
        self.assertEqual(7, best("1|pmtn,r|sumC", "job a p=4 r=0", "job b p=1 r=1"))
        self.assertEqual(Fraction(5, 2), best("Q|pmtn|Cmax", "machines 2", "speeds 3 1", "job a p=6", "job b p=4", parts=4))
        self.assertEqual(6, best("O2|pmtn|Cmax", "job a", "times 3 3", "job b", "times 3 2"))
        self.assertEqual(4, best("R2|pmtn|Cmax", "job a", "times 4 8", "job b", "times 8 4"))


class Judge(unittest.TestCase):
    """The test of feasibility and costs."""

    def test_broken(self) -> None:
        """Each condition broken once."""
        problem, _ = msp_search.read("msp 1\nclass J2|prec,r|sumwT\njob a r=1 d=2 w=3\nroute 1 2 2 1\njob b r=0 d=9 w=1\nroute 2 2\n"
                                     "arc a b\nend\n")
        good = ("a 1 1 1 3", "a 2 2 3 4", "b 1 2 4 6")
        self.assertEqual(6, self.judged(problem, *good))
        for pieces in (("a 1 1 0 2", *good[1:]), ("a 1 2 1 3", *good[1:]), ("a 1 1 2 4", *good[1:]), (*good[:2], "b 1 2 3 5"),
                       (*good[:2], "b 1 2 4 5"), good[:2], (*good[:2], "b 1 2 4 5", "b 1 2 5 6"), ("a 1 1 1 1", *good),
                       ("a 1 1 5 7", *good[1:2], "b 1 2 7 9"), (*good[:2], "b 1 2 0 2")):
            self.assertIsNone(self.judged(problem, *pieces), pieces)

    @staticmethod
    def judged(problem: msp_search.Problem, *pieces: str) -> object:
        """The cost of a schedule, or None where it is not feasible."""
        text = "\n".join(["schedule", "cost 0", "unit 1", *(f"piece {piece}" for piece in pieces), "end"])
        given = msp_search.read_schedule(problem, text).pieces
        return None if msp_search.broken(problem, given) else msp_search.cost_of(problem, given)

    def test_unreadable(self) -> None:
        """Texts that are none, and problems that are too large."""
        for text in ("", "msp 1\nclass 1||Emax\njob a p=1\nend\n", "msp 1\nclass 1||Cmax\njob a\n", "msp 1\nclass P||Cmax\nend\n"):
            self.assertRaises(msp_search.Unreadable, msp_search.read, text)
        jobs = "".join(f"job j{number} p=1\n" for number in range(6))
        problem, _ = msp_search.read(f"msp 1\nclass 1||Cmax\n{jobs}end\n")
        self.assertRaises(msp_search.TooLarge, msp_search.least, problem)
        self.assertEqual(6, msp_search.least(problem, most_jobs=6).cost)


class TwoWays(unittest.TestCase):
    """The search against the least over all assignments or permutations, computed directly."""

    def test_identical_machines(self) -> None:
        """Each job on each machine: the greatest load."""
        draw = random.Random("loads")
        for _ in range(60):
            times, machines = [draw.randint(1, 9) for _ in range(draw.randint(1, 5))], draw.randint(1, 3)
            loads = (max(sum(time for time, place in zip(times, places) if place == machine) for machine in range(machines))
                     for places in product(range(machines), repeat=len(times)))
            lines = [f"job j{number} p={time}" for number, time in enumerate(times)]
            self.assertEqual(min(loads), best("P||Cmax", f"machines {machines}", *lines))

    def test_flow_shop(self) -> None:
        """Each permutation on both machines: the longest path through its operations."""
        draw = random.Random("paths")
        for _ in range(60):
            jobs = [(draw.randint(1, 6), draw.randint(0, 6)) for _ in range(draw.randint(1, 4))]
            ends = (max(sum(job[0] for job in order[:turn + 1]) + sum(job[1] for job in order[turn:]) for turn in range(len(order)))
                    for order in permutations(jobs))
            lines = [line for number, (one, two) in enumerate(jobs) for line in (f"job j{number}", f"times {one} {two}")]
            self.assertEqual(min(ends), best("F2||Cmax", *lines))

    def test_release_dates(self) -> None:
        """Each permutation on one machine: for each job the greatest release date ahead of it with the times from there on."""
        draw = random.Random("lateness")
        for _ in range(60):
            jobs = [(draw.randint(0, 8), draw.randint(1, 5), draw.randint(-3, 12)) for _ in range(draw.randint(1, 5))]
            worst = (max(max(order[front][0] + sum(job[1] for job in order[front:turn + 1]) for front in range(turn + 1)) - due
                         for turn, (_, _, due) in enumerate(order)) for order in permutations(jobs))
            lines = [f"job j{number} p={time} r={release} d={due}" for number, (release, time, due) in enumerate(jobs)]
            self.assertEqual(min(worst), best("1|r|Lmax", *lines))


if __name__ == "__main__":
    unittest.main()
