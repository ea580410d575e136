"""The worked examples of all commands, by bytes."""
import unittest

from cases import (CURVES, CUT_CURVES, Case, LATENESS, ROUTES, SHARED, SPEEDS, STRENGTHS, TIMES, TREE, VERDICTS, WEIGHTED, msp,
                   schedule, single, slow)
from msp_reference.dispatch import SOLVED
from msp_reference.generate import generate
from msp_reference.names import class_named, name_of


class Solving(Case):
    """`solve` on a worked instance of each classical rule, and `check` of what it answers."""

    def test_greatest_ratio_first(self) -> None:
        """Greatest ratio first."""
        self.solves(WEIGHTED, [], "smith", schedule("14", 1, *single("b 0-1", "c 1-3", "a 3-6")))

    def test_equal_ratios(self) -> None:
        """Equal ratios."""
        self.solves("msp 1\nclass 1||sumwC\njob a p=2 w=1\njob b p=4 w=2\nend\n", [], "smith", schedule("14", 1, *single("a 0-2",
            "b 2-6")))
        self.solves("msp 1\nclass 1||sumwC\njob a p=1 w=1\nend\n", [], "smith", schedule("1", 1, *single("a 0-1")))

    def test_lateness_by_costs(self) -> None:
        """Lateness by costs."""
        self.solves(LATENESS, ["1 1|chains|Lmax", "2 1|intree|Lmax", "4 1|prec|Lmax", "9 1|prec|fmax"], "lawler", schedule("5", 1,
            *single("b 0-3", "a 3-5")))

    def test_late_jobs(self) -> None:
        """Late jobs."""
        self.solves("msp 1\nclass 1||sumU\njob a p=2 d=3\njob b p=3 d=5\njob c p=2 d=6\njob d p=4 d=8\nend\n", [], "moore",
            schedule("1", 1, *single("a 0-2", "c 2-4", "d 4-8", "b 8-11")))

    def test_wrapped(self) -> None:
        """Wrapped."""
        self.solves(SHARED, [], "wrap", schedule("9/2", 2, "a 1 1 0 6", "b 1 2 0 3", "c 1 2 3 9", "b 1 1 6 9"))

    def test_one_long_job(self) -> None:
        """One long job."""
        self.solves("msp 1\nclass P|pmtn|Cmax\nmachines 2\njob a p=5\njob b p=1\njob c p=1\nend\n", [], "wrap", schedule("5", 1,
            "a 1 1 0 5", "b 1 2 0 1", "c 1 2 1 2"))

    def test_levels_by_reversal(self) -> None:
        """Levels by reversal."""
        self.solves("msp 1\nclass P|outtree,p=1|Cmax\nmachines 2\njob a\njob b\njob c\njob d\n"
            "job e\narc a b\narc a c\narc a d\narc b e\nend\n", ["46 P|intree,p=1|Cmax"], "levels", schedule("3", 1, "a 1 1 0 1",
            "b 1 1 1 2", "d 1 2 1 2", "e 1 1 2 3", "c 1 2 2 3"))

    def test_tree_by_exchange(self) -> None:
        """Tree by exchange."""
        self.solves("msp 1\nclass 1|intree|sumwC\njob a p=2 w=1\njob b p=1 w=3\njob c p=3 w=2\narc a c\narc b c\nend\n",
            ["51 1|outtree|sumwC"], "horn", schedule("18", 1, *single("b 0-1", "a 1-3", "c 3-6")))

    def test_uniform_machines(self) -> None:
        """Uniform machines."""
        pieces = ["a 1 1 0 5", "b 1 2 0 6"]
        self.solves(SPEEDS, [], "uniform", schedule("11/3", 3, *pieces))
        self.gives(["solve", "--at", "R||sumC"], SPEEDS, 0,
                   "start Q||sumC\nrow 26 R||sumC\nsolver unrelated\n" + schedule("11/3", 3, *pieces))

    def test_unrelated_machines(self) -> None:
        """Unrelated machines."""
        self.solves(TIMES, [], "unrelated", schedule("8", 1, "a 1 1 0 1", "b 1 2 0 3", "c 1 1 1 4"))

    def test_flow_shop(self) -> None:
        """Flow shop."""
        self.solves("msp 1\nclass F2||Cmax\njob a\ntimes 3 2\njob b\ntimes 1 4\njob c\ntimes 2 0\nend\n", [], "johnson",
            schedule("7", 1, "b 1 1 0 1", "a 1 1 1 4", "b 2 2 1 5", "c 1 1 4 6", "a 2 2 5 7"))

    def test_short_routes(self) -> None:
        """Short routes."""
        self.solves(ROUTES, [], "jackson", schedule("8", 1, "c 1 1 0 2", "d 1 2 0 1", "b 1 2 1 4", "a 1 1 2 4", "d 2 1 4 8",
            "c 2 2 4 6"))

    def test_open_shop(self) -> None:
        """Open shop."""
        self.costs("msp 1\nclass O2||Cmax\njob a\ntimes 3 5\njob b\ntimes 4 1\nend\n", "8", "open2", [])

    def test_shortest_remaining(self) -> None:
        """Shortest remaining."""
        self.solves("msp 1\nclass 1|pmtn,r|sumC\njob a p=4 r=0\njob b p=1 r=1\nend\n", [], "shortest", schedule("7", 1, *single("a 0-1",
            "b 1-2", "a 2-5")))

    def test_releases_by_reversal(self) -> None:
        """Releases by reversal."""
        self.solves("msp 1\nclass 1|r|Cmax\njob a p=1 r=0\njob b p=1 r=10\nend\n", ["1 1|chains,r|Cmax", "2 1|intree,r|Cmax",
            "4 1|prec,r|Cmax", "47 1|prec|Lmax", "9 1|prec|fmax"], "lawler", schedule("11", 1, *single("a 9-10", "b 10-11")))

    def test_last_job_first(self) -> None:
        """Last job first."""
        self.solves(CURVES, [], "lawler", schedule("8", 1, *single("a 0-2", "b 2-5", "c 5-6")))

    def test_blocks_and_slots(self) -> None:
        """Blocks and slots."""
        self.solves(CUT_CURVES, ["1 1|pmtn,chains,r|fmax", "2 1|pmtn,intree,r|fmax", "4 1|pmtn,prec,r|fmax"], "blocks", schedule("6", 1,
            *single("a 0-1", "b 1-2", "a 2-5")))
        self.solves("msp 1\nclass 1|r,p=1|fmax\njob a r=0\ncurve 1 0\njob b r=0\ncurve 2 0\nend\n", ["1 1|chains,r,p=1|fmax",
            "2 1|intree,r,p=1|fmax", "4 1|prec,r,p=1|fmax"], "unit-blocks", schedule("2", 1, *single("b 0-1", "a 1-2")))
        jobs = "machines 1\njob a r=0 d=1 w=1\njob b r=0 d=1 w=3\nend\n"
        self.solves("msp 1\nclass P|r,p=1|sumwT\n" + jobs, [], "slots-late", schedule("1", 1, *single("b 0-1", "a 1-2")))
        self.costs("msp 1\nclass P|r,p=1|sumwU\n" + jobs, "1", "slots-count", [])


class Machines(Case):
    """`solve` on a worked instance of each rule for parallel machines, shops, and equal times."""

    def test_cut_shops_and_speeds(self) -> None:
        """Cut shops and speeds."""
        self.costs("msp 1\nclass O|pmtn|Cmax\nmachines 3\njob a\ntimes 2 2 2\njob b\ntimes 2 2 2\nend\n", "6", "open-cut", [])
        quick = "msp 1\nclass Q|pmtn|Cmax\nmachines 2\nspeeds 3 1\njob a p=%d\njob b p=%d\nend\n"
        self.costs(quick % (6, 4), "5/2", "uniform-cut", [])
        self.costs(quick % (9, 1), "3", "uniform-cut", [])
        unfit = "msp 1\nclass Q|pmtn|Cmax\nmachines 4\nspeeds 1 1 1 1001\njob a p=1\nend\n"
        note = "limit of the solver for Q|pmtn|Cmax"
        self.gives("solve", unfit, 4, note)
        self.gives("certify", unfit, 4, note)

    def test_tree_due(self) -> None:
        """The due slots are 3 2 2 3 2, and that of a is lowered to 1. Then they are 2 1."""
        self.solves("msp 1\nclass P|intree,p=p|Lmax\nmachines 2\ntime 3\njob a d=9\njob b d=5\n"
            "job c d=5\njob d d=8\njob e d=7\narc a e\nend\n", ["9 P|intree,p=p|fmax", "24 R|intree,p=p|fmax"], "tree-due",
            schedule("1", 1, "a 1 1 0 3", "b 1 2 0 3", "c 1 1 3 6", "e 1 2 3 6", "d 1 1 6 9"))
        self.solves("msp 1\nclass R|intree,p=p|fmax\nmachines 3\ntime 2\njob a\ncurve 0 3\njob b\ncurve 1 -1 3 4\nend\n", [],
            "tree-due", schedule("3", 1, "b 1 1 0 2", "a 1 2 0 2"))

    def test_pair_due(self) -> None:
        """The due slot of x is lowered to 3 less the half of 3, rounded up."""
        self.solves("msp 1\nclass P2|prec,p=1|Lmax\njob a d=3\njob b d=3\njob c d=3\njob d d=2\n"
            "job w d=2\njob x d=9\narc x a\narc x b\narc x c\nend\n", ["7 P2|prec,p=p|Lmax", "9 P2|prec,p=p|fmax",
            "23 R2|prec,p=p|fmax"], "pair-due", schedule("0", 1, "x 1 1 0 1", "d 1 2 0 1", "w 1 1 1 2", "a 1 2 1 2", "b 1 1 2 3",
            "c 1 2 2 3"))

    def test_stairs(self) -> None:
        """With the bound 1/2 the due dates are 5/2, 7/2 and 9/2; then all end as soon as they can."""
        self.solves("msp 1\nclass P|pmtn|Lmax\nmachines 2\njob a p=2 d=2\njob b p=3 d=3\njob c p=3 d=4\nend\n", [], "stairs",
            schedule("1/2", 2, "a 1 1 0 4", "b 1 2 0 3", "c 1 2 3 7", "b 1 1 4 7", "c 1 1 7 9"))
        self.solves("msp 1\nclass P|pmtn,r|Cmax\nmachines 2\njob a p=2 r=2\njob b p=3 r=1\njob c p=3 r=0\nend\n", ["47 P|pmtn|Lmax"],
            "stairs", schedule("9/2", 2, "c 1 1 0 2", "b 1 1 2 5", "c 1 2 2 6", "a 1 1 5 9", "b 1 2 6 9"))
        self.solves("msp 1\nclass P|pmtn|Lmax\nmachines 3\njob R1 p=5 d=4\njob R2 p=2 d=6\njob C p=6 d=40\njob D p=5 d=50\nend\n",
            [], "stairs", schedule("1", 1, "R1 1 1 0 5", "R2 1 2 0 1", "C 1 3 0 1", "C 1 2 1 6", "D 1 3 1 6", "R2 1 1 5 6"))

    def test_cut_sum(self) -> None:
        """Cut sum."""
        self.solves("msp 1\nclass P|pmtn|sumC\nmachines 2\njob a p=5\njob b p=3\njob c p=3\njob d p=1\nend\n", [], "cut-sum",
            schedule("16", 1, "c 1 1 0 3", "d 1 2 0 1", "b 1 2 1 4", "a 1 1 3 8"))

    def test_weights(self) -> None:
        """Weights."""
        jobs = "job a w=1\njob b w=4\njob c w=2\nend\n"
        self.solves("msp 1\nclass P|pmtn,p=p|sumwC\nmachines 2\ntime 3\n" + jobs, [], "cut-weights", schedule("24", 1, "b 1 1 0 3",
            "c 1 2 0 3", "a 1 1 3 6"))
        self.solves("msp 1\nclass O|p=1|sumwC\nmachines 2\n" + jobs, [], "open-weights", schedule("16", 1, "b 1 1 0 1", "c 2 2 0 1",
            "c 1 1 1 2", "b 2 2 1 2", "a 1 1 2 3", "a 2 2 3 4"))
        self.solves("msp 1\nclass O|pmtn,p=p|sumwC\nmachines 3\ntime 2\njob a w=1\njob b w=5\njob c w=3\njob d w=3\nend\n", [],
            "cut-open-weights", schedule("78", 1, "b 1 1 0 2", "c 2 2 0 2", "d 3 3 0 2", "d 1 1 2 4", "b 2 2 2 4", "c 3 3 2 4",
            "c 1 1 4 6", "d 2 2 4 6", "b 3 3 4 6", "a 1 1 6 8", "a 2 2 8 10", "a 3 3 10 12"))

    def test_places(self) -> None:
        """The places end at 2, 3 and 4; then at 5/3, 5/2 and 10/3."""
        front = "msp 1\nclass Q|p=p|%s\nmachines 2\nspeeds 3 2\ntime %d\n"
        curves = "job a\ncurve 1 0\njob b\ncurve 2 -5\njob c\ncurve 0 1 3 4\nend\n"
        self.solves(front % ("fmax", 6) + curves, [], "places-most", schedule("3", 1, "a 1 1 0 2", "c 1 2 0 3", "b 1 1 2 4"))
        self.solves(front % ("fmax", 5) + curves, [], "places-most", schedule("5/3", 6, "a 1 1 0 10", "c 1 2 0 15", "b 1 1 10 20"))
        jobs = "job a d=2 w=3\njob b d=2 w=1\njob c d=4 w=2\nend\n"
        self.costs(front % ("sumwT", 6) + jobs, "1", "places-late", [])
        self.costs(front % ("sumwT", 5) + jobs, "1/2", "places-late", [])
        self.costs(front % ("sumwU", 6) + jobs, "1", "places-count", [])
        self.costs("msp 1\nclass P2|p=p|sumwU\ntime 6\njob a d=6 w=2\njob b d=6 w=3\njob c d=11 w=1\nend\n", "1", "places-count",
            ["18 P|p=p|sumwU", "21 Q|p=p|sumwU"])

    def test_levels_sum(self) -> None:
        """The second instance costs 7 by number, or with the lowest level first."""
        jobs = "job a\njob b\njob c\njob d\njob e\narc b c\narc c d\narc b e\nend\n"
        pieces = ["b 1 1 %d %d", "a 1 2 %d %d", "c 1 1 %d %d", "e 1 2 %d %d", "d 1 1 %d %d"]
        spans = ((0, 1), (0, 1), (1, 2), (1, 2), (2, 3))
        self.solves("msp 1\nclass P|outtree,p=1|sumC\nmachines 2\n" + jobs, [], "levels-sum", schedule("9", 1, *[p % span for p,
            span in zip(pieces, spans)]))
        self.solves("msp 1\nclass P|outtree,p=p|sumC\nmachines 2\ntime 4\n" + jobs, ["54 P|outtree,p=1|sumC"], "levels-sum",
            schedule("36", 1, *[p % (4 * a, 4 * b) for p, (a, b) in zip(pieces, spans)]))
        self.solves("msp 1\nclass P|outtree,p=1|sumC\nmachines 2\njob a\njob b\njob c\njob d\narc c d\nend\n", [], "levels-sum",
            schedule("6", 1, "c 1 1 0 1", "a 1 2 0 1", "b 1 1 1 2", "d 1 2 1 2"))

    def test_equal_heads(self) -> None:
        """The release date of c is raised to 7."""
        self.solves("msp 1\nclass 1|prec,r,p=p|sumC\ntime 3\njob a r=4\njob b r=0\njob c r=0\narc b c\narc a c\nend\n", [],
            "equal-heads", schedule("20", 1, *single("b 0-3", "a 4-7", "c 7-10")))

    def test_jackson_cut(self) -> None:
        """Jackson cut."""
        self.solves(ROUTES.replace("|n<=2", "|pmtn,n<=2"), [], "jackson-cut", schedule("8", 1, "c 1 1 0 2", "d 1 2 0 1", "b 1 2 1 4",
            "a 1 1 2 4", "d 2 1 4 8", "c 2 2 4 6"))

    def test_lines(self) -> None:
        """The slots are 0, 1 and 3, then 0, 1 and 2."""
        front = "msp 1\nclass F|r,p=1|%s\nmachines 2\njob a r=0 d=2 w=1\njob b r=0 d=2 w=3\n"
        self.costs(front % "sumwT" + "job c r=3 d=5 w=1\nend\n", "1", "lines-late", [])
        self.costs(front % "sumwU" + "job c r=1 d=3 w=2\nend\n", "1", "lines-count", [])

    def test_lexical_labels(self) -> None:
        """Two jobs wait for one, and one for these two."""
        jobs = "job a\njob b\njob c\njob d\narc a b\narc a c\narc b d\narc c d\nend\n"
        self.costs("msp 1\nclass P2|prec,p=1|Cmax\n" + jobs, "3", "lexical")
        self.costs("msp 1\nclass P2|prec,p=p|Cmax\ntime 3\n" + jobs, "9", "lexical", ["54 P2|prec,p=1|Cmax"])

    def test_late_table(self) -> None:
        """The second instance has times of more than 10^6."""
        self.costs("msp 1\nclass 1||sumwU\njob a p=2 d=3 w=1\njob b p=3 d=5 w=9\njob c p=2 d=6 w=1\njob d p=4 d=8 w=1\nend\n", "2",
                   "late-table")
        self.gives("solve", "msp 1\nclass 1||sumwU\njob a p=500001 d=0 w=1\njob b p=500000 d=0 w=1\nend\n", 4,
                   "limit of the solver for 1||sumwU")

    def test_search_over_bounds(self) -> None:
        """The second instance is as late as can be."""
        self.costs("msp 1\nclass P|r,p=1|Lmax\nmachines 2\njob a r=0 d=0\njob b r=0 d=1\njob c r=0 d=5\njob d r=3 d=3\nend\n", "1",
                   "search")
        self.costs("msp 1\nclass P|r,p=1|Lmax\nmachines 1\njob a r=1000000000 d=-1000000000\nend\n", "2000000001", "search")

    def test_equal_times(self) -> None:
        """Times of 4, and of 5 on a tree."""
        self.solves("msp 1\nclass 1|p=p|sumwC\ntime 4\njob a w=1\njob b w=3\nend\n", ["53 1||sumwC"], "smith",
                    schedule("20", 1, *single("b 0-4", "a 4-8")))
        tree = "msp 1\nclass P|intree,p=p|Cmax\nmachines 2\ntime 5\n" + TREE
        self.costs(tree, "15", "levels", ["54 P|intree,p=1|Cmax"])
        self.gives("solve", tree.replace("time 5", "time 1000001"), 4, "line 4: limit of time")

    def test_no_solver(self) -> None:
        """A class without a solver, a class that is none, and one to which no chain leads."""
        self.gives("solve", "msp 1\nclass P||Cmax\nmachines 2\njob a p=1\nend\n", 5, "no solver for P||Cmax")
        self.gives(["solve", "--at", "P||Cmax"], WEIGHTED, 6, "P||Cmax is not solved")
        self.gives(["solve", "--at", "1||sumU"], WEIGHTED, 6, "no chain to 1||sumU")


class Others(Case):
    """The other commands."""

    def certified(self, given: str, cost: str, kind: str) -> None:
        """`certify` with this cost and kind, accepted by `accept`."""
        status, report, note = msp("certify", given)
        self.assertEqual((0, b""), (status, note))
        front, rest = report.decode().split("certificate\n", 1)
        self.assertIn(f"\ncost {cost}\n", front)
        self.assertTrue(rest.startswith(f"bound {cost}\nkind {kind}\n"), rest)
        name = front.split("\n", maxsplit=1)[0]
        self.gives("accept", given + "certificate\n" + rest, 0, f"{name}\nkind {kind}\nbound {cost}\naccepted yes\nend\n")

    def test_all_labels(self) -> None:
        """Without results each of the 9,720 classes is open, in the order of ranks."""
        status, report, note = msp("label", VERDICTS)
        lines = report.decode().split("\n")
        self.assertEqual((0, b"", 9722), (status, note, len(lines)))
        self.assertEqual(["1||Cmax open", "1|p=1|Cmax open", "J|pmtn,prec,r,p=p|sumwT open", "end", ""],
                         [lines[0], lines[9], *lines[-3:]])
        self.assertTrue(all(line.endswith(" open") for line in lines[:-2]))
        self.assertEqual(9720, len(set(lines[:-2])))
        self.gives("label", "", 3, "header")

    def test_frontier(self) -> None:
        """Where 1||Cmax alone is easy, it is so with preemption, and with times of one length."""
        report = msp("frontier", VERDICTS + "1||Cmax,easy,\n").report.decode()
        self.assertTrue(report.startswith("maximal easy 2\n1||Cmax\n1|pmtn|Cmax\nminimal hard 0\nminimal open "))
        labels = msp("label", VERDICTS + "1||Cmax,easy,\n").report.decode().split("\n")
        self.assertEqual(["1||Cmax", "1|p=1|Cmax", "1|p=p|Cmax", "1|pmtn|Cmax", "1|pmtn,p=1|Cmax", "1|pmtn,p=p|Cmax"],
                         [line[:-5] for line in labels if line.endswith(" easy")])

    def test_trial(self) -> None:
        """The jobs that are drawn, and what they cost."""
        self.gives(["trial", "1||sumwC", "3", "1"], "", 0,
                   "class 1||sumwC\njobs 3\nseed 1\nsolver smith\nrows 0\npieces 3\ncost 6089\nend\n")
        jobs = generate(class_named("1||sumwC"), 3, 1).jobs
        self.assertEqual([(39, 59), (14, 16), (52, 28)], [(job.needs[0][1], job.weight) for job in jobs])
        self.gives(["trial", "F2||Cmax", "3", "1"], "", 0,
                   "class F2||Cmax\njobs 3\nseed 1\nsolver johnson\nrows 0\npieces 6\ncost 139\nend\n")
        jobs = generate(class_named("F2||Cmax"), 3, 1).jobs
        self.assertEqual([[39, 1], [14, 42], [52, 72]], [[time for _, time in job.needs] for job in jobs])
        self.gives(["trial", "P||Cmax", "5", "1"], "", 5, "no solver for P||Cmax")
        self.gives(["trial", "1||sumwC", "401", "1"], "", 2, "usage: word 3: not a number from 1 to 400")

    def test_clash(self) -> None:
        """Clash."""
        self.gives(["label", "1|r|Cmax", "1||Lmax", "1||Cmax"], VERDICTS + "1||Lmax,easy,Jackson 1955\n1|r|Cmax,hard,for the test\n", 1,
            "1|r|Cmax both\n1||Lmax both\n1||Cmax easy\nclash\nstart 1|r|Cmax\nrow 47 1||Lmax\nend\n")

    def test_why(self) -> None:
        """Why."""
        self.gives(["why", "P||Lmax"], VERDICTS + "P2||Cmax,hard,Karp 1972\n", 0,
            "class P||Lmax\nlabel hard\nhard\nrecord 1 Karp 1972\nstart P2||Cmax\nrow 8 P2||Lmax\nrow 18 P||Lmax\nend\n")
        self.gives(["why", "1||Lmax"], VERDICTS + "1|prec|fmax,easy,Lawler 1973\n", 0,
            "class 1||Lmax\nlabel easy\neasy\nstart 1||Lmax\nrow 1 1|chains|Lmax\n"
            "row 2 1|intree|Lmax\nrow 4 1|prec|Lmax\nrow 9 1|prec|fmax\nrecord 1 Lawler 1973\nend\n")

    def test_check(self) -> None:
        """Check."""
        report = msp("solve", SHARED)[1].decode()
        text = report[report.index("schedule\n"):]
        head = "class P|pmtn|Cmax\njobs 3\npieces 4\nfeasible yes\ncost 9/2\n"
        self.gives("check", SHARED + text, 0, head + "stated 9/2\nagree yes\nend\n")
        self.gives("check", SHARED + text.replace("cost 9/2", "cost 5"), 1, head + "stated 5\nagree no\nend\n")
        two = "msp 1\nclass P|pmtn|Cmax\nmachines 2\njob a p=3\njob b p=3\nend\n"
        self.gives("check", two + schedule("5", 1, "a 1 1 0 2", "a 1 2 1 2", "b 1 2 2 5"), 1,
            "class P|pmtn|Cmax\njobs 2\npieces 3\nfeasible no\nbreak job 1 2\nend\n")
        cut = "msp 1\nclass R2|pmtn|Cmax\njob a\ntimes 1 2\nend\n"
        for rest in ("", "x", schedule("1", 1, "a 1 1 0 1")):
            self.gives("check", cut + rest, 5, "no check for R2|pmtn|Cmax")

    def test_words(self) -> None:
        """Words."""
        self.gives(["why", "1|chains,prec|Cmax"], "", 2, "usage: word 2: name: item does not fit at 9")
        self.gives(["solve", "--at", "1||sumU"], WEIGHTED, 6, "no chain to 1||sumU")
        self.gives(["solve", "--at", "P||Cmax"], WEIGHTED, 6, "P||Cmax is not solved")
        self.gives([], "", 2, "usage: words fit no command")

    def test_notes(self) -> None:
        """Notes."""
        lines = WEIGHTED.split("\n")
        jobs = "".join(f"job j{number} p=1 w=1\n" for number in range(1, 402))
        many = "msp 1\nclass 1||sumwC\n" + jobs
        for given, status, note in (
                ("msp 1\nclass P||Cmax\nmachines 2\njob a p=1\nend\n", 5, "no solver for P||Cmax"),
                ("".join(line + "\n" for line in lines[:4]), 3, "line 5: missing"),
                (WEIGHTED[:-1], 3, "line 6: cut"),
                (WEIGHTED + "x", 3, "line 7: after the end"),
                (WEIGHTED.replace("job b", "job a"), 3, "line 4: name again"),
                (WEIGHTED.replace("job a p=3 w=1", "job a p=3 w=0"), 4, "line 3: limit of weight"),
                (SPEEDS.replace("speeds 3 2", "speeds 999983 1000000"), 4,
                 "line 4: limit of multiple"),
                (many + "end\n", 4, "line 403: limit of jobs"),
                (CURVES.replace("end\n", "arc b a\nend\n"), 3, "cycle at a"),
                ("msp 1\nclass 1|chains|Cmax\njob a p=1\njob b p=1\njob c p=1\narc a b\narc a c\n"
                 "end\n", 3, "job a: degree"),
                ("msp 1\nclass 1|chains|Cmax\nend\n", 3, "no jobs"),
                ("x" * 4_194_305, 4, "more than 4194304 bytes")):
            self.gives("solve", given, status, note)
        self.assertEqual(0, msp("solve", many.replace("job j401 p=1 w=1\n", "") + "end\n").status)
        for entry, status, note in (
                ("P||Cmax,maybe,x", 3, "record 1: verdict"),
                ("1||Emax,easy,x", 3, "record 1: name: criterion at 3"),
                ("1||Cmax,easy", 3, "record 1: width"),
                ("1||Cmax,easy," + "x" * 201, 4, "record 1: limit of source")):
            self.gives("label", VERDICTS + entry + "\n", status, note)
        self.gives(["label", "1||Cmax"], VERDICTS + "1||Cmax,easy," + "x" * 200 + "\n", 0, "1||Cmax easy\nend\n")

    def test_limits_of_schedules(self) -> None:
        """Limits of schedules."""
        self.gives("label", VERDICTS + "1|pmtn,r|Lmax,easy,x\n", 3, "record 1: width")
        self.gives(["label", "1|pmtn,r|Lmax"], VERDICTS + '"1|pmtn,r|Lmax",easy,x\n', 0, "1|pmtn,r|Lmax easy\nend\n")
        self.gives("label", VERDICTS + "1||Cmax,easy,x\n" * 20_001, 4, "limit of records")
        self.gives(["label", "1||Cmax"], VERDICTS + "1||Cmax,easy,x\n" * 20_000, 0, "1||Cmax easy\nend\n")
        self.gives("check", SHARED + schedule("9/2", 0), 4, "line 10: limit of unit")
        self.gives("check", SHARED + schedule("9/2", 2, "z 1 1 0 6"), 3, "line 11: unknown name")
        self.gives("check", SHARED + schedule("9/2", 2, "a 1 33 0 6"), 4, "line 11: limit of place")
        self.gives("check", SHARED + schedule("9/2", 2, "a 1 1 0 200000000000000000000000001"), 4, "line 11: limit of moment")
        for piece, word in (("a 1 1 6 6", "span 1"), ("a 1 3 0 6", "place 1")):
            self.gives("check", SHARED + schedule("9/2", 2, piece), 1,
                f"class P|pmtn|Cmax\njobs 3\npieces 1\nfeasible no\nbreak {word}\nend\n")

    def test_strengths(self) -> None:
        """Strengths."""
        karp = STRENGTHS + "1||sumwU,hard,Karp 1972\n1||sumwU,pseudo,Lawler and Moore 1969\n"
        self.gives(["label", "1||sumwU", "1||sumU", "1||Lmax", "1|chains|sumwU"], karp, 0,
            "1||sumwU weak\n1||sumU pseudo\n1||Lmax pseudo\n1|chains|sumwU hard\nend\n")
        self.gives(["why", "1||Lmax"], karp, 0, "class 1||Lmax\nlabel pseudo\npseudo\nstart 1||Lmax\nrow 15 1||sumU\n"
            "row 14 1||sumwU\nrecord 2 Lawler and Moore 1969\nend\n")
        self.gives(["label", "Q2||Cmax", "P2||Cmax"], STRENGTHS + "R2||Cmax,pseudo,x\n", 0, "Q2||Cmax open\nP2||Cmax pseudo\nend\n")
        self.gives(["label", "F2||sumC"], STRENGTHS + "F2||sumC,strong,x\nF2||sumC,pseudo,y\n", 1,
            "F2||sumC torn\nstrong clash\nstart F2||sumC\nend\n")
        self.gives(["why", "F2||sumC"], STRENGTHS + "F2||sumC,strong,x\n", 0,
            "class F2||sumC\nlabel strong\nhard\nrecord 1 x\nstart F2||sumC\nstrong\nrecord 1 x\nstart F2||sumC\nend\n")
        self.gives("label", VERDICTS + "1||sumwU,pseudo,x\n", 3, "record 1: verdict")

    def test_certificates(self) -> None:
        """Certificates."""
        text = "certificate\nbound 9/2\nkind group\njob a\njob b\njob c\nend\n"
        self.gives("certify", SHARED, 0, "class P|pmtn|Cmax\ncost 9/2\n" + text)
        self.gives("accept", SHARED + text, 0, "class P|pmtn|Cmax\nkind group\nbound 9/2\naccepted yes\nend\n")
        self.gives("accept", SHARED + text.replace("9/2", "5"), 1, "class P|pmtn|Cmax\nkind group\nbound 5\naccepted no\nend\n")
        self.gives("certify", "msp 1\nclass P|intree,p=1|Cmax\nmachines 2\n" + TREE, 0,
            "class P|intree,p=1|Cmax\ncost 3\ncertificate\nbound 3\nkind levels\ntail 1\n"
            "level a 1\nlevel b 1\nlevel c 1\nlevel d 0\nend\n")
        block = CUT_CURVES.replace("1|pmtn,r|fmax", "1|pmtn,prec,r|fmax")
        self.certified(block, "6", "block")
        self.gives("accept", block + "certificate\nbound 6\nkind block\nhead a 0\nhead b 1\njob b\nend\n", 0,
            "class 1|pmtn,prec,r|fmax\nkind block\nbound 6\naccepted yes\nend\n")
        self.certified(TIMES, "8", "prices")
        self.gives("certify", WEIGHTED, 5, "no certificate for 1||sumwC")

    def test_accepted(self) -> None:
        """What `certify` prints on an open shop, on two speeds and on a graph is accepted."""
        self.certified("msp 1\nclass O|pmtn|Cmax\nmachines 3\njob a\ntimes 2 2 2\njob b\ntimes 2 2 2\nend\n", "6", "line")
        self.certified("msp 1\nclass Q|pmtn|Cmax\nmachines 2\nspeeds 3 1\njob a p=9\njob b p=1\nend\n", "3", "group")
        self.certified("msp 1\nclass P2|prec,p=1|Cmax\njob a\njob b\njob c\njob d\narc a b\narc a c\narc b d\narc c d\nend\n", "3",
            "segments")


@slow
class Large(Case):
    """What takes more than some seconds."""

    def test_trials(self) -> None:
        """`trial` with 200 jobs at each solved class goes to its own solver."""
        for solver in SOLVED:
            name = name_of(solver.cls)
            status, report, note = msp(["trial", name, "200", "1"])
            self.assertEqual((0, b""), (status, note))
            self.assertTrue(report.decode().startswith(f"class {name}\njobs 200\nseed 1\nsolver {solver.printed}\nrows 0\n"))

    def test_most_jobs(self) -> None:
        """400 jobs on unrelated machines."""
        self.assertEqual(0, msp(["trial", "R||sumC", "400", "1"]).status)

    def test_most_pieces(self) -> None:
        """500,000 pieces, and one more."""
        front = "msp 1\nclass 1||sumwC\njob a p=1 w=1\nend\nschedule\ncost 1\nunit 1\n"
        self.gives("check", front + "piece a 1 1 0 1\n" * 500_000 + "end\n", 1,
                   "class 1||sumwC\njobs 1\npieces 500000\nfeasible no\nbreak machine 1 2\nend\n")
        self.gives("check", front + "piece a 1 1 0 1\n" * 500_001 + "end\n", 4, "line 500008: limit of pieces")
        front = "msp 1\nclass 1|pmtn|Cmax\njob a p=500000\nend\nschedule\ncost 500000\nunit 1\n"
        pieces = "".join(f"piece a 1 1 {moment} {moment + 1}\n" for moment in range(500_000))
        self.gives("check", front + pieces + "end\n", 0, "class 1|pmtn|Cmax\njobs 1\npieces 500000\nfeasible yes\ncost 500000\n"
                   "stated 500000\nagree yes\nend\n")


if __name__ == "__main__":
    unittest.main()
