"""Tests of the library: what its functions answer, from texts, rows, lists and frames. Expected values are worked out by hand."""
from __future__ import annotations

import doctest
import importlib
import importlib.util
import os
import tempfile
import unittest
from datetime import datetime, timedelta
from fractions import Fraction
from pathlib import Path

import msp_tools
from msp_tools import (Fault, Instance, ListWords, Misfit, Piece, ProgramRefusal, Refusal, Schedule, accept, certify, check, label, labels, propose,
                       solve, trial, why)
from msp_tools import library
from msp_tools.faults import PLACE
from msp_tools.program import find_program, need_program

SMITH = "msp 1\nclass 1||sumwC\njob a p=3 w=1\njob b p=1 w=2\njob c p=2 w=2\nend\n"
SHARED = "msp 1\nclass P|pmtn|Cmax\nmachines 2\njob a p=3\njob b p=2\njob c p=2\nend\n"


ARRIVALS = "msp 1\nclass 1|r|Lmax\njob a p=4 r=0 d=9\njob b p=3 r=1 d=6\njob c p=2 r=3 d=7\nend\n"


class Names(unittest.TestCase):
    """The names of the package."""

    def test_promised(self) -> None:
        """The package has the names of the library, each with a text that says what it is, and so has each that belongs to one of them."""
        self.assertEqual({*msp_tools.__all__, "Frame"}, set(library.__all__))
        self.assertEqual(dir(msp_tools), sorted(msp_tools.__all__))
        for name in msp_tools.__all__:
            value = getattr(msp_tools, name)
            self.assertIs(value, getattr(library, name))
            owned = [getattr(value, it) for it in dir(value) if not it.startswith("_")] if isinstance(value, type) else []
            for it in [value, *(it for it in owned if callable(it) or isinstance(it, property))]:
                # (what dataclasses write of themselves begins with the name and its fields)
                self.assertFalse((it.__doc__ or f"{name}(").startswith(f"{name}("), f"{name}: {it}")

    def test_example(self) -> None:
        """What the text of the package shows is what comes out."""
        self.assertEqual(doctest.testmod(msp_tools), (0, 3))

    def test_completion(self) -> None:
        """A name that is none is refused as in any module."""
        with self.assertRaisesRegex(AttributeError, "has no attribute 'solved'"):
            getattr(msp_tools, "solved")


class Instances(unittest.TestCase):
    """Instances from texts, rows, spreadsheets and frames."""

    def test_text(self) -> None:
        """A text is read and printed again."""
        instance = Instance.from_text(SMITH)
        self.assertEqual(str(instance), SMITH)
        self.assertEqual([it.weight for it in instance.jobs], [1, 2, 2])

    def test_file(self) -> None:
        """A fault of a file has its path and its line."""
        with tempfile.TemporaryDirectory() as folder:
            path = Path(folder) / "instance.txt"
            path.write_text(SMITH.replace("p=1 ", "p=x "), encoding="utf-8")
            with self.assertRaises(Fault) as caught:
                Instance.from_file(str(path))
            self.assertEqual((caught.exception.place, caught.exception.note), (f"{path}: line 4", "not a number: x"))
            path.write_text(SMITH, encoding="utf-8")
            self.assertEqual(Instance.from_file(str(path)).text(), SMITH)

    def test_rows(self) -> None:
        """Rows with dates, exact numbers and lengths of time; times become whole by the scale."""
        rows = [{"job": "Tür", "p": Fraction(5, 2), "d": datetime(2026, 3, 2, 15)},
                {"job": "Rahmen", "p": timedelta(hours=3), "d": datetime(2026, 3, 3, 9)}]
        words = ListWords(time_unit="1h", start="2026-03-02 06:00", shifts="Mon-Fri 06:00-14:00", scale=2)
        week = Instance.from_rows("1||Lmax", rows, words)
        # (15:00 is behind the shift of 8 hours; 9:00 is 3 hours into the next one; moments count half hours)
        self.assertEqual([(it.name, it.time, it.due) for it in week.jobs], [("Tur", 5, 16), ("Rahmen", 6, 22)])
        plan = solve(week)
        self.assertEqual(plan.cost, -11)
        self.assertEqual([it["start"] for it in plan.table()], ["2026-03-02 06:00", "2026-03-02 08:30"])
        self.assertEqual(plan.table()[0]["job"], "Tür")

    def test_rows_with_a_fault(self) -> None:
        """A fault of rows has its row."""
        with self.assertRaises(Fault) as caught:
            Instance.from_rows("1||Lmax", [{"job": "a", "p": 1, "d": 2}, {"job": "b", "p": "two", "d": 2}])
        self.assertEqual((caught.exception.place, caught.exception.note), ("row 2, column p", "not a number: two"))
        with self.assertRaises(Fault) as caught:
            Instance.from_rows("1||Lmax", [{"job": "a", "p": 1}])
        self.assertEqual(caught.exception.place, "columns")

    def test_rows_with_lists(self) -> None:
        """Several values of a cell: the jobs that come before, by texts or numbers, and a route."""
        rows: list[dict[str, object]] = [{"job": "Tür, groß", "p": 1}, {"job": 2, "p": 1, "after": ["Tür, groß"]},
                                         {"job": 3, "p": 1, "after": ("Tür, groß", "2")}, {"job": 4, "p": 1, "after": [2, 3]}]
        self.assertEqual(Instance.from_rows("1|prec|Cmax", rows).arcs,
                         [("Tur_gross", "2"), ("Tur_gross", "3"), ("2", "3"), ("2", "4"), ("3", "4")])
        shop = Instance.from_rows("J2||Cmax", [{"job": "a", "route": [1, 3, 2, 1.5]}], ListWords(scale=2))
        self.assertEqual(shop.jobs[0].route, [(1, 6), (2, 3)])

    def test_spreadsheet(self) -> None:
        """A list as a spreadsheet saves it; what is left out is remarked."""
        with tempfile.TemporaryDirectory() as folder:
            path = Path(folder) / "list.csv"
            path.write_text("Auftrag;Dauer;Kunde\nTür;2,5;A\nRahmen;1;B\n", encoding="utf-8")
            found = Instance.from_spreadsheet("1||sumC", str(path), ListWords(column=[("job", "Auftrag"), ("p", "Dauer")], scale=2))
        self.assertEqual([it.time for it in found.jobs], [5, 2])
        self.assertEqual(solve(found).cost, 2 + 7)
        self.assertTrue(any("Kunde" in it for it in found.remarks), found.remarks)

    @unittest.skipUnless(importlib.util.find_spec("pandas"), "there is no pandas")
    def test_frame(self) -> None:
        """A frame of pandas; a number that is missing is an empty cell."""
        pandas = importlib.import_module("pandas")
        frame = pandas.DataFrame({"job": ["a", "b"], "p": [1.5, 2.0], "d": [3, 2]})
        self.assertEqual([it.time for it in Instance.from_frame("1||Lmax", frame, ListWords(scale=2)).jobs], [3, 4])
        frame.loc[1, "p"] = None
        with self.assertRaises(Fault):
            Instance.from_frame("1||Lmax", frame, ListWords(scale=2))


class Schedules(unittest.TestCase):
    """Schedules that are solved, made and judged."""

    def test_smith(self) -> None:
        """Smith 1956: by rising ratios of time to weight, b (1/2), c (1), a (3); ends 1, 3 and 6."""
        plan = solve(Instance.from_text(SMITH))
        self.assertEqual(plan.cost, 2 * 1 + 2 * 3 + 1 * 6)
        self.assertEqual(plan.ends(), {"b": 1, "c": 3, "a": 6})
        self.assertEqual(plan.costs(), {"b": 2, "c": 6, "a": 6})
        self.assertEqual((plan.solver, plan.chain), ("smith", []))

    def test_made(self) -> None:
        """A schedule of pieces has its cost, and check agrees; one piece that overlaps another is told."""
        instance = Instance.from_text(SMITH)
        pieces = [Piece("a", 1, 1, Fraction(0), Fraction(3)), Piece("b", 1, 1, Fraction(3), Fraction(4)), Piece("c", 1, 1, Fraction(4), Fraction(6))]
        made = Schedule.from_pieces(instance, pieces)
        self.assertEqual(made.cost, 3 + 2 * 4 + 2 * 6)
        verdict = check(made)
        self.assertEqual((verdict.feasible, verdict.cost, verdict.agrees), (True, 23, True))
        self.assertEqual(Schedule.from_text(instance, made.text()).ends(), made.ends())
        pieces[1] = Piece("b", 1, 1, Fraction(2), Fraction(3))
        broken = check(Schedule.from_pieces(instance, pieces))
        self.assertFalse(broken.feasible)
        self.assertEqual(broken.broken, "the piece of a on machine 1 from 0 to 3 and the piece of b on machine 1 from 2 to 3 overlap: one machine, "
                                        "two pieces at once")

    def test_a_job_without_a_piece(self) -> None:
        """Such a schedule has no cost."""
        with self.assertRaisesRegex(Fault, "b has no piece"):
            Schedule.from_pieces(Instance.from_text(SMITH), [Piece("a", 1, 1, Fraction(0), Fraction(3))])

    def test_lateness(self) -> None:
        """The end less the due date, by Jackson's rule: b ends at 2, due at 1; a ends at 5, due at 4."""
        plan = solve(Instance.from_text("msp 1\nclass 1||Lmax\njob a p=3 d=4\njob b p=2 d=1\nend\n"))
        self.assertEqual(plan.lateness(), {"a": 1, "b": 1})
        with self.assertRaisesRegex(Fault, "no due date"):
            solve(Instance.from_text(SMITH)).lateness()

    def test_chart(self) -> None:
        """A notebook shows a schedule as SVG, with the names of its jobs."""
        plan = solve(Instance.from_text(SMITH))
        shown = getattr(plan, "_repr_svg_")()
        self.assertTrue(shown.startswith("<svg "))
        self.assertIn("weighted sum of ends", plan.chart(600))
        self.assertIn("Smith", plan.chart(title="Smith"))


class Answers(unittest.TestCase):
    """What the program's other commands answer."""

    def test_certificate(self) -> None:
        """McNaughton 1959: 7 units of work on two machines take 7/2, and a certificate shows that no schedule takes less."""
        instance = Instance.from_text(SHARED)
        found = certify(instance)
        self.assertEqual((found.name, found.cost), ("P|pmtn|Cmax", Fraction(7, 2)))
        self.assertTrue(accept(instance, found).accepted)
        self.assertFalse(accept(instance, found.text.replace("bound 7/2", "bound 4")).accepted)

    def test_labels(self) -> None:
        """Lenstra, Rinnooy Kan and Brucker 1977 for release dates; Jackson 1955 without them."""
        self.assertEqual((label("1|r|Lmax").label, label("1||Lmax").label), ("strong", "easy"))
        self.assertEqual([it.name for it in labels(["1||Lmax", "1||C_max"])], ["1||Lmax", "1||Cmax"])
        self.assertEqual(len(labels()), 9720)
        reason = why("1|r|Lmax").reasons[0]
        self.assertEqual((reason.kind, reason.source, reason.start), ("hard", "Lenstra, Rinnooy Kan and Brucker 1977", "1|r|Lmax"))

    def test_trial(self) -> None:
        """A drawn instance, solved; the same seed gives the same cost."""
        found = trial("1||Lmax", 3, 1)
        self.assertEqual((found.name, found.jobs, found.seed, found.pieces), ("1||Lmax", 3, 1, 3))
        self.assertEqual(trial("1||Lmax", 3, 1), found)


class Proposals(unittest.TestCase):
    """Plans of classes with and without a solver."""

    def test_open(self) -> None:
        """By hand: whoever begins with a ends c 2 late, and b, c, a has 1; cut, a can wait for b and c, and nothing is late."""
        found = propose(Instance.from_text(ARRIVALS))
        self.assertEqual((found.cost, found.gap, found.word), (1, 1, "open"))
        assert found.bound is not None
        self.assertEqual(found.bound.value, 0)
        self.assertEqual(check(found.schedule).cost, 1)
        self.assertEqual(propose(Instance.from_text(ARRIVALS)).text(), found.text())

    def test_solved(self) -> None:
        """A class with a solver has its best schedule, which is proved."""
        found = propose(Instance.from_text(SMITH))
        self.assertEqual((found.cost, found.gap, found.word), (solve(Instance.from_text(SMITH)).cost, 0, "proved"))

    def test_own_plan(self) -> None:
        """A plan of one's own is where the search begins; one that is not feasible is refused."""
        instance = Instance.from_text(ARRIVALS)
        moments = {"b": (1, 4), "c": (4, 6), "a": (6, 10)}
        own = Schedule.from_pieces(instance, [Piece(job, 1, 1, Fraction(start), Fraction(end)) for job, (start, end) in moments.items()])
        self.assertEqual(propose(instance, 1, 1, own).cost, 1)
        own.pieces[0].start -= 1
        with self.assertRaises(Refusal):
            propose(instance, 1, 1, own)


class Refusals(unittest.TestCase):
    """Refusals have a status, a note and a place."""

    def test_program(self) -> None:
        """The program's statuses: 5 without a solver, 3 at a fault, with its line."""
        with self.assertRaises(ProgramRefusal) as caught:
            solve(Instance.from_text("msp 1\nclass 1||sumT\njob a p=1 d=3\nend\n"))
        self.assertEqual((caught.exception.status, caught.exception.note), (5, "no solver for 1||sumT"))
        with self.assertRaises(Refusal) as caught_again:
            solve(Instance.from_text("msp 1\nclass 1||sumC\njob a p=0\nend\n"))
        self.assertEqual((caught_again.exception.status, caught_again.exception.place), (4, "line 3"))

    def test_judged(self) -> None:
        """A class of which check judges no schedule, a class without a solver, and a certificate that is cut."""
        cut = Instance.from_text("msp 1\nclass R2|pmtn|Cmax\njob a\ntimes 2 3\nend\n")
        with self.assertRaisesRegex(ProgramRefusal, r"no check for R2\|pmtn\|Cmax"):
            check(Schedule(cut, Fraction(2), [Piece("a", 1, 1, Fraction(0), Fraction(2))]))
        with self.assertRaisesRegex(ProgramRefusal, r"no solver for 1\|\|sumT"):
            trial("1||sumT", 3, 1)
        with self.assertRaises(ProgramRefusal) as caught:
            accept(Instance.from_text(SHARED), "certificate")
        self.assertEqual((caught.exception.status, caught.exception.place), (3, "line 8"))

    def test_words(self) -> None:
        """A name that is none is a misfit, with the one that is meant."""
        with self.assertRaisesRegex(Misfit, "is '1||Lmax' meant".replace("|", r"\|")):
            label("1||lmax")

    def test_place(self) -> None:
        """Where a note stands: a line, with a path in front, a column behind, or a word."""
        for text, place in (("line 3: x", "line 3"), ("a.txt: line 3: x: y", "a.txt: line 3"),
                            ("line 2, column Dauer [h]: x", "line 2, column Dauer [h]"),
                            ("--due: x", "--due"), ("row 4: x", "row 4"), ("columns: x", "columns"), ("cannot read x: y", "")):
            found = PLACE.match(text)
            self.assertEqual(found[1] if found else "", place)


class Finding(unittest.TestCase):
    """Where the program is looked for."""

    def test_named(self) -> None:
        """A named program goes before all others, and one that is not there is refused."""
        program = need_program()
        self.assertEqual(find_program(program.command[0] if len(program.command) == 1 else program.command[1]), program)
        with self.assertRaisesRegex(Misfit, "there is no program ./nothing"):
            find_program("./nothing")

    def test_setting(self) -> None:
        """$MSP names the program."""
        with tempfile.TemporaryDirectory() as folder:
            path = Path(folder) / "other"
            path.write_text("#!/bin/sh\necho other >&2\nexit 9\n", encoding="utf-8")
            path.chmod(0o755)
            before = os.environ.get("MSP")
            os.environ["MSP"] = str(path)
            try:
                reply = need_program().call(["solve"])
                self.assertEqual((reply.status, reply.note), (9, "other"))
                with self.assertRaises(ProgramRefusal) as caught:
                    solve(Instance.from_text(SMITH))
                self.assertEqual(caught.exception.status, 9)
            finally:
                if before is None:
                    del os.environ["MSP"]
                else:
                    os.environ["MSP"] = before


if __name__ == "__main__":
    unittest.main()
