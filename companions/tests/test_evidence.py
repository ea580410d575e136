"""Tests of bounds, of the evidence that is written of them, and of `verify`, which refuses each spoilt folder.

    PYTHONPATH=companions python3 companions/tests/test_evidence.py
"""
from __future__ import annotations

import re
import tempfile
import unittest
from fractions import Fraction
from pathlib import Path
from typing import Callable, Dict

from msp_tools import Instance, Piece, Schedule, need_program
from msp_tools.bounds import bounds_of, silent
from msp_tools.commands import verify
from msp_tools.evidence import write_evidence
from msp_tools.faults import Misfit

PROGRAM = need_program()
SHOP = """msp 1
class J|prec|sumwT
machines 3
job a d=5 w=3
route 1 3 2 4 3 2
job b d=6 w=2
route 2 5 1 2
job c d=9 w=4
route 1 4 3 6
job e d=11 w=1
route 3 2 2 2
arc a c
end
"""
LATE = """msp 1
class R|r|sumT
machines 2
job a r=0 d=3
times 4 6
job b r=0 d=4
times 5 3
job c r=1 d=5
times 2 7
end
"""
HALL = """msp 1
class P||Cmax
machines 2
job a p=4
job b p=5
job c p=2
end
"""
PRESS = """msp 1
class 1|prec,r|Lmax
job a p=4 r=0 d=9
job b p=2 r=2 d=7
job c p=3 r=1 d=12
arc a c
end
"""
LOADS = """msp 1
class P||sumwC
machines 2
job a p=4 w=1
job b p=3 w=5
job c p=6 w=2
end
"""
FRIDAY = """msp 1
class F2||Lmax
job a d=3
times 1 1
job b d=3
times 2 2
end
"""
Folder = Dict[str, str]
Spoil = Callable[[Folder], object]


def one_after_another(instance: Instance) -> Schedule:
    """The schedule in which no two operations run at once, on the first machine where any does."""
    pieces, now = [], Fraction(max(it.release_date for it in instance.jobs))
    for job in instance.jobs:
        for number, (machine, _) in enumerate(instance.operations(job), 1):
            time = instance.time_on(job, number, machine or 1)
            pieces.append(Piece(job.name, number, machine or 1, now, now + time))
            now += time
    return Schedule.from_pieces(instance, pieces)


def evidence_of(text: str) -> Folder:
    """What is written of an instance: of some the first bound that makes certain steps."""
    instance = Instance.from_text(text)
    bounds = bounds_of(instance, PROGRAM)
    wanted = {SHOP: {"lateness", "machine"}, LATE: {"lateness", "one-machine"}, LOADS: {"one-machine"}}.get(text, set())
    bounds = tuple(it for it in bounds if wanted.issubset(step.name.split(":")[0] for step in it.steps))
    with tempfile.TemporaryDirectory() as folder:
        write_evidence(folder, instance, one_after_another(instance).text(), bounds)
        return {it.name: it.read_text("ascii") for it in sorted(Path(folder).iterdir())}


def judged(folder: Folder) -> verify.Answer:
    """What verify says of files."""
    with tempfile.TemporaryDirectory() as path:
        for name, text in folder.items():
            (Path(path) / name).write_text(text, "ascii")
        return verify.answer(verify.Wanted(path, str(PROGRAM)), silent)


def put(name: str, old: str, new: str) -> Spoil:
    """Replaces what a pattern finds first in a file."""
    def spoil(folder: Folder) -> None:
        made = re.sub(old, new, folder[name], count=1)
        assert made != folder[name], (name, old, folder[name])
        folder[name] = made
    return spoil


def gone(name: str) -> Spoil:
    """Takes a file away."""
    return lambda folder: folder.pop(name)


def copied(name: str, other: str) -> Spoil:
    """Puts the text of one file into another."""
    return lambda folder: folder.update({other: folder[name]})


SPOILT: Dict[str, tuple[str, Spoil]] = {
    "the bound one up": (HALL, put("bounds.txt", "^6", "7")),
    "the bound one down": (HALL, put("bounds.txt", "^6", "5")),
    "an argued bound as proved": (HALL, put("bounds.txt", "argued", "proved")),
    "a proved bound as argued": (HALL, put("bounds.txt", "proved", "argued")),
    "the last step left out": (HALL, put("bounds.txt", " cut", "")),
    "the first step left out": (HALL, put("bounds.txt", " whole", "")),
    "a step more": (PRESS, put("bounds.txt", " curves", " curves no-release")),
    "a step that there is not": (PRESS, put("bounds.txt", " curves", " bend")),
    "another step": (PRESS, put("bounds.txt", " curves", " cut")),
    "another instance": (PRESS, put("instance.txt", "d=9", "d=8")),
    "another class": (PRESS, put("instance.txt", r"1\|prec,r\|Lmax", "1|intree,r|Lmax")),
    "an instance that is not as it is printed": (PRESS, put("instance.txt", "prec,r", "r,prec")),
    "an arc less behind a step": (PRESS, put("bound-1-step-1.txt", "arc a c\n", "")),
    "a time one up behind a step": (HALL, put("bound-1-step-2.txt", "p=2", "p=3")),
    "no instance behind a step": (HALL, gone("bound-1-step-2.txt")),
    "no report": (HALL, gone("bound-1-report.txt")),
    "another cost in the report": (HALL, put("bound-1-report.txt", "cost 11/2", "cost 6")),
    "a piece moved in the report": (HALL, put("bound-1-report.txt", r"(piece \w+ 1 \d) 0 ", r"\1 1 ")),
    "the bound of the certificate up": (HALL, put("bound-2-certificate.txt", "bound 11/2", "bound 6")),
    "a job less in the certificate": (HALL, put("bound-2-certificate.txt", "job a\n", "")),
    "the certificate of another instance": (PRESS, lambda folder: folder.update(
        {"bound-1-certificate.txt": evidence_of(HALL)["bound-2-certificate.txt"]})),
    "no schedule": (HALL, gone("schedule.txt")),
    "another stated cost": (HALL, put("schedule.txt", "cost 11", "cost 10")),
    "pieces that overlap": (HALL, put("schedule.txt", "piece b 1 1 4 9", "piece b 1 1 3 8")),
    "another schedule": (HALL, copied("bound-1-report.txt", "schedule.txt")),
    "no bounds": (HALL, gone("bounds.txt")),
    "a number that is none": (HALL, put("bounds.txt", "^6", "six")),
    "another machine": (SHOP, put("bounds.txt", r"machine:\d", "machine:3")),
    "a factor above the weight": (SHOP, put("bounds.txt", r"lateness:\d+", "lateness:4000")),
    "a factor too few": (SHOP, put("bounds.txt", r"lateness:\d+,", "lateness:")),
    "another scale": (SHOP, put("bounds.txt", r"/\d+", "/1")),
    "a share of identical machines": (LOADS, put("bounds.txt", "one-machine", "one-machine:1")),
    "a step of another kind of machines": (LOADS, put("bounds.txt", "one-machine", "fastest")),
    "a scale of nothing": (LATE, put("bounds.txt", r"lateness:[\d,]+/\d+", "lateness:0,0,0/0")),
    "a share of nothing": (LATE, put("bounds.txt", r"one-machine:\d+", "one-machine:0")),
    "another step to the last end": (FRIDAY, put("bounds.txt", "no-due", "curves")),
    "a due date one up in front of the last end": (FRIDAY, put("instance.txt", "d=3", "d=4")),
    "a share too few": (LATE, put("bounds.txt", r"one-machine:\d+,", "one-machine:")),
}


class Evidence(unittest.TestCase):
    """Folders as they are written, and spoilt ones."""

    def test_accepted(self) -> None:
        """All that is written is accepted, with its bounds."""
        for text in (SHOP, LATE, HALL, PRESS, LOADS, FRIDAY):
            found = judged(evidence_of(text))
            self.assertIsNone(found.fault)
            self.assertEqual(found.status, 0)
            self.assertGreater(len(found.bounds), 0)

    def test_spoilt(self) -> None:
        """Each spoilt folder is refused."""
        written = {text: evidence_of(text) for text in (SHOP, LATE, HALL, PRESS, LOADS, FRIDAY)}
        for name, (text, spoil) in SPOILT.items():
            folder = dict(written[text])
            spoil(folder)
            found = judged(folder)
            self.assertIsNotNone(found.fault, name)
            self.assertEqual(found.status, 1, name)

    def test_folder(self) -> None:
        """Evidence is written into no folder that holds something, and a folder that is not there is not judged."""
        instance = Instance.from_text(HALL)
        with tempfile.TemporaryDirectory() as folder:
            (Path(folder) / "mine.txt").write_text("mine", "ascii")
            with self.assertRaises(Misfit):
                write_evidence(folder, instance, one_after_another(instance).text(), bounds_of(instance, PROGRAM))
            with self.assertRaises(Misfit):
                verify.answer(verify.Wanted(f"{folder}/none", str(PROGRAM)), silent)


class Bounds(unittest.TestCase):
    """Bounds by hand."""

    def test_hall(self) -> None:
        """Eleven hours on two machines: 11/2 is proved, and 6 follows as the least cost is whole."""
        found = bounds_of(Instance.from_text(HALL), PROGRAM)
        self.assertEqual([(it.value, it.word) for it in found[:1]], [(6, "argued")])
        self.assertIn((Fraction(11, 2), "proved", "group"), [(it.value, it.word, it.solved) for it in found])

    def test_due(self) -> None:
        """Johnson's order takes 5, and the latest due date is 3. Each machine alone says 4 - 3: three hours, and one in front or behind."""
        found = bounds_of(Instance.from_text(FRIDAY), PROGRAM)
        self.assertEqual([(it.value, it.solved) for it in found if it.solved[0] == "F"], [(2, "F2||Cmax")])
        self.assertEqual([it.value for it in found[:3]], [2, 1, 1])

    def test_solved(self) -> None:
        """A class with a solver has its optimum, proved, and no step: c and b end at 2 and 7, a at 4."""
        found = bounds_of(Instance.from_text(HALL.replace("P||Cmax", "P||sumC")), PROGRAM)
        self.assertEqual([(it.value, it.word, it.solved, it.steps) for it in found], [(13, "proved", "P||sumC", ())])

    def test_beyond(self) -> None:
        """Beyond the limit of a solver a looser class bounds: 20,200 of work on 26 machines whose speeds are 63 together."""
        jobs = "".join(f"job j{at} p={at % 100 + 1}\n" for at in range(400))
        speeds = " ".join(str(at % 4 + 1) for at in range(26))
        found = bounds_of(Instance.from_text(f"msp 1\nclass Q||Cmax\nmachines 26\nspeeds {speeds}\n{jobs}end\n"), PROGRAM)
        self.assertEqual((found[0].value, found[0].solved), (Fraction(20200, 63), "1|pmtn|Cmax"))

    def test_limits(self) -> None:
        """A step that leaves the limits of texts is told, and not made."""
        told: list[str] = []
        text = "msp 1\nclass P|r|Lmax\nmachines 3\njob a p=5 r=900000000 d=9\njob b p=2 r=0 d=7\nend\n"
        found = bounds_of(Instance.from_text(text), PROGRAM, told.append)
        self.assertTrue(any("2700000000 of a is above 10^9" in it for it in told), told)
        self.assertFalse(any(step.name == "one-machine" for it in found for step in it.steps))


if __name__ == "__main__":
    unittest.main()
