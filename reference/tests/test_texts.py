"""Round trips, damaged texts, drawn instances, the machine of records, and what commands print."""
import random
import re
import subprocess
import unittest
from pathlib import Path

from cases import msp, slow
from msp_compare.calls import COMMANDS, damaged, random_call
from msp_compare.drawing import Sizes, small_instance, text_of
from msp_reference.certificates import CERTIFIED
from msp_reference.classes import CLASS_COUNT, unrank
from msp_reference.command import answer
from msp_reference.dispatch import SOLVED, find_target
from msp_reference.generate import generate, names_for
from msp_reference.instance import check, cycle
from msp_reference.instance_text import Filed, print_instance, read_instance
from msp_reference.results import records

LAUNCHER = Path(__file__).resolve().parents[1] / "msp"


class Instances(unittest.TestCase):
    """Texts of instances of all classes."""

    def test_round_trip(self) -> None:
        """Reading a printed instance gives the instance, for every class."""
        draw = random.Random("round trip")
        for number in range(CLASS_COUNT):
            inst = small_instance(draw, unrank(number))
            filed = Filed(inst, names_for(len(inst.jobs)))
            self.assertEqual(filed, read_instance(print_instance(filed)))

    def test_generated(self) -> None:
        """Generated instances are in their class and without a cycle."""
        for number in range(CLASS_COUNT):
            inst = generate(unrank(number), 1 + number % 13, number)
            self.assertIsNone(check(inst), inst)
            self.assertIsNone(cycle(len(inst.jobs), inst.arcs))

    def test_solved(self) -> None:
        """666 classes are solved, each solved class by its own solver."""
        self.assertEqual(666, sum(1 for number in range(CLASS_COUNT) if find_target(unrank(number))))
        self.assertEqual(list(SOLVED), [find_target(solver.cls) for solver in SOLVED])

    def test_damaged(self) -> None:
        """Damaged calls end with a status from 0 to 6, and with a report or a note."""
        draw = random.Random("damaged")
        for _ in range(1500):
            call = damaged(draw, random_call(draw, tuple(command for command in COMMANDS if command != "frontier")))
            status, report, note = answer(call.words, call.text)
            self.assertIn(status, range(7))
            self.assertEqual((status < 2, status > 1), (bool(report), bool(note)), call)
            self.assertTrue((report or note).endswith(b"\n"))

    def test_launcher(self) -> None:
        """The command of the folder answers as the room does, a closed output and a test of itself included."""
        call = [str(LAUNCHER), "--self-test", "trial", "1||sumwC", "3", "1"]
        done = subprocess.run(call, capture_output=True, check=False)
        self.assertEqual(msp(call[2:]), (done.returncode, done.stdout, done.stderr))
        with open("/dev/full", "wb") as full:
            done = subprocess.run(call, stdout=full, stderr=subprocess.PIPE, check=False)
        self.assertEqual((8, b"msp: cannot write\n"), (done.returncode, done.stderr))


@slow
class Carried(unittest.TestCase):
    """Each solved class, and each certified one, on many instances."""

    def test_solve_and_check(self) -> None:
        """What `solve` prints on each solved class is feasible with its cost by `check`."""
        draw = random.Random("solve and check")
        for cls in filter(find_target, map(unrank, range(CLASS_COUNT))):
            for inst in (small_instance(draw, cls, Sizes(jobs=7)), generate(cls, 12, draw.randrange(1000))):
                status, report, note = msp("solve", text_of(inst))
                self.assertEqual((0, b""), (status, note))
                self.assertEqual(0, msp("check", text_of(inst) + report[report.index(b"schedule\n"):]).status)

    def test_certify_and_accept(self) -> None:
        """What `certify` prints is accepted, and a higher bound is not."""
        draw = random.Random("certify and accept")
        for cls in CERTIFIED:
            for seed in range(60):
                inst = small_instance(draw, cls, Sizes(jobs=9)) if seed % 3 else generate(cls, draw.randint(1, 40), seed)
                status, report, note = msp("certify", text_of(inst))
                self.assertEqual((0, b""), (status, note))
                rest = report[report.index(b"certificate\n"):]
                self.assertEqual(0, msp("accept", text_of(inst) + rest).status)
                raised = re.sub(rb"bound (-?\d+)", lambda found: b"bound %d" % (int(found[1]) + 1), rest)
                self.assertEqual(1, msp("accept", text_of(inst) + raised).status)


class Records(unittest.TestCase):
    """The machine of records against the steps of the crate csv-core, state by state."""

    def test_records(self) -> None:
        """Random short texts of the bytes that matter."""
        draw = random.Random("records")
        for _ in range(20000):
            text = bytes(draw.choice(b'a,"\r\n b') for _ in range(draw.randint(0, 12)))
            self.assertEqual(plain_records(text), list(records(text)), text)


def in_field(byte: int) -> tuple[str, str]:
    """The state behind a byte of a field, and what becomes of the byte."""
    if byte == ord(","):
        return "start field", "end field"
    if byte in b"\r\n":
        return ("after cr" if byte == 13 else "start record"), "end record"
    return "in field", "copy"


def step(state: str, byte: int) -> tuple[str, str]:
    """The state behind a byte, and what becomes of the byte."""
    if state == "after cr" and byte == 10:
        return "start record", "skip"
    if state in ("start record", "after cr") and byte in b"\r\n":
        return "start record", "skip"
    if state in ("start record", "after cr", "start field") and byte == ord('"'):
        return "in quoted", "skip"
    if state == "in quoted":
        return ("after quote", "skip") if byte == ord('"') else ("in quoted", "copy")
    if state == "after quote" and byte == ord('"'):
        return "in quoted", "copy"
    return in_field(byte)


def plain_records(text: bytes) -> list[list[bytes]]:
    """The records of a text."""
    state, field = "start record", b""
    fields: list[bytes] = []
    found = []
    for byte in text:
        state, action = step(state, byte)
        if action == "copy":
            field += bytes([byte])
        elif action != "skip":
            fields, field = fields + [field], b""
        if action == "end record":
            found.append(fields)
            fields = []
    if state not in ("start record", "after cr"):
        found.append(fields + [field])
    return found


if __name__ == "__main__":
    unittest.main()
