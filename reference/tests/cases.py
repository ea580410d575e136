"""What the tests share: worked instances, calls in this process, and comparisons by bytes."""
import os
import unittest
from typing import Sequence, Union

from msp_reference.command import Outcome, answer

WEIGHTED = "msp 1\nclass 1||sumwC\njob a p=3 w=1\njob b p=1 w=2\njob c p=2 w=2\nend\n"
LATENESS = "msp 1\nclass 1||Lmax\njob a p=2 d=4\njob b p=3 d=-2\nend\n"
SHARED = "msp 1\nclass P|pmtn|Cmax\nmachines 2\njob a p=3\njob b p=3\njob c p=3\nend\n"
SPEEDS = "msp 1\nclass Q||sumC\nmachines 2\nspeeds 3 2\njob a p=5\njob b p=4\nend\n"
TIMES = "msp 1\nclass R||sumC\nmachines 2\njob a\ntimes 1 9\njob b\ntimes 2 3\njob c\ntimes 3 5\nend\n"
ROUTES = "msp 1\nclass J2|n<=2|Cmax\njob a\nroute 1 2\njob b\nroute 2 3\njob c\nroute 1 2 2 2\njob d\nroute 2 1 1 4\nend\n"
CURVES = "msp 1\nclass 1|prec|fmax\njob a p=2\ncurve 1 0\njob b p=3\ncurve 0 0 5 10\njob c p=1\ncurve 2 -4\narc a b\nend\n"
CUT_CURVES = "msp 1\nclass 1|pmtn,r|fmax\njob a p=4 r=0\ncurve 1 0\njob b p=1 r=1\ncurve 3 0\nend\n"
TREE = "job a\njob b\njob c\njob d\narc a d\narc b d\narc c d\nend\n"
VERDICTS = "class,verdict,source\n"
STRENGTHS = "class,strength,source\n"

Words = Union[str, Sequence[str]]


def msp(words: Words, given: Union[str, bytes] = b"") -> Outcome:
    """What a call leaves, each solution being tested against its definitions."""
    listed = [words] if isinstance(words, str) else words
    return answer([word.encode() for word in listed], given if isinstance(given, bytes) else given.encode(), tested=True)


def schedule(cost: str, unit: int, *pieces: str) -> str:
    """A schedule text."""
    return "".join([f"schedule\ncost {cost}\nunit {unit}\n"] + [f"piece {piece}\n" for piece in pieces] + ["end\n"])


def single(*pieces: str) -> list[str]:
    """Piece lines on the only machine from the form `b 0-1`."""
    return [f"{name} 1 1 {span.replace('-', ' ')}" for name, span in (piece.split(" ") for piece in pieces)]


class Case(unittest.TestCase):
    """Comparisons by bytes."""

    maxDiff = None

    def gives(self, words: Words, given: Union[str, bytes], status: int, text: str) -> None:
        """A call leaves exactly this: at status 0 and 1 a report, and else the text of a note."""
        left = (status, text.encode(), b"") if status < 2 else (status, b"", f"msp: {text}\n".encode())
        self.assertEqual(left, msp(words, given), words)

    def solves(self, given: str, chain: Sequence[str], solver: str, best: str) -> None:
        """`solve` by full bytes, with the class of the instance first; `check` accepts the schedule, too."""
        start = given.split("\n")[1][len("class "):]
        report = "".join([f"start {start}\n", *(f"row {step}\n" for step in chain), f"solver {solver}\n", best])
        self.gives("solve", given, 0, report)
        self.checks(given, report)

    def checks(self, given: str, report: str) -> None:
        """`check` accepts the schedule of a report of `solve`."""
        status, found, note = msp("check", given + report[report.index("schedule\n"):])
        self.assertEqual((0, b""), (status, note))
        self.assertIn("\nagree yes\nend\n", found.decode())

    def costs(self, given: str, cost: str, solver: str, chain: Sequence[str] = ()) -> None:
        """`solve` with free pieces: the lines before them are fixed, and `check` accepts."""
        status, report, note = msp("solve", given)
        self.assertEqual((0, b""), (status, note))
        text = report.decode()
        self.assertIn(f"\nschedule\ncost {cost}\n", text)
        self.assertIn(f"\nsolver {solver}\n", text)
        self.assertEqual(list(chain), [line[4:] for line in text.split("\n") if line.startswith("row ")])
        self.checks(given, text)


def slow(case: type[unittest.TestCase]) -> type[unittest.TestCase]:
    """A class of tests that runs only where the variable MSP_SLOW_TESTS is set, and else says that it was skipped."""
    return unittest.skipUnless(os.environ.get("MSP_SLOW_TESTS"), "slow: set MSP_SLOW_TESTS=1 to run it")(case)
