"""The table of rows against docs/rows.md, and what rows do to instances."""
import re
import unittest
from pathlib import Path
from typing import Callable

from msp_reference import rows
from msp_reference.classes import (CHAINS, CLASS_COUNT, CMAX, CRITERION_TEXT, Class, ENVIRONMENT_TEXT, EQUAL, FREE, GENERAL, INTREE,
                                   J2SHORT, JSHORT, LMAX, ONE, OUTTREE, SHORT_ROUTES, SUMC, SUMU, SUMWC, UNIT, rank, unrank)
from msp_reference.instance_text import read_instance
from msp_reference.names import class_named, name_of
from msp_reference.reductions import shifted, squeezed

PAGE = Path(__file__).resolve().parents[2] / "docs" / "rows.md"

_LEFT: dict[str, Callable[[Class], bool]] = {
    "none": lambda cls: cls.order == FREE, "chains": lambda cls: cls.order == CHAINS, "intree": lambda cls: cls.order == INTREE,
    "outtree": lambda cls: cls.order == OUTTREE, "no r": lambda cls: not cls.heads, "p=1": lambda cls: cls.times == UNIT,
    "p=p": lambda cls: cls.times == EQUAL, "r, Cmax": lambda cls: cls.heads and cls.crit == CMAX,
    "no r, Lmax": lambda cls: not cls.heads and cls.crit == LMAX, "pmtn": lambda cls: cls.cut, "uncut": lambda cls: not cls.cut,
    "J2 with n<=2": lambda cls: cls.env == J2SHORT, "J with n<=2": lambda cls: cls.env == JSHORT}
_CONDITIONS: dict[str, Callable[[Class], bool]] = {
    "": lambda cls: True, "arbitrary times": lambda cls: cls.times == GENERAL,
    "no flow or job shop": lambda cls: ENVIRONMENT_TEXT[cls.env][0] not in "FJ", "no r": lambda cls: not cls.heads,
    "Cmax": lambda cls: cls.crit == CMAX, "environment 1": lambda cls: cls.env == ONE, "1": lambda cls: cls.env == ONE,
    "no pmtn": lambda cls: not cls.cut, "sumwC": lambda cls: cls.crit == SUMWC,
    "Cmax, sumC or sumwC": lambda cls: cls.crit in (CMAX, SUMC, SUMWC)}


def starts(text: str, condition: str) -> list[Class]:
    """The classes that have the part on the left of a row's text and meet its condition."""
    left = text.split(" to ", maxsplit=1)[0]
    if left in CRITERION_TEXT:
        has = [cls for cls in map(unrank, range(CLASS_COUNT)) if CRITERION_TEXT[cls.crit] == left]
    elif left in _LEFT:
        has = [cls for cls in map(unrank, range(CLASS_COUNT)) if _LEFT[left](cls)]
    else:
        has = [cls for cls in map(unrank, range(CLASS_COUNT))
               if ENVIRONMENT_TEXT[cls.env] == left and cls.env not in SHORT_ROUTES]
    words = [word for part in condition.split("; ") for word in ([part] if part in _CONDITIONS else part.split(", "))]
    return [cls for cls in has if all(_CONDITIONS[word](cls) for word in words)]


class Page(unittest.TestCase):
    """The table as docs/rows.md has it."""

    def test_rows(self) -> None:
        """Each row has its text, applies where the page says, and changes what its text says."""
        found: dict[int, tuple[str, str]] = {}
        for line in PAGE.read_text(encoding="utf-8").split("\n"):
            cells = [cell.strip() for cell in line.split("|")[1:-1]]
            if len(cells) == 4 and cells[0].isdigit():
                condition = found[int(cells[0]) - 1][1] if cells[2] == "the same" else cells[2]
                found[int(cells[0])] = cells[1].strip("`"), condition
        self.assertEqual(list(range(1, rows.ROW_COUNT + 1)), sorted(found))
        for row, (text, condition) in found.items():
            self.assertEqual(text, rows.text(row))
            led = [cls for cls in map(unrank, range(CLASS_COUNT)) if rows.goes(row, cls)]
            self.assertEqual(starts(text, condition), led, text)

    def test_leads(self) -> None:
        """A row leads to the class with the part on its right, and to the same one but for that and turned arcs."""
        for row in range(1, rows.ROW_COUNT + 1):
            right = re.sub(" by .*", "", rows.text(row)).split(" to ")[1]
            wanted = {"no r, Lmax": {"Lmax"}, "r, Cmax": {"r", "Cmax"}, "general": set[str](), "uncut": set[str]()}.get(
                right, set(right.split(" with ")))
            for cls in map(unrank, range(0, CLASS_COUNT, 7)):
                lower = rows.goes(row, cls)
                if lower is not None:
                    self.assertLessEqual(wanted, set(re.split("[|,]", name_of(lower))), (row, name_of(cls)))
                    self.assertLessEqual(sum(one != two for one, two in zip(cls, lower)), 3 if row in (47, 48) else 1)


class Ranks(unittest.TestCase):
    """Ranks and names of classes."""

    def test_ranks(self) -> None:
        """Some ranks, and that ranks and names are inverse to their reading."""
        names = ("1||Cmax", "1||sumwC", "1|p=1|Cmax", "1|p=p|Cmax", "1|pmtn|Cmax", "J|pmtn,prec,r,p=p|sumwT")
        self.assertEqual([0, 4, 9, 18, 270, 9719], [rank(class_named(name)) for name in names])
        for number in range(CLASS_COUNT):
            self.assertEqual(number, rank(unrank(number)))
            self.assertEqual(unrank(number), class_named(name_of(unrank(number))))
        self.assertEqual(32, max(len(name_of(unrank(number))) for number in range(CLASS_COUNT)))


class Thresholds(unittest.TestCase):
    """The rows that carry no schedules, and unit jobs over the moments that count."""

    def test_shifted(self) -> None:
        """Due dates raised by 5."""
        given = read_instance(b"msp 1\nclass 1||Lmax\njob a p=2 d=4\njob b p=3 d=-2\nend\n").instance
        raised = shifted(given, 5, SUMU)
        self.assertEqual(("1||sumU", [9, 3]), (name_of(raised.cls), [job.due for job in raised.jobs]))

    def test_squeezed(self) -> None:
        """A job that is released late and due early: one moment is kept, and a lesser bound cannot be met."""
        text = b"msp 1\nclass P|r,p=1|Lmax\nmachines 1\njob a r=1000000000 d=-1000000000\nend\n"
        given = read_instance(text).instance
        lower = squeezed(given, 2_000_000_001)
        self.assertIsNotNone(lower)
        if lower is not None:
            self.assertEqual(("P|r,p=1|sumU", 0, 1), (name_of(lower.cls), lower.jobs[0].release, lower.jobs[0].due))
        self.assertIsNone(squeezed(given, 2_000_000_000))


if __name__ == "__main__":
    unittest.main()
