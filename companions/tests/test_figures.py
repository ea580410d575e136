"""Tests of the tables of docs/measured.md and docs/planners.md, which measure-plans prints: they have the same gaps, of the same classes.

    PYTHONPATH=companions python3 companions/tests/test_figures.py
"""
from __future__ import annotations

import re
import unittest
from typing import Dict, Iterator, List

from here import MEASURED, TOP

Table = List[List[str]]
GAP = re.compile(r"(\d+) jobs: gap")


def tables(name: str) -> Iterator[Table]:
    """The tables of a document, as cells; the line under the head is left out."""
    lines = (TOP / "docs" / name).read_text("utf-8").split("\n")
    found: Table = []
    for line in [*lines, ""]:
        if line.startswith("|"):
            cells = [it.strip().replace("\\|", "|") for it in re.split(r"(?<!\\)\|", line)[1:-1]]
            found += [] if set(cells) == {"---"} else [cells]
        elif found:
            yield found
            found = []


def gaps_by_class(those: Table, columns: Dict[int, str]) -> Dict[str, Dict[str, str]]:
    """For each class of a table its gap by the number of jobs."""
    return {cells[0].strip("`"): {jobs: cells[at] for at, jobs in columns.items()} for cells in those[1:]}


class Figures(unittest.TestCase):
    """The tables of both documents."""

    def test_same(self) -> None:
        """Both tell the same gaps of the measured classes, in their order."""
        measured: Dict[str, Dict[str, str]] = {}
        for table in tables("measured.md"):
            columns = {at: found[1] for at, found in enumerate(map(GAP.fullmatch, table[0])) if found}
            if columns:
                self.assertEqual([it[0].strip("`") for it in table[1:]], list(MEASURED))
                for name, gaps in gaps_by_class(table, columns).items():
                    measured.setdefault(name, {}).update(gaps)
        told = next(it for it in tables("planners.md") if it[0][0] == "Class" and it[0][1].isdecimal())
        numbers = {at: it for at, it in enumerate(told[0]) if it.isdecimal()}
        self.assertEqual(gaps_by_class(told, numbers), {name: {it: gaps[it] for it in numbers.values()} for name, gaps in measured.items()})


if __name__ == "__main__":
    unittest.main()
