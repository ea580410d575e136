"""Whether a chain of elementary reductions leads from a class to another."""
from __future__ import annotations

import csv
import io
import re
from dataclasses import dataclass
from typing import Iterable

from ..faults import Misfit
from ..naming import Meaning, named_by
from ..program import Program, need_program
from .frame import Command, Parser, Tell, add_program

SAYS = """
Says whether a chain of elementary reductions leads from a class to another, and shows it.

A and B are names of classes in any spelling of docs/notation.md, as '1||Lmax' and 'P|prec|fmax'; `Pm`, a fixed number of machines, stands
for the classes with two and with three, each to that with as many, and `tree` for intree and outtree. Where a chain leads from A to B,
whoever can solve B can solve A, and if A is hard so is B. The chain is a nearest one, the one that `msp why` shows where A alone is known
to be hard; behind each row stands what it does, from `msp rows`.

It ends with 0 where there is a chain (with --both: both ways), with 1 where there is none, and with 2 where the words do not fit.
"""


@dataclass
class Wanted:
    """The words of the call."""
    start: str = ""
    end: str = ""
    both: bool = False
    program: str | None = None


@dataclass
class Row:
    """A row of a chain, with what it says, and the class to which it leads."""
    row: int
    text: str
    lower: str


@dataclass
class Chain:
    """The nearest chain from a class to another; without one, `rows` is None."""
    start: str
    end: str
    rows: list[Row] | None


@dataclass
class Answer:
    """The chains of all pairs of classes that are asked for."""
    chains: list[Chain]


def results_of(entries: Iterable[tuple[str, str]]) -> str:
    """A file of known results: pairs of a class and a verdict."""
    text = io.StringIO()
    csv.writer(text, lineterminator="\n").writerows([("class", "verdict", "source"), *((name, verdict, "asked") for name, verdict in entries)])
    return text.getvalue()


def chain(program: Program, start: str, end: str, texts: dict[int, str]) -> Chain:
    """The nearest chain from a class to another."""
    lines = program.report(["why", end], results_of([(start, "hard")]), (0,)).report.splitlines()
    if f"start {start}" not in lines:
        return Chain(start, end, None)
    found = [it.split(" ") for it in lines[lines.index(f"start {start}") + 1: lines.index("end")]]
    return Chain(start, end, [Row(int(number), texts[int(number)], lower) for _, number, lower in found])


def chains(program: Program, start: Meaning, end: Meaning, texts: dict[int, str]) -> list[Chain]:
    """The chains between the classes for which two names stand."""
    pairs = [(one.kind, other.kind) for one in start.variants for other in end.variants if one.goes_with(other)]
    if not pairs:
        raise Misfit(f"{start.name} and {end.name} stand for classes of other numbers of machines")
    return [chain(program, str(one), str(other), texts) for one, other in pairs]


def answer(wanted: Wanted, _: Tell) -> Answer:
    """The chains from A to B, and with --both those back."""
    start, end = named_by(wanted.start), named_by(wanted.end)
    program = need_program(wanted.program)
    rows = re.finditer(r"(?m)^row (\d+) (.*)$", program.report(["rows"]).report)
    texts = {int(it[1]): it[2] for it in rows}
    ways = [(start, end), (end, start)] if wanted.both else [(start, end)]
    return Answer([it for one, other in ways for it in chains(program, one, other, texts)])


def show(found: Answer) -> None:
    """Prints each chain, or that there is none."""
    for it in found.chains:
        if it.rows is None:
            print(f"no chain leads from {it.start} to {it.end}")
            continue
        over = f" over {len(it.rows)} rows" if len(it.rows) > 1 else " over one row" if it.rows else ": they are the same class"
        print(f"{it.start} reduces to {it.end}{over}")
        for row in it.rows:
            print(f"row {row.row} {row.lower}    {row.text}")


def words(parser: Parser) -> None:
    """Adds the words."""
    parser.add_argument("start", metavar="A", help="the class from which the chain leads")
    parser.add_argument("end", metavar="B", help="the class to which it leads")
    parser.add_argument("--both", action="store_true", help="asks for the way from B to A, too")
    add_program(parser)


def status(found: Answer) -> int:
    """1 where a chain is missing."""
    return int(any(it.rows is None for it in found.chains))


COMMAND = Command("reduces", "A B [OPTION ..]", SAYS, "reduces '1||Lmax' '1|r|Lmax'", Wanted, words, answer, show, status)
