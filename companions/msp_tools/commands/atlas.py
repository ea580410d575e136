"""One HTML page of all classes."""
from __future__ import annotations

import argparse
import re
import sys
from dataclasses import dataclass, field

from ..atlas import ASKED, Difference, Page, Source, chains_that_differ, neighbours_that_differ, page_of, spread
from ..faults import Misfit
from ..files import need_file, read_text, write_text
from ..program import Program, need_program
from .frame import Command, Parser, Tell, add_program, add_results

SAYS = """
Builds one HTML page of all 9,720 classes: labels, chains with their references, solvers, neighbours, frontier. It works offline.

The page is written to standard output, or to the file that is named. What it says is what the program prints over
examples/known-strengths.csv or the results file that is named: labels by `label`, the frontier by `frontier`, rows by `rows`; solvers
stand in docs/solved-classes.md, and their chains are those of `solve` for a drawn instance. Which classes are neighbours follows from the
texts of `rows`, and from that the chains, by the rule of `why`; `why` is asked of two hundred classes, spread evenly, whether it prints
the same, and the label of each class has to be the one that its chains give. Beside the shipped results stands what follows from the
published ones alone (examples/known-published.csv); with --labels both labels of each class are written as a CSV file, too.

With --compare a page is read instead: the chains of some classes, spread evenly, are compared with what `why` prints of each, and the
neighbours with `label` on a file that has nothing but a class of the page.

It ends with 1 where the results clash or the page differs, with 2 where the words do not fit, and with 3 where a file is none of its kind.
"""


@dataclass
class Wanted:
    """The words of the call."""
    output: str | None = None
    labels: str | None = None
    results: str | None = None
    literature: str | None = None
    part: int | None = None
    compare: str | None = None
    classes: int | None = None
    program: str | None = None


@dataclass
class Compared:
    """How many classes of a page were compared, and those that differ: by their chains, and by their neighbours."""
    chains: int
    neighbours: int
    chains_differ: list[Difference]
    neighbours_differ: list[str]

    @property
    def faults(self) -> int:
        """How many classes differ."""
        return len(self.chains_differ) + len(self.neighbours_differ)


@dataclass
class Answer:
    """A page, or what was compared; `written` is the path of a page that was written, and `clash` says whether the results clash."""
    page: str | None = field(default=None, repr=False)
    written: str | None = None
    clash: bool = False
    compared: Compared | None = None


def compare(program: Program, results: str, page: Page, count: int) -> Compared:
    """Compares a page with the program."""
    asked = spread(spread(page.names, page.data["asked"]), count)
    sample = page.names[::max(1, len(page.names) // 20)]
    chains, neighbours = chains_that_differ(program, results, page, asked), neighbours_that_differ(program, page, sample)
    return Compared(len(asked), len(sample), list(chains), list(neighbours))


def answer(wanted: Wanted, _: Tell) -> Answer:
    """The page, or what was compared."""
    of_pages = (wanted.output, wanted.labels, wanted.literature, wanted.part)
    if any(of_pages if wanted.compare else (wanted.classes,)):
        raise Misfit("--compare goes with --classes, --results and --program alone")
    program = need_program(wanted.program)
    results = read_text(need_file(wanted.results, "examples/known-strengths.csv", "--results"))
    if wanted.compare:
        return Answer(compared=compare(program, results, Page(read_text(wanted.compare)), wanted.classes or ASKED))
    literature = read_text(need_file(wanted.literature, "docs/results/literature.bib", "--literature"))
    made = Source(program, results, literature, wanted.results is not None).data(wanted.part)
    page = page_of(made.data)
    if wanted.labels:
        write_text(wanted.labels, made.listing.csv(), newline="")
    if wanted.output:
        write_text(wanted.output, page)
        return Answer(written=wanted.output, clash=made.clash)
    return Answer(page, clash=made.clash)


def show(found: Answer) -> None:
    """Prints the page, or what differs."""
    if found.compared:
        for it in found.compared.chains_differ:
            print(f"{it.name}: the page has\n{it.page}and why prints\n{it.program}")
        for name in found.compared.neighbours_differ:
            print(f"{name}: its neighbours' neighbours are not the classes to which rows lead")
        print(f"atlas: {found.compared.chains} classes compared with why, {found.compared.neighbours} with label, {found.compared.faults} differ")
    elif found.page is not None:
        sys.stdout.buffer.write(found.page.encode())


def status(found: Answer) -> int:
    """1 where the results clash or the page differs."""
    return int(found.clash or (found.compared is not None and found.compared.faults > 0))


def whole_number(text: str) -> int:
    """A reader of numbers from 1."""
    if not re.fullmatch(r"[1-9][0-9]{0,5}", text):
        raise argparse.ArgumentTypeError(f"not a number from 1 to 999999: {text}")
    return int(text)


def words(parser: Parser) -> None:
    """Adds the words."""
    parser.add_argument("--output", metavar="FILE", help="the page")
    parser.add_argument("--labels", metavar="FILE",
                        help="a CSV file of all classes beside the page: labels, entries that decide, references, solvers")
    add_results(parser)
    parser.add_argument("--literature", metavar="FILE", help="a bibliography; without it docs/results/literature.bib")
    parser.add_argument("--part", metavar="N", type=whole_number, help="has chains of N classes alone, spread evenly: a small page for a first look")
    parser.add_argument("--compare", metavar="PAGE", help="compares a page with the program")
    parser.add_argument("--classes", metavar="N", type=whole_number, help="compares the chains of N classes in place of 200")
    add_program(parser)


COMMAND = Command("atlas", "[OPTION ..]", SAYS, "atlas --output atlas.html\natlas --compare atlas.html", Wanted, words, answer, show, status)
