"""Exercise sheets for print, and their solutions."""
from __future__ import annotations

import os
from dataclasses import dataclass, field
from fractions import Fraction

from ..faults import Fault, Misfit
from ..files import read_text, write_text
from ..numbers import said
from ..program import Program, need_program
from ..rules import Solution, rule_of
from ..schedules import cost_of, ends_of, text_of
from ..solving import best_cost
from ..texts import Instance, read_instance
from ..writers import Latex, Markdown, Writer, sheet, solution
from .frame import Command, Parser, Tell, add_program

SAYS = """
Writes an exercise sheet for print, in Markdown or LaTeX: the table of the jobs, and with --solution the steps of the rule.

SHEET is an instance text, as make-instance draws it, or - for standard input. FOLDER has some, NAME.txt: then NAME.md is written for each
into the folder of --to, and with --solution NAME-solution.md beside it. Columns are named in the field's words: processing time, due date.

The steps are those of these rules, for the classes that they fit:

    Moore and Hodgson   1||sumU: the jobs by due dates, and which one is dropped
    Johnson             F2||Cmax: the two groups, and their order
    Hu                  P|intree,p=1|Cmax, with chains or an outtree too, and on P2 and P3: the levels, and each unit of time
    McNaughton          P|pmtn|Cmax, on P2 and P3 too: the bound, and each machine with the job that is cut
    Smith               1||sumC, 1||sumwC: the ratios of processing time to weight
    Lawler              1||Lmax, 1||fmax, with precedence too: the choice for each place, from the last one on
    shortest remaining time   1|pmtn,r|sumC: what runs from each release date and end on, and what is cut
    earliest due date         1|pmtn,r|Lmax: the same by due dates

Before anything is written, the schedule of the steps is compared with the program: `check` has to find it feasible, and its cost has to
be that of `solve`. Where they differ, nothing is written, and it ends with 1. It ends with 2 where the words do not fit or the class has no
such rule, and with 3 where the program finds a fault in a sheet.
"""


@dataclass
class Wanted:
    """The words of the call."""
    sheet: str = ""
    to: str | None = None
    solution: bool = False
    latex: bool = False
    title: str | None = None
    program: str | None = None


@dataclass
class Answer:
    """A sheet, or the paths that were written; `differs` says how the steps and the program differ, where nothing is written."""
    text: str = ""
    written: list[str] = field(default_factory=list)
    differs: str | None = None


class Differs(Exception):
    """The steps and the program differ."""


@dataclass(frozen=True)
class Printer:
    """How sheets are written, and the program that their solutions are compared with."""
    writer: Writer
    program: Program

    def read(self, path: str) -> tuple[Instance, Fraction | None]:
        """The instance of a file, and its least cost, or None where `solve` has none."""
        text = read_text(path)
        try:
            best, _ = best_cost(self.program, text)
            return read_instance(text), best
        except Fault as fault:
            raise Fault(f"{path}: {fault}") from None

    def sheet(self, title: str, path: str) -> str:
        """The sheet of a file."""
        return sheet(self.writer, title, self.read(path)[0])

    def solution(self, title: str, path: str) -> str:
        """The sheet of a file with its solution."""
        instance, best = self.read(path)
        rule = rule_of(instance.kind)
        if best is None:
            raise Fault(f"{path}: solve has no cost to compare the steps with")
        found = rule.solve(instance)
        try:
            self.compare(instance, found, best)
        except (Fault, Differs) as fault:
            raise type(fault)(f"{path}: {fault}") from None
        return solution(self.writer, title, instance, rule, found, best)

    def compare(self, instance: Instance, found: Solution, best: Fraction) -> None:
        """Whether `check` finds the schedule of the steps feasible, and its cost is the least one; else it tells how they differ."""
        cost = cost_of(instance, ends_of(found.pieces))
        judged = self.program.call(["check"], instance.text() + text_of(found.pieces, cost))
        if judged.status > 1:
            raise Fault(judged.note)
        if judged.status == 1:
            raise Differs("check says " + ", ".join(judged.report.splitlines()[:-1]))
        if best != cost:
            raise Differs(f"the steps cost {said(cost)}, and solve says {said(best)}")


def written(wanted: Wanted, printer: Printer, folder: str) -> list[str]:
    """Writes the sheets of a folder into another; nothing is written where one of them cannot be."""
    texts = {}
    for file in sorted(it for it in os.listdir(wanted.sheet) if it.endswith(".txt")):
        path, name = os.path.join(wanted.sheet, file), file.removesuffix(".txt")
        title = f"{wanted.title}: {name}" if wanted.title else name
        texts[name] = printer.sheet(title, path)
        if wanted.solution:
            texts[f"{name}-solution"] = printer.solution(f"{title}, solution", path)
    if not texts:
        raise Misfit(f"there is no sheet NAME.txt in {wanted.sheet}")
    os.makedirs(folder, exist_ok=True)
    paths = {os.path.join(folder, name + printer.writer.ending): text for name, text in texts.items()}
    for path, text in paths.items():
        write_text(path, text)
    return list(paths)


def answer(wanted: Wanted, tell: Tell) -> Answer:
    """The sheet, or those of a folder."""
    if os.path.isdir(wanted.sheet) != (wanted.to is not None):
        raise Misfit("a folder of sheets and --to FOLDER go together")
    printer = Printer(Latex() if wanted.latex else Markdown(), need_program(wanted.program))
    title = wanted.title or ("sheet" if wanted.sheet == "-" else os.path.splitext(os.path.basename(wanted.sheet))[0])
    try:
        if wanted.to is not None:
            return Answer(written=written(wanted, printer, wanted.to))
        return Answer(printer.solution(f"{title}, solution", wanted.sheet) if wanted.solution else printer.sheet(title, wanted.sheet))
    except Differs as fault:
        tell(f"{fault}: nothing is written")
        return Answer(differs=str(fault))


def show(found: Answer) -> None:
    """Prints the sheet."""
    print(found.text, end="")


def status(found: Answer) -> int:
    """1 where the steps and the program differ."""
    return int(found.differs is not None)


def words(parser: Parser) -> None:
    """Adds the words."""
    parser.add_argument("sheet", metavar="SHEET|FOLDER", help="an instance text, or a folder of them")
    parser.add_argument("--to", metavar="FOLDER", help="the folder into which the sheets of a folder are written")
    parser.add_argument("--solution", action="store_true",
                        help="the sheet with its solution: the steps as a student does them by hand, and the schedule")
    parser.add_argument("--latex", action="store_true", help="a document for LaTeX instead of Markdown, NAME.tex")
    parser.add_argument("--title", metavar="TEXT", help="a title; without it the sheet's name")
    add_program(parser)


COMMAND = Command("print-sheet", "(SHEET | FOLDER --to FOLDER) [OPTION ..]", SAYS, "print-sheet sheet-7.txt --solution --latex > sheet-7.tex", Wanted,
                  words, answer, show, status)
