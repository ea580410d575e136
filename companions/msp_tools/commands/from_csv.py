"""Makes an instance text of a list of jobs from a spreadsheet."""
from __future__ import annotations

import argparse
import sys
from dataclasses import dataclass, field, fields
from typing import Callable, Sequence

from ..columns import key_named
from ..faults import Misfit
from ..files import read_bytes, read_text
from ..lists import Made, instance_of
from ..numbers import said
from ..settings import ListWords
from ..spreadsheets import table_of
from ..telling import Told
from ..units import write_names
from .frame import Command, Parser, Tell, positive

SAYS = """
Makes an instance text of a list of jobs from a spreadsheet.

The list is CSV, separated by commas, semicolons or tabs (or a line `sep=;` in front), in UTF-8, UTF-16 or what --encoding names; or a
workbook .xlsx, where openpyxl is installed. A line names the columns; what stands above it is a title. Of a column `Dauer [min]`,
`Waschen (Std)` or `time in h` the unit is known. The columns are

    job          the job's name; letters lose their accents, other signs become _
    p            its time (1, P and Q kinds)
    p1 p2 ..     its time on each machine (R kinds), or of each operation (O and F kinds)
    route        machines and times in turn, with spaces between them (J kinds); machines by number, or by a name of --machine-names
    curve        slope, base, and a threshold and an add for each jump (fmax); thresholds may be dates
    r d w        release date, due date, weight, where the class has them
    after        the jobs that it comes after, as they stand in the column job, with |, commas or spaces between them

A list without a column that the class needs is refused. Of each column that the class has no place for, a line on standard error says
that it is left out. Dates are 2026-03-02 06:00, 02.03.26, Mo 02.03.2026 18 Uhr or 2. März 2026; a clock time alone is one of the day of
--start, a day alone is its 00:00, when it begins (of a due date that is told). A release date before --start counts as it, and is told.
Times may be lengths as 3:30, three and a half hours. A last row of sums is refused.

With --shifts moments count working time from --start, and jobs pause with the plant. A release date in a pause is the next working
moment, a due date there the end of the last one before it. No clock is put forward or back. A holiday takes away the shifts that begin
on it.

Where something was multiplied, a comment on standard error (# ..) says what turns moments and costs back. It ends with 2 where the
words do not fit, and with 3 where the list has faults; all are told at once, each with its line and column.
"""
KEPT = ("a file with words of this call, one in a line without its hyphens, as `time-unit 1h` or `column job=Auftrag`; # begins a comment. "
        "What is typed beside it goes before")


@dataclass
class Wanted(ListWords):
    """The words of the call."""
    kind: str = ""
    file: str | None = None
    names: str | None = None
    encoding: str = "utf-8"
    sheet: str | None = None
    strict: bool = False


@dataclass
class Answer:
    """The instance text, the names of the list, what the file of names says, what turns moments and costs back, and whether semicolons separated
    the fields of the list."""
    instance: str
    names: dict[str, str]
    words: dict[str, object]
    comments: list[str]
    semicolons: bool = field(default=False, repr=False)


def comments_on(made: Made, path: str | None) -> list[str]:
    """What turns moments and costs back to the units of the list, and what they count."""
    instead = f"{path} says it to plan and gantt" if path else f"--scale {made.moments} for plan and gantt"
    whole = made.moments == 1 and made.cost == 1
    back = f"moments divided by {said(made.moments)}, and the cost by {said(made.cost)}"
    found = [] if whole else [f"# {instead}: {back}, are in the units of the list"]
    return found + ["# moments and dates count working time by --shifts: what is best is best over working time"] * made.has_calendar


def answer(wanted: Wanted, tell: Tell) -> Answer:
    """The instance of the list."""
    told = Told(strict=wanted.strict)
    table = table_of(read_bytes(wanted.file), wanted.encoding, wanted.sheet)
    try:
        made = instance_of(table, wanted.kind, wanted, told)
    finally:
        for line in told.heard():
            tell(line)
    if wanted.names:
        write_names(wanted.names, made.names, made.words)
    return Answer(made.text, dict(made.names), made.words, comments_on(made, wanted.names), table.semicolons)


def show(found: Answer) -> None:
    """Prints the instance text, and the comments on standard error."""
    for comment in found.comments:
        print(comment, file=sys.stderr)
    print(found.instance, end="")


# The words

def column_of(text: str) -> tuple[str, str]:
    """A reader of KEY=NAME."""
    key, _, name = text.partition("=")
    found = key_named(key)
    if not name.strip() or found is None:
        keys = "job p p1 p2 .. route curve r d w after, or time release due weight"
        raise argparse.ArgumentTypeError(f"{text}: write KEY=NAME; keys are {keys}")
    return found, name.strip()


def add_words(parser: Parser) -> None:
    """Adds the words."""
    parser.add_argument("kind", metavar="CLASS", help="the class, as '1|prec|Lmax'")
    parser.add_argument("file", metavar="FILE", nargs="?", help="the list; without it standard input")
    add_columns(parser.add_argument_group("columns and files").add_argument)
    add_counts(parser.add_argument_group("machines, units and numbers").add_argument)
    add_dates(parser.add_argument_group("dates and the plant").add_argument)
    refused = parser.add_argument_group("what is refused").add_argument
    refused("--strict", action="store_true", help="refuses a list of which a column is left out, or in which something looks wrong")
    refused("--blank-is-0", action="store_true", help="an empty field p1, p2 .. (O and F kinds) or r is 0; else it is refused")
    refused("--sum-row", choices=("drop", "keep"), help="a last row that looks like one of sums is left out, or is a job; else it is refused")


def add_columns(add: Callable[..., object]) -> None:
    """Adds the words of columns and files."""
    add("--column", metavar="KEY=NAME", type=column_of, action="append",
        help="the column NAME is meant, with its unit or without; time, release, due and weight are other words for p, r, d and w")
    add("--names", metavar="FILE", help="writes the jobs' names in the list and what was done to the units: plan, gantt, to-schedule and grade "
        "take them from there")
    add("--words", metavar="FILE", help=KEPT)
    add("--encoding", metavar="E", help="the encoding of the list where it is not UTF-8 and no mark says it, as cp1252 from Windows")
    add("--sheet", metavar="NAME", help="the sheet of a workbook; without it the first one")
    add("--machine-names", metavar="A,B,..", help="the machines' names for plan and gantt, in order; a column that --column p1=NAME names is a "
        "machine's name too")


def add_counts(add: Callable[..., object]) -> None:
    """Adds the words of machines, units and numbers."""
    add("--machines", metavar="M", type=positive, help="the number of machines, where the class does not fix it")
    add("--speeds", metavar="S,S,..", help="the speeds on Q kinds, decimals too (1;0,8 with decimal commas): they become whole without a common "
        "divisor, and the times with them")
    add("--time", metavar="P", help="the time that all jobs share, with p=p")
    add("--time-unit", metavar="LENGTH", help="what 1 in the columns of times is, as 1h or 30min (on Q kinds at speed 1), where no header says it")
    add("--date-unit", metavar="LENGTH", help="what 1 in the columns r and d is, where it is another length")
    add("--scale", metavar="K", type=positive, help="multiplies all times and dates by K, that of --time too, which must make them whole; of curves "
        "bases, thresholds and adds, so all costs are K times as great. Unit times have no other scale")
    add("--scale-weights", metavar="N", type=positive, help="multiplies all weights by N")
    add("--decimal", choices=("comma", "point"), help="what separates decimals, where 1.250 or 1,250 may be a thousand")


def add_dates(add: Callable[..., object]) -> None:
    """Adds the words of dates and the plant."""
    add("--start", metavar="DATE", help="the moment 0: then r and d may be dates")
    add("--shifts", metavar="SHIFTS", help="when the plant works, as 'Mon-Fri 06:00-14:00,14:30-22:00; Sat 06:00-12:00', past midnight too "
        "(22:00-06:00); days may be Mo, Di .. too")
    add("--holidays", metavar="FILE", help="dates 2026-12-24 or 24.12.2026, one in a line, or spans 2026-12-24..2027-01-01; # begins a comment")
    add("--dates", choices=("dmy", "mdy"), help="how 02/03/2026 is read; 02.03.2026 is of March")


def kept_words(path: str) -> list[str]:
    """The words of a file of --words."""
    known = {it.name.replace("_", "-") for it in fields(Wanted)} - {"kind", "file"}
    found = []
    for at, line in enumerate(read_text(path, "utf-8-sig").splitlines(), 1):
        word, _, value = line.strip().partition(" ")
        word = word.rstrip(":=")
        if not word or word.startswith("#"):
            continue
        if word not in known:
            raise Misfit(f"{path}: line {at}: {word} is no word that can be kept: {', '.join(sorted(known))}")
        found += [f"--{word}", *[value.strip()] * bool(value.strip())]
    return found


@dataclass(frozen=True)
class Keeping(Command[Wanted, Answer]):
    """The command, with the words of a file in front of those that are typed."""

    def read(self, words: Sequence[str] | None) -> Wanted:
        """Reads the words, those of the file first."""
        typed = list(sys.argv[1:] if words is None else words)
        at = next((at for at, it in enumerate(typed) if it == "--words" or it.startswith("--words=")), None)
        if at is not None:
            path = typed[at].partition("=")[2] or (typed[at + 1] if at + 1 < len(typed) else "")
            typed = [*(kept_words(path) if path else []), *typed]
        return super().read(typed)


COMMAND = Keeping("from-csv", "CLASS [FILE] [OPTION ..] < jobs.csv > instance.txt", SAYS,
                  "from-csv '1||Lmax' --column job=Auftrag --column due=Termin --time-unit 1h --start '2026-03-02 06:00' --names orders.names "
                  "< orders.csv > orders.txt", Wanted, add_words, answer, show)
