"""Draws a schedule as a Gantt chart: SVG, or characters in 80 columns."""
from __future__ import annotations

from dataclasses import dataclass

from ..charts import Chart, Options
from ..faults import Misfit
from ..pictures import characters, svg
from ..plans import moved_early, read_texts
from ..program import need_program
from ..units import Units, UnitWords
from .frame import Command, Parser, Tell, add_program, positive
from .unit_words import add_units

SAYS = """
Draws a schedule as a Gantt chart: SVG, or characters in 80 columns.

FILE (or standard input) is a report of `msp solve`, a schedule text, or an instance text with a schedule text behind it, as `msp check`
reads it. Where the instance is given, jobs that end after their due dates are marked, and machines that run nothing have a line, too.
Pieces that overlap are red. A bar has its job's name; where that is too long, what differs in the names, or the name cut in the middle, if
no other is cut so, or else letters, which a legend explains. A number in a bar never stands for another job's name. Where many bars
are too short even for letters, time runs in several bands, one below the other. With a start the axis has dates, with shifts clock times
that are worked, with thin gaps where the plant pauses. Without a file of names a line on standard error says what is taken for the units.

Pixels are rounded, nothing else: numbers and dates that are written are exact. It ends with 2 where the words do not fit, and with 3
where a text has a fault; whether the schedule is feasible is for `msp check` to say.
"""


@dataclass
class Wanted(UnitWords):
    """The words of the call."""
    file: str | None = None
    instance: str | None = None
    by_job: bool = False
    text: bool = False
    title: str | None = None
    machine_names: str | None = None
    width: int | None = None
    bands: int | None = None
    early: bool = False
    program: str | None = None


@dataclass
class Answer:
    """The chart as it is drawn, with its title."""
    title: str
    chart: str


def answer(wanted: Wanted, tell: Tell) -> Answer:
    """The chart of a schedule."""
    least = 40 if wanted.text else 200
    if wanted.width is not None and wanted.width < least:
        raise Misfit(f"--width is at least {least}" + ("" if wanted.text else " pixels"))
    units = Units(wanted)
    for line in units.assumed:
        tell(line)
    instance, schedule = read_texts(wanted.file, wanted.instance)
    units.need(schedule, instance)
    if wanted.early:
        schedule = moved_early(schedule, instance, units, lambda: need_program(wanted.program))
    chart = Chart(schedule, instance, units, Options(wanted.by_job, wanted.title, wanted.machine_names))
    drawn = characters(chart, wanted.width or 80, wanted.bands) if wanted.text else svg(chart, wanted.width or 1200, wanted.bands)
    return Answer(chart.title(), drawn)


def show(found: Answer) -> None:
    """Prints the chart."""
    print(found.chart)


def words(parser: Parser) -> None:
    """Adds the words."""
    parser.add_argument("file", metavar="FILE", nargs="?", help="the report; without it standard input")
    parser.add_argument("--instance", metavar="FILE", help="the instance of the schedule")
    parser.add_argument("--by-job", action="store_true", help="a line for each job instead of each machine, those that begin first on top")
    parser.add_argument("--text", action="store_true", help="draws with characters, in 80 columns (or --width N)")
    parser.add_argument("--early", action="store_true", help="moves each piece as early as its order allows; needs --instance")
    parser.add_argument("--title", metavar="TEXT", help="a title; without it the cost in words and the class")
    parser.add_argument("--machine-names", metavar="A,B,..", help="the machines' names, in order")
    parser.add_argument("--width", metavar="N", type=int, help="the width in pixels (1200, at least 200), or in columns (80, at least 40)")
    parser.add_argument("--bands", metavar="N", type=positive, help="in how many bands time runs; without it as many as the shortest bars "
                        "need, as far as a page goes")
    add_units(parser)
    add_program(parser)


COMMAND = Command("gantt", "[FILE] [OPTION ..] > plan.svg", SAYS,
                  "msp solve < orders.txt | gantt --instance orders.txt --names orders.names > plan.svg", Wanted, words, answer, show)
