"""The words that several commands share: in what units and dates the moments of an instance are shown and read."""
from __future__ import annotations

from .frame import Parser


def add_units(parser: Parser) -> None:
    """Adds the words of `units.UnitWords`."""
    words = parser.add_argument_group("units and dates")
    words.add_argument("--names", metavar="FILE", help="the file that from-csv --names wrote: the names of the list, and what was done to its "
                       "units, which is turned back; a word that contradicts it is refused")
    words.add_argument("--scale", metavar="K", help="what from-csv --scale multiplied by, where no file of names says it: moments are divided by K")
    words.add_argument("--time-unit", metavar="LENGTH", help="how long one unit of time is (behind --scale), as 15min or 1d: moments are hours")
    words.add_argument("--start", metavar="DATE", help="the moment 0, as '2026-03-02 08:00': moments are dates; without --time-unit one unit is 1h")
    words.add_argument("--shifts", metavar="SHIFTS", help="when the plant works, as from-csv has it: the instance counts working time")
    words.add_argument("--holidays", metavar="FILE", help="when it does not, as from-csv has it")
