"""What stands in the cells of German and English lists: numbers, dates and clock times, exact, and the units in headers.

What may mean two things is refused, with the words that settle it.
"""
from __future__ import annotations

import re
from dataclasses import dataclass
from datetime import datetime
from fractions import Fraction

from .calendars import DAY_WORDS
from .dates import DAY, UNIT_WORDS, Moment, is_date, moment_of
from .faults import Fault
from .numbers import decimal

MONTHS = {word: month for month, words in enumerate((
    "januar jänner january jan", "februar feber february feb", "märz maerz mrz mär march mar", "april apr", "mai may", "juni june jun",
    "juli july jul", "august aug", "september sept sep", "oktober october okt oct", "november nov", "dezember december dez dec"), 1)
    for word in words.split()}
WEEKDAYS = ("Monday", "Tuesday", "Wednesday", "Thursday", "Friday", "Saturday", "Sunday")
# (a clock time behind a date or alone: 18:00, 6:30:15, 2:00 PM, 18 Uhr, 18.30 Uhr)
CLOCK = re.compile(r"(?:^|,\s*|\s+|T)(?:um |at )?([0-9]{1,2})(?:([:.])([0-9]{2}))?(?::([0-9]{2}))?(?:\s*([AaPp])\.?[Mm]\.?)?(\s*Uhr)?$")
WEEKDAY = re.compile(r"([A-Za-z]+)[.,]*\s+(?=[0-9])")


# Units in headers

def unit_in_header(header: str) -> tuple[str, int | None]:
    """The name of a column without its unit, and the seconds of that: `Dauer [min]`, `Waschen (Std.)`, `Dauer in min`; None without one."""
    found = re.fullmatch(r"(.*\S)\s*[\[(]\s*(?:in\s+)?([A-Za-z]+)\.?\s*[\])]", header) or re.fullmatch(r"(.*\S)\s+in\s+([A-Za-z]+)\.?", header)
    unit = UNIT_WORDS.get(found[2].lower()) if found else None
    return (header, None) if found is None or unit is None else (found[1].rstrip(" ,:"), unit)


# Dates

@dataclass(frozen=True)
class Date:
    """A date of a list, and whether it says a clock time; without a day it is the clock time alone."""
    moment: Moment
    has_clock: bool
    has_day: bool = True


def weekday_of(text: str) -> tuple[int | None, str]:
    """The weekday in front of a date, Monday 0, and the date without it."""
    found = WEEKDAY.match(text)
    day = DAY_WORDS.get(found[1].lower()) if found else None
    return (None, text) if found is None or day is None else (day, text[found.end():])


def clock_of(text: str) -> tuple[str, str]:
    """A text without the clock time at its end, and that as HH:MM or HH:MM:SS; empty where there is none."""
    found = CLOCK.search(text)
    if found is None or not (found[2] == ":" or found[6] or (found[5] and found[2] != ".")) or (found[2] == "." and not found[6]):
        return text, ""
    hour = int(found[1]) % 12 + 12 * (found[5] in "Pp") if found[5] else int(found[1])
    return text[: found.start()].rstrip(" ,"), f"{hour:02d}:{found[3] or '00'}" + (f":{found[4]}" if found[4] else "")


def year_of(text: str) -> str:
    """A year of two digits is one of this century."""
    return f"20{text}" if len(text) == 2 else text


# Cells

class Cells:
    """How the cells of a list are read: `decimal` (comma or point) and `dates` (dmy or mdy) say what else may mean two things."""

    def __init__(self, decimal_mark: str | None = None, dates: str | None = None, semicolons: bool = False):
        self.mark = {"comma": ",", "point": "."}.get(decimal_mark or "")
        self.order, self.semicolons = dates, semicolons

    def number(self, text: str, where: str) -> Fraction:
        """The exact value of a number."""
        said = re.sub("['’\u00a0\u202f]", " ", text.strip())
        if re.fullmatch(r"[+-]?[0-9]{1,3}( [0-9]{3})+([.,][0-9]+)?", said):
            said = said.replace(" ", "")
        found = re.fullmatch(r"[+-]?[0-9]{1,3}([.,])[0-9]{3}(\1[0-9]{3})*((?!\1)[.,][0-9]+)", said) or \
            re.fullmatch(r"[+-]?[0-9]{1,3}([.,])[0-9]{3}(\1[0-9]{3})+", said)
        if found:
            return decimal(said.replace(found[1], ""), where)
        found = re.fullmatch(r"[+-]?[1-9][0-9]{0,2}([.,])[0-9]{3}", said)
        if found and self.mark is None and (found[1] == "," or self.semicolons):
            one, other = ("comma", "point") if found[1] == "." else ("point", "comma")
            raise Fault(f"{where}: {text.strip()} may be a thousand or a fraction: --decimal {one} takes it for "
                        f"{said.replace(found[1], '')}, --decimal {other} for {said.replace(',', '.')}")
        if found and self.mark not in (None, found[1]):
            said = said.replace(found[1], "")
        return decimal(said, where)

    def day(self, text: str, where: str) -> str | None:
        """A day in the form YYYY-MM-DD: 2026-03-02, 02.03.26, 3/2/2026, 2. März 2026, March 2, 2026; None of another text."""
        if re.fullmatch("[0-9]{4}-[0-9]{2}-[0-9]{2}", text):
            return text
        found = re.fullmatch(r"([0-9]{1,2})([./])([0-9]{1,2})\2([0-9]{4}|[0-9]{2})", text)
        if found:
            day, month = self.day_and_month(int(found[1]), int(found[3]), found[2], text, where)
            return f"{year_of(found[4])}-{month:02d}-{day:02d}"
        found = re.fullmatch(r"([0-9]{1,2})\.?\s*([A-Za-zäÄ]+)\.?,?\s*([0-9]{4}|[0-9]{2})", text)
        if found and found[2].lower() in MONTHS:
            return f"{year_of(found[3])}-{MONTHS[found[2].lower()]:02d}-{int(found[1]):02d}"
        found = re.fullmatch(r"([A-Za-z]+)\.? ([0-9]{1,2}),? ([0-9]{4})", text)
        if found and found[1].lower() in MONTHS:
            return f"{found[3]}-{MONTHS[found[1].lower()]:02d}-{int(found[2]):02d}"
        return None

    def day_and_month(self, first: int, second: int, mark: str, text: str, where: str) -> tuple[int, int]:
        """The day and the month of two numbers: with points the day is first."""
        order = "dmy" if mark == "." else self.order or ("dmy" if first > 12 else "mdy" if second > 12 else None)
        if order is None:
            raise Fault(f"{where}: {text} may be of day {first} or of month {first}: --dates dmy or --dates mdy says which")
        return (first, second) if order == "dmy" else (second, first)

    def date(self, text: str, where: str, start: Moment | None) -> Date | None:
        """The date that a text spells, with a weekday in front and a clock time behind it, or a clock time alone, which is one of the day
        of the start; None of another text. A Fault where there is no such date, or the weekday is another one."""
        text = " ".join(text.split())
        if "+" in text and is_date(text):
            return Date(moment_of(text, where), True)
        weekday, rest = weekday_of(text)
        rest, clock = clock_of(rest)
        if clock and not rest and weekday is None:
            day = f"{start.date:%Y-%m-%d}" if start else "2000-01-01"
            return Date(self.moment(day, clock, text, where), True, False)
        found = self.day(rest, where)
        if found is None:
            return None
        moment = self.moment(found, clock or "00:00", text, where)
        if weekday not in (None, moment.date.weekday()):
            raise Fault(f"{where}: {text}: that day is a {WEEKDAYS[moment.date.weekday()]}")
        return Date(moment, bool(clock))

    def moment(self, day: str, clock: str, text: str, where: str) -> Moment:
        """The moment of a day and a clock time; 24:00 is the end of the day."""
        if clock in ("24:00", "24:00:00"):
            return self.moment(day, "00:00", text, where).after(DAY)
        try:
            return moment_of(f"{day} {clock}", where)
        except Fault:
            raise Fault(f"{where}: not a date: {text}; write YYYY-MM-DD HH:MM") from None


def day_number(value: Fraction) -> str:
    """The date that a number may be, as spreadsheets count days."""
    return Moment(datetime(1899, 12, 30)).after(int(value) * DAY).said()[:10]
