"""Lengths of time and dates, exact: `1h`, `30min`, `1.5d`, and `2026-03-02 06:00` or `02.03.2026 06:00`, to parts of a second.

Lengths are seconds, as whole numbers or `Fraction`s. There are no time zones: no clock is put forward or back.
"""
from __future__ import annotations

import re
from dataclasses import dataclass
from datetime import datetime, timedelta
from fractions import Fraction

from .faults import Fault, Misfit
from .numbers import Number, decimal, said

MINUTE, HOUR, DAY, WEEK = 60, 3600, 86400, 604800
SECONDS = {"s": 1, "min": MINUTE, "m": MINUTE, "h": HOUR, "d": DAY, "w": WEEK}
# (the units in words, as headers of columns have them)
UNIT_WORDS = {word: seconds for seconds, words in (
    (1, "s sec secs second seconds sek sekunde sekunden"),
    (MINUTE, "m min mins minute minutes minuten"),
    (HOUR, "h hr hrs hour hours std stdn stunde stunden"),
    (DAY, "d day days tag tage tagen"),
    (WEEK, "w wk week weeks woche wochen")) for word in words.split()}


# Lengths of time

def length_of(text: str) -> Fraction:
    """The seconds of a length of time as `1h`, `30min`, `1.5d` or `1/3h`: s, min, h, d and w; a Misfit where it is none above 0."""
    found = re.fullmatch(r"([0-9./,]*)\s*(s|min|m|h|d|w)", text.strip())
    value = decimal(found[1] or "1", "length of time") if found else Fraction(0)
    if found is None or value <= 0:
        raise Misfit(f"not a length of time: {text}; write 1h, 30min, 1.5d (units s, min, h, d and w)")
    return value * SECONDS[found[2]]


def said_length(seconds: Number) -> str:
    """A length of time in the greatest unit in which it is whole, else in seconds: `30min`."""
    for unit in ("w", "d", "h", "min"):
        if (Fraction(seconds) / SECONDS[unit]).denominator == 1:
            return f"{said(Fraction(seconds) / SECONDS[unit])}{unit}"
    return f"{said(seconds)}s"


def length_in_words(seconds: Number) -> str:
    """A length of time in hours, minutes and seconds, exact: `47 h 25 min`, `-30 min`, `0 h`."""
    sign, rest = "-" if seconds < 0 else "", abs(Fraction(seconds))
    parts: list[tuple[Number, str]] = [(rest // HOUR, "h"), (rest % HOUR // MINUTE, "min"), (rest % MINUTE, "s")]
    return sign + (" ".join(f"{said(number)} {unit}" for number, unit in parts if number) or "0 h")


def clock_length(text: str) -> int | None:
    """The seconds of a length of time as `3:30` or `3:30:00`, hours first; None of another text."""
    found = re.fullmatch(r"([0-9]{1,4}):([0-5][0-9])(?::([0-5][0-9]))?(?: ?h)?", text.strip())
    return int(found[1]) * HOUR + int(found[2]) * MINUTE + int(found[3] or 0) if found else None


# Dates

@dataclass(frozen=True)
class Moment:
    """A moment of the clock: a date to the second, and the part of a second beyond it."""
    date: datetime
    part: Fraction = Fraction(0)

    def since(self, start: Moment) -> Fraction:
        """The seconds from another moment to this one."""
        gap = self.date - start.date
        return Fraction(gap.days * DAY + gap.seconds) + self.part - start.part

    def after(self, seconds: Number) -> Moment:
        """The moment so many seconds later; a Fault where it is beyond the year 9999."""
        seconds = Fraction(seconds) + self.part
        floor = seconds.numerator // seconds.denominator
        try:
            return Moment(self.date + timedelta(seconds=floor), seconds - floor)
        except OverflowError:
            raise Fault(f"a date beyond the year 9999: {said(seconds)} seconds behind {self.date}") from None

    def said(self, german: bool = False) -> str:
        """The moment as a text, exact; seconds and parts of them only where there are some: `2026-03-02 06:00`, `02.03.2026 06:00`."""
        date, clock = self.date, f"{self.date:%H:%M}" if self.date.second == 0 and self.part == 0 else f"{self.date:%H:%M:%S}"
        day = f"{date.day:02d}.{date.month:02d}.{date.year:04d}" if german else f"{date.year:04d}-{date.month:02d}-{date.day:02d}"
        return f"{day} {clock}" + (f"+{self.part.numerator}/{self.part.denominator}" if self.part else "")


CLOCK = r"([0-9]{1,2}):([0-9]{2})(?::([0-9]{2}))?(?:\+([0-9]+/[1-9][0-9]*))?"
ISO = re.compile(rf"([0-9]{{4}})-([0-9]{{2}})-([0-9]{{2}})(?:[ T]{CLOCK})?")
GERMAN = re.compile(rf"([0-9]{{1,2}})\.([0-9]{{1,2}})\.([0-9]{{4}})(?: {CLOCK})?")


def parts_of(text: str) -> list[str] | None:
    """Year, month, day, hour, minute, second and part of a date in one of the two forms; None of another text."""
    iso, german = ISO.fullmatch(text.strip()), GERMAN.fullmatch(text.strip())
    if iso is not None:
        return [it or "0" for it in iso.groups()]
    return [german[at] or "0" for at in (3, 2, 1, 4, 5, 6, 7)] if german is not None else None


def is_date(text: str) -> bool:
    """Whether the text has the form of a date, YYYY-MM-DD or DD.MM.YYYY, with or without a clock time."""
    return parts_of(text) is not None


def moment_of(text: str, where: str) -> Moment:
    """The moment that the text spells: YYYY-MM-DD or DD.MM.YYYY, then HH:MM or HH:MM:SS, then +1/3; a Fault of another text."""
    parts = parts_of(text)
    try:
        if parts is None:
            raise ValueError
        year, month, day, hour, minute, second = map(int, parts[:6])
        return Moment(datetime(year, month, day, hour, minute, second), Fraction(parts[6]))
    except ValueError:
        raise Fault(f"{where}: not a date: {text.strip()}; write YYYY-MM-DD HH:MM") from None
