"""The calendar of a plant: which hours are worked, and how moments of the clock become working time and back. All is exact.

A shift belongs to the day on which it begins, also where it passes midnight, and a holiday takes away the shifts that begin on it. The
clock is one that is never put forward or back: summer time is left out by design.
"""
from __future__ import annotations

import itertools
import re
from bisect import bisect_left
from collections.abc import Iterable, Iterator
from dataclasses import dataclass
from datetime import date, datetime
from fractions import Fraction

from .dates import DAY, HOUR, MINUTE, Moment, moment_of
from .faults import Fault, Misfit
from .numbers import Number

DAYS = ("Mon", "Tue", "Wed", "Thu", "Fri", "Sat", "Sun")
DAY_WORDS = {word: day for day, words in enumerate((
    "mon monday mo montag", "tue tuesday di dienstag", "wed wednesday mi mittwoch", "thu thursday do donnerstag",
    "fri friday fr freitag", "sat saturday sa samstag", "sun sunday so sonntag")) for word in words.split()}
LAST = date.max.toordinal()
LONGEST = 366  # (days of a span of holidays, and without work behind the start)
FORM = "write shifts as 'Mon-Fri 06:00-14:00,14:30-22:00; Sat 06:00-12:00'"

Span = tuple[int, int]
Week = tuple[tuple[Span, ...], ...]


# Shifts

def days_of(text: str) -> list[int]:
    """The days of a week in a text as Mon-Fri, Mon,Wed or Mo-Fr, as numbers from 0."""
    found = []
    for part in text.split(","):
        first, _, last = part.lower().partition("-")
        one, other = DAY_WORDS.get(first), DAY_WORDS.get(last or first)
        if one is None or other is None:
            raise Misfit(f"--shifts: {part} is no day and no span of days: {FORM}")
        found += [it % 7 for it in range(one, other + 1 + 7 * (other < one))]
    return found


def clock_of(text: str) -> int:
    """The seconds from midnight to a clock time as 06:00, 6:00 or 6.00."""
    if not re.fullmatch("([01]?[0-9]|2[0-3])[:.][0-5][0-9]|24[:.]00", text):
        raise Misfit(f"--shifts: {text or 'nothing'} is no clock time: {FORM}")
    hours, minutes = re.split("[:.]", text)
    return int(hours) * HOUR + int(minutes) * MINUTE


def span_of(text: str) -> Span:
    """The begin and the end of a shift as 22:00-06:00, in seconds from midnight; the end may be on the next day."""
    begin, _, end = text.partition("-")
    one, other = clock_of(begin), clock_of(end)
    if one in (other, DAY):
        raise Misfit(f"--shifts: nothing is worked from {begin} to {end}: the whole day is 00:00-24:00")
    return one, other + DAY * (other < one)


def said_span(span: Span) -> str:
    """A shift as it is written."""
    return "-".join("24:00" if it == DAY else f"{it % DAY // HOUR:02d}:{it % HOUR // MINUTE:02d}" for it in span)


def shifts_of(text: str) -> Week:
    """The shifts of a week: for each day, Monday first, pairs of seconds from its midnight; a Misfit where they overlap."""
    week: list[list[Span]] = [[] for _ in DAYS]
    for group in text.split(";"):
        days, _, spans = re.sub(r"\s*([,-])\s*", r"\1", group.replace("\u2013", "-").strip()).partition(" ")
        if not spans.strip():
            raise Misfit(f"--shifts: '{group.strip()}' has no {'clock times' if days else 'days'}: {FORM}")
        for day, span in itertools.product(days_of(days), [span_of(it) for it in spans.strip().split(",")]):
            week[day].append(span)
    refuse_overlaps([(day, span) for day, spans in enumerate(week) for span in sorted(spans)])
    return tuple(tuple(sorted(spans)) for spans in week)


def refuse_overlaps(shifts: list[tuple[int, Span]]) -> None:
    """Refuses shifts of a week that overlap, the last one and the first one of the next week too."""
    day, span = shifts[0]
    for (one, before), (other, after) in zip(shifts, [*shifts[1:], (day + 7, span)]):
        if other * DAY + after[0] < one * DAY + before[1]:
            raise Misfit(f"--shifts: {DAYS[one]} {said_span(before)} and {DAYS[other % 7]} {said_span(after)} overlap")


# Holidays

def day_of(text: str, where: str) -> int:
    """The number of a day, as 2026-12-24 or 24.12.2026; day 0 is a Monday."""
    if re.fullmatch(r"\s*([0-9]{4}-[0-9]{2}-[0-9]{2}|[0-9]{1,2}\.[0-9]{1,2}\.[0-9]{4})\s*", text):
        try:
            return moment_of(text, where).date.toordinal() - 1
        except Fault:
            pass
    raise Fault(f"{where}: {text or 'nothing'} is no date: write YYYY-MM-DD, or YYYY-MM-DD..YYYY-MM-DD")


def days_between(text: str, where: str) -> range:
    """The days of a date, or of a span of dates as 2026-12-24..2027-01-01."""
    first, dots, last = text.partition("..")
    one = day_of(first.strip(), where)
    other = day_of(last.strip(), where) if dots else one
    if not one <= other < one + LONGEST:
        raise Fault(f"{where}: {text} " + ("runs backwards" if other < one else f"is a span of more than {LONGEST} days"))
    return range(one, other + 1)


def holidays_in(text: str, path: str) -> frozenset[int]:
    """The holidays of a file's text: a date or a span of dates in each line; # begins a comment."""
    lines = [it.partition("#")[0].strip() for it in text.splitlines()]
    return frozenset(day for at, line in enumerate(lines, 1) if line for day in days_between(line, f"{path}: line {at}"))


def holidays_of(text: str, where: str) -> frozenset[int]:
    """The holidays of a text as said_holidays writes it."""
    return frozenset(day for it in text.split() for day in days_between(it, where))


def said_holidays(holidays: Iterable[int]) -> str:
    """Holidays as dates and spans of dates, with blanks between them."""
    found: list[list[int]] = []
    for day in sorted(holidays):
        if found and found[-1][1] == day - 1 and day - found[-1][0] < LONGEST:
            found[-1][1] = day
        else:
            found.append([day, day])
    return " ".join("..".join(said_day(it) for it in dict.fromkeys(span)) for span in found)


def said_day(day: int) -> str:
    """The date of a day."""
    return date.fromordinal(day + 1).isoformat()


# The calendar

def seconds_of(moment: Moment) -> Fraction:
    """The seconds from the midnight of day 0 to a moment."""
    return moment.since(Moment(datetime(1, 1, 1)))


@dataclass
class Calendar:
    """Shifts of a week, holidays and a start: the working time of a plant, in seconds from the start."""
    shifts: Week
    holidays: frozenset[int]
    start: Moment

    def __post_init__(self) -> None:
        in_day = [sum(end - begin for begin, end in spans) for spans in self.shifts]
        self.days_off = sorted(self.holidays)
        # (the work of the first days of a week, and what the first holidays take away)
        self.in_week = list(itertools.accumulate(in_day, initial=0))
        self.off = list(itertools.accumulate((in_day[it % 7] for it in self.days_off), initial=0))
        self.zero = seconds_of(self.start)
        self.done = self.worked(self.zero)

    # (moments and work from the midnight of day 0)

    def before(self, day: int) -> int:
        """The work of all shifts that begin before a day."""
        return day // 7 * self.in_week[7] + self.in_week[day % 7] - self.off[bisect_left(self.days_off, day)]

    def spans(self, day: int) -> list[Span]:
        """The shifts that begin on a day."""
        return [] if day in self.holidays else [(day * DAY + begin, day * DAY + end) for begin, end in self.shifts[day % 7]]

    def worked(self, moment: Number) -> Fraction:
        """The work before a moment of the clock."""
        day = int(moment // DAY)
        parts = [min(max(moment - begin, Fraction(0)), Fraction(end - begin)) for begin, end in self.spans(day - 1) + self.spans(day)]
        return Fraction(self.before(day - 1)) + sum(parts)

    def moment(self, work: Number, ends: bool) -> Fraction:
        """The moment of the clock when so much is worked: the first one, where something ends, or the last one, where work goes on."""
        low, high = 0, LAST
        while high - low > 1:
            day = (low + high) // 2
            low, high = (day, high) if self.before(day) < work or (not ends and self.before(day) == work) else (low, day)
        left = Fraction(work) - self.before(low)
        for begin, end in self.spans(low):
            if 0 <= left < end - begin or (ends and left == end - begin):
                return begin + left
            left -= end - begin
        raise Fault("a date beyond the years 1 to 9999: look at the times and the shifts")

    # (seconds from the start)

    def work(self, seconds: Number) -> Fraction:
        """The work between the start and a moment of the clock; below 0 where that is before the start."""
        return self.worked(self.zero + seconds) - self.done

    def clock(self, work: Number, ends: bool = False) -> Fraction:
        """The moment of the clock when so much is worked. Of a pause it is the begin where something ends, and else the end."""
        return Fraction(0) if ends and work == 0 else self.moment(work + self.done, ends) - self.zero

    def is_worked(self, seconds: Number) -> bool:
        """Whether work goes on at a moment of the clock."""
        return self.clock(self.work(seconds)) == seconds

    def is_of_work(self, seconds: Number) -> bool:
        """Whether a moment of the clock is one of a shift, its begin and its end among them."""
        return self.is_worked(seconds) or self.clock(self.work(seconds), True) == seconds

    def pauses(self, begin: Number, end: Number) -> Iterator[tuple[Fraction, Fraction]]:
        """The pauses between two moments of working time, as pairs of moments of the clock."""
        one, other, last = self.moment(begin + self.done, False), self.moment(end + self.done, True), None
        for day in range(int(one // DAY) - 1, int(other // DAY) + 1):
            for first, until in self.spans(day):
                if first >= other:
                    return
                if last is not None and one < last < first:
                    yield last - self.zero, first - self.zero
                last = until

    def said(self) -> str:
        """The shifts as they are written."""
        texts = [",".join(map(said_span, spans)) for spans in self.shifts]
        groups = [list(days) for _, days in itertools.groupby(range(7), key=texts.__getitem__)]
        return "; ".join(f"{'-'.join(dict.fromkeys((DAYS[it[0]], DAYS[it[-1]])))} {texts[it[0]]}" for it in groups if texts[it[0]])


def calendar_of(shifts: Week | None, holidays: frozenset[int], start: Moment | None) -> Calendar | None:
    """The calendar of shifts and holidays from a start; None without shifts; a Misfit where they do not go together."""
    if shifts is None and not holidays:
        return None
    if shifts is None:
        raise Misfit("--holidays needs --shifts: the clock times at which the plant works")
    if start is None:
        raise Misfit("--shifts needs --start: the date and clock time of the moment 0")
    calendar = Calendar(shifts, holidays, start)
    if calendar.clock(0) > LONGEST * DAY:
        raise Misfit(f"nothing is worked in the {LONGEST} days behind --start {start.said()}: look at the holidays")
    return calendar
