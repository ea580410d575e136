"""How a list of jobs is read: the words of from-csv, and what they settle for a class: machines, speeds, shared times and units."""
from __future__ import annotations

import math
import re
from dataclasses import dataclass, field
from fractions import Fraction

from . import limits
from .calendars import Calendar, calendar_of, holidays_in, shifts_of
from .classes import ClassName
from .columns import Column, Header, needed_keys
from .dates import HOUR, Moment, length_of
from .faults import Fault, Misfit
from .files import read_text
from .naming import class_of
from .numbers import decimal, said
from .telling import Told, line_of
from .units import start_of, unit_of, words_of_call


@dataclass
class ListWords:
    """The words that say how a list is read, each by the option of from-csv of its name, as it is typed: time_unit="1h", start="2026-03-02 06:00".
    `column` has pairs of a key (job, p, d ..) and the name of its column. Without `time_unit` the list counts in units of its own."""
    column: list[tuple[str, str]] = field(default_factory=list)
    machines: int | None = None
    speeds: str | None = None
    time: str | None = None
    time_unit: str | None = None
    date_unit: str | None = None
    start: str | None = None
    shifts: str | None = None
    holidays: str | None = None
    machine_names: str | None = None
    decimal: str | None = None
    dates: str | None = None
    scale: int = 1
    scale_weights: int = 1
    blank_is_0: bool = False
    sum_row: str | None = None


# Machines, speeds and times

@dataclass(frozen=True)
class Speeds:
    """Speeds as whole numbers without a common divisor, the factor of times and that of moments for them."""
    whole: tuple[int, ...] = ()
    of_times: Fraction = Fraction(1)
    of_moments: Fraction = Fraction(1)


def machines_of(name: str, kind: ClassName, machines: int | None) -> int:
    """The number of machines, by the class or --machines."""
    if kind.machines and machines:
        raise Misfit(f"{name} fixes the number of machines: leave --machines out")
    count = kind.machines or machines
    if not count:
        raise Misfit(f"{name} needs --machines M")
    if count > limits.MOST_MACHINES or (kind.kind == "J" and count < 2):
        raise Misfit(f"--machines is from 1 to {limits.MOST_MACHINES}, and on J at least 2")
    return count


def speeds_of(name: str, kind: ClassName, text: str | None, count: int) -> Speeds:
    """The speeds of --speeds."""
    if (text is not None) != (kind.kind == "Q"):
        raise Misfit(f"{name} " + ("needs --speeds S,S,.." if text is None else "has no speeds: leave --speeds out"))
    if text is None:
        return Speeds()
    parts = text.split(next((it for it in "; ," if it in text.strip()), None))
    with words_of_call():
        speeds = [decimal(it, "--speeds") for it in parts]
    if len(speeds) != count or any(it <= 0 for it in speeds):
        raise Misfit(f"--speeds has {count} numbers above 0, one for each machine, as 1,0.8 (1;0,8 with decimal commas)")
    factor = Fraction(math.lcm(*(it.denominator for it in speeds)))
    factor /= math.gcd(*(int(it * factor) for it in speeds))
    whole = tuple(int(it * factor) for it in speeds)
    if max(whole) > limits.GREATEST_SPEED or math.lcm(*whole) > limits.GREATEST_MULTIPLE:
        raise Misfit(f"--speeds: {' '.join(map(str, whole))} are too fine: round them to fewer digits")
    return Speeds(whole, Fraction(factor.numerator), Fraction(factor.denominator))


def shared_time(name: str, kind: ClassName, words: ListWords, speeds: Speeds) -> int | None:
    """The time that all jobs share, by --time; None where they have times of their own, or 1."""
    if words.scale != 1 and "p=1" in kind.items:
        raise Misfit("unit times have no other scale: leave --scale out, or take the class with p=p and --time 1")
    if speeds.of_times != 1 and "p=1" in kind.items:
        raise Misfit("unit times go with whole speeds: take the class with p=p and --time 1")
    if (words.time is not None) != ("p=p" in kind.items):
        raise Misfit(f"{name} " + ("needs --time P" if words.time is None else "has no shared time: leave --time out"))
    if words.scale_weights != 1 and "w" not in kind.keys:
        raise Misfit(f"{name} has no weights: leave --scale-weights out")
    if words.time is None:
        return None
    with words_of_call():
        time = decimal(words.time, "--time") * speeds.of_times * words.scale
    if time.denominator != 1 or not 1 <= time <= limits.GREATEST_EQUAL_TIME:
        cure = f"; --scale {(time / words.scale).denominator} makes it one" if time.denominator != 1 else ""
        raise Misfit(f"--time is {said(time)} by its scale, and must be a whole number from 1 to {limits.said(limits.GREATEST_EQUAL_TIME)}{cure}")
    return time.numerator


@dataclass(frozen=True)
class Settled:
    """A class with what its words settle: its name as it is typed, the number of machines, the speeds, and the time that all jobs share."""
    name: str
    kind: ClassName
    machines: int
    speeds: Speeds
    time: int | None

    @property
    def lines(self) -> list[str]:
        """The lines of an instance text before the jobs."""
        found = ["msp 1", f"class {self.name}", *[f"machines {self.machines}"] * (self.kind.machines is None)]
        found += ["speeds " + " ".join(map(str, self.speeds.whole))] if self.speeds.whole else []
        return found + ([f"time {self.time}"] if self.time else [])


def settled(name: str, words: ListWords) -> Settled:
    """What the words of a call settle for a class."""
    kind = class_of(name)
    machines = machines_of(name, kind, words.machines)
    speeds = speeds_of(name, kind, words.speeds, machines)
    return Settled(name, kind, machines, speeds, shared_time(name, kind, words, speeds))


# Units of time

@dataclass(frozen=True)
class ListUnits:
    """How a list counts: the length of 1 in the columns of times and in those of dates, in seconds, the moment 0, and the calendar."""
    time_unit: Fraction | None
    date_unit: Fraction | None
    start: Moment | None
    calendar: Calendar | None

    def of_time(self, column: Column | None) -> Fraction:
        """What numbers in a column of times are multiplied by, so that they count in the time unit."""
        return Fraction(1) if column is None or column.unit is None or self.time_unit is None else column.unit / self.time_unit

    def of_date(self, column: Column | None) -> Fraction:
        """What numbers in a column of dates are multiplied by."""
        unit = self.date_unit if column is None or column.unit is None else Fraction(column.unit)
        return Fraction(1) if unit is None or self.time_unit is None else unit / self.time_unit


def refuse_units(header: Header, times: list[Column], words: ListWords, line: str) -> None:
    """Refuses columns whose units contradict the words, or are not all known."""
    where, unit = line_of(line, header.line), unit_of(words.time_unit) if words.time_unit is not None else None
    other = next((it for it in times if it.unit is not None and unit not in (None, it.unit)), None)
    if other and words.time_unit:
        raise Fault(f"{where}: the column {other.header} contradicts --time-unit {words.time_unit}: leave --time-unit out, or correct the header")
    dated = next((it for it in header.columns if it.key in ("r", "d") and it.unit is not None), None)
    if dated and words.date_unit and unit_of(words.date_unit) != dated.unit:
        raise Fault(f"{where}: the column {dated.header} contradicts --date-unit {words.date_unit}: leave --date-unit out, or correct the header")
    one, bare = next((it for it in times if it.unit is not None), None), next((it for it in times if it.unit is None), None)
    if one and bare and unit is None:
        raise Fault(f"{where}: the column {one.header} has a unit, and {bare.header} has none: write it as {bare.header} [min]")
    if dated and not one and unit is None:
        raise Fault(f"{where}: the column {dated.header} has a unit, and the times have none: --time-unit 1h says what 1 is there")


def units_of(header: Header, kind: ClassName, words: ListWords, told: Told) -> ListUnits:
    """The units of a list, by its words and its header."""
    times = [it for it in header.columns if re.fullmatch("p[0-9]*|route|curve", it.key) and it.key in needed_keys(kind, limits.MOST_MACHINES)]
    refuse_units(header, times, words, told.line)
    units = [it.unit for it in times if it.unit is not None]
    time_unit = unit_of(words.time_unit) if words.time_unit is not None else Fraction(min(units)) if units else None
    if time_unit is None and (words.date_unit is not None or words.start is not None):
        raise Misfit("--date-unit and --start need --time-unit: what 1 in the columns of times is")
    if words.date_unit and kind.criterion == "fmax":
        raise Misfit("curves count in the time unit: leave --date-unit out")
    start = start_of(words.start) if words.start is not None else None
    holidays = holidays_in(read_text(words.holidays, "utf-8-sig"), words.holidays) if words.holidays else frozenset()
    calendar = calendar_of(shifts_of(words.shifts) if words.shifts is not None else None, holidays, start)
    if calendar:
        tell_days(header, words, told)
    return ListUnits(time_unit, unit_of(words.date_unit) if words.date_unit is not None else time_unit, start, calendar)


def tell_days(header: Header, words: ListWords, told: Told) -> None:
    """Tells that a day of the plant has fewer hours than one of the clock."""
    for option, text in (("--time-unit", words.time_unit), ("--date-unit", words.date_unit)):
        if text and text.strip()[-1] in "dw":
            told.notes.append(f"{option} {text} is {said(length_of(text) / HOUR)} h of working time: where days of the plant are meant, "
                              f"say their hours, as {option} 8h")
    for it in header.columns:
        if it.unit is not None and it.unit > HOUR and re.fullmatch("p[0-9]*|route|curve|r|d", it.key):
            told.notes.append(f"column {it.header}: 1 is {it.unit // HOUR} h of working time: where days of the plant are meant, write hours")
