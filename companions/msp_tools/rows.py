"""The rows of a list of jobs: times, dates, weights, routes, curves and the order, each number exact and in its range."""
from __future__ import annotations

import graphlib
import math
import re
from collections.abc import Callable
from dataclasses import dataclass
from fractions import Fraction

from . import limits
from .cells import Cells, Date, day_number
from .classes import ITEMS, ClassName
from .columns import Header
from .dates import clock_length
from .faults import Fault
from .numbers import shortened
from .settings import ListUnits, ListWords, Settled
from .telling import Place, Told

WHAT = {"p": "time", "r": "release date", "d": "due date", "w": "weight"}
MOST = limits.GREATEST
YEAR = 350 * 86400  # (a year that was mistyped leaves the days, which are a little later than the start)
SERIALS = (36526, 73050)  # (the days from 2000 to 2099, as spreadsheets count them from 1899-12-30)
SUMS = re.compile(r"(σ|summen?|gesamt|gesamtsumme|insgesamt|zwischensumme|zusammen|total|totals|grand total|subtotal|sum|somme|totale)"
                  r"([ ,:]*[\[(]?(h|std|min|stunden|minuten|hours|minutes|zeit|dauer|time)?[\])]?)?[ .:=]*")


@dataclass(frozen=True)
class Row:
    """A row of the list: its line, and its fields by the keys of their columns."""
    line: int
    fields: dict[str, str]

    def get(self, key: str) -> str:
        """The field of a column, empty where there is none."""
        return self.fields.get(key, "")


class Scale:
    """Brings numbers to whole ones by a factor, and finds the least factor that does."""

    def __init__(self, factor: int, option: str, what: str) -> None:
        self.factor, self.option, self.what = factor, option, what
        self.needed = 1
        self.not_whole: list[tuple[Place, str]] = []

    def whole(self, value: Fraction, text: str, place: Place) -> Fraction:
        """The number times the factor; where it is not whole, that is remembered for refuse()."""
        self.needed = math.lcm(self.needed, value.denominator)
        if (value * self.factor).denominator != 1:
            self.not_whole.append((place, text))
        return value * self.factor

    def refuse(self, told: Told, cure: str | None = None) -> None:
        """Adds the numbers that were not brought to whole ones to the faults."""
        for place, text in self.not_whole:
            told.fault(place, f"{text} is no whole number; {cure or f'{self.option} {self.needed} makes all {self.what} whole'}", text)


def bounded(value: Fraction, least: int, most: int, what: str) -> str:
    """The number as a text, or a Fault where it is out of its range; a number that is not whole is refused later."""
    if value.denominator == 1 and not least <= value <= most:
        low = f"at least {least}" if value < least else f"at most {limits.said(most)}"
        raise Fault(f"the {what} is {value}, and must be {low}" + (": count in a coarser unit" if value > MOST else ""))
    return str(value)


class RowReader:
    """Reads the rows of a list; faults and remarks go to `told`."""

    def __init__(self, found: Settled, header: Header, words: ListWords, units: ListUnits, told: Told, semicolons: bool) -> None:
        self.name, self.kind, self.count, self.speeds = found.name, found.kind, found.machines, found.speeds
        self.header, self.words, self.units, self.told = header, words, units, told
        self.cells = Cells(words.decimal, words.dates, semicolons)
        self.moments = Scale(words.scale, "--scale", "times and dates")
        self.weights = Scale(words.scale_weights, "--scale-weights", "weights")
        machines = enumerate((words.machine_names or "").split(","), 1)
        self.machine_numbers = {name.strip(): at for at, name in machines if not name.strip().isdecimal()}
        # (seconds from the start to each date)
        self.gaps: list[Fraction] = []

    def place(self, row: Row, key: str) -> Place:
        """The place of a field."""
        return Place(row.line, self.header.said(key))

    def number(self, text: str, place: Place) -> Fraction:
        """The exact value of a field, or of a part of one."""
        return self.cells.number(text, self.told.where(place))

    def lines(self, row: Row, name: str) -> list[str]:
        """The lines of a job; the faults of its fields are added to the others."""
        kind, general = self.kind, self.kind.general
        found = [f"job {name}" + "".join(f" {key}={self.caught(row, key, self.key_of)}" for key in kind.keys)]
        if kind.kind in "ROF" and general:
            found.append(self.times_of(row))
        if kind.kind == "J":
            found.append(f"route {self.caught(row, 'route', self.route_of)}")
        if kind.criterion == "fmax":
            found.append(f"curve {self.caught(row, 'curve', self.curve_of)}")
        return found

    def caught(self, row: Row, key: str, reader: Callable[[Row, str], str]) -> str:
        """What a reader makes of a field; a fault of it is added to the others."""
        try:
            return reader(row, key)
        except Fault as fault:
            self.told.caught(self.place(row, key), fault, row.get(key))
            return "0"

    # Times

    def time_of(self, text: str, what: str, place: Place, key: str, least: int = 1) -> str:
        """A time of the list as the instance has it."""
        if not text and not (self.words.blank_is_0 and least == 0):
            raise Fault(f"no {what}" + ("; write 0, or --blank-is-0" if least == 0 else ""))
        value = self.time_value(text or "0", place, key) * self.speeds.of_times
        return bounded(self.moments.whole(value, text, place), least, MOST, what)

    def time_value(self, text: str, place: Place, key: str) -> Fraction:
        """The time of a field, in units of the list."""
        length = clock_length(text)
        if length is None:
            return self.number(text, place) * self.units.of_time(self.header.find(key))
        if self.units.time_unit is None:
            raise Fault(f"{text} is a length of time: --time-unit 1h says that 1 in the list is an hour")
        return length / self.units.time_unit

    def times_of(self, row: Row) -> str:
        """The line of the times on the machines."""
        least = 0 if self.kind.kind in "OF" else 1
        keys, faults = [f"p{machine}" for machine in range(1, self.count + 1)], len(self.told.faults)
        times = [self.caught(row, key, lambda row, key: self.time_of(row.get(key), "time", self.place(row, key), key, least)) for key in keys]
        if all(it == "0" for it in times) and len(self.told.faults) == faults:
            self.told.fault(Place(row.line), f"{row.get('job')} has no time above 0")
        return " ".join(["times", *times])

    def route_of(self, row: Row, key: str) -> str:
        """The fields of the line route."""
        fields, step, place = row.get(key).split(), 2 if self.kind.general else 1, self.place(row, key)
        if not fields or len(fields) % step:
            raise Fault(f"a route has {'machines and times in turn' if step == 2 else 'machines'}, as {'1 3 2 5' if step == 2 else '1 2'}")
        machines = [Fraction(self.machine_numbers.get(it) or self.number(it, place)) for it in fields[::step]]
        if any(it.denominator != 1 or not 1 <= it <= self.count for it in machines):
            raise Fault(f"a machine in a route is a number from 1 to {self.count}")
        if any(one == other for one, other in zip(machines, machines[1:])):
            raise Fault("two neighbours of the route are on one machine: make one operation of the two")
        most = limits.MOST_SHORT_OPERATIONS if "n<=2" in self.kind.items else limits.MOST_OPERATIONS
        if len(machines) > most:
            raise Fault(f"more than {most} operations in the route" + ("; leave n<=2 out" if "n<=2" in self.kind.items else ""))
        times = [self.time_of(it, "time in the route", place, key) for it in fields[1::2]] if step == 2 else []
        return " ".join([it for pair in zip(map(str, machines), times) for it in pair] if step == 2 else map(str, machines))

    # Dates, weights and curves

    def key_of(self, row: Row, key: str) -> str:
        """The number of a key of a job's line."""
        text, place = row.get(key), self.place(row, key)
        if key == "r" and not text and self.words.blank_is_0:
            text = "0"
        if not text:
            cure = {"d": ": a due date that does not matter is a late one", "r": "; write 0, or --blank-is-0"}.get(key, "")
            raise Fault(f"no {WHAT[key]}{cure}")
        if key == "w":
            return bounded(self.weights.whole(self.number(text, place), text, place), 1, MOST, "weight")
        return self.time_of(text, "time", place, key) if key == "p" else self.date_of(text, key, place)

    def date_of(self, text: str, key: str, place: Place) -> str:
        """A release date or due date of the list as the instance has it."""
        value = self.date_value(text, place, key)
        if value < 0 and key == "r":
            self.told.remark(place, f"the release date {text} is before the moment 0, and counts as it", text)
            value = Fraction(0)
        found = self.moments.whole(value * self.speeds.of_moments, text, place)
        return bounded(found, 0 if key == "r" else -MOST, MOST, WHAT[key])

    def date_value(self, text: str, place: Place, key: str) -> Fraction:
        """A date, or a number in its place, in units of the list from the moment 0."""
        date = self.cells.date(text, self.told.where(place), self.units.start)
        if date is not None:
            value = self.since_start(date, text)
            if key == "d" and not date.has_clock:
                self.told.notice(place, f"{text} as a due date is 00:00, when the day begins: write the hour, or the next day", text)
            return value
        try:
            value = self.number(text, place)
        except Fault as fault:
            dated = self.units.start is not None or re.search(r"[0-9][./:-][0-9]+[./:-]?", text)
            hint = "; write YYYY-MM-DD HH:MM, or a number" if dated else ""
            raise Fault(f"{fault}{hint}") from None
        if self.units.start is not None and SERIALS[0] <= value <= SERIALS[1]:
            self.told.remark(place, f"{text} is taken for a number, and may be the date {day_number(value)} as spreadsheets count days: format the "
                                    "cells as dates", text)
        return value * self.units.of_date(self.header.find(key))

    def since_start(self, date: Date, text: str) -> Fraction:
        """The units of the list from the moment 0 to a date, in working time where there is a calendar."""
        units = self.units
        if units.start is None or units.time_unit is None:
            raise Fault(f"{text} is a date: --start and --time-unit say from when and in what it counts")
        seconds = date.moment.since(units.start)
        if seconds < 0 and not date.has_day:
            raise Fault(f"{text} is before --start {units.start.said()} of that day: write the date, too")
        self.gaps.append(seconds)
        return (units.calendar.work(seconds) if units.calendar else seconds) / units.time_unit

    def curve_of(self, row: Row, key: str) -> str:
        """The fields of the line curve; thresholds may be dates."""
        place = self.place(row, key)
        fields = self.joined_dates(row.get(key).split(), self.told.where(place))
        if len(fields) < 2 or len(fields) % 2 or len(fields) > 2 + 2 * limits.MOST_STEPS:
            raise Fault(f"a curve has a slope, a base, and for at most {limits.MOST_STEPS} jumps a threshold and an add, as 2 0 14 5")
        slope = self.number(fields[0], place)
        if slope.denominator != 1:
            raise Fault(f"the slope {shortened(fields[0])} is no whole number")
        found = [bounded(slope, 0, MOST, "slope")]
        for at, text in enumerate(fields[1:]):
            what = "base" if at == 0 else "threshold of the curve" if at % 2 else "add of the curve"
            value = self.date_value(text, place, key) if at % 2 else self.number(text, place)
            if value < 0 and at % 2 and self.units.start is not None:
                self.told.remark(place, f"the threshold {text} is before the moment 0, and counts as it", text)
                value = Fraction(0)
            whole = self.moments.whole(value * self.speeds.of_moments, text, place)
            found.append(bounded(whole, -MOST if at == 0 else 0, MOST, what))
        return " ".join(found)

    def joined_dates(self, fields: list[str], where: str) -> list[str]:
        """Fields between blanks, those of a date with blanks in it as one."""
        found, at = [], 0
        while at < len(fields):
            long = next((it for it in range(min(5, len(fields) - at), 1, -1) if self.cells.date(" ".join(fields[at:at + it]), where, None)), 1)
            found.append(" ".join(fields[at:at + long]))
            at += long
        return found

    def finish(self) -> None:
        """Tells a moment 0 that is about a year or more from all dates, and refuses what is not whole."""
        if self.gaps and all(abs(it) > YEAR for it in self.gaps):
            nearest = min(self.gaps, key=abs)
            self.told.remark(Place(self.header.line), f"--start is {abs(nearest) // 86400} days from the nearest date of the list")
        self.moments.refuse(self.told, "round it: a due date down, and a release date up" if "p=1" in self.kind.items else None)
        self.weights.refuse(self.told)


# Sums

def row_of_sums(rows: list[Row], reader: RowReader) -> str | None:
    """Why the last row looks like one of sums, or None."""
    last, above = rows[-1], rows[:-1]
    for text in [last.get("job")] if last.get("job") else [it for it in last.fields.values() if it]:
        if SUMS.fullmatch(text.lower().strip()):
            return f"it says {text}"
    keys = [it.key for it in reader.header.columns if re.fullmatch("p[0-9]*", it.key) and last.get(it.key)]
    if not keys or len(above) < 2:
        return None
    try:
        sums = [sum(reader.time_value(it.get(key) or "0", Place(it.line), key) for it in above) for key in keys]
        alike = sums == [reader.time_value(last.get(key), Place(last.line), key) for key in keys]
    except Fault:
        return None
    lacks = not last.get("job") or any(key in reader.header.keys and not last.get(key) for key in reader.kind.keys)
    return f"{last.get(keys[0])} is the sum of the fields above it" if alike and (lacks or len(above) > 2) else None


# The order

def refuse_order(rows: list[Row], reader: RowReader) -> None:
    """Refuses jobs that come after others where the class has no precedence."""
    row, kind = next((it for it in rows if it.get("after")), None), reader.kind
    if row and not kind.precedence:
        items = sorted([*kind.items, "prec"], key=ITEMS.index)
        meant = ClassName(kind.environment, tuple(items), kind.criterion)
        reader.told.fault(reader.place(row, "after"), f"{row.get('job')} comes after {row.get('after')}, and {reader.name} has no precedence: "
                          f"take '{meant}' (or chains, intree, outtree in the place of prec), or the column away")


def before_of(text: str, names: dict[str, str]) -> list[str]:
    """The names in a field of the column after, with |, commas, semicolons or blanks between them; names may hold such signs."""
    if text in names:
        return [text]
    if "|" in text:
        return [it.strip() for it in text.split("|") if it.strip()]
    for mark in ",;":
        if mark in text:
            return joined([it.strip() for it in text.split(mark) if it.strip()], f"{mark} ", names)
    return text.split()


def joined(parts: list[str], mark: str, names: dict[str, str]) -> list[str]:
    """Parts of a text, joined again where they are a name that holds the mark; the longest name is taken."""
    found, at = [], 0
    while at < len(parts):
        long = next((it for it in range(len(parts) - at, 0, -1) if mark.join(parts[at:at + it]) in names), 1)
        found.append(mark.join(parts[at:at + long]))
        at += long
    return found


def arcs_of(rows: list[Row], names: dict[str, str], reader: RowReader) -> list[str]:
    """The lines of the arcs, as the class allows them."""
    kind, told, arcs = reader.kind, reader.told, []
    after: dict[str, list[str]] = {}
    for row in rows if kind.precedence else []:
        before = after[row.get("job")] = before_of(row.get("after"), names)
        for it in before:
            fault = fault_of_arc(it, row.get("job"), after, names, kind)
            if fault:
                told.fault(reader.place(row, "after"), fault)
            else:
                arcs.append(f"arc {names[it]} {names.get(row.get('job'))}")
    if not told.faults:
        refuse_cycle(rows, after, reader)
    if len(arcs) > limits.MOST_ARCS:
        raise Fault(f"more than {limits.said(limits.MOST_ARCS)} arcs: leave out those that follow from others")
    return arcs


def fault_of_arc(before: str, job: str, after: dict[str, list[str]], names: dict[str, str], kind: ClassName) -> str | None:
    """What is wrong with a job's name in the column after of another, whose rows are read up to there; or None."""
    leaving, entering = kind.precedence in ("chains", "intree"), kind.precedence in ("chains", "outtree")
    if before not in names:
        return f"no job {before}"
    if after[job].count(before) > 1:
        return f"{before} stands twice in the column after"
    if entering and len(after[job]) > 1:
        return f"with {kind.precedence} a job comes after one other at most: take prec"
    if leaving and any(before in others for other, others in after.items() if other != job):
        return f"with {kind.precedence} one job at most comes after {before}: take prec"
    return None


def refuse_cycle(rows: list[Row], after: dict[str, list[str]], reader: RowReader) -> None:
    """Refuses jobs that wait for each other in a circle."""
    try:
        graphlib.TopologicalSorter(after).prepare()
    except graphlib.CycleError as fault:
        row = next(it for it in rows if it.get("job") in fault.args[1])
        reader.told.fault(reader.place(row, "after"), f"a circle: {' before '.join(fault.args[1])}")
