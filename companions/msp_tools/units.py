"""In what units moments and costs of an instance are: what from-csv did to those of a list, and how plan and others turn them back.

from-csv writes it into the file of names, a CSV with the columns name and original: rows whose name begins with # are no jobs but say
`#scale` (moments of the list are multiplied by it), `#cost` (and costs by that), `#time-unit`, `#start`, `#shifts` and `#holidays` (the
calendar of the plant: moments are working time then) and `#machine 1`. plan, gantt, to-schedule and grade take it from there, and refuse
words of the call that contradict it.
"""
from __future__ import annotations

import csv
import io
import itertools
from collections.abc import Callable, Iterable, Iterator, Mapping
from contextlib import contextmanager
from dataclasses import dataclass, field
from fractions import Fraction
from typing import TypeVar

from .calendars import Calendar, calendar_of, holidays_in, holidays_of, said_day, said_holidays, shifts_of
from .dates import HOUR, Moment, is_date, length_in_words, length_of, moment_of, said_length
from .faults import Fault, Misfit
from .files import read_text, write_text
from .numbers import Number, decimal, said
from .schedules import Schedule
from .texts import Instance

IN_WORDS = {"Cmax": "makespan", "Lmax": "greatest lateness", "fmax": "greatest cost", "sumC": "sum of ends", "sumwC": "weighted sum of ends",
            "sumT": "total tardiness", "sumwT": "total weighted tardiness"}


# The file of names

@dataclass
class Names:
    """A file of names: from a job's name in the instance to that in the list, and what else it says, by its words."""
    path: str | None = None
    jobs: dict[str, str] = field(default_factory=dict)
    words: dict[str, str] = field(default_factory=dict)

    @property
    def machines(self) -> dict[int, str]:
        """The names of the machines, by their numbers."""
        return {int(word[8:]): name for word, name in self.words.items() if word.startswith("machine ") and word[8:].isdecimal()}


def names_text(jobs: Iterable[tuple[str, str]], words: Mapping[str, object]) -> str:
    """The text of a file of names: pairs of a job's name in the instance and its name in the list, and what else it says."""
    out = io.StringIO()
    csv.writer(out, lineterminator="\n").writerows([("name", "original"), *((f"#{word}", value) for word, value in words.items()), *jobs])
    return out.getvalue()


def write_names(path: str, jobs: Iterable[tuple[str, str]], words: Mapping[str, object]) -> None:
    """Writes a file of names; a Misfit where that cannot be."""
    write_text(path, names_text(jobs, words), "")


def read_names(path: str | None) -> Names:
    """A file of names as from-csv writes it; nothing without a path."""
    if path is None:
        return Names()
    rows = list(csv.reader(read_text(path, "utf-8-sig").splitlines(keepends=True)))
    if not rows or rows[0] != ["name", "original"] or any(len(it) != 2 for it in rows if it):
        raise Fault(f"{path}: a map of names is a CSV with the columns name and original, as from-csv --names writes it")
    jobs = {it[0]: it[1] for it in rows[1:] if it and not it[0].startswith("#")}
    return Names(path, jobs, {it[0][1:]: it[1] for it in rows[1:] if it and it[0].startswith("#")})


# The words of a call

Value = TypeVar("Value")

@dataclass
class UnitWords:
    """The words of a call that say how moments outside of the instance are counted, as they are typed."""
    names: str | None = None
    scale: str | None = None
    time_unit: str | None = None
    start: str | None = None
    shifts: str | None = None
    holidays: str | None = None


@contextmanager
def words_of_call() -> Iterator[None]:
    """Makes a misfit of what is a fault in a text, and is read in a word of the call here."""
    try:
        yield
    except Fault as fault:
        raise Misfit(str(fault)) from None


def scale_of(text: str) -> Fraction:
    """The value of --scale, above 0."""
    with words_of_call():
        value = decimal(text, "--scale")
    if value <= 0:
        raise Misfit("--scale is above 0")
    return value


def start_of(text: str) -> Moment:
    """The value of --start."""
    with words_of_call():
        return moment_of(text, "--start")


def unit_of(text: str) -> Fraction:
    """The value of --time-unit or --date-unit, in seconds."""
    with words_of_call():
        return length_of(text)


class Settling:
    """Words of the call beside those of a file of names; a misfit where the two contradict each other."""

    def __init__(self, words: UnitWords, names: Names) -> None:
        self.words, self.names = words, names

    def settled(self, word: str, given: str | None, reader: Callable[[str], Value]) -> Value | None:
        """A word of the call, or what the file of names says instead."""
        there, value = self.names.words.get(word), None if given is None else reader(given)
        if there is None:
            return value
        written = reader(there)
        if given is not None and value != written:
            raise Misfit(f"--{word} {given} contradicts {self.names.path}, where from-csv wrote --{word} {there}: leave the word out")
        return written

    def scale(self) -> Fraction:
        """What moments are multiplied by."""
        return self.settled("scale", self.words.scale, scale_of) or Fraction(1)

    def time_unit(self) -> Fraction | None:
        """The length of one unit of time of the list, in seconds."""
        return self.settled("time-unit", self.words.time_unit, unit_of)

    def start(self) -> Moment | None:
        """The moment 0."""
        return self.settled("start", self.words.start, start_of)

    def calendar(self, start: Moment | None) -> Calendar | None:
        """The calendar of the call or of the file of names, or None."""
        words, names = self.words, self.names
        shifts = self.settled("shifts", words.shifts, shifts_of)
        given = holidays_in(read_text(words.holidays, "utf-8-sig"), words.holidays) if words.holidays else None
        if "shifts" not in names.words:
            if words.shifts and "start" in names.words:
                raise Misfit(f"--shifts contradicts {names.path}, where from-csv counted dates around the clock: give --shifts to from-csv")
            return calendar_of(shifts, given or frozenset(), start)
        written = holidays_of(names.words.get("holidays", ""), f"{names.path}: #holidays")
        if given is not None and given != written:
            raise Misfit(f"--holidays {words.holidays} contradicts {names.path}, as on {said_day(min(given ^ written))}: leave the word out")
        return calendar_of(shifts, written, start)


# Units

class Units:
    """How moments, lengths of time and costs of an instance are shown, and read back; `german` shows decimal commas and dates as 02.03.2026."""

    def __init__(self, words: UnitWords, german: bool = False, names: Names | None = None) -> None:
        self.names, self.german = names or read_names(words.names), german
        settling = Settling(words, self.names)
        self.scale = settling.scale()
        self.time_unit, self.start = settling.time_unit(), settling.start()
        if self.start is not None and self.time_unit is None:
            self.time_unit = Fraction(HOUR)
        self.calendar = settling.calendar(self.start)
        # (what costs are divided by)
        self.cost_scale = decimal(self.names.words["cost"], "#cost") if "cost" in self.names.words else self.scale
        self.says_cost = "cost" in self.names.words
        # (the length of 1 of the instance: in hours, or as the list counts)
        self.factor = (self.time_unit / HOUR if self.time_unit else Fraction(1)) / self.scale

    @property
    def assumed(self) -> list[str]:
        """A line that says what is taken for the unit, where no file of names says it."""
        if "scale" in self.names.words:
            return []
        front = f"{self.names.path} says no unit" if self.names.path else "no --names FILE of from-csv says the unit"
        if self.time_unit is None:
            return [f"{front}: moments are taken " + ("as they stand in the instance" if self.scale == 1 else f"divided by {said(self.scale)}")]
        said_start = f", and 0 as {self.start.said()}" if self.start else ""
        work = " of working time" if self.calendar else ""
        return [f"{front}: 1 in the instance is taken as {said_length(self.time_unit / self.scale)}{work}{said_start}"]

    def need(self, schedule: Schedule | None, instance: Instance | None) -> None:
        """Refuses a file of from-csv that was written with another list: its units would be wrong."""
        jobs = [it.name for it in instance.jobs] if instance else [it.job for it in schedule.pieces] if schedule else []
        missing = next((it for it in jobs if it not in self.names.jobs), None)
        beyond = next((it for it in self.names.jobs if it not in jobs), None)
        if missing and beyond and "scale" in self.names.words:
            raise Misfit(f"{self.names.path} was written with another list, whose units need not be these: it has {beyond}, and not {missing}")

    # (what is shown)

    def job(self, name: str) -> str:
        """A job's name as the list has it."""
        return self.names.jobs.get(name, name)

    def number(self, value: Number) -> str:
        """A number with the decimal sign that is wanted."""
        return said(value).replace(".", ",") if self.german else said(value)

    def length(self, value: Number) -> str:
        """A length of time of the instance, as a number of the list's units, or in hours."""
        return self.number(value * self.factor)

    def length_in_words(self, value: Number) -> str:
        """A length of time of the instance in words, as 47 h 25 min, or 47 h of work; a number where no time unit is known."""
        if self.time_unit is None:
            return self.length(value)
        return length_in_words(value * self.factor * HOUR) + self.of_work

    @property
    def of_work(self) -> str:
        """What is said behind a length of time that counts the hours of the plant."""
        return " of work" if self.calendar else ""

    def cost(self, value: Number, criterion: str) -> str:
        """A cost of the instance with its unit: `3 late`, `2 h 30 min`, `12.5 weight-hours`; where no time unit is known, a number in the
        units of the list."""
        if criterion == "sumU":
            return f"{said(value)} late"
        if criterion == "sumwU":
            return self.number(value / self.cost_scale if self.says_cost else value)
        if criterion == "fmax" or self.time_unit is None:
            return self.number(value / self.cost_scale)
        if criterion.startswith("sumw"):
            return f"{self.number(value / self.cost_scale * self.time_unit / HOUR)} weight-hours{self.of_work}"
        return self.length_in_words(value)

    def cost_in_words(self, value: Number, criterion: str) -> str:
        """A cost with its name and its unit, as `makespan 12 h`; `3 late`, `late jobs of weight 5`; as it stands where the criterion is unknown."""
        if criterion == "sumwU":
            return f"late jobs of weight {self.cost(value, criterion)}"
        if criterion == "sumU":
            return self.cost(value, criterion)
        return f"{IN_WORDS[criterion]} {self.cost(value, criterion)}" if criterion in IN_WORDS else f"cost {self.number(value)}"

    def at(self, value: Number, ends: bool = False) -> Moment | None:
        """The moment of the clock of a moment of the instance, where --start is known; `ends` says that something ends there."""
        if self.start is None:
            return None
        work = value * self.factor * HOUR
        return self.start.after(self.calendar.clock(work, ends) if self.calendar else work)

    def moment(self, value: Number, ends: bool = False) -> str:
        """A moment of the instance, as a number, in hours, or as a date; `ends` says that something ends there."""
        at = self.at(value, ends)
        return self.length(value) if at is None else at.said(self.german)

    def pauses(self, begin: Number, end: Number, most: int) -> str:
        """The first pauses of the plant between two moments of the instance, as 14:00 to 14:30; a date stands where it is another one."""
        if self.calendar is None:
            return ""
        day, found = self.moment(begin)[:10], []
        for pause in itertools.islice(self.calendar.pauses(begin * self.factor * HOUR, end * self.factor * HOUR), most + 1):
            said_pause = []
            for it in pause:
                date = self.calendar.start.after(it).said(self.german)
                said_pause.append(date if date[:10] != day else date[11:])
                day = date[:10]
            found.append(" to ".join(said_pause))
        return ", ".join([*found[:most], *["and more"] * (len(found) > most)])

    def notes(self) -> list[str]:
        """What a plan by a calendar means."""
        if self.calendar is None:
            return []
        holidays = said_holidays(self.calendar.holidays).split()
        more = f" and {len(holidays) - 6} more" if len(holidays) > 6 else ""
        without = f", without {', '.join(holidays[:6])}{more}" if holidays else ""
        return [f"working time: {self.calendar.said()}{without}",
                "Jobs pause with the plant. Due dates were translated into working time the same way: what is best is best over working time."]

    # (what is read back)

    def read_moment(self, text: str, where: str, strict: bool = False) -> Fraction:
        """A moment of a plan in the units of the instance; `strict` refuses one outside of the shifts, which else counts as the work done
        by then."""
        if not text:
            raise Fault(f"{where}: a start or an end is missing")
        if self.start is not None:
            seconds = moment_of(text, where).since(self.start)
            if strict and self.calendar and seconds >= 0 and not self.calendar.is_of_work(seconds):
                raise Fault(f"{where}: {text} is outside of the shifts {self.calendar.said()}, or on a holiday")
            found = (self.calendar.work(seconds) if self.calendar else seconds) / HOUR
        elif is_date(text):
            raise Fault(f"{where}: {text} is a date: --start and --time-unit say from when and in what it counts")
        else:
            found = decimal(text, where)
        if found < 0:
            raise Fault(f"{where}: {text} is before the moment 0")
        return found / self.factor


@dataclass(frozen=True)
class Spoken:
    """Units as `judging.Words` shows them: jobs by their names in the list, and lengths of time in words."""
    units: Units

    def job(self, name: str) -> str:
        """A job's name."""
        return self.units.job(name)

    def length(self, value: Fraction) -> str:
        """A length of time."""
        spoken = self.units.length_in_words(value)
        return spoken[: len(spoken) - len(self.units.of_work)] if self.units.time_unit else spoken
