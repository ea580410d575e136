"""What a Gantt chart shows: its lines and pieces, what is late and what overlaps, the moments of its axis, and labels that tell jobs apart."""
from __future__ import annotations

import itertools
import os.path
import re
from collections.abc import Iterator, Mapping, Sequence
from dataclasses import dataclass
from fractions import Fraction

from .calendars import Calendar
from .dates import DAY, HOUR, MINUTE, Moment
from .schedules import Piece, Schedule, need_jobs
from .texts import Instance
from .units import Units

PAUSES = (0, 7200, 43200, 129600, 345600)  # seconds that pauses last at least, where shorter ones are too many to be drawn
MOST_PAUSES = 20000
STEPS = (60, 300, 600, 900, 1800, 3600, 7200, 10800, 21600, 43200, 86400, 172800, 345600, 604800, 1209600)  # seconds between dates on the axis
LONG_STEPS = tuple(STEPS[-1] * 2**it for it in range(1, 20))


def clean(text: str) -> str:
    """A text without signs that a picture cannot have."""
    return re.sub(r"[\x00-\x08\x0b\x0c\x0e-\x1f\x7f\ufffe\uffff\ud800-\udfff]", "\ufffd", re.sub(r"[\t\r\n]+", " ", text))


def middle(name: str, fits: int) -> str:
    """A name cut in the middle."""
    if len(name) <= fits:
        return name
    back = (fits - 1) // 2
    return name[: fits - 1 - back] + "…" + (name[-back:] if back else "")


# Labels

def what_differs(names: Sequence[str]) -> list[str]:
    """What differs in names, whole words of each: 4711 of `Auftrag 4711`; the names themselves where nothing can be left out."""
    front = re.match(r"(?:.*[ _.-])?", os.path.commonprefix(list(names)))
    back = re.match(r"(?:.*[ _.-])?", os.path.commonprefix([it[::-1] for it in names]))
    first, last = front.end() if front else 0, back.end() if back else 0
    found = [name[first: len(name) - last] for name in names]
    return found if len(names) > 1 and all(found) and len(set(found)) == len(names) else list(names)


def letters(count: int, taken: Sequence[str]) -> list[str]:
    """So many different letters and pairs of them, A, B .. Z, AA, AB ..; none of them is one of the names that are taken."""
    left = {it.casefold() for it in taken}
    words = ("".join(it) for length in itertools.count(1) for it in itertools.product("ABCDEFGHIJKLMNOPQRSTUVWXYZ", repeat=length))
    return list(itertools.islice((it for it in words if it.casefold() not in left), count))


@dataclass(frozen=True)
class Line:
    """A line of a chart: its title, its pieces, and its job where there is a line for each."""
    title: str
    pieces: list[Piece]
    job: str | None = None


@dataclass(frozen=True)
class Options:
    """What may be asked of a chart: a line for each job, a title, names of the machines."""
    by_job: bool = False
    title: str | None = None
    machine_names: str | None = None


class Chart:
    """What is drawn: lines with bars, in units of time."""

    def __init__(self, schedule: Schedule, instance: Instance | None, units: Units, options: Options = Options()) -> None:
        self.schedule, self.instance, self.units, self.options = schedule, instance, units, options
        self.machine_names: Mapping[int, str] = units.names.machines
        if options.machine_names:
            self.machine_names = dict(enumerate((it.strip() for it in re.split("[,;]", options.machine_names)), 1))
        self.pieces = sorted(schedule.pieces, key=lambda it: (it.start, it.end, it.machine))
        self.jobs = [it.name for it in instance.jobs] if instance else list(dict.fromkeys(it.job for it in self.pieces))
        if instance:
            need_jobs(self.pieces, instance)
        self.ends = schedule.ends()
        self.span = max((it.end for it in self.pieces), default=Fraction(1)) or Fraction(1)
        self.due = {it.name: it.due for it in (instance.jobs if instance else []) if it.due is not None}
        self.late = {job: due for job, due in self.due.items() if self.ends.get(job, Fraction(due)) > due}
        self.names = {it: clean(units.job(it)) for it in self.jobs}
        names = list(self.names.values())
        self.short = dict(zip(self.jobs, what_differs(names)))
        self.letters = dict(zip(self.jobs, letters(len(names), [*names, *self.short.values()])))
        self.overlapping = {id(it) for it in self.overlaps()}
        self.machines = max([it.machine for it in self.pieces] + ([instance.machines] if instance else []), default=1)

    @property
    def by_job(self) -> bool:
        """Whether there is a line for each job."""
        return self.options.by_job

    def overlaps(self) -> Iterator[Piece]:
        """The pieces that overlap another one of their machine or job."""
        for kind in ("machine", "job"):
            last: dict[object, Piece] = {}
            for piece in self.pieces:
                key = piece.machine if kind == "machine" else piece.job
                before = last.get(key)
                if before and before.end > piece.start:
                    yield before
                    yield piece
                if before is None or piece.end > before.end:
                    last[key] = piece

    def machine(self, number: int, short: bool = False) -> str:
        """A machine's name, or its number."""
        return clean(self.machine_names.get(number, f"M{number}" if short else f"machine {number}"))

    def lines(self) -> list[Line]:
        """The chart's lines."""
        if self.by_job:
            found = {job: [it for it in self.pieces if it.job == job] for job in self.jobs}
            order = sorted(self.jobs, key=lambda it: found[it][0].start if found[it] else self.span)
            return [Line(self.names[job], found[job], job) for job in order]
        return [Line(self.machine(number), [it for it in self.pieces if it.machine == number]) for number in range(1, self.machines + 1)]

    def moment(self, value: Fraction | int, ends: bool = False) -> str:
        """A moment as it is written: exact, in the units of the list, as 3 1/3, or as a date."""
        text = self.units.moment(Fraction(value), ends)
        return text if self.units.start else mixed(text)

    # What is written

    def label(self, piece: Piece, fits: int) -> str:
        """What a bar says where so many signs fit: the name, what differs in the names, a name cut in the middle that no other job has, or
        letters of the legend. A number is never written in the place of a name."""
        if self.by_job:
            name = self.machine(piece.machine, True) if self.machines > 1 else ""
            return name if len(name) <= fits else ""
        name, short = self.names[piece.job], self.short[piece.job]
        found = next((it for it in (name, short) if len(it) <= fits), "")
        if found:
            return found
        cut = middle(name, fits)
        if fits >= 6 and sum(middle(it, fits) == cut for it in self.names.values()) == 1:
            return cut
        return self.letters[piece.job] if len(self.letters[piece.job]) <= fits else ""

    def note(self, piece: Piece) -> str:
        """What a piece says of itself."""
        span = f"{self.moment(piece.start)} to {self.moment(piece.end, True)}"
        text = f"{self.names[piece.job]}, operation {piece.operation}, {self.machine(piece.machine)}: {span}"
        pauses = self.units.pauses(piece.start, piece.end, 3)
        text += (f"; pauses {pauses}" if pauses else "") + ("; overlaps another piece" if id(piece) in self.overlapping else "")
        return text + (f"; late, due {self.moment(self.late[piece.job], True)}" if piece.job in self.late else "")

    def title(self) -> str:
        """The title: the cost in words and in its unit, and the class."""
        if self.options.title is not None:
            return clean(self.options.title)
        kind = self.schedule.first or (str(self.instance.kind) if self.instance else "")
        criterion = kind.rpartition("|")[2]
        said = self.units.cost_in_words(self.schedule.cost, criterion)
        if criterion == "sumwU" and self.due:
            said = f"{len(self.late)} late of weight {self.units.cost(self.schedule.cost, criterion)}"
        return said + (f" ({kind})" if kind else "")

    # The axis

    def ticks(self, most: int) -> list[Fraction]:
        """At most so many moments for the axis, at round distances."""
        end, start = self.span * self.units.factor, self.units.start
        if start is None:
            return [it / self.units.factor for it in round_numbers(end, most) if it <= end]
        if self.units.calendar:
            return [self.of_work(it) for it in working_ticks(self.units.calendar, end * HOUR, most)]
        return [self.of_work(it) for it in clock_ticks(start, end * HOUR, most)]

    def of_work(self, seconds: Fraction) -> Fraction:
        """The moment that lies so many seconds of work behind the start."""
        return seconds / HOUR / self.units.factor

    def pauses(self, most: int) -> tuple[int, list[tuple[Fraction, str]]]:
        """The pauses of the plant up to the end of the schedule, at most so many: how long they last at least, and pairs of a moment and
        what is said of it."""
        calendar = self.units.calendar
        if calendar is None:
            return 0, []
        found = list(itertools.islice(calendar.pauses(0, self.span * self.units.factor * HOUR), MOST_PAUSES))
        least, those = 0, found
        for least in PAUSES:
            those = [it for it in found if it[1] - it[0] >= least]
            if len(those) <= most:
                break
        said = [" to ".join(calendar.start.after(one).said() for one in it) for it in those[:most]]
        return least, [(self.of_work(calendar.work(begin)), span) for (begin, _), span in zip(those, said)]


def clock_ticks(start: Moment, end: Fraction, most: int) -> list[Fraction]:
    """At most so many seconds from a start up to an end, at whole minutes, hours or days of the clock."""
    step = next(it for it in STEPS + LONG_STEPS if end / it <= most)
    day = Fraction(start.date.hour * HOUR + start.date.minute * MINUTE + start.date.second) + start.part
    first = -day % min(step, DAY)
    return [it for it in (first + at * step for at in range(most + 1)) if it <= end]


def working_ticks(calendar: Calendar, end: Fraction, most: int) -> list[Fraction]:
    """At most so many moments of working time up to an end: round clock times that are worked, or the begin of work on days at round
    distances. A distance at which nothing is worked, as noon and midnight, is passed over."""
    last = calendar.clock(end, True)
    found: list[Fraction] = []
    for step in STEPS + LONG_STEPS:
        if last / step > 20 * most:
            continue
        clocks = [-calendar.zero % step + at * step for at in range(int(last // step) + 1)]
        found = list(dict.fromkeys(calendar.work(it) for it in clocks if it < last and (step >= DAY or calendar.is_worked(it))))
        if found and len(found) <= most:
            # (the day on which all begins)
            return [*[Fraction(0)] * (step >= DAY and 0 < found[0] and len(found) < most), *found]
    return found[:most]


def round_numbers(end: Fraction, most: int) -> list[Fraction]:
    """Multiples of a round number, at most so many up to the end."""
    step = Fraction(1)
    while end / step > most:
        step *= 10
    while end / step * 10 <= most:
        step /= 10
    step = next((step / it for it in (10, 5, 2) if end / (step / it) <= most and (step / it).denominator == 1), step)
    return [at * step for at in range(most + 1)]


def mixed(text: str) -> str:
    """A number as people read it on an axis: a fraction as 10/3 becomes 3 1/3."""
    found = re.fullmatch("(-?)([0-9]+)/([0-9]+)", text)
    if found is None or int(found[2]) < int(found[3]):
        return text
    whole, above = divmod(int(found[2]), int(found[3]))
    return f"{found[1]}{whole} {above}/{found[3]}"
