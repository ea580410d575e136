"""What students hand in, read with its slips of format mended: schedule texts, and orders of jobs where an order makes the schedule.

A slip is told, and the schedule is judged all the same: marks in front of a text, line ends and encodings of other systems, blank lines,
blanks and tabs, capitals, decimals for parts of a unit, a missing line `end`.
"""
from __future__ import annotations

import re
from dataclasses import dataclass, field, replace
from fractions import Fraction
from typing import List, Mapping, Sequence, Tuple

from . import numbers
from .faults import Fault
from .problems import Problem
from .schedules import Piece, cost_of, ends_of, text_of
from .texts import Instance
from .timing import listed, serial

Order = List[Tuple[str, int]]  # (names of jobs, each with its line)
Lines = List[Tuple[int, List[str]]]
WORDS = ("schedule", "cost", "unit", "piece", "end")


@dataclass
class HandIn:
    """A hand-in: its schedule text, the stated cost, the pieces with the lines where they stand, and the slips that were mended."""
    text: str
    stated: Fraction | None
    pieces: list[Piece]
    slips: list[str] = field(default_factory=list)


def decoded(data: bytes, slips: list[str]) -> str:
    """The text of the bytes."""
    if data[:2] in (b"\xff\xfe", b"\xfe\xff"):
        slips.append("UTF-16")
        return data.decode("utf-16", "replace")
    if data[:3] == b"\xef\xbb\xbf":
        slips.append("byte order mark")
        data = data[3:]
    try:
        return data.decode("utf-8")
    except UnicodeDecodeError:
        slips.append("cp1252")
        return data.decode("cp1252", "replace")


def lines_of(text: str, slips: list[str]) -> Lines:
    """The lines that are not blank, each with its number and its fields."""
    if "\r" in text:
        slips.append("line ends of Windows")
    lines = text.replace("\r\n", "\n").replace("\r", "\n").split("\n")
    if lines[-1]:
        slips.append("no line feed at the end")
    else:
        lines.pop()
    if any(not it.strip() for it in lines):
        slips.append("blank lines")
    if any(it.strip() and (it != " ".join(it.split()) or "\t" in it) for it in lines):
        slips.append("blanks and tabs")
    return [(number, line.split()) for number, line in enumerate(lines, 1) if line.strip()]


def number_of(text: str, where: str, slips: list[str]) -> Fraction:
    """A number of a hand-in; a decimal is a slip."""
    if not re.fullmatch(r"-?[0-9]+(/[0-9]+)?", text):
        slips.append("decimals")
    return numbers.decimal(text, where)


def job_of(text: str, instance: Instance, slips: list[str]) -> str:
    """A job's name as the sheet has it, where only capitals are others; else the text."""
    alike = [] if instance.job(text) else [it.name for it in instance.jobs if it.name.lower() == text.lower()]
    if len(alike) != 1:
        return text
    slips.append("capitals")
    return alike[0]


class Reader:
    """Reads the lines of a schedule text, from its line `schedule` on."""

    def __init__(self, instance: Instance, slips: list[str]) -> None:
        self.instance, self.slips = instance, slips
        self.cost: Fraction | None = None
        self.unit: Fraction | None = None
        self.pieces: list[Piece] = []
        self.ended = False

    def line(self, number: int, word: str, rest: list[str]) -> None:
        """Reads a line."""
        where = f"line {number}"
        if word not in WORDS and word.lower() in WORDS:
            self.slips.append("capitals")
        lower = word.lower()
        if self.ended:
            raise Fault(f"{where}: stands behind the line end")
        if lower == "cost" and len(rest) == 1:
            self.cost = number_of(rest[0], where, self.slips)
        elif lower == "unit" and len(rest) == 1:
            self.unit = number_of(rest[0], where, self.slips)
        elif lower == "piece" and len(rest) == 5:
            operation, machine = (numbers.whole(it, where) for it in rest[1:3])
            start, end = (number_of(it, where, self.slips) for it in rest[3:])
            self.pieces.append(Piece(job_of(rest[0], self.instance, self.slips), operation, machine, start, end, number))
        elif lower == "end" and not rest:
            self.ended = True
        elif lower != "schedule" or rest:
            raise Fault(f"{where}: not a line of a schedule: {' '.join([lower, *rest])}")


def schedule_of(lines: Lines, instance: Instance, slips: list[str]) -> HandIn:
    """The hand-in of the lines of a schedule text, from its line `schedule` on."""
    reader = Reader(instance, slips)
    for number, (word, *rest) in lines:
        reader.line(number, word, rest)
    unit = Fraction(1) if reader.unit is None else reader.unit
    slips += ["no line unit"] if reader.unit is None else []
    if unit <= 0:
        raise Fault("a unit is above 0")
    slips += ["no line cost"] if reader.cost is None else []
    slips += [] if reader.ended else ["no line end"]
    pieces = [Piece(it.job, it.operation, it.machine, it.start / unit, it.end / unit, it.line) for it in reader.pieces]
    return HandIn(text_of(pieces, reader.cost or Fraction(0)), reader.cost, pieces)


# Orders of jobs

def order_of(lines: Lines, instance: Instance, slips: list[str]) -> tuple[Order, Fraction | None] | None:
    """The jobs in the order that the lines have, and the cost that they state, where they have nothing else; or None."""
    words: Order = []
    cost = None
    for number, fields in lines:
        word = fields[0].lower().rstrip(":")
        if word == "cost" and len(fields) == 2:
            cost = numbers.decimal(fields[1], f"line {number}")
        elif word not in ("end", "schedule"):
            said = [it for it in re.split(r"(?:->|[\s,;:<>→])+", " ".join(fields[word == "order":])) if it]
            words += [(job_of(it, instance, slips), number) for it in said]
    unknown = [(it, number) for it, number in words if instance.job(it) is None]
    # (a text of other words is no order, and one with a slip is)
    if not words or 2 * len(unknown) >= len(words):
        return None
    if unknown:
        raise Fault(f"line {unknown[0][1]}: an order with {unknown[0][0]}, which is no job of the sheet")
    again = next((it for at, (it, _) in enumerate(words) if it in [one for one, _ in words[:at]]), None)
    missing = next((it.name for it in instance.jobs if it.name not in [one for one, _ in words]), None)
    if again or missing:
        raise Fault(f"an order with {again} twice" if again else f"an order without {missing}")
    return words, cost


def by_order(words: Order, instance: Instance) -> tuple[list[Piece], dict[str, Fraction]]:
    """The pieces of an order, and when the jobs end; or a fault. On one machine and in flow shops it is the sequence itself; on identical machines,
    whenever one is free, the first job of the order begins that can, on the free machine of least number."""
    problem = Problem(instance)
    if problem.instance.kind.kind not in "1PF":
        raise Fault(f"an order alone makes no schedule in {instance.kind}: hand in the pieces, each with its machine and its moments")
    lines = dict(words)
    order = [problem.names[name] for name, _ in words]
    if instance.kind.kind == "P":
        placed = listed(problem, order)
    else:
        refuse_early(problem, order, lines)
        placed = serial(problem, order)
    pieces = [replace(it, line=lines[it.job]) for it in problem.pieces(placed)]
    return pieces, ends_of(pieces)


def refuse_early(problem: Problem, order: Sequence[int], lines: Mapping[str, int]) -> None:
    """Refuses a sequence in which a job stands in front of one that it comes after."""
    places = {job: at for at, job in enumerate(order)}
    for job in order:
        name = problem.instance.jobs[job].name
        if any(places[it] > places[job] for it in problem.before[job]):
            raise Fault(f"line {lines[name]}: {name} stands in front of a job that it comes after")


def read(data: bytes, instance: Instance) -> HandIn:
    """A hand-in of bytes, mended; a fault where it is neither a schedule nor an order."""
    slips: list[str] = []
    lines = lines_of(decoded(data, slips), slips)
    begin = next((at for at, (_, fields) in enumerate(lines) if fields[0].lower() == "schedule" and len(fields) == 1), None)
    order = order_of(lines, instance, slips) if begin is None else None
    if order:
        words, cost = order
        pieces, ends = by_order(words, instance)
        found = HandIn(text_of(pieces, cost_of(instance, ends)), cost, pieces)
    elif begin is None:
        raise Fault("neither a schedule text, from its line schedule on, nor an order of all jobs")
    else:
        found = schedule_of(lines[begin:], instance, slips)
    found.slips = list(dict.fromkeys(slips))
    return found
