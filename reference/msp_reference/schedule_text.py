"""Schedule texts: reading with the exact first fault, and printing."""
from fractions import Fraction
from typing import NamedTuple, Sequence

from .instance_text import Front
from .lines import Lines, number_of
from .schedule import Piece, Schedule, Solution

GREATEST_UNIT = 10 ** 13
GREATEST_MOMENT = 2 * 10 ** 26
GREATEST_COST = 10 ** 38 - 1
MOST_PIECES = 500_000
MOST_PLACES = 32


class Stated(NamedTuple):
    """A schedule with the cost that its text states."""
    schedule: Schedule
    cost: Fraction


def read_fraction(lines: Lines, field: bytes, greatest: int) -> Fraction:
    """A number, or two with `/` between; faults `number` and the limit of a cost."""
    parts = [number_of(part) for part in field.split(b"/")]
    numbers = [part for part in parts if part is not None]
    if len(parts) > 2 or len(numbers) < len(parts):
        raise lines.fault("number")
    numerator, denominator = numbers if len(numbers) == 2 else (numbers[0], 1)
    if not -greatest <= numerator <= greatest or not 1 <= denominator <= GREATEST_UNIT:
        raise lines.limit("cost")
    return Fraction(numerator, denominator)


def read_schedule(front: Front, text: bytes) -> Stated:
    """The schedule text behind an instance text."""
    lines = Lines(text, front.place, front.line)
    lines.only(b"schedule", 1)
    cost = read_fraction(lines, lines.only(b"cost", 2)[1], GREATEST_COST)
    unit = lines.number(lines.only(b"unit", 2)[1], 1, GREATEST_UNIT, "unit")
    pieces: list[Piece] = []
    places = front.filed.places()
    while True:
        fields = lines.next()
        lines.demand(fields, b"piece", b"end")
        if fields[0] == b"end":
            lines.count(fields, 1)
            break
        if len(pieces) == MOST_PIECES:
            raise lines.limit("pieces")
        lines.count(fields, 6)
        job = lines.known(fields[1], places)
        oper = lines.number(fields[2], 1, MOST_PLACES, "place") - 1
        machine = lines.number(fields[3], 1, MOST_PLACES, "place") - 1
        begin = lines.number(fields[4], 0, GREATEST_MOMENT, "moment")
        end = lines.number(fields[5], 0, GREATEST_MOMENT, "moment")
        pieces.append(Piece(job, oper, machine, begin, end))
    lines.end_of_text()
    return Stated(Schedule(unit, pieces), cost)


def schedule_lines(names: Sequence[bytes], solved: Solution) -> list[str]:
    """The lines of the schedule text of a solution, its `end` among them."""
    lines = ["schedule", f"cost {solved.cost}", f"unit {solved.schedule.unit}"]
    for job, oper, machine, begin, end in solved.schedule.pieces:
        lines.append(f"piece {names[job].decode()} {oper + 1} {machine + 1} {begin} {end}")
    return lines + ["end"]
