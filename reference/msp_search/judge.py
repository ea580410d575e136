"""Schedules as the search sees them: reading, printing, feasibility and cost, by their definitions in exact numbers."""
from collections import defaultdict
from dataclasses import dataclass
from fractions import Fraction
from itertools import chain
from math import lcm
from typing import Iterable, Optional, Sequence

from .problem import Problem, Unreadable


@dataclass(frozen=True)
class Piece:
    """A stretch of work: a job, an operation by its number in the text, a machine, all from 0, and two moments."""
    job: int
    operation: int
    machine: int
    begin: Fraction
    end: Fraction


@dataclass(frozen=True)
class Best:
    """The least cost, and a schedule that has it."""
    cost: Fraction
    pieces: tuple[Piece, ...]


def read_schedule(problem: Problem, text: str) -> Best:
    """The schedule of a schedule text with the cost that it states."""
    places = {job.name: place for place, job in enumerate(problem.jobs)}
    cost, unit, pieces = None, 1, []
    for number, line in enumerate(text.split("\n"), 1):
        fields = line.split(" ")
        try:
            if fields[0] == "cost":
                cost = Fraction(fields[1])
            elif fields[0] == "unit":
                unit = int(fields[1])
            elif fields[0] == "piece":
                operation, machine, begin, end = map(int, fields[2:])
                pieces.append(Piece(places[fields[1]], operation - 1, machine - 1, Fraction(begin, unit), Fraction(end, unit)))
            elif fields[0] == "end" and cost is not None:
                return Best(cost, tuple(pieces))
        except (ValueError, KeyError, IndexError) as fault:
            raise Unreadable(f"schedule, line {number}: {fault}") from None
    raise Unreadable("schedule: no end")


def schedule_text(problem: Problem, best: Best) -> str:
    """The schedule text of a schedule with its cost."""
    unit = lcm(*(moment.denominator for piece in best.pieces for moment in (piece.begin, piece.end)))
    lines = ["schedule", f"cost {best.cost}", f"unit {unit}"]
    for piece in sorted(best.pieces, key=lambda piece: (piece.begin, piece.machine)):
        lines.append(f"piece {problem.jobs[piece.job].name} {piece.operation + 1} {piece.machine + 1} "
                     f"{piece.begin * unit} {piece.end * unit}")
    return "\n".join([*lines, "end", ""])


def cost_of(problem: Problem, pieces: Iterable[Piece]) -> Fraction:
    """The cost of a schedule in which each job runs."""
    ends: dict[int, Fraction] = {}
    for piece in pieces:
        ends[piece.job] = max(piece.end, ends.get(piece.job, piece.end))
    return problem.total([job.cost(problem.criterion, ends[place]) for place, job in enumerate(problem.jobs)])


def broken(problem: Problem, pieces: Sequence[Piece]) -> Optional[str]:
    """What makes a schedule infeasible, in words, or None."""
    tests = (_pieces_broken, _overlaps, _arcs_broken, _orders_broken, _works_broken)
    return next((found for found in (test(problem, pieces) for test in tests) if found), None)


def _operation_times(problem: Problem) -> dict[tuple[int, int], dict[int, Fraction]]:
    return {(place, operation.number): dict(operation.times)
            for place, job in enumerate(problem.jobs) for operation in job.operations}


def _pieces_broken(problem: Problem, pieces: Sequence[Piece]) -> Optional[str]:
    times = _operation_times(problem)
    for piece in pieces:
        if piece.begin >= piece.end or piece.begin < 0:
            return f"{piece} does not last"
        if piece.machine not in times.get((piece.job, piece.operation), {}):
            return f"{piece} may not run there"
        if piece.begin < problem.jobs[piece.job].release:
            return f"{piece} begins before its release date"
    return None


def _overlaps(_: Problem, pieces: Sequence[Piece]) -> Optional[str]:
    on_machine, of_job = defaultdict(list), defaultdict(list)
    for piece in pieces:
        on_machine[piece.machine].append(piece)
        of_job[piece.job].append(piece)
    for group in chain(on_machine.values(), of_job.values()):
        group.sort(key=lambda piece: piece.begin)
        for one, two in zip(group, group[1:]):
            if two.begin < one.end:
                return f"{one} and {two} overlap"
    return None


def _arcs_broken(problem: Problem, pieces: Sequence[Piece]) -> Optional[str]:
    first: dict[int, Fraction] = {}
    last: dict[int, Fraction] = {}
    for piece in pieces:
        first[piece.job] = min(piece.begin, first.get(piece.job, piece.begin))
        last[piece.job] = max(piece.end, last.get(piece.job, piece.end))
    for before, after in problem.arcs:
        if before in last and after in first and last[before] > first[after]:
            return f"job {after} begins before job {before} ends"
    return None


def _orders_broken(problem: Problem, pieces: Sequence[Piece]) -> Optional[str]:
    if not problem.ordered:
        return None
    of_job = defaultdict(list)
    for piece in pieces:
        of_job[piece.job].append(piece)
    for group in of_job.values():
        group.sort(key=lambda piece: piece.begin)
        if any(one.operation > two.operation for one, two in zip(group, group[1:])):
            return f"the operations of job {group[0].job} are out of order"
    return None


def _works_broken(problem: Problem, pieces: Sequence[Piece]) -> Optional[str]:
    times = _operation_times(problem)
    shares = defaultdict(list)
    for piece in pieces:
        shares[piece.job, piece.operation].append((piece.end - piece.begin) / times[piece.job, piece.operation][piece.machine])
    for place in times:
        if sum(shares[place]) != 1 or not problem.cut and len(shares[place]) != 1:
            return f"operation {place} does not get its work"
    return None
