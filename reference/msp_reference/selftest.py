"""A second feasibility check and cost, straight from the definitions, over all pairs of pieces.

It shares no code with the room of schedules. It is used with `--self-test` and by the tests.
"""
from fractions import Fraction
from itertools import permutations
from math import gcd
from typing import Iterator

from .instance import Instance
from .schedule import Piece, Solution

_KIND = ("one", "P", "P", "P", "Q", "Q", "R", "R", "O", "O", "O", "F", "F", "F", "J", "J", "J", "J")
_MOST_PIECES = 4000             # pairs of more pieces take too long


class NotRight(Exception):
    """The result of a solver broke a definition."""


def demand(holds: bool, what: str) -> None:
    """Raises NotRight where something does not hold."""
    if not holds:
        raise NotRight(what)


def demand_right(inst: Instance, solved: Solution) -> None:
    """Raises NotRight unless a solution is feasible and has its cost."""
    unit, pieces = solved.schedule
    if len(pieces) <= _MOST_PIECES:
        broken = next(faults(inst, unit, pieces), None)
        demand(broken is None, f"{broken} in {inst} {solved}")
    demand(cost(inst, unit, pieces) == solved.cost, f"cost of {inst} {solved}")


def demand_settled(solved: Solution) -> None:
    """Raises NotRight unless a solution is in the lowest unit, in order and within its limits."""
    unit, pieces = solved.schedule
    keys = [(piece.begin, piece.machine) for piece in pieces]
    demand(keys == sorted(keys), "pieces out of order")
    demand(gcd(unit, *(moment for piece in pieces for moment in (piece.begin, piece.end))) == 1, "not the lowest unit")
    demand(unit <= 10 ** 13 and len(pieces) <= 500_000, "limits of a schedule")


def faults(inst: Instance, unit: int, pieces: list[Piece]) -> Iterator[str]:
    """A word for each definition that a schedule breaks."""
    if unit < 1:
        yield "unit"
    for piece in pieces:
        if not 0 <= piece.begin < piece.end:
            yield "span"
        if not 0 <= piece.job < len(inst.jobs) or not _placed(inst, piece):
            yield "place"
            return
        if piece.begin < unit * inst.jobs[piece.job].release:
            yield "release"
    for one, two in permutations(pieces, 2):
        yield from _pair_faults(inst, one, two)
    yield from _work_faults(inst, unit, pieces)


def _placed(inst: Instance, piece: Piece) -> bool:
    if _KIND[inst.cls.env] in ("one", "P", "Q", "R"):
        return piece.oper == 0 and 0 <= piece.machine < inst.machines
    needs = inst.jobs[piece.job].needs
    return 0 <= piece.oper < len(needs) and needs[piece.oper][1] != 0 and needs[piece.oper][0] == piece.machine


def _pair_faults(inst: Instance, one: Piece, two: Piece) -> Iterator[str]:
    if one.begin < two.end and two.begin < one.end:
        if one.machine == two.machine:
            yield "machine"
        if one.job == two.job:
            yield "job"
    if one.end > two.begin:
        if (one.job, two.job) in inst.arcs:
            yield "arc"
        if one.job == two.job and one.oper < two.oper and _KIND[inst.cls.env] in ("F", "J"):
            yield "route"


def _work_faults(inst: Instance, unit: int, pieces: list[Piece]) -> Iterator[str]:
    done: dict[tuple[int, int], list[Fraction]] = {}
    for piece in pieces:
        share = Fraction(piece.end - piece.begin, unit) / _whole_time(inst, piece)
        done.setdefault((piece.job, piece.oper), []).append(share)
    for j, job in enumerate(inst.jobs):
        needed = [0] if _KIND[inst.cls.env] in ("one", "P", "Q", "R") else range(len(job.needs))
        for oper in needed:
            shares = done.get((j, oper), [])
            if job.needs[oper][1] != 0 and (sum(shares) != 1 or not inst.cls.cut and len(shares) != 1):
                yield "work"


def _whole_time(inst: Instance, piece: Piece) -> Fraction:
    """How long the whole operation of a piece takes on the machine of the piece."""
    needs = inst.jobs[piece.job].needs
    kind = _KIND[inst.cls.env]
    if kind == "Q":
        return Fraction(needs[0][1], inst.speeds[piece.machine])
    return Fraction(needs[piece.machine if kind == "R" else piece.oper][1])


def cost(inst: Instance, unit: int, pieces: list[Piece]) -> Fraction:
    """The cost of a feasible schedule by its definition."""
    values = []
    for number, job in enumerate(inst.jobs):
        time = max(Fraction(piece.end, unit) for piece in pieces if piece.job == number)
        late = time - job.due
        slope, base, steps = job.curve
        values.append([time, late, slope * time + base + sum(step[1] for step in steps if step[0] < time),
                       time, job.weight * time, Fraction(late > 0), Fraction(job.weight * (late > 0)),
                       max(Fraction(0), late), job.weight * max(Fraction(0), late)][inst.cls.crit])
    return max(values) if inst.cls.crit < 3 else sum(values, Fraction(0))
