"""Classes near by that have a solver, and what they say of an instance: schedules that `check` finds feasible."""
from __future__ import annotations

from dataclasses import dataclass
from fractions import Fraction
from typing import Callable

from .classes import ClassName
from .draws import Wanted
from .draws import text_of as drawn_text
from .numbers import fraction
from .program import Program
from .relaxations import Way, by_sed, moved, nearest, relaxations, restrictions
from .schedules import read_schedule
from .texts import Instance


@dataclass
class Solver:
    """A solver of a class, and the rows to it: pairs of a row's number and a class."""
    name: str
    chain: list[tuple[int, str]]


def solver_of(program: Program, kind: ClassName) -> Solver | None:
    """The solver of a class: from the lines of `solve` on a drawn instance; or None."""
    reply = program.call(["solve"], drawn_text(Wanted(kind, 1), 1))
    if reply.status != 0:
        return None
    schedule = read_schedule(reply.report)
    return Solver(schedule.solver or "", schedule.chain)


def has_solver(program: Program) -> Callable[[ClassName], bool]:
    """Says of a class whether it has a solver."""
    return lambda kind: program.call(["trial", str(kind), "1", "1"]).status == 0


@dataclass
class Near:
    """A solved class near by: how the moves there are said, and the expression of sed that makes them, or None."""
    name: str
    moves: list[str]
    sed: str | None


def near_of(way: Way) -> Near:
    """The class to which moves lead."""
    return Near(str(way[-1].kind), [it.words for it in way], by_sed(way))


def bounding(program: Program, kind: ClassName) -> list[Near]:
    """The nearest solved classes whose best costs bound those of a class from below."""
    return [near_of(it) for it in nearest(has_solver(program), kind, relaxations)]


def serving(program: Program, kind: ClassName) -> list[Near]:
    """The nearest solved classes whose schedules may serve."""
    return [near_of(it) for it in nearest(has_solver(program), kind, restrictions)]


@dataclass
class Served:
    """A feasible schedule of an instance with its cost, and the class that gives it."""
    cost: Fraction
    near: Near
    text: str


def schedules_for(program: Program, given: Instance) -> list[Served]:
    """The schedules for an instance by the nearest classes near by that `check` finds feasible, the best first."""
    found = []
    for way in nearest(has_solver(program), given.kind, restrictions):
        status, report, _ = program.call(["solve"], moved(given, way)[-1].text())
        if status != 0:
            continue
        schedule = report[report.index("schedule\n"):]
        judged = program.call(["check"], given.text() + schedule).report.splitlines()
        cost = next((it.split(" ")[1] for it in judged if it.startswith("cost ")), None)
        if "feasible yes" in judged and cost:
            text = schedule.replace(f"cost {read_schedule(schedule).cost}\n", f"cost {fraction(cost, 'cost')}\n", 1)
            found.append(Served(fraction(cost, "cost"), near_of(way), text))
    return sorted(found, key=lambda it: it.cost)
