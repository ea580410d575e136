"""Tabu search over the graphs of a shop: always to the best of some neighbours, and not back for a while."""
from __future__ import annotations

from typing import Callable, Dict

from .routes import Arc, Routes, State, Trial
from .search import Best, Effort

MOST_LOOKED_AT = 12
PATIENCE = 400


def ends_of_blocks(arcs: list[Arc]) -> list[Arc]:
    """The first and the last arc of each run of arcs on a machine: inside of it an exchange makes no greatest cost less."""
    after = {one for one, _, on_machine in arcs if on_machine}
    before = {other for _, other, on_machine in arcs if on_machine}
    return [it for it in arcs if it[0] not in before or it[1] not in after or not it[2]]


def thin(arcs: list[Arc], one: Callable[[], float]) -> None:
    """Leaves out arcs as they are drawn, until few enough are left."""
    for count in range(len(arcs), MOST_LOOKED_AT, -1):
        arcs[int(one() * count)] = arcs[-1]
        arcs.pop()


def best_of(routes: Routes, forbidden: Dict[Arc, int], step: int, best: int, effort: Effort) -> Trial | None:
    """The best neighbour that may be taken: not forbidden, or better than all before; where all are forbidden, one of them."""
    arcs = routes.critical()
    if routes.problem.greatest:
        arcs = ends_of_blocks(arcs)
    draw, found, otherwise = routes.draw, None, None
    thin(arcs, draw.one)
    for arc in arcs:
        trial = routes.look(arc)
        effort.tries -= 1
        if forbidden.get(arc, 0) > step and trial.value >= best:
            if otherwise is None or draw.one() < 0.3:
                otherwise = trial
        elif found is None or trial.value < found.value or trial.value == found.value and draw.one() < 0.5:
            found = trial
    return found or otherwise


def shaken(routes: Routes, times: int) -> None:
    """Takes some neighbours as they are drawn."""
    for _ in range(times):
        if routes.neighbour() is not None:
            routes.take()


def wander(routes: Routes, effort: Effort, best: Best[State]) -> None:
    """From what is held always to the best neighbour, until nothing better was found for some while."""
    forbidden: Dict[Arc, int] = {}
    step = idle = 0
    while effort.tries > 0 and idle < PATIENCE:
        step, idle = step + 1, idle + 1
        trial = best_of(routes, forbidden, step, best.value, effort)
        if trial is None:
            effort.tries -= 1
            return
        one, other, on_machine = trial.arc
        forbidden[other, one, on_machine] = step + 8 + routes.draw.below(8)
        routes.hold(trial)
        if routes.value < best.value:
            best.value, best.state, idle = routes.value, routes.state(), 0
            effort.heard(best.value)
            if effort.met(best.value):
                return


def tabu(routes: Routes, effort: Effort, starts: list[State]) -> Best[State]:
    """The best that is found: from each start, and then again and again from the best, shaken."""
    routes.back(starts[0])
    best, turn = Best(routes.value, routes.state()), 0
    while effort.tries > 0 and not effort.met(best.value):
        routes.back(starts[turn] if turn < len(starts) else best.state)
        with effort.until_interrupted():
            if turn >= len(starts):
                shaken(routes, 2 + routes.draw.below(8))
            wander(routes, effort, best)
        turn += 1
    return best
