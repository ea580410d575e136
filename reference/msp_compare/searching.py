"""Small instances against the exhaustive search."""
from random import Random
from typing import Optional, Sequence

import msp_search
from msp_reference.classes import Class, ONE_OPERATION
from msp_search.grid import grid_size

from .calls import Call
from .comparisons import Judge, draw_of, told
from .drawing import Sizes, small_instance, text_of
from .judging import shown
from .program import Program

_UNCUT = Sizes(jobs=5, time=4)
_CUT = Sizes(jobs=4, time=4, date=5, speed=2)
_SHOP = Sizes(jobs=5, time=4, date=5)
_CUT_SHOP = Sizes(jobs=3, time=3, date=3, machines=2)
_MOST_VECTORS = 2500            # of work that is left, on a grid


def _instance_text(draw: Random, cls: Class) -> bytes:
    if cls.env in ONE_OPERATION:
        sizes = _CUT if cls.cut else _UNCUT
    else:
        sizes = _CUT_SHOP if cls.cut else _SHOP
    while True:
        inst = small_instance(draw, cls, sizes)
        operations = sum(time > 0 for job in inst.jobs for _, time in job.needs)
        if cls.env not in ONE_OPERATION and operations > msp_search.MOST_OPERATIONS:
            continue
        text = text_of(inst)
        if not cls.cut or grid_size(msp_search.read(text.decode())[0], 1) <= _MOST_VECTORS:
            return text


def _parts(problem: msp_search.Problem, unit: int) -> int:
    """The finest grid that is not too fine: the unit of the answer where that is possible, so that the answer lies on it."""
    wanted = [unit] + [parts for parts in (4, 3, 2, 1) if parts < unit]
    return next((parts for parts in wanted if grid_size(problem, parts) <= _MOST_VECTORS), 1)


def verdict(problem: msp_search.Problem, best: msp_search.Best) -> Optional[str]:
    """What is wrong with an answer: not feasible, another cost, or not least; None where nothing is."""
    found = msp_search.broken(problem, best.pieces)
    if found:
        return f"not feasible: {found}"
    cost = msp_search.cost_of(problem, best.pieces)
    if cost != best.cost:
        return f"it costs {cost}, and {best.cost} is stated"
    if not problem.cut:
        least = msp_search.least_uncut(problem)
        return None if least.cost == cost else f"it costs {cost}, and {least.cost} is the least: {least.pieces}"
    moments = [moment for piece in best.pieces for moment in (piece.begin, piece.end)]
    parts = _parts(problem, max(moment.denominator for moment in moments))
    on_grid = msp_search.least_on_grid(problem, parts)
    if on_grid is not None and on_grid.cost < cost:
        return f"it costs {cost}, and {on_grid.cost} is reached: {on_grid.pieces}"
    if all((moment * parts).denominator == 1 for moment in moments) and (on_grid is None or on_grid.cost != cost):
        return f"it lies on a grid of 1/{parts} and costs {cost}, which the search has not found there"
    return None


def against_search(program: Program, seed: int, classes: Sequence[Class]) -> Judge:
    """An instance of each of the classes in turn, its answer judged by the search alone."""
    def judge(turn: int) -> Optional[str]:
        draw = draw_of("search", seed, turn)
        call = Call((b"solve",), _instance_text(draw, classes[turn % len(classes)]))
        theirs = program.call(call.words, call.text)
        if theirs.status != 0 or theirs.note:
            return told(call, f"program {shown(theirs)}")
        problem, _ = msp_search.read(call.text.decode())
        found = verdict(problem, msp_search.read_schedule(problem, theirs.report.decode()))
        return told(call, f"{found}\nprogram {shown(theirs)}" if found else None)
    return judge
