"""From the schedules of the rules to a better one: which space is searched in which class, and how far."""
from __future__ import annotations

from math import isqrt
from typing import Callable, List, Sequence, Tuple, TypeVar

from .branching import Branching
from .cutting import cut_cost, cut_pieces
from .lanes import Lanes, lanes_of
from .priorities import Tried
from .problems import Placed, Problem
from .routes import Routes
from .schedules import Piece
from .search import Best, Draw, Effort, search
from .sequences import Sequences, State, by_permutation, by_serial, placed_apart
from .tabu import tabu
from .timing import serial

S = TypeVar("S")
SEARCH, BRANCHING = "local search", "branching"
MOST_STARTS = 3
# (operations that are looked at, in the standard effort: at least; for each job of a shop; elsewhere for each job, times the root of their number)
LEAST_EFFORT = 6_000_000
EFFORT_IN_SHOPS = 100_000
EFFORT = 13_000
# (tries: at least, at most, of many jobs for each of them, of few operations for each of them)
LEAST_TRIES, MOST_TRIES, TRIES_FOR_A_JOB, TRIES_FOR_AN_OPERATION = 2_000, 70_000, 1_200, 3_000
TRIES_BEFORE_TABU = 100  # (of sums in shops, for each operation)
FINE = 2**40  # (into so many parts a cost is divided where it is no whole number)


def standard_tries(problem: Problem) -> int:
    """How many neighbours are looked at where it is not said: fewer of large ones, so that it takes seconds."""
    looked_at = problem.operations()
    if not problem.shop and not problem.bound and not problem.cut:
        looked_at = (1 if summed_alone(problem) else 2) * problem.count // problem.machines
    slow = slowness(problem)
    effort = problem.count * (EFFORT_IN_SHOPS if problem.shop else EFFORT * isqrt(problem.count))
    tries = max(LEAST_EFFORT, effort) // ((looked_at + 10) * slow)
    most = max(MOST_TRIES, TRIES_FOR_A_JOB * problem.count)
    return min(max(tries, LEAST_TRIES // slow), most, TRIES_FOR_AN_OPERATION * problem.operations())


def summed_alone(problem: Problem) -> bool:
    """Whether there is one machine, and costs are added: then ends and costs are worked out only where jobs move."""
    return problem.machines == 1 and not problem.shop and not problem.greatest and problem.criterion[-1] != "U"


def slowness(problem: Problem) -> int:
    """How much longer it takes to look at a neighbour than in sequences, for each operation."""
    if problem.cut:
        return 20
    if problem.instance.kind.kind in "OJ":
        return 4 if problem.greatest else 2
    if problem.bound and not summed_alone(problem):
        return 2 if problem.alike else 4
    return 1


def starts_of(found: Sequence[Tried], state: Callable[[Tried], S], most: int = MOST_STARTS) -> List[S]:
    """The states of the best schedules, of each cost one."""
    starts: List[S] = []
    costs: List[float] = []
    for it in sorted(found, key=lambda it: it.cost):
        if it.cost not in costs and len(starts) < most:
            costs.append(it.cost)
            starts.append(state(it))
    return starts


def in_lanes(problem: Problem, found: Sequence[Tried], effort: Effort, draw: Draw) -> List[Placed]:
    """Sequences of machines."""
    space = Lanes(problem, draw)
    told = effort.heard
    effort.heard = lambda value: told(value // space.base)
    if effort.target is not None:
        effort.target = space.value_of(effort.target)
    starts = starts_of(found, lambda it: lanes_of(problem, it.placed))
    space.back(starts[0])
    return space.placed(search(space, effort, starts).state)


def by_begins(placed: Sequence[Placed]) -> List[int]:
    """The jobs in the order in which they begin."""
    return list(dict.fromkeys(it.job for it in sorted(placed, key=lambda it: (it.start, it.end))))


def in_order(problem: Problem, found: Sequence[Tried], effort: Effort, draw: Draw) -> List[Placed]:
    """Orders, where jobs come after others; on machines that are not alike each start fixes the jobs on its machines."""
    space = Sequences(problem, draw, by_serial(problem), not problem.alike)
    those = sorted(found, key=lambda it: it.cost)[:MOST_STARTS]
    best = searched(space, [State(by_begins(it.placed), machines_of(problem, it.placed)) for it in those], effort)
    if problem.alike:
        return serial(problem, best.state.order)
    ends = placed_apart(problem, best.state.order, best.state.fixed)
    return [Placed(job, 1, at, end - problem.times[job][at], end) for job, (at, end) in enumerate(ends)]


def machines_of(problem: Problem, placed: Sequence[Placed]) -> List[int]:
    """The machine of each job."""
    found = [-1] * problem.count
    for it in placed:
        found[it.job] = it.machine
    return found


def searched(space: Sequences, starts: List[State], effort: Effort) -> Best[State]:
    """The best order that is found."""
    space.back(starts[0])
    return search(space, effort, starts)


def branched(problem: Problem, found: Sequence[Tried], effort: Effort) -> Tuple[bool, Tried]:
    """What branching finds with half of an effort on one machine, and whether nothing costs less."""
    tree = Branching(problem, by_begins(min(found, key=lambda it: it.cost).placed))
    with effort.part() as before:
        closed = tree.run(before)
    return closed, Tried(BRANCHING, "serial", tree.value, serial(problem, tree.order), tree.order)


def as_flow(problem: Problem, found: Sequence[Tried], effort: Effort, draw: Draw) -> Tried:
    """One order on all machines of a flow shop."""
    decode = by_permutation(problem)
    those = sorted((it for it in found if it.order and it.timing == "serial"), key=lambda it: it.cost)
    starts = [State(by_begins(it.placed), []) for it in those[:MOST_STARTS]] or [State(list(range(problem.count)), [])]
    best = searched(Sequences(problem, draw, decode), starts, effort)
    placed = serial(problem, best.state.order)
    return Tried("search", "serial", best.value, placed, best.state.order)


def in_shop(problem: Problem, found: Sequence[Tried], effort: Effort, draw: Draw) -> List[Placed]:
    """Graphs of shops by tabu; before it in flow shops one order on all machines, and of sums graphs by late acceptance."""
    those = list(found)
    if problem.instance.kind.kind == "F":
        with effort.part() as before:
            those.append(as_flow(problem, found, before, draw))
    space = Routes(problem, draw)
    starts = starts_of(those, lambda it: space.state_of(it.placed))
    if not problem.greatest:
        space.back(starts[0])
        with effort.part(TRIES_BEFORE_TABU * problem.operations()) as before:
            starts.insert(0, search(space, before, starts).state)
    return space.placed(tabu(space, effort, starts).state)


def uncut(problem: Problem, found: Sequence[Tried], effort: Effort, draw: Draw) -> Tuple[str, List[Placed]]:
    """The best schedule that the search finds, in a class without cuts, and how it was found."""
    those = list(found)
    if problem.machines == 1 and problem.criterion == "Lmax" and not problem.shop:
        closed, one = branched(problem, found, effort)
        if closed:
            return BRANCHING, one.placed
        those.append(one)
    way = in_shop if problem.shop else in_lanes if not problem.bound or summed_alone(problem) else in_order
    return SEARCH, way(problem, those, effort, draw)


def cut(problem: Problem, found: Sequence[Tried], effort: Effort, draw: Draw) -> List[Piece]:
    """The best order that the search finds where work may be cut, as pieces."""
    def fine(order: Sequence[int], _: Sequence[int]) -> int:
        return int(cut_cost(problem, order) * FINE)

    told = effort.heard
    effort.heard = lambda value: told(value / FINE)
    if effort.target is not None:
        effort.target = effort.target * FINE
    starts = [State(it.order, []) for it in sorted(found, key=lambda it: it.cost)[:MOST_STARTS]]
    return cut_pieces(problem, searched(Sequences(problem, draw, fine), starts, effort).state.order)
