"""The solved list, and solving an instance along the chain to a solved class."""
from functools import lru_cache
from typing import Callable, NamedTuple, Optional

from . import selftest
from .classes import Class, rank
from .closure import Chain, closure, route
from .instance import Instance, check
from .names import class_named, name_of
from .reductions import bring, carry
from .rows import carries
from .schedule import Schedule, Solution, settle, solution
from .solvers import assigned, one_machine, parallel, shops, uniform_cut, unit_jobs


def _always(_: Instance) -> bool:
    return True


class Solver(NamedTuple):
    """A solved class, the solver's printed name, its rule, and the test whether it can solve an instance."""
    cls: Class
    printed: str
    rule: Callable[[Instance], Schedule]
    fits: Callable[[Instance], bool] = _always


SOLVED = tuple(Solver(class_named(name), printed, rule) for name, printed, rule in (
    ("1||sumwC", "smith", one_machine.smith),
    ("1|prec|fmax", "lawler", one_machine.lawler),
    ("1||sumU", "moore", one_machine.moore),
    ("1|outtree|sumwC", "horn", one_machine.horn),
    ("1|pmtn,prec,r|fmax", "blocks", one_machine.blocks),
    ("1|prec,r,p=1|fmax", "unit-blocks", one_machine.blocks),
    ("1|pmtn,r|sumC", "shortest", one_machine.shortest),
    ("P|pmtn|Cmax", "wrap", parallel.wrap),
    ("P|intree,p=1|Cmax", "levels", unit_jobs.levels),
    ("Q||sumC", "uniform", parallel.uniform),
    ("R||sumC", "unrelated", parallel.unrelated),
    ("P|r,p=1|sumwT", "slots-late", assigned.slots_late),
    ("P|r,p=1|sumwU", "slots-count", assigned.slots_count),
    ("F2||Cmax", "johnson", shops.johnson),
    ("J2|n<=2|Cmax", "jackson", shops.jackson),
    ("O2||Cmax", "open2", shops.open2),
    ("O|pmtn|Cmax", "open-cut", shops.open_cut))) + (
    Solver(class_named("Q|pmtn|Cmax"), "uniform-cut", uniform_cut.uniform_cut, uniform_cut.uniform_cut_fits),
    Solver(class_named("P2|prec,p=1|Cmax"), "lexical", unit_jobs.lexical),
    Solver(class_named("1||sumwU"), "late-table", one_machine.late_table, one_machine.late_table_fits),
) + tuple(Solver(class_named(name), printed, rule) for name, printed, rule in (
    ("P|r,p=1|Lmax", "search", unit_jobs.search),
    ("R|intree,p=p|fmax", "tree-due", unit_jobs.due_slots),
    ("R2|prec,p=p|fmax", "pair-due", unit_jobs.due_slots),
    ("P|pmtn|Lmax", "stairs", parallel.stairs),
    ("P|pmtn|sumC", "cut-sum", parallel.cut_sum),
    ("P|pmtn,p=p|sumwC", "cut-weights", parallel.cut_weights),
    ("O|p=1|sumwC", "open-weights", shops.open_weights),
    ("O|pmtn,p=p|sumwC", "cut-open-weights", shops.open_weights),
    ("Q|p=p|fmax", "places-most", assigned.places_most),
    ("Q|p=p|sumwT", "places-late", assigned.places_late),
    ("Q|p=p|sumwU", "places-count", assigned.places_count),
    ("P|outtree,p=1|sumC", "levels-sum", unit_jobs.levels),
    ("1|prec,r,p=p|sumC", "equal-heads", one_machine.equal_heads),
    ("J2|pmtn,n<=2|Cmax", "jackson-cut", shops.jackson),
    ("F|r,p=1|sumwT", "lines-late", assigned.lines_late),
    ("F|r,p=1|sumwU", "lines-count", assigned.lines_count)))


class Answer(NamedTuple):
    """A solved instance: the chain, the solver, and the settled solution."""
    chain: Chain
    solver: Solver
    solution: Solution


class Cannot(Exception):
    """Why an instance is not solved: the status and the note."""

    def __init__(self, status: int, note: str) -> None:
        super().__init__(note)
        self.status = status
        self.note = note.encode()


@lru_cache(maxsize=None)
def find_target(cls: Class) -> Optional[Solver]:
    """The first solver to whose class a carrying chain leads, or None."""
    below = closure(carries).below[rank(cls)]
    return next((solver for solver in SOLVED if below >> rank(solver.cls) & 1), None)


def _solver_and_chain(cls: Class, target: Optional[Class]) -> tuple[Solver, Chain]:
    if target is None:
        solver = find_target(cls)
        if solver is None:
            raise Cannot(5, f"no solver for {name_of(cls)}")
    else:
        solver = next((solver for solver in SOLVED if solver.cls == target), None)
        if solver is None:
            raise Cannot(6, f"{name_of(target)} is not solved")
    chain = route(cls, solver.cls)
    if chain is None:
        raise Cannot(6, f"no chain to {name_of(solver.cls)}")
    return solver, chain


def solve_by(solver: Solver, inst: Instance) -> Solution:
    """The solution of an instance of the solver's class."""
    if not solver.fits(inst):
        raise Cannot(4, f"limit of the solver for {name_of(solver.cls)}")
    return solution(inst, solver.rule(inst))


def solve_any(inst: Instance, target: Optional[Class] = None, tested: bool = False) -> Answer:
    """The answer for an instance, at the first solved class or at a named one, with each step tested where that is asked."""
    solver, chain = _solver_and_chain(inst.cls, target)
    instances = carry(inst, chain.rows)
    lowest = solve_by(solver, instances[-1])
    found = bring(instances, chain.rows, lowest)
    settled = solution(inst, settle(found.schedule))
    if tested:
        for lower in instances:
            selftest.demand(check(lower, carried=True) is None, f"a condition of {name_of(lower.cls)}")
        selftest.demand_right(instances[-1], lowest)
        selftest.demand_right(inst, settled)
        selftest.demand_settled(settled)
    return Answer(chain, solver, settled)
