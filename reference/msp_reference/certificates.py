"""Certificates of lower bounds: the evidence of each kind, its value, and how it is found."""
from fractions import Fraction
from typing import Callable, Iterator, NamedTuple, Optional, Union

from .classes import (CMAX, Class, FMAX, FLOW_SHOPS, IDENTICAL, JOB_SHOPS, ONE, OPEN_SHOPS, SUMC, UNIFORM, UNIT, UNRELATED)
from .instance import Instance, job_cost, paths_from
from .names import class_named
from .solvers.one_machine import block_schedule
from .solvers.parallel import position_assignment
from .solvers.unit_jobs import levels_of, lexical, lexical_labels


class Group(NamedTuple):
    """Jobs that share the machines."""
    jobs: list[int]


class Machine(NamedTuple):
    """A machine that has to do all its operations."""
    machine: int


class Line(NamedTuple):
    """A job whose operations follow one another."""
    job: int


class Levels(NamedTuple):
    """A tail, and a level of each job below which so many further jobs follow."""
    tail: int
    level: list[int]


class Segments(NamedTuple):
    """Lists of jobs, each list wholly before the next one."""
    lists: list[list[int]]


class Block(NamedTuple):
    """Release dates raised along arcs, and jobs that leave no time idle."""
    head: list[int]
    jobs: list[int]


class Prices(NamedTuple):
    """Prices of jobs, and of positions (machine, position) that have one."""
    row: list[int]
    column: dict[tuple[int, int], int]


Proof = Union[Group, Machine, Line, Levels, Segments, Block, Prices]


class Certificate(NamedTuple):
    """A bound with its proof."""
    bound: Fraction
    proof: Proof


def value(inst: Instance, proof: Proof) -> Optional[Fraction]:
    """The value of a proof, or None where its evidence does not hold for the instance."""
    if isinstance(proof, Group):
        return _group(inst, proof.jobs)
    if isinstance(proof, (Machine, Line)):
        return _shop_work(inst, proof)
    if isinstance(proof, (Levels, Segments)):
        return _unit_machines(inst, proof)
    return _block(inst, proof) if isinstance(proof, Block) else _prices(inst, proof)


def accepts(inst: Instance, certificate: Certificate) -> bool:
    """Whether the evidence holds and the bound is at most its value."""
    found = value(inst, certificate.proof)
    return found is not None and certificate.bound <= found


def _distinct(jobs: list[int]) -> bool:
    return bool(jobs) and len(set(jobs)) == len(jobs)


def _group(inst: Instance, jobs: list[int]) -> Optional[Fraction]:
    if inst.cls.crit != CMAX or inst.cls.env not in IDENTICAL + UNIFORM or not _distinct(jobs):
        return None
    speeds = sorted(inst.speeds or (1,) * inst.machines, reverse=True)
    return Fraction(sum(inst.time(j) for j in jobs), sum(speeds[:min(len(jobs), inst.machines)]))


def _shop_work(inst: Instance, proof: Union[Machine, Line]) -> Optional[Fraction]:
    if inst.cls.crit != CMAX or inst.cls.env not in OPEN_SHOPS + FLOW_SHOPS + JOB_SHOPS:
        return None
    if isinstance(proof, Line):
        return Fraction(sum(time for _, time in inst.jobs[proof.job].needs))
    return Fraction(sum(time for job in inst.jobs for machine, time in job.needs if machine == proof.machine))


def _unit_machines(inst: Instance, proof: Union[Levels, Segments]) -> Optional[Fraction]:
    if inst.cls.crit != CMAX or inst.cls.env not in IDENTICAL or inst.cls.cut or inst.cls.times != UNIT:
        return None
    return _levels(inst, proof) if isinstance(proof, Levels) else _segments(inst, proof.lists)


def _levels(inst: Instance, proof: Levels) -> Optional[Fraction]:
    level = proof.level
    supported = {before for before, after in inst.arcs if level[after] >= level[before] - 1}
    if any(mine > 0 and j not in supported for j, mine in enumerate(level)):
        return None
    high = sum(1 for mine in level if mine >= proof.tail)
    return Fraction(proof.tail + -(-high // inst.machines)) if high else None


def _segments(inst: Instance, lists: list[list[int]]) -> Optional[Fraction]:
    jobs = [j for part in lists for j in part]
    if not all(lists) or len(set(jobs)) != len(jobs):
        return None
    reach = paths_from(inst)
    for first, second in zip(lists, lists[1:]):
        if not all(reach[j] >> k & 1 for j in first for k in second):
            return None
    return Fraction(sum(-(-len(part) // inst.machines) for part in lists))


def _block(inst: Instance, proof: Block) -> Optional[Fraction]:
    head, jobs = proof
    if inst.cls.env != ONE or inst.cls.crit != FMAX or not _distinct(jobs):
        return None
    raised = {after for before, after in inst.arcs if head[after] <= head[before] + inst.time(before)}
    if any(head[j] > job.release and j not in raised for j, job in enumerate(inst.jobs)):
        return None
    end = min(head[j] for j in jobs) + sum(inst.time(j) for j in jobs)
    reach = paths_from(inst)
    inside = sum(1 << j for j in jobs)
    return Fraction(min(job_cost(inst.jobs[j], end) for j in jobs if not reach[j] & inside))


def _prices(inst: Instance, proof: Prices) -> Optional[Fraction]:
    row, column = proof
    if inst.cls.env not in UNRELATED or inst.cls.cut or inst.cls.crit != SUMC:
        return None
    count = len(inst.jobs)
    for j, job in enumerate(inst.jobs):
        for machine, time in job.needs:
            if any(row[j] + column.get((machine, position), 0) > position * time for position in range(1, count + 1)):
                return None
    return Fraction(sum(row) + sum(column.values()))


# Finding proofs.

def _find(inst: Instance, cost: Fraction) -> Proof:
    """The first of the groups, machines, lines and levels whose value is the cost."""
    return next(proof for proof in _candidates(inst) if value(inst, proof) == cost)


def _candidates(inst: Instance) -> Iterator[Proof]:
    times = [sum(time for _, time in job.needs) for job in inst.jobs]
    longest = sorted(range(len(inst.jobs)), key=lambda j: (-times[j], j))
    for count in range(1, len(longest) + 1):
        yield Group(longest[:count])
    for machine in range(inst.machines):
        yield Machine(machine)
    for j in range(len(inst.jobs)):
        yield Line(j)
    level = levels_of(inst)
    for tail in range(max(level) + 1):
        yield Levels(tail, level)


def _found_segments(inst: Instance, _: Fraction) -> Proof:
    """The lists of the lower bound that the proof of Coffman and Graham's rule finds."""
    label = lexical_labels(inst)
    moments: dict[int, dict[int, int]] = {}     # for each moment the job of each machine
    for piece in lexical(inst).pieces:
        moments.setdefault(piece.begin, {})[piece.machine] = piece.job
    lists = []
    last = max(moments)                         # the moment of the job that a list ends with
    while last >= 0:
        greatest = label[moments[last][0]]
        before = next((moment for moment in range(last - 1, -1, -1)
                       if 1 not in moments[moment] or label[moments[moment][1]] < greatest), -1)
        jobs = [j for moment in range(before + 1, last) for j in moments[moment].values()]
        lists.append(sorted(jobs + [moments[last][0]]))
        last = before
    return Segments(lists[::-1])


def _found_prices(inst: Instance, _: Fraction) -> Proof:
    """Prices of a least assignment to positions, with the greatest column price 0."""
    found = position_assignment(inst)
    columns = {(machine, position): found.prices.get((machine, position), 0) for machine in range(inst.machines)
               for position in range(1, len(inst.jobs) + 1)}
    greatest = max(columns.values())
    return Prices([price + greatest for price in found.row_price],
                  {place: price - greatest for place, price in columns.items() if price != greatest})


def _found_block(inst: Instance, _: Fraction) -> Proof:
    """The raised release dates, and the block of greatest least cost at its end."""
    found = block_schedule(inst)
    jobs = max(found.met, key=lambda met: met[0])[1]
    return Block(found.head, sorted(jobs))


_MAKERS: dict[Class, Callable[[Instance, Fraction], Proof]] = {
    class_named("P|pmtn|Cmax"): _find, class_named("Q|pmtn|Cmax"): _find, class_named("O|pmtn|Cmax"): _find,
    class_named("O2||Cmax"): _find, class_named("P|intree,p=1|Cmax"): _find,
    class_named("P2|prec,p=1|Cmax"): _found_segments, class_named("R||sumC"): _found_prices,
    class_named("1|pmtn,prec,r|fmax"): _found_block}
CERTIFIED = tuple(_MAKERS)


def make_proof(inst: Instance, cost: Fraction) -> Proof:
    """The proof that an instance of one of the eight classes gets."""
    return _MAKERS[inst.cls](inst, cost)
