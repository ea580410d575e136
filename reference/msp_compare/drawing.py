"""Random small instances, random feasible schedules and random results, each drawn from a `random.Random`."""
from fractions import Fraction
from math import lcm, prod
from random import Random
from typing import NamedTuple, Optional

from msp_reference.classes import (CHAINS, CLASS_COUNT, Class, EQUAL, FLOW_SHOPS, FMAX, FREE, IDENTICAL, INTREE, JOB_SHOPS,
                                   ONE_OPERATION, OPEN_SHOPS, OUTTREE, SHORT_ROUTES, UNIFORM, UNIT, UNRELATED, USES_DUE,
                                   USES_WEIGHT, fixed_machines, unrank)
from msp_reference.generate import names_for
from msp_reference.instance import Arc, Curve, Instance, Job, NO_CURVE, Need
from msp_reference.instance_text import Filed, print_instance
from msp_reference.names import name_of
from msp_reference.schedule import Piece, Schedule, settle


class Sizes(NamedTuple):
    """The greatest numbers that are drawn."""
    jobs: int = 4
    time: int = 4
    date: int = 6
    machines: int = 3
    speed: int = 3
    operations: int = 3


def text_of(inst: Instance) -> bytes:
    """The text of an instance, its jobs named j1, j2 and so on."""
    return print_instance(Filed(inst, names_for(len(inst.jobs))))


def any_class(draw: Random) -> Class:
    """One of all classes."""
    return unrank(draw.randrange(CLASS_COUNT))


def small_instance(draw: Random, cls: Class, sizes: Sizes = Sizes()) -> Instance:
    """A small instance of a class, without a cycle."""
    count = draw.randint(1, sizes.jobs)
    machines = fixed_machines(cls.env) or draw.randint(1, sizes.machines)
    speeds = tuple(draw.randint(1, sizes.speed) for _ in range(machines)) if cls.env in UNIFORM else ()
    equal = {UNIT: 1, EQUAL: draw.randint(1, sizes.time)}.get(cls.times)
    jobs = []
    for _ in range(count):
        jobs.append(Job(draw.randint(0, sizes.date) if cls.heads else 0,
                        draw.randint(-2, 2 * sizes.date) if cls.crit in USES_DUE else 0,
                        draw.randint(1, 4) if cls.crit in USES_WEIGHT else 1,
                        _Needs(draw, cls, machines, sizes).draw(equal), _curve(draw) if cls.crit == FMAX else NO_CURVE))
    return Instance(cls, machines, speeds, tuple(jobs), _arcs(draw, cls.order, count))


def _curve(draw: Random) -> Curve:
    steps = tuple((draw.randint(0, 8), draw.randint(0, 9)) for _ in range(draw.randint(0, 2)))
    return draw.randint(0, 3), draw.randint(-8, 8), steps


class _Needs(NamedTuple):
    """Draws the needs of a job."""
    random: Random
    cls: Class
    machines: int
    sizes: Sizes

    def draw(self, equal: Optional[int]) -> tuple[Need, ...]:
        """The needs, all of one time where that is given."""
        if self.cls.env in JOB_SHOPS:
            places = self._route()
        else:
            places = [0] if self.cls.env in IDENTICAL + UNIFORM else list(range(self.machines))
        least = 0 if self.cls.env in OPEN_SHOPS + FLOW_SHOPS else 1
        while True:
            needs = tuple((machine, self.random.randint(least, self.sizes.time) if equal is None else equal)
                          for machine in places)
            if any(time for _, time in needs):
                return needs

    def _route(self) -> list[int]:
        most = min(self.sizes.operations, 2) if self.cls.env in SHORT_ROUTES else self.sizes.operations
        route: list[int] = []
        for _ in range(1 if self.machines == 1 else self.random.randint(1, most)):
            route.append(self.random.choice([machine for machine in range(self.machines) if route[-1:] != [machine]]))
        return route


def _arcs(draw: Random, order: int, count: int) -> tuple[Arc, ...]:
    jobs = list(range(count))
    draw.shuffle(jobs)
    arcs: list[Arc] = []
    if order == CHAINS:
        arcs = [(jobs[k], jobs[k + 1]) for k in range(count - 1) if draw.random() < 0.6]
    elif order == INTREE:
        arcs = [(jobs[k], jobs[draw.randint(k + 1, count - 1)]) for k in range(count - 1) if draw.random() < 0.8]
    elif order == OUTTREE:
        arcs = [(jobs[draw.randint(0, k - 1)], jobs[k]) for k in range(1, count) if draw.random() < 0.8]
    elif order != FREE:
        arcs = [(jobs[j], jobs[k]) for j in range(count) for k in range(j + 1, count) if draw.random() < 0.4]
    draw.shuffle(arcs)
    return tuple(arcs)


class _Growing:
    """A random feasible schedule that grows operation by operation, with idle time and, in cut classes, cuts at random."""

    def __init__(self, draw: Random, inst: Instance) -> None:
        self.draw = draw
        self.inst = inst
        self.unit = draw.choice((1, 2, 3)) * prod(inst.speeds)
        self.machine_free = [Fraction(0)] * inst.machines
        self.job_free = [Fraction(self.unit * job.release) for job in inst.jobs]
        self.left: list[dict[int, Fraction]] = [
            {0: Fraction(1)} if inst.cls.env in ONE_OPERATION else
            {oper: Fraction(1) for oper, need in enumerate(job.needs) if need[1] > 0} for job in inst.jobs]
        self.pieces: list[tuple[int, int, int, Fraction, Fraction]] = []

    def grow(self) -> None:
        """One more piece of a job whose predecessors have ended."""
        j = self.draw.choice([j for j, left in enumerate(self.left) if left and not any(
            self.left[before] for before, after in self.inst.arcs if after == j)])
        opers = sorted(self.left[j])
        oper = self.draw.choice(opers) if self.inst.cls.env in OPEN_SHOPS else opers[0]
        single = self.inst.cls.env in ONE_OPERATION
        machine = self.draw.randrange(self.inst.machines) if single else self.inst.jobs[j].needs[oper][0]
        part = self.part(self.left[j][oper])
        idle = self.draw.choice((0, 0, 1, 2, self.unit)) if self.draw.random() < 0.5 else 0
        begin = max(self.machine_free[machine], self.job_free[j]) + idle
        end = begin + part * self._whole(j, oper, machine)
        self.pieces.append((j, oper, machine, begin, end))
        self.machine_free[machine] = self.job_free[j] = end
        self.left[j][oper] -= part
        if self.left[j][oper] == 0:
            del self.left[j][oper]
        if not self.left[j]:
            for before, after in self.inst.arcs:
                if before == j:
                    self.job_free[after] = max(self.job_free[after], end)

    def part(self, left: Fraction) -> Fraction:
        """How much of what is left of an operation runs next."""
        if not self.inst.cls.cut or self.draw.random() >= 0.6:
            return left
        part = left * self.draw.choice((Fraction(1, 2), Fraction(1, 3), Fraction(2, 3)))
        return part if left - part >= Fraction(1, 30) else left

    def _whole(self, j: int, oper: int, machine: int) -> Fraction:
        needs = self.inst.jobs[j].needs
        if self.inst.cls.env in UNIFORM:
            return Fraction(self.unit * needs[0][1], self.inst.speeds[machine])
        return Fraction(self.unit * needs[machine if self.inst.cls.env in UNRELATED else oper][1])


def random_schedule(draw: Random, inst: Instance) -> Schedule:
    """A feasible schedule of an instance, far from a best one."""
    growing = _Growing(draw, inst)
    while any(growing.left):
        growing.grow()
    scale = lcm(*(moment.denominator for piece in growing.pieces for moment in piece[3:]))
    return settle(Schedule(growing.unit * scale, [Piece(j, oper, machine, int(begin * scale), int(end * scale))
                                                  for j, oper, machine, begin, end in growing.pieces]))


def random_results(draw: Random) -> bytes:
    """A results file of either version with up to eight records."""
    version, verdicts = draw.choice(((b"verdict", (b"easy", b"hard")), (b"strength", (b"easy", b"pseudo", b"hard", b"strong"))))
    lines = [b"class,%s,source" % version]
    for number in range(draw.choice((0, 1, 3, 8))):
        lines.append(b'"%s",%s,s%d' % (name_of(any_class(draw)).encode(), draw.choice(verdicts), number))
    return b"\n".join(lines) + b"\n"
