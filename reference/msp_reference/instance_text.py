"""Instance texts: reading line by line with the exact first fault, and printing."""
from math import lcm
from typing import Iterator, NamedTuple

from .classes import (Class, EQUAL, FMAX, FLOW_SHOPS, FREE, GENERAL, IDENTICAL, JOB_SHOPS, OPEN_SHOPS, SHORT_ROUTES, UNIFORM,
                      UNRELATED, USES_DUE, USES_WEIGHT, fixed_machines)
from .faults import TextFault
from .instance import (Arc, Curve, GREATEST, GREATEST_EQUAL_TIME, GREATEST_MULTIPLE, GREATEST_SPEED, Instance, Job, MOST_ARCS,
                       MOST_JOBS, MOST_MACHINES, MOST_OPERATIONS, MOST_STEPS, NO_CURVE, Need, cycle, least_time,
                       repeated_machine, wrong_degree, zero_needs)
from .lines import Lines
from .names import NameFault, name_of, parse


class Filed(NamedTuple):
    """An instance with the names of its jobs."""
    instance: Instance
    names: tuple[bytes, ...]

    def places(self) -> dict[bytes, int]:
        """The place of each job's name."""
        return {name: j for j, name in enumerate(self.names)}


class Front(NamedTuple):
    """The instance text at the front of a text: what it says, the place behind it, and the next line's number."""
    filed: Filed
    place: int
    line: int


def read_instance(text: bytes) -> Filed:
    """A whole instance text; raises TextFault with the first fault."""
    lines = Lines(text)
    filed = _Reader(lines).read()
    lines.end_of_text()
    _demand_class(filed)
    return filed


def read_front(text: bytes) -> Front:
    """The instance text at the front of a text."""
    lines = Lines(text)
    filed = _Reader(lines).read()
    _demand_class(filed)
    return Front(filed, lines.place, lines.line + 1)


class _Reader:
    """Reads the lines of an instance text, `end` among them."""

    def __init__(self, lines: Lines) -> None:
        self.lines = lines
        if lines.next() != [b"msp", b"1"]:
            raise lines.fault("head")
        self.cls = self._class()
        self.machines = fixed_machines(self.cls.env) or self._machines()
        self.speeds = self._speeds()
        self.time = self._equal_time()
        self.keys = tuple(_keys(self.cls))
        self.places: dict[bytes, int] = {}

    def read(self) -> Filed:
        """The instance with its names."""
        jobs: list[Job] = []
        arcs: dict[Arc, None] = {}
        while True:
            fields = self.lines.next()
            jobs_allowed = () if arcs else (b"job",)
            arcs_allowed = () if self.cls.order == FREE else (b"arc",)
            self.lines.demand(fields, b"end", *jobs_allowed, *arcs_allowed)
            if fields[0] == b"end":
                self.lines.count(fields, 1)
                break
            if fields[0] == b"job":
                name, job = self.job(fields)
                self.places[name] = len(jobs)
                jobs.append(job)
            else:
                arcs[self._arc(fields, arcs)] = None
        inst = Instance(self.cls, self.machines, self.speeds, tuple(jobs), tuple(arcs))
        return Filed(inst, tuple(self.places))

    def _class(self) -> Class:
        fields = self.lines.next()
        if len(fields) != 2 or fields[0] != b"class":
            raise self.lines.fault("head")
        try:
            return parse(fields[1])
        except NameFault:
            raise self.lines.fault("head") from None

    def _machines(self) -> int:
        return self.lines.number(self.lines.only(b"machines", 2)[1], 1, MOST_MACHINES, "machines")

    def _speeds(self) -> tuple[int, ...]:
        if self.cls.env not in UNIFORM:
            return ()
        fields = self.lines.only(b"speeds", 1 + self.machines)
        speeds = tuple(self.lines.number(field, 1, GREATEST_SPEED, "speed") for field in fields[1:])
        if lcm(*speeds) > GREATEST_MULTIPLE:
            raise self.lines.limit("multiple")
        return speeds

    def _equal_time(self) -> int:
        if self.cls.times != EQUAL:
            return 1
        return self.lines.number(self.lines.only(b"time", 2)[1], 1, GREATEST_EQUAL_TIME, "time")

    def job(self, fields: list[bytes]) -> tuple[bytes, Job]:
        """The name of a job, and the job with its further lines."""
        lines = self.lines
        if len(self.places) == MOST_JOBS:
            raise lines.limit("jobs")
        lines.count(fields, 2 + len(self.keys))
        name = lines.name(fields[1])
        values: dict[bytes, int] = {}
        for field, (key, least, greatest, what) in zip(fields[2:], self.keys):
            if not field.startswith(key):
                raise lines.fault("key")
            values[key] = lines.number(field[len(key):], least, greatest, what)
        if name in self.places:
            raise lines.fault("name again")
        needs = self._needs(values.get(b"p=", self.time))
        curve = self._curve() if self.cls.crit == FMAX else NO_CURVE
        return name, Job(values.get(b"r=", 0), values.get(b"d=", 0), values.get(b"w=", 1), needs, curve)

    def _needs(self, time: int) -> tuple[Need, ...]:
        if self.cls.env in JOB_SHOPS:
            return self._route(time)
        if self.cls.env in IDENTICAL + UNIFORM:
            return ((0, time),)
        if self.cls.times != GENERAL:
            return tuple((machine, time) for machine in range(self.machines))
        fields = self.lines.only(b"times", 1 + self.machines)
        return tuple((machine, self.lines.number(field, least_time(self.cls.env), GREATEST, "time"))
                     for machine, field in enumerate(fields[1:]))

    def _route(self, time: int) -> tuple[Need, ...]:
        lines = self.lines
        fields = lines.next()
        lines.demand(fields, b"route")
        width = 2 if self.cls.times == GENERAL else 1
        operations = -(-(len(fields) - 1) // width)
        if operations > MOST_OPERATIONS:
            raise lines.limit("route")
        if operations < 1 or (len(fields) - 1) % width or (self.cls.env in SHORT_ROUTES and operations > 2):
            raise lines.fault("count of fields")
        needs = []
        for place in range(1, len(fields), width):
            machine = lines.number(fields[place], 1, self.machines, "machines") - 1
            needs.append((machine, lines.number(fields[place + 1], 1, GREATEST, "time") if width == 2 else time))
        return tuple(needs)

    def _curve(self) -> Curve:
        lines = self.lines
        fields = lines.next()
        lines.demand(fields, b"curve")
        if -(-(len(fields) - 3) // 2) > MOST_STEPS:
            raise lines.limit("steps")
        if len(fields) < 3 or len(fields) % 2 == 0:
            raise lines.fault("count of fields")
        slope = lines.number(fields[1], 0, GREATEST, "slope")
        base = lines.number(fields[2], -GREATEST, GREATEST, "base")
        steps = tuple((lines.number(fields[place], 0, GREATEST, "above"), lines.number(fields[place + 1], 0, GREATEST, "add"))
                      for place in range(3, len(fields), 2))
        return slope, base, steps

    def _arc(self, fields: list[bytes], arcs: dict[Arc, None]) -> Arc:
        if len(arcs) == MOST_ARCS:
            raise self.lines.limit("arcs")
        self.lines.count(fields, 3)
        arc = (self.lines.known(fields[1], self.places), self.lines.known(fields[2], self.places))
        if arc in arcs:
            raise self.lines.fault("arc again")
        return arc


def _keys(cls: Class) -> Iterator[tuple[bytes, int, int, str]]:
    """The keys of a job's line, each with its least and greatest number and the quantity's word."""
    if cls.times == GENERAL and cls.env in IDENTICAL + UNIFORM:
        yield b"p=", 1, GREATEST, "time"
    if cls.heads:
        yield b"r=", 0, GREATEST, "release"
    if cls.crit in USES_DUE:
        yield b"d=", -GREATEST, GREATEST, "due"
    if cls.crit in USES_WEIGHT:
        yield b"w=", 1, GREATEST, "weight"


def _demand_class(filed: Filed) -> None:
    """The conditions of the class and the cycle, whose faults come after those of the lines."""
    inst, names = filed
    if not inst.jobs:
        raise TextFault("no jobs")
    for name, job in zip(names, inst.jobs):
        if zero_needs(inst.cls, job) or repeated_machine(inst.cls, job):
            raise TextFault(b"job %s: needs" % name)
    wrong = wrong_degree(inst.cls, len(inst.jobs), inst.arcs)
    if wrong is not None:
        raise TextFault(b"job %s: degree" % names[wrong])
    on_cycle = cycle(len(inst.jobs), inst.arcs)
    if on_cycle is not None:
        raise TextFault(b"cycle at %s" % names[on_cycle])


def print_instance(filed: Filed) -> bytes:
    """The canonical instance text."""
    inst = filed.instance
    names = [name.decode() for name in filed.names]
    lines = ["msp 1", f"class {name_of(inst.cls)}"]
    if fixed_machines(inst.cls.env) is None:
        lines.append(f"machines {inst.machines}")
    if inst.cls.env in UNIFORM:
        lines.append("speeds " + " ".join(map(str, inst.speeds)))
    if inst.cls.times == EQUAL:
        lines.append(f"time {inst.time(0)}")
    for name, job in zip(names, inst.jobs):
        lines.extend(_job_lines(inst.cls, name, job))
    lines.extend(f"arc {names[before]} {names[after]}" for before, after in inst.arcs)
    return "".join(line + "\n" for line in lines + ["end"]).encode()


def _job_lines(cls: Class, name: str, job: Job) -> Iterator[str]:
    values = {b"p=": job.needs[0][1], b"r=": job.release, b"d=": job.due, b"w=": job.weight}
    yield " ".join(["job", name] + [f"{key.decode()}{values[key]}" for key, _, _, _ in _keys(cls)])
    if cls.env in JOB_SHOPS:
        yield " ".join(["route"] + [f"{machine + 1} {time}" if cls.times == GENERAL else str(machine + 1)
                                    for machine, time in job.needs])
    elif cls.env in UNRELATED + OPEN_SHOPS + FLOW_SHOPS and cls.times == GENERAL:
        yield "times " + " ".join(str(time) for _, time in job.needs)
    if cls.crit == FMAX:
        slope, base, steps = job.curve
        yield " ".join(map(str, ["curve", slope, base] + [number for step in steps for number in step]))
