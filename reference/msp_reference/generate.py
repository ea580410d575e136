"""Generated instances: the linear congruential draws of the command `trial`."""
from .classes import (CHAINS, Class, EQUAL, FMAX, FREE, GENERAL, IDENTICAL, INTREE, JOB_SHOPS, OUTTREE, SHORT_ROUTES, UNIFORM,
                      UNRELATED, USES_DUE, USES_WEIGHT, fixed_machines)
from .instance import Arc, Curve, Instance, Job, NO_CURVE, Need


class Draws:
    """The draws of an instance of a class from a seed."""

    def __init__(self, cls: Class, seed: int) -> None:
        self.state = seed
        self.cls = cls
        self.machines = fixed_machines(cls.env) or 4
        self.speeds = tuple(1 + self.draw(4) for _ in range(self.machines)) if cls.env in UNIFORM else ()
        self.equal_time = 1 + self.draw(100) if cls.times == EQUAL else 1

    def draw(self, below: int) -> int:
        """The next draw, a number below a bound."""
        self.state = (1103515245 * self.state + 12345) % 2 ** 31
        return self.state // 65536 % below

    def job(self) -> Job:
        """The next job."""
        cls = self.cls
        needs = self._route() if cls.env in JOB_SHOPS else self._needs()
        release = self.draw(1000) if cls.heads else 0
        due = self.draw(1000) if cls.crit in USES_DUE else 0
        weight = 1 + self.draw(100) if cls.crit in USES_WEIGHT else 1
        return Job(release, due, weight, needs, self._curve() if cls.crit == FMAX else NO_CURVE)

    def _needs(self) -> tuple[Need, ...]:
        general = self.cls.times == GENERAL
        if self.cls.env in IDENTICAL + UNIFORM:
            return ((0, 1 + self.draw(100) if general else self.equal_time),)
        times = []
        for machine in range(self.machines):
            if not general:
                times.append(self.equal_time)
            elif self.cls.env in UNRELATED or machine == 0:
                times.append(1 + self.draw(100))
            else:
                times.append(self.draw(101))
        return tuple(enumerate(times))

    def _route(self) -> tuple[Need, ...]:
        count = 1
        if self.machines > 1:
            count += self.draw(2 if self.cls.env in SHORT_ROUTES else 4)
        needs: list[Need] = []
        for _ in range(count):
            if needs:
                machine = (needs[-1][0] + 1 + self.draw(self.machines - 1)) % self.machines
            else:
                machine = self.draw(self.machines)
            needs.append((machine, 1 + self.draw(100) if self.cls.times == GENERAL else self.equal_time))
        return tuple(needs)

    def _curve(self) -> Curve:
        slope = self.draw(10)
        base = self.draw(1000) - 500
        steps = []
        for _ in range(self.draw(3)):
            above = self.draw(2000)
            steps.append((above, self.draw(100)))
        return slope, base, tuple(steps)

    def arcs(self, count: int) -> list[Arc]:
        """The arcs between so many jobs."""
        if self.cls.order in (CHAINS, INTREE):
            return [(j, self._later(j, count)) for j in range(count - 1) if self.draw(3) != 0]
        if self.cls.order == OUTTREE:
            return [(self._earlier(j), j) for j in range(1, count) if self.draw(3) != 0]
        arcs: dict[Arc, None] = {}
        for j in range(1, 1 if self.cls.order == FREE else count):
            arcs[self._earlier(j), j] = None
            arcs[self._earlier(j), j] = None
        return list(arcs)

    def _later(self, j: int, count: int) -> int:
        return j + 1 if self.cls.order == CHAINS else j + 1 + self.draw(min(count - 1 - j, 5))

    def _earlier(self, j: int) -> int:
        return j - 1 - self.draw(min(j, 5))


def generate(cls: Class, job_count: int, seed: int) -> Instance:
    """The generated instance of a class with a number of jobs from 1 to 400."""
    draws = Draws(cls, seed)
    jobs = tuple(draws.job() for _ in range(job_count))
    return Instance(cls, draws.machines, draws.speeds, jobs, tuple(draws.arcs(job_count)))


def names_for(job_count: int) -> tuple[bytes, ...]:
    """The names j1, j2 and so on."""
    return tuple(b"j%d" % number for number in range(1, job_count + 1))
