"""Schedules by Gecode, through MiniZinc: one more candidate, of classes without cuts. What it says of bounds is not taken.

It searches within a budget of nodes and by a seed, so that the same words give the same schedule. Values are at most 2*10^9.
"""
from __future__ import annotations

import shutil
import subprocess
from typing import Iterator, List, Sequence, Tuple

from .faults import Misfit
from .problems import Placed, Problem

GREATEST_VALUE = 2 * 10**9
NODES = 200_000
END_OF_SOLUTION = "----------"


def values(numbers: Sequence[int]) -> str:
    """A list of numbers in a model."""
    return f"[{', '.join(map(str, numbers))}]"


class Model:
    """The model of a problem: each operation has a begin, and on machines that are not alike a machine."""

    def __init__(self, problem: Problem) -> None:
        self.problem = problem
        self.operations: List[Tuple[int, int]] = [(job, at) for job in range(problem.count)
                                                  for at in range(len(problem.steps[job]) if problem.shop else 1)]
        self.horizon = max(problem.release) + sum(sum(it.time for it in problem.steps[job]) if problem.shop else max(problem.times[job])
                                                  for job in range(problem.count))
        self.apart = not problem.shop and not problem.alike

    def text(self) -> str:
        """The text of the model."""
        lines = ['include "disjunctive.mzn";', 'include "cumulative.mzn";', f"array[1..{len(self.operations)}] of var 0..{self.horizon}: s;",
                 f"array[1..{self.problem.count}] of var 0..{self.horizon}: e;"]
        times = [self.problem.steps[job][at].time if self.problem.shop else self.problem.times[job][0] for job, at in self.operations]
        if self.apart:
            lines += self.on_machines()
        else:
            lines.append(f"array[1..{len(times)}] of int: t = {values(times)};")
        lines += [f"constraint {it};" for it in (*self.machines(), *self.jobs())]
        lines += [f"var {-GREATEST_VALUE}..{GREATEST_VALUE}: cost;", *(f"constraint {it};" for it in self.costs()), "solve minimize cost;"]
        return "\n".join([*lines, 'output [show(s), "\\n", ' + ('show(x)' if self.apart else '"[]"') + ', "\\n"];', ""])

    def on_machines(self) -> Iterator[str]:
        """The machine and the time of each job, where they are not alike."""
        count = self.problem.count
        yield f"array[1..{count}] of var 1..{self.problem.machines}: x;"
        yield f"array[1..{count}] of var 0..{max(map(max_of, self.problem.times))}: t;"
        for job, times in enumerate(self.problem.times, 1):
            yield f"constraint t[{job}] = {values(times)}[x[{job}]];"

    def machines(self) -> Iterator[str]:
        """A machine has one operation at a time."""
        if self.problem.shop:
            for machine in range(self.problem.machines):
                yield from self.apart_in_time([at for at, (job, step) in enumerate(self.operations, 1)
                                               if self.problem.steps[job][step].machine == machine])
        elif self.apart:
            for one in range(1, self.problem.count + 1):
                for other in range(one + 1, self.problem.count + 1):
                    yield f"x[{one}] != x[{other}] \\/ s[{one}] + t[{one}] <= s[{other}] \\/ s[{other}] + t[{other}] <= s[{one}]"
        elif self.problem.machines == 1:
            yield "disjunctive(s, t)"
        else:
            yield f"cumulative(s, t, {values([1] * self.problem.count)}, {self.problem.machines})"

    def apart_in_time(self, those: Sequence[int]) -> Iterator[str]:
        """No two of the operations run at once."""
        if len(those) > 1:
            yield f"disjunctive([{', '.join(f's[{it}]' for it in those)}], [{', '.join(f't[{it}]' for it in those)}])"

    def jobs(self) -> Iterator[str]:
        """Release dates, arcs, and the operations of a job."""
        own: List[List[int]] = [[] for _ in range(self.problem.count)]
        for at, (job, _) in enumerate(self.operations, 1):
            own[job].append(at)
            yield f"s[{at}] >= {self.problem.release[job]}"
            yield from (f"s[{at}] >= e[{other + 1}]" for other in self.problem.before[job])
            yield f"e[{job + 1}] >= s[{at}] + t[{at}]"
        for those in own:
            if self.problem.open:
                yield from self.apart_in_time(those)
            else:
                yield from (f"s[{one}] + t[{one}] <= s[{other}]" for one, other in zip(those, those[1:]))

    def costs(self) -> Iterator[str]:
        """The cost is at least that of the greatest job, or of all jobs."""
        those = [self.cost_of(job) for job in range(self.problem.count)]
        if self.problem.greatest:
            yield from (f"cost >= {it}" for it in those)
        else:
            yield f"cost = {' + '.join(those)}"

    def cost_of(self, job: int) -> str:
        """What a job costs."""
        end, due, weight = f"e[{job + 1}]", self.problem.due[job], self.problem.weight[job]
        kind = self.problem.criterion
        if kind == "fmax":
            slope, base, *steps = self.problem.instance.jobs[job].curve
            parts = self.problem.parts
            more = "".join(f" + {add * parts} * bool2int({end} > {above * parts})" for above, add in zip(steps[::2], steps[1::2]))
            return f"({slope} * {end} + {base * parts}{more})"
        late = f"({end} - {due})"
        return {"Cmax": end, "Lmax": late, "C": f"{weight} * {end}", "U": f"{weight} * bool2int({end} > {due})",
                "T": f"{weight} * max(0, {end} - {due})"}[kind if kind in ("Cmax", "Lmax") else kind[-1]]


def max_of(numbers: Sequence[int]) -> int:
    """The greatest of numbers."""
    return max(numbers)


def call_of(nodes: int, seed: int) -> List[str]:
    """The words that ask Gecode for better and better schedules of a model, which it reads on its standard input."""
    return ["minizinc", "--solver", "gecode", "-a", "--fzn-flags", f"-node {nodes} -r {seed}", "-"]


def model_of(problem: Problem) -> Model:
    """The model of a problem. A Misfit where MiniZinc is not installed, or where Gecode does not take its numbers."""
    if shutil.which("minizinc") is None:
        raise Misfit("--by minizinc: there is no minizinc in PATH (apt-get install minizinc)")
    model = Model(problem)
    if model.horizon * max([1, *problem.weight]) * problem.count > GREATEST_VALUE:
        raise Misfit("--by minizinc: numbers beyond 2*10^9, which Gecode does not take")
    return model


def schedule_by(problem: Problem, nodes: int = NODES, seed: int = 1) -> List[Placed]:
    """The best schedule that Gecode finds within so many nodes; none where it finds none."""
    model = model_of(problem)
    got = subprocess.run(call_of(nodes, seed), input=model.text(), capture_output=True, text=True, check=False)
    if got.returncode:
        raise Misfit(f"--by minizinc: {got.stderr.strip().splitlines()[-1] if got.stderr.strip() else 'it failed'}")
    return last_of(model, got.stdout)


def last_of(model: Model, printed: str) -> List[Placed]:
    """The last of the schedules that were printed, which is the best; none where there is none."""
    solutions = printed.split(END_OF_SOLUTION)[:-1]
    return read(model, solutions[-1]) if solutions else []


def read(model: Model, solution: str) -> List[Placed]:
    """The pieces of a solution: lines of begins and of machines."""
    begins, machines = ([int(it) for it in line.strip("[] ").split(",") if it.strip()] for line in solution.strip().splitlines()[:2])
    problem, found = model.problem, []
    free = [0] * problem.machines
    for at in sorted(range(len(begins)), key=lambda it: (begins[it], it)):
        job, step = model.operations[at]
        if problem.shop:
            number, machine, time = problem.steps[job][step]
        else:
            number, machine = 1, machines[at] - 1 if machines else min(it for it in range(problem.machines) if free[it] <= begins[at])
            time = problem.times[job][machine]
        free[machine] = begins[at] + time
        found.append(Placed(job, number, machine, begins[at], begins[at] + time))
    return found
