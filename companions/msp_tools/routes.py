"""Schedules of shops as graphs: the order of the operations on each machine, and in open shops that of each job too.

A neighbour exchanges two operations that follow each other without a pause, where the end of a job that costs something hangs on them: such
an exchange never makes a circle, since what lay between them on another way would have taken time.
"""
from __future__ import annotations

from typing import Dict, List, NamedTuple, Sequence, Tuple

from .problems import Placed, Problem
from .search import Draw

MOST_DRAWN = 12  # (operations, until an arc is found)
Arc = Tuple[int, int, bool]  # (two operations, and whether they follow each other on a machine; else in a job)


class State(NamedTuple):
    """The operations in the order of the graph, and their links."""
    topo: List[int]
    machine_before: List[int]
    machine_after: List[int]
    job_before: List[int]
    job_after: List[int]


class Trial(NamedTuple):
    """A neighbour: the arc that was turned, where in the order it changes, the changed stretch, and the ends of all operations."""
    arc: Arc
    low: int
    high: int
    stretch: List[int]
    ends: List[int]
    value: int


class Routes:
    """A space of graphs. Nodes are the operations, then the heads of the jobs (their release dates), then the grounds: when each machine is free
    first, and behind them the last one, which stands for none."""

    def __init__(self, problem: Problem, draw: Draw) -> None:
        self.problem, self.draw = problem, draw
        self.jobs = [job for job in range(problem.count) for _ in problem.steps[job]]
        self.steps = [step for job in range(problem.count) for step in problem.steps[job]]
        self.count = len(self.steps)
        self.grounds = self.count + problem.count
        self.ground = self.grounds + problem.machines
        size = self.ground + 1
        self.times = [it.time for it in self.steps] + [0] * (size - self.count)
        self.heads_move = problem.bound
        self.cost = problem.costing()
        self.held = State([], [self.ground] * size, [self.ground] * size, [self.ground] * size, [self.ground] * size)
        self.ends = [0] * size
        self.last = [0] * problem.count
        self.places = [0] * size
        self.value = 0
        self.trial: Trial | None = None
        self.arcs: List[Arc] | None = None

    # What is held

    def back(self, state: State) -> None:
        """Holds a state."""
        self.held = State(*(list(it) for it in state))
        for at, node in enumerate(self.held.topo):
            self.places[node] = at
        self.settle_last()
        self.ends = [0] * (self.ground + 1)
        self.ends[self.count: self.ground] = [*self.problem.release, *self.problem.begins]
        self.run(self.held.topo, self.ends)
        self.value = self.cost([self.ends[it] for it in self.last])
        self.arcs = None

    def state(self) -> State:
        """What is held, for later."""
        return State(*(list(it) for it in self.held))

    def settle_last(self) -> None:
        """Finds the last operation of each job."""
        after = self.held.job_after
        for node in range(self.count):
            if after[node] == self.ground:
                self.last[self.jobs[node]] = node

    def run(self, nodes: Sequence[int], ends: List[int]) -> None:
        """Works out the ends of nodes, in an order of the graph."""
        job_before, machine_before, times = self.held.job_before, self.held.machine_before, self.times
        if not self.heads_move:
            for node in nodes:
                one, other = ends[job_before[node]], ends[machine_before[node]]
                ends[node] = (one if one > other else other) + times[node]
            return
        for node in nodes:
            if node < self.count:
                ends[node] = max(ends[job_before[node]], ends[machine_before[node]]) + times[node]
            else:
                job = node - self.count
                ends[node] = max([self.problem.release[job], *(ends[self.last[it]] for it in self.problem.before[job])])

    # Neighbours

    def critical(self) -> List[Arc]:
        """The arcs without a pause on which the end of a job hangs that costs something."""
        ends, times, count, moving, turned = self.ends, self.times, self.count, self.heads_move, self.problem.open
        machine_before, job_before = self.held.machine_before, self.held.job_before
        seen, found = [False] * (self.ground + 1), []
        stack = [self.last[job] for job in self.costly()]
        while stack:
            node = stack.pop()
            if seen[node]:
                continue
            seen[node] = True
            if node >= count:
                stack += self.before_head(node)
                continue
            start = ends[node] - times[node]
            before = machine_before[node]
            if before < count and ends[before] == start:
                if not moving or self.jobs[before] not in self.problem.before[self.jobs[node]]:
                    found.append((before, node, True))
                stack.append(before)
            before = job_before[node]
            if (before < count or moving) and ends[before] == start:
                if turned and before < count:
                    found.append((before, node, False))
                stack.append(before)
        return found

    def before_head(self, head: int) -> List[int]:
        """The last operations of the jobs on which a head hangs."""
        if head >= self.grounds:
            return []
        those = [self.last[it] for it in self.problem.before[head - self.count]]
        return [it for it in those if self.ends[it] == self.ends[head]]

    def costly(self) -> List[int]:
        """The jobs whose ends make the cost."""
        ends = [self.ends[it] for it in self.last]
        jobs = range(self.problem.count)
        costs = self.problem.costs(jobs, ends)
        if self.problem.greatest:
            return [job for job in jobs if costs[job] == self.value]
        return [job for job in jobs if costs[job] > 0]

    def turn(self, arc: Arc) -> None:
        """Exchanges two operations that follow each other; once more for the exchanged ones turns back."""
        one, other, on_machine = arc
        before, after = (self.held.machine_before, self.held.machine_after) if on_machine else (self.held.job_before, self.held.job_after)
        front, behind = before[one], after[other]
        before[other], before[one], after[other], after[one] = front, other, one, behind
        if front < self.count:
            after[front] = other
        if behind < self.count:
            before[behind] = one
        if not on_machine and behind == self.ground:
            self.last[self.jobs[one]] = one

    def turn_back(self, arc: Arc) -> None:
        """Undoes a turn."""
        one, other, on_machine = arc
        self.turn((other, one, on_machine))

    def stretch(self, arc: Arc, between: Sequence[int]) -> List[int]:
        """The operations of an arc, and those between them in the order of the graph, in an order that the turned graph allows."""
        one, other, _ = arc
        ends, times = self.ends, self.times
        start, head = ends[other] - times[other], self.held.job_before[other]
        front, behind = [], []
        for node in between:
            # (what begins sooner hangs on none of the two that is exchanged, and what begins later is none on which they hang)
            if ends[node] - times[node] < start or node == head:
                front.append(node)
            else:
                behind.append(node)
        return [*front, other, one, *behind]

    def look(self, arc: Arc) -> Trial:
        """What a turn gives."""
        low, high = self.places[arc[0]], self.places[arc[1]]
        stretch = self.stretch(arc, self.held.topo[low + 1: high])
        self.turn(arc)
        found = self.ends[:]
        self.run([*stretch, *self.held.topo[high + 1:]], found)
        value = self.cost([found[it] for it in self.last])
        self.turn_back(arc)
        return Trial(arc, low, high, stretch, found, value)

    def drawn(self) -> Arc | None:
        """An arc without a pause, of which the later operation begins sooner where it is turned; None where what was drawn is none."""
        node = self.draw.below(self.count)
        on_machine = not self.problem.open or self.draw.one() < 0.5
        before, other = self.held.machine_before[node], self.held.job_before[node]
        if not on_machine:
            before, other = other, before
        start = self.ends[node] - self.times[node]
        if before >= self.count or self.ends[before] != start or self.ends[other] == start:
            return None
        if self.heads_move and self.jobs[before] in self.problem.before[self.jobs[node]]:
            return None
        return before, node, on_machine

    def neighbour(self) -> int | None:
        """Turns an arc: of the sums any one, and of the greatest costs one on which they hang."""
        if not self.problem.greatest:
            arc = next(filter(None, (self.drawn() for _ in range(MOST_DRAWN))), None)
        else:
            self.arcs = self.critical() if self.arcs is None else self.arcs
            arc = self.arcs[self.draw.below(len(self.arcs))] if self.arcs else None
        if arc is None:
            return None
        self.trial = self.look(arc)
        return self.trial.value

    def take(self) -> None:
        """Holds the neighbour."""
        if self.trial is not None:
            self.hold(self.trial)

    def hold(self, trial: Trial) -> None:
        """Holds a neighbour."""
        self.turn(trial.arc)
        self.held.topo[trial.low: trial.high + 1] = trial.stretch
        for at, node in enumerate(trial.stretch, trial.low):
            self.places[node] = at
        self.ends, self.value, self.arcs = trial.ends, trial.value, None

    # Schedules

    def placed(self, state: State) -> list[Placed]:
        """The pieces of a state."""
        self.back(state)
        return [Placed(self.jobs[node], self.steps[node].number, self.steps[node].machine, self.ends[node] - self.times[node], self.ends[node])
                for node in range(self.count)]

    def state_of(self, placed: Sequence[Placed]) -> State:
        """The state of a schedule."""
        nodes = {(self.jobs[node], self.steps[node].number): node for node in range(self.count)}
        found = State([], *([self.ground] * (self.ground + 1) for _ in range(4)))
        last_on = {machine: self.grounds + machine for machine in range(self.problem.machines)}
        last_of: Dict[int, int] = {}
        order = sorted(placed, key=lambda it: (it.start, it.end))
        for it in order:
            node = nodes[it.job, it.number]
            if it.job not in last_of:
                last_of[it.job] = self.count + it.job
                found.topo.extend([self.count + it.job] * self.heads_move)
            for lasts, key, before, after in ((last_on, it.machine, found.machine_before, found.machine_after),
                                              (last_of, it.job, found.job_before, found.job_after)):
                front = lasts[key]
                before[node] = front
                if front < self.count:
                    after[front] = node
                lasts[key] = node
            found.topo.append(node)
        return found
