"""One machine, the greatest lateness, release dates and arcs: branching by J. Carlier, The one-machine sequencing problem, EJOR 11 (1982).

Schrage's schedule always takes of the jobs that are there that of the greatest tail, the time that it is still on its way after the machine
(here less its due date). Of the jobs before the one that costs most, without a pause, the last one with a smaller tail is the critical one: in
each better schedule it goes before all the jobs between, or behind all of them. Either way it gets a greater tail or head, and the bound of a
node is the cost of Schrage's schedule where jobs may be cut. Heads and tails grow along the arcs, so that Schrage's schedule keeps them.
"""
from __future__ import annotations

from heapq import heappop, heappush, heapreplace
from typing import List, NamedTuple, Sequence, Tuple

from .problems import Order, Problem
from .search import Effort
from .timing import allowed

TRIES_FOR_A_NODE = 25  # (what a node costs, in schedules that a search looks at)


class Node(NamedTuple):
    """Heads and tails of the jobs; of the nodes that are open the one of the least bound is next, of those the youngest."""
    bound: int
    age: int
    heads: List[int]
    tails: List[int]


class Critical(NamedTuple):
    """The critical job, and of the jobs behind it the least head, the work and the least tail."""
    job: int
    head: int
    work: int
    tail: int


class Branching:
    """The tree of nodes, with the best order so far."""

    def __init__(self, problem: Problem, order: Sequence[int]) -> None:
        self.problem = problem
        self.times = [it[0] for it in problem.times]
        self.topo = allowed(problem, range(problem.count))
        self.places = {job: at for at, job in enumerate(self.topo)}
        self.order: Order = list(order)
        self.value = self.value_of(order)
        self.nodes: List[Node] = []
        self.age = 0

    def value_of(self, order: Sequence[int]) -> int:
        """The greatest lateness of an order."""
        now, late = self.problem.begins[0], []
        for job in order:
            now = max(now, self.problem.release[job]) + self.times[job]
            late.append(now - self.problem.due[job])
        return max(late)

    def run(self, effort: Effort) -> bool:
        """Branches until no node can be better, or the effort ends; whether nothing costs less."""
        self.open([max(it, self.problem.begins[0]) for it in self.problem.release], [-it for it in self.problem.due])
        with effort.until_interrupted():
            while self.nodes and self.nodes[0].bound < self.value and effort.tries > 0 and not effort.met(self.value):
                effort.tries -= TRIES_FOR_A_NODE
                self.branch(heappop(self.nodes), effort)
        return not effort.interrupted and (not self.nodes or self.nodes[0].bound >= self.value or effort.met(self.value))

    def open(self, heads: List[int], tails: List[int]) -> None:
        """Opens a node, where it can be better."""
        if self.problem.bound:
            self.along_arcs(heads, tails)
        bound = self.bound(heads, tails)
        if bound < self.value:
            self.age -= 1
            heappush(self.nodes, Node(bound, self.age, heads, tails))

    def along_arcs(self, heads: List[int], tails: List[int]) -> None:
        """Lets heads and tails grow along the arcs."""
        before, after, times = self.problem.before, self.problem.after, self.times
        for job in self.topo:
            for other in before[job]:
                heads[job] = max(heads[job], heads[other] + times[other])
        for job in reversed(self.topo):
            for other in after[job]:
                tails[job] = max(tails[job], tails[other] + times[other])

    def branch(self, node: Node, effort: Effort) -> None:
        """Looks at Schrage's schedule of a node, and opens the two nodes behind it."""
        order, ends = self.schrage(node.heads, node.tails)
        value = self.value_of(order)
        if value < self.value:
            self.value, self.order = value, order
            effort.heard(value)
        found = self.critical(order, ends, node)
        if found is None:
            return
        heads, tails = list(node.heads), list(node.tails)
        heads[found.job] = max(heads[found.job], found.head + found.work)
        tails[found.job] = max(tails[found.job], found.tail + found.work)
        self.open(heads, list(node.tails))
        self.open(list(node.heads), tails)

    def critical(self, order: Order, ends: List[int], node: Node) -> Critical | None:
        """The critical job of Schrage's schedule; where there is none it is best for its node."""
        heads, tails = node.heads, node.tails
        arrives = [end + tails[job] for job, end in zip(order, ends)]
        greatest = max(arrives)
        last = max(at for at, it in enumerate(arrives) if it == greatest)
        least, work = heads[order[last]], 0
        for at in range(last, -1, -1):
            job = order[at]
            if tails[job] < tails[order[last]]:
                return Critical(job, least, work, tails[order[last]])
            least, work = min(least, heads[job]), work + self.times[job]
            if at > 0 and ends[at - 1] < ends[at] - self.times[job]:
                break
        return None

    # Schedules

    def schrage(self, heads: Sequence[int], tails: Sequence[int]) -> Tuple[Order, List[int]]:
        """Of the jobs that are there always that of the greatest tail; and when each of the order ends."""
        coming = sorted(self.topo, key=heads.__getitem__, reverse=True)
        there: List[Tuple[int, int]] = []
        now, found, ends = 0, [], []
        while coming or there:
            if not there:
                now = max(now, heads[coming[-1]])
            while coming and heads[coming[-1]] <= now:
                job = coming.pop()
                heappush(there, (-tails[job], self.places[job]))
            job = self.topo[heappop(there)[1]]
            now += self.times[job]
            found.append(job)
            ends.append(now)
        return found, ends

    def bound(self, heads: Sequence[int], tails: Sequence[int]) -> int:
        """The cost of Schrage's schedule where jobs may be cut."""
        there: List[Tuple[int, int]] = []  # (the tail of a job, less than nothing, and what is left of its time)
        now, costs = 0, []
        for job in sorted(self.topo, key=heads.__getitem__):
            head = heads[job]
            while there and now < head:
                tail, rest = there[0]
                if now + rest > head:
                    heapreplace(there, (tail, rest + now - head))
                    now = head
                else:
                    heappop(there)
                    now += rest
                    costs.append(now - tail)
            now = max(now, head)
            heappush(there, (-tails[job], self.times[job]))
        for tail, rest in sorted(there):
            now += rest
            costs.append(now - tail)
        return max(costs)
