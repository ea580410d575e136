"""The rules of the field: orders of jobs, and choices of what goes next. Each names its schedule, which its timing makes.

Only sums, products and quotients are compared, so that each machine finds the same order.
"""
from __future__ import annotations

from heapq import heappop, heappush
from typing import Callable, Dict, Iterator, List, NamedTuple, Sequence, Tuple

from .cutting import cut_cost
from .problems import Order, Placed, Problem, Step, ends_of
from .sequences import by_permutation
from .timing import Choice, active, allowed, chosen, dispatched, listed, serial

MOST_ROUNDS = 200  # (of Potts's rule)
MOST_FOR_NEH = 120  # (jobs, where each place is costed anew)
LOOKS_AHEAD = 2  # (of apparent tardiness cost, in mean times)
LOOKS_AHEAD_IN_SHOPS = 2, 5, 15
WAITS = 2  # (of an operation, in its times)


class Tried(NamedTuple):
    """A schedule of a rule: its names, its cost in parts, and its pieces; where work may be cut, the order in their place."""
    rule: str
    timing: str
    cost: float
    placed: List[Placed]
    order: Order


# Orders

def tails(problem: Problem) -> List[int]:
    """The time of the longest path along the arcs from each job on, its own included."""
    found = [0] * problem.count
    for job in reversed(allowed(problem, list(range(problem.count)))):
        found[job] = problem.work(job) + max((found[it] for it in problem.after[job]), default=0)
    return found


def from_the_end(problem: Problem) -> Order:
    """From the last place on, of the jobs with none behind them the one that costs least there."""
    end = sum(map(problem.work, range(problem.count))) // (1 if problem.shop else problem.machines)
    rest, found = set(range(problem.count)), []
    while rest:
        last = min((job for job in rest if not any(it in rest for it in problem.after[job])), key=lambda it: (problem.costs([it], [end])[0], it))
        found.append(last)
        rest.remove(last)
        end -= problem.work(last) // (1 if problem.shop else problem.machines)
    return found[::-1]


def by_number(problem: Problem, key: Callable[[int], float]) -> Order:
    """The jobs by a number, the least first."""
    return sorted(range(problem.count), key=lambda job: (key(job), job))


def orders(problem: Problem) -> Dict[str, Order]:
    """The orders of the rules that compare one number of each job."""
    jobs, keys = range(problem.count), problem.instance.kind.keys
    due, weight = problem.due, problem.weight
    work = [problem.work(job) for job in jobs]
    longest = tails(problem)
    rules: Dict[str, Callable[[int], float]] = {}
    if "d" in keys:
        rules["earliest due date"] = lambda job: due[job] - (longest[job] - work[job])
        rules["least slack"] = lambda job: due[job] - longest[job]
    if "w" in keys:
        rules["weighted shortest time"] = lambda job: work[job] / weight[job] if weight[job] else float("inf")
        rules["greatest weight"] = lambda job: -weight[job]
    rules["shortest time"] = lambda job: work[job]
    rules["longest time"] = lambda job: -work[job]
    if "r" in keys:
        rules["earliest release date"] = lambda job: problem.release[job]
    if problem.bound:
        rules["critical path"] = lambda job: -longest[job]
    found = {"as listed": list(jobs)}
    found.update({name: by_number(problem, key) for name, key in rules.items()})
    if problem.criterion == "fmax":
        found["least cost at the end"] = from_the_end(problem)
    return found


# One machine, release dates and due dates

def by_due_dates(problem: Problem, release: Sequence[int]) -> Tuple[Order, List[int]]:
    """Of the jobs that are there always that of the earliest due date, by release dates of one's own; and when each of the order ends."""
    coming = sorted(range(problem.count), key=lambda job: (-release[job], -job))
    there: List[Tuple[int, int]] = []
    now, found, ends = problem.begins[0], [], []
    while coming or there:
        if not there:
            now = max(now, release[coming[-1]])
        while coming and release[coming[-1]] <= now:
            job = coming.pop()
            heappush(there, (problem.due[job], job))
        job = heappop(there)[1]
        now += problem.times[job][0]
        found.append(job)
        ends.append(now)
    return found, ends


def potts(problem: Problem) -> Order:
    """The best of a sequence of such orders: where a job of a later due date stands before the latest one without a pause between them, it waits
    for that one's release date from then on."""
    release, best, least = list(problem.release), list(range(problem.count)), None
    for _ in range(min(problem.count, MOST_ROUNDS)):
        order, ends = by_due_dates(problem, release)
        late = [end - problem.due[job] for job, end in zip(order, ends)]
        if least is None or max(late) < least:
            least, best = max(late), order
        place = at = late.index(max(late))
        while at > 0 and ends[at - 1] == ends[at] - problem.times[order[at]][0] and problem.due[order[at - 1]] <= problem.due[order[place]]:
            at -= 1
        if at == 0 or ends[at - 1] < ends[at] - problem.times[order[at]][0]:
            break
        release[order[at - 1]] = max(release[order[at - 1]], release[order[place]])
    return best


# Choices

def apparent(problem: Problem) -> Choice:
    """The most apparent tardiness cost: weight for time, less where there is slack."""
    jobs = range(problem.count)
    total = sum(map(problem.work, jobs))
    mean = max(total / sum(map(len, problem.steps)) if problem.shop else total / problem.count, 1)
    rest = [rests(problem, job) for job in jobs]

    def choice(job: int, step: Step, now: int) -> Tuple[float, ...]:
        slack = max(problem.due[job] - now - rest[job].get(step.number, step.time), 0) / (LOOKS_AHEAD * mean)
        # (in the place of the exponential function, which machines round differently)
        return -problem.weight[job] / step.time / (1 + slack + slack * slack / 2), job

    return choice


def remaining(problem: Problem, ahead: int | None) -> Choice:
    """In flow and job shops the most weight for the geometric mean of time and work remaining; where it looks ahead, less where there is slack beyond
    the waits that are to come, which are in proportion to the times (Vepsalainen and Morton 1987)."""
    rest = [rests(problem, job) for job in range(problem.count)]
    mean = max(sum(map(problem.work, range(problem.count))) / max(problem.operations(), 1), 1)

    def choice(job: int, step: Step, now: int) -> Tuple[float, ...]:
        left, share = rest[job][step.number], 1.0
        if ahead is not None:
            slack = max(problem.due[job] - now - step.time - WAITS * (left - step.time), 0) / (ahead * mean)
            share = 1 + slack + slack * slack / 2
        return -problem.weight[job] * problem.weight[job] / (step.time * left * share * share), job

    return choice


def rests(problem: Problem, job: int) -> Dict[int, int]:
    """The work of a shop's job from each operation on."""
    found, rest = {}, 0
    for step in reversed(problem.steps[job]) if problem.shop else []:
        rest += step.time
        found[step.number] = rest
    return found


def choices(problem: Problem) -> Dict[str, Choice]:
    """The rules of shops that look at operations."""
    rest = [rests(problem, job) for job in range(problem.count)]
    after = [longest - problem.work(job) for job, longest in enumerate(tails(problem))]
    found: Dict[str, Choice] = {
        "shortest operation": lambda job, step, now: (step.time, job),
        "most work remaining": lambda job, step, now: (-rest[job][step.number] - after[job], job),
        "least work remaining": lambda job, step, now: (rest[job][step.number], job)}
    if "d" in problem.instance.kind.keys:
        found["least slack of operations"] = lambda job, step, now: (problem.due[job] - rest[job][step.number] - after[job], job)
        found["due date of operations"] = lambda job, step, now: (problem.due[job] - rest[job][step.number] + step.time, job)
    if not problem.greatest and not problem.open:
        found["time and work remaining"] = remaining(problem, None)
        if "d" in problem.instance.kind.keys:
            found.update((f"apparent tardiness cost with waits, {ahead} ahead", remaining(problem, ahead)) for ahead in LOOKS_AHEAD_IN_SHOPS)
    return found


# Flow shops

def johnson(problem: Problem) -> Iterator[Order]:
    """Johnson's orders of the first and the last machines, as many of each."""
    times = [[0] * problem.machines for _ in range(problem.count)]
    for job, steps in enumerate(problem.steps):
        for step in steps:
            times[job][step.machine] = step.time
    for split in range(1, problem.machines):
        first = sorted((sum(it[:split]), job) for job, it in enumerate(times) if sum(it[:split]) <= sum(it[-split:]))
        last = sorted((-sum(it[-split:]), job) for job, it in enumerate(times) if sum(it[:split]) > sum(it[-split:]))
        yield [job for _, job in first + last]


def inserted(problem: Problem, order: Sequence[int]) -> Order:
    """NEH: each job of an order in turn at the place where those so far cost least."""
    cost = by_permutation(problem)
    found: Order = []
    for job in order:
        longer = [[*found[:at], job, *found[at:]] for at in range(len(found), -1, -1)]
        found = min(longer, key=lambda it: cost(it, ()))
    return found


def flows(problem: Problem) -> Iterator[Tuple[str, Order]]:
    """The orders for flow shops: Johnson's and NEH."""
    cost = by_permutation(problem)
    yield "Johnson", min((allowed(problem, it) for it in johnson(problem)), key=lambda it: cost(it, ()))
    if problem.count <= MOST_FOR_NEH and not problem.bound:
        those = orders(problem)
        first = those["longest time"] if problem.criterion == "Cmax" else those.get("earliest due date", those["shortest time"])
        yield "NEH", inserted(problem, first)


# Schedules

def tried(problem: Problem) -> Iterator[Tried]:
    """The schedules of all rules, with their costs; where work may be cut, their orders."""
    those = list(orders(problem).items())
    if problem.cut:
        for name, order in those:
            yield Tried(name, "cut", float(cut_cost(problem, order)), [], order)
        return
    if problem.instance.kind.kind == "F" and problem.machines > 1:
        those += flows(problem)
    if problem.machines == 1 and not problem.shop and not problem.bound and problem.criterion in ("Lmax", "sumU", "sumwU"):
        those.append(("Potts", potts(problem)))
    for name, order in those:
        yield valued(problem, name, "list", listed(problem, order), order)
        yield valued(problem, name, "serial", serial(problem, order), order)
        if problem.shop:
            yield valued(problem, name, "active", active(problem, order), order)
    ways = dict(choices(problem)) if problem.shop else {}
    if "d" in problem.instance.kind.keys and not problem.greatest:
        ways["apparent tardiness cost"] = apparent(problem)
    for name, choice in ways.items():
        yield valued(problem, name, "list", chosen(problem, choice), [])
        if problem.shop:
            yield valued(problem, name, "active", dispatched(problem, choice, True), [])


def valued(problem: Problem, rule: str, timing: str, placed: List[Placed], order: Order) -> Tried:
    """A schedule with its cost."""
    return Tried(rule, timing, problem.cost(ends_of(problem, placed)), placed, order)
