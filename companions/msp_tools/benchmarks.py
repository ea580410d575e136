"""The usual texts of benchmarks: job shops as lines of machines and times, and Taillard's flow shops and job shops. Jobs are named j1, j2 ..

A text may hold several instances, one after another; lines of words stand in front of each.
"""
from __future__ import annotations

import re
from typing import Iterator, List, NamedTuple, Sequence

from .classes import ClassName
from .faults import Fault
from .limits import MOST_JOBS, MOST_MACHINES
from .texts import Instance, Job


class Line(NamedTuple):
    """A line of numbers."""
    number: int
    values: List[int]


class Block(NamedTuple):
    """Lines of numbers that follow each other, and the words in front of them."""
    words: str
    lines: List[Line]


def blocks_of(text: str) -> List[Block]:
    """The blocks of a text. A line that begins with a word is one of words, one that has both a fault."""
    found: List[Block] = []
    words: List[str] = []
    gap = True
    for number, line in enumerate(text.splitlines(), 1):
        fields = line.split()
        if not fields:
            continue
        if not re.fullmatch(r"-?[0-9]+", fields[0]):
            words.append(line.strip())
            gap = True
            continue
        if not all(re.fullmatch(r"[0-9]{1,18}", it) for it in fields):
            raise Fault(f"line {number}: not a line of whole numbers from 0: {line.strip()[:60]}")
        if gap:
            found.append(Block(" ".join(words).lower(), []))
            words, gap = [], False
        found[-1].lines.append(Line(number, [int(it) for it in fields]))
    return found


def taken(lines: Sequence[Line], at: int, count: int, width: int, what: str) -> List[Line]:
    """So many lines of so many numbers."""
    those = lines[at: at + count]
    for it in those:
        if len(it.values) != width:
            raise Fault(f"line {it.number}: {len(it.values)} numbers, and {width} are wanted: {what}")
    if len(those) < count:
        raise Fault(f"line {lines[-1].number}: the size says {count} lines of {what}, and there are {len(those)}")
    return list(those)


def sizes(line: Line) -> tuple[int, int]:
    """The numbers of jobs and machines at the front of a line."""
    if len(line.values) < 2:
        raise Fault(f"line {line.number}: the numbers of jobs and machines stand here")
    jobs, machines = line.values[:2]
    if not (1 <= jobs <= MOST_JOBS and 1 <= machines <= MOST_MACHINES):
        raise Fault(f"line {line.number}: {jobs} jobs and {machines} machines: there are from 1 to {MOST_JOBS}, and from 1 to {MOST_MACHINES}")
    return jobs, machines


def job_shop(machines: int, routes: Sequence[Sequence[tuple[int, int]]]) -> Instance:
    """The job shop of routes: machines from 1, and times. What takes no time is no operation."""
    jobs = [Job(f"j{at}", route=[(machine, time) for machine, time in route if time]) for at, route in enumerate(routes, 1)]
    return Instance(ClassName("J", (), "Cmax"), machines, [], None, jobs, [])


def flow_shop(machines: int, times: Sequence[Sequence[int]]) -> Instance:
    """The flow shop of the times of each job."""
    jobs = [Job(f"j{at}", times=list(those)) for at, those in enumerate(times, 1)]
    return Instance(ClassName("F", (), "Cmax"), machines, [], None, jobs, [])


# Job shops, a line for each job

def jssp(text: str) -> Iterator[Instance]:
    """The instances of a text of job shops: numbers of jobs and machines, and for each job its machines from 0, each with its time."""
    lines = [it for block in blocks_of(text) for it in block.lines]
    at = 0
    while at < len(lines):
        if len(lines[at].values) != 2:
            raise Fault(f"line {lines[at].number}: the numbers of jobs and machines stand here, and nothing else")
        jobs, machines = sizes(lines[at])
        those = taken(lines, at + 1, jobs, 2 * machines, "a machine and a time for each operation")
        for it in those:
            if max(it.values[::2]) >= machines:
                raise Fault(f"line {it.number}: machine {max(it.values[::2])}, and they count from 0 to {machines - 1}")
        yield job_shop(machines, [[(machine + 1, time) for machine, time in zip(it.values[::2], it.values[1::2])] for it in those])
        at += 1 + jobs


# Taillard's texts

def taillard(text: str) -> Iterator[Instance]:
    """The instances of a text of Taillard's: a line with the numbers of jobs and machines (and a seed, an upper and a lower bound), and behind
    words the times: of a flow shop a line for each machine, of a job shop one for each job, and then one with its machines from 1."""
    blocks = blocks_of(text)
    at = 0
    while at < len(blocks):
        head, *rest = blocks[at].lines
        jobs, machines = sizes(head)
        if rest or at + 1 >= len(blocks):
            raise Fault(f"line {(rest or [head])[0].number}: words, and behind them the times, stand between the size and the times")
        routed = at + 2 < len(blocks) and "machine" in blocks[at + 2].words and "number" not in blocks[at + 2].words
        if routed:
            yield routed_shop(jobs, machines, blocks[at + 1], blocks[at + 2])
        else:
            rows = exactly(blocks[at + 1], machines, jobs, "the times on each machine")
            yield flow_shop(machines, list(zip(*(it.values for it in rows))))
        at += 3 if routed else 2


def routed_shop(jobs: int, machines: int, times: Block, routes: Block) -> Instance:
    """A job shop by two tables, which have a line for each job."""
    spent, where = exactly(times, jobs, machines, "the times of each job"), exactly(routes, jobs, machines, "the machines of each job")
    for it in where:
        if sorted(it.values) != list(range(1, machines + 1)):
            raise Fault(f"line {it.number}: each machine from 1 to {machines} stands here once")
    return job_shop(machines, [list(zip(there.values, here.values)) for there, here in zip(where, spent)])


def exactly(block: Block, count: int, width: int, what: str) -> List[Line]:
    """The lines of a block, which are so many."""
    those = taken(block.lines, 0, count, width, what)
    if len(block.lines) > count:
        raise Fault(f"line {block.lines[count].number}: more than {count} lines of {what}")
    return those
