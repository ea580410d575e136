"""What the companions say is left of plans, for leftover.test.js: instances, schedules, moments and machines that failed as a list of JSON on
standard input; instances, what runs, the order, its schedule and what is told as JSON, or null where nothing is left."""
from __future__ import annotations

import json
import os
import re
import sys
from typing import Any

sys.dont_write_bytecode = True
sys.path.insert(0, os.path.join(os.path.dirname(os.path.dirname(os.path.dirname(os.path.abspath(__file__)))), "companions"))
from msp_tools.faults import Fault  # noqa: E402
from msp_tools.leftover import Happened, Leftover, left_of  # noqa: E402
from msp_tools.replanning import Rest, carried_on  # noqa: E402
from msp_tools.schedules import read_schedule  # noqa: E402
from msp_tools.texts import read_instance  # noqa: E402

TOLD = {
    "leftAgain": r"(\S+) had begun on machine (\d+), which has failed: it begins again",
    "leftRounded": r"what is left of (\S+) is (\S+), and counts as (\d+)",
    "leftUntil": r"(\S+) runs until (\d+), and what is left begins then",
    "leftShared": r"what is left does not take the time that all share: the class becomes (\S+)",
    "leftFewer": r"(\d+) machines? (?:is|are) left: the class becomes (\S+)",
    "leftCounted": r"machine (\d+) is counted as (\d+)",
    "leftPinned": r"(\S+) runs on machine (\d+) until (\S+): (\S+) cannot say so(?: \((\S+) has times for each machine\))?; "
                  "the plan keeps it there, and the bound does not",
    "leftFromCosts": r"moments count from (\d+) on, and costs too",
    "leftFrom": r"moments count from (\d+) on",
}


def told(line: str) -> list[str]:
    """A line as a code with its values."""
    for code, pattern in TOLD.items():
        found = re.fullmatch(pattern, line)
        if found:
            return [code, *(it or "" for it in found.groups())]
    raise ValueError(line)


def going_on(left: Leftover) -> list[str]:
    """What runs, and the old order carried on behind it."""
    rest = Rest(left)
    order = [(name, number - rest.shorter.get(name, 0), machine) for name, number, machine in left.order]
    pieces = [*rest.running, *rest.problem.pieces(carried_on(rest.problem, order))]
    shorter = {(it.job, it.operation) for it in rest.running}
    return sorted(f"{it.job} {it.operation + (0 if (it.job, it.operation) in shorter and it in rest.running else rest.shorter.get(it.job, 0))} "
                  f"{it.machine} {it.start} {it.end}" for it in pieces)


def answer(text: str, schedule: str, now: int, failed: list[int]) -> Any:
    """What is left."""
    try:
        left = left_of(read_instance(text), read_schedule(schedule).pieces, Happened(now, failed=failed))
    except Fault:
        return None
    return {"text": left.instance.text(), "origin": left.origin, "running": sorted(f"{it.job} {it.number} {it.machine} {it.left}" for it in left.running),
            "order": [list(it) for it in left.order], "told": [told(it) for it in left.told], "goingOn": going_on(left)}


json.dump([answer(*it) for it in json.load(sys.stdin)], sys.stdout)
