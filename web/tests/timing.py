"""The companions' schedules of orders, for timing.test.js: instances with orders of their jobs as a list of JSON on standard input, pieces as JSON."""
from __future__ import annotations

import json
import os
import sys

sys.dont_write_bytecode = True
sys.path.insert(0, os.path.join(os.path.dirname(os.path.dirname(os.path.dirname(os.path.abspath(__file__)))), "companions"))
from msp_tools.problems import Problem  # noqa: E402
from msp_tools.schedules import read_schedule  # noqa: E402
from msp_tools.texts import read_instance  # noqa: E402
from msp_tools.timing import TIMINGS, early  # noqa: E402


def told(text: str, order: list[int], schedule: str) -> dict[str, list[str]]:
    """The pieces of an order by each timing, and those of a schedule moved early."""
    instance = read_instance(text)
    problem = Problem(instance)
    ways = [it for it in TIMINGS if problem.shop or it != "active"]
    found = {it: problem.pieces(TIMINGS[it](problem, order)) for it in ways}
    found["early"] = early(read_schedule(schedule).pieces, instance)
    return {way: sorted(f"{it.job} {it.operation} {it.machine} {it.start} {it.end}" for it in pieces) for way, pieces in found.items()}


json.dump([told(*it) for it in json.load(sys.stdin)], sys.stdout)
