"""What the companions say of bounds, for bounds.test.js: instances with the chains of the page as a list of JSON on standard input, faults as JSON.

    bounds.py [COUNT]

A chain has the names of its steps, the texts behind them, their words, a least cost of the last and the value here. Of the first COUNT instances
the greatest bound of the page is compared with that of the companions, too, which ask the program.
"""
from __future__ import annotations

import json
import os
import sys
from fractions import Fraction
from typing import Iterator

sys.dont_write_bytecode = True
sys.path.insert(0, os.path.join(os.path.dirname(os.path.dirname(os.path.dirname(os.path.abspath(__file__)))), "companions"))
from msp_tools.bounds import bounds_of  # noqa: E402
from msp_tools.loosenings import STEPS, Loosening, lateness, lone, machine  # noqa: E402
from msp_tools.texts import Instance, read_instance  # noqa: E402


def step_of(name: str) -> Loosening:
    """The step of a name."""
    kind, _, value = name.partition(":")
    if kind == "machine":
        return machine(int(value))
    if kind == "job":
        return lone(value)
    if kind == "lateness":
        factors, scale = value.split("/")
        return lateness([int(it) for it in factors.split(",")], int(scale))
    return STEPS[name]


def fault_of(given: Instance, chain: dict[str, list[str]]) -> str:
    """What is wrong with a chain; nothing where it is that of the companions."""
    steps, instances = [step_of(it) for it in chain["steps"]], [given]
    for step, text, words in zip(steps, chain["texts"], chain["words"]):
        made = step.made(instances[-1])
        if made is None or made.text() != text:
            return f"step {step.name} makes another text:\n{text}{made and made.text()}"
        if step.words != words:
            return f"step {step.name} has other words: {words}"
        instances.append(made)
    for told, value in zip(chain["costs"], chain["values"]):
        cost = Fraction(told)
        for step, it in reversed(list(zip(steps, instances))):
            cost = step.value(cost, it)
        if cost != Fraction(value):
            return f"steps {', '.join(chain['steps'])}: {told} there says {cost}, not {value}"
    return ""


def faults(count: int) -> Iterator[str]:
    """What is wrong."""
    for at, it in enumerate(json.load(sys.stdin)):
        given = read_instance(it["text"])
        for chain in it["chains"]:
            fault = fault_of(given, chain)
            if fault:
                yield f"{it['text']}{fault}"
        if at < count and it["greatest"] is not None:
            best = max(bound.value for bound in bounds_of(given))
            if best < Fraction(it["greatest"]):
                yield f"{it['text']}the page has {it['greatest']}, the companions {best}"


json.dump(list(faults(int(sys.argv[1]) if len(sys.argv) > 1 else 0)), sys.stdout)
