"""The steps that print-sheet tells, for steps.test.js: instance texts as a list of JSON on standard input, tables and pieces as JSON."""
from __future__ import annotations

import json
import os
import sys

sys.dont_write_bytecode = True
sys.path.insert(0, os.path.join(os.path.dirname(os.path.dirname(os.path.dirname(os.path.abspath(__file__)))), "companions"))
from msp_tools.rules import rule_of  # noqa: E402
from msp_tools.texts import read_instance  # noqa: E402


def told(text: str) -> dict[str, object]:
    """The tables of a rule, and the pieces of its schedule."""
    instance = read_instance(text)
    found = rule_of(instance.kind).solve(instance)
    pieces = [[it.job, it.operation, it.machine, str(it.start), str(it.end)] for it in found.pieces if it.start < it.end]
    return {"rows": [it.rows() for it in found.tables], "pieces": pieces}


json.dump([told(it) for it in json.load(sys.stdin)], sys.stdout)
