"""What the companions make of students' orders, for order.test.js: instances with texts as a list of JSON on standard input; pieces as JSON, or the
fault."""
from __future__ import annotations

import json
import os
import sys
from typing import Any

sys.dont_write_bytecode = True
sys.path.insert(0, os.path.join(os.path.dirname(os.path.dirname(os.path.dirname(os.path.abspath(__file__)))), "companions"))
from msp_tools.faults import Fault  # noqa: E402
from msp_tools.handins import read  # noqa: E402
from msp_tools.texts import read_instance  # noqa: E402


def told(instance: str, text: str) -> Any:
    """The pieces of an order, or why it has none."""
    try:
        pieces = read((text + "\n").encode(), read_instance(instance)).pieces
    except Fault as fault:
        return str(fault)
    return sorted(f"{it.job} {it.operation} {it.machine} {it.start} {it.end}" for it in pieces)


json.dump([told(*it) for it in json.load(sys.stdin)], sys.stdout)
