"""The texts that the companions draw, for draw.test.js: classes with jobs and seeds as a list of JSON on standard input, texts as JSON."""
from __future__ import annotations

import json
import os
import sys

sys.dont_write_bytecode = True
sys.path.insert(0, os.path.join(os.path.dirname(os.path.dirname(os.path.dirname(os.path.abspath(__file__)))), "companions"))
from msp_tools.classes import class_named  # noqa: E402
from msp_tools.draws import Wanted, text_of  # noqa: E402


def drawn(name: str, jobs: int, seed: int) -> str:
    """The text of a class with so many jobs and a seed."""
    kind = class_named(name)
    if kind is None:
        raise SystemExit(f"{name} is no class")
    return text_of(Wanted(kind, jobs), seed)


json.dump([drawn(*it) for it in json.load(sys.stdin)], sys.stdout)
