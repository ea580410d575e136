"""What `solve` says of an instance text."""
from __future__ import annotations

from fractions import Fraction

from .faults import Fault
from .program import Program
from .schedules import read_schedule


def best_cost(program: Program, text: str) -> tuple[Fraction | None, str]:
    """The least cost of an instance, by `solve`, and no note; or None and the note where there is no solver, or the instance is beyond its
    limit. A fault where the program does not read the text."""
    status, report, note = program.call(["solve"], text)
    if status == 0:
        return read_schedule(report).cost, ""
    if status == 5 or note.startswith("limit of the solver"):
        return None, note
    raise Fault(note)
