"""The evidence of a cost and its bounds, as a folder that `companions/verify` judges.

It holds `instance.txt`, `schedule.txt`, and `bounds.txt`, which has a line for each bound: its value, its word and its steps, as
`27 argued whole cut`. Of the bound of line 2, `bound-2-step-1.txt` is the instance behind its first step, and so on; behind the last step
stands `bound-2-report.txt`, what `solve` says of that instance, or `bound-2-certificate.txt`, which `accept` takes for it.
"""
from __future__ import annotations

import os
from typing import Sequence

from .bounds import Bound
from .faults import Misfit
from .files import write_text
from .texts import Instance


def worth_writing(bounds: Sequence[Bound]) -> list[Bound]:
    """Of bounds, the greatest first: the greatest, and the greatest of those that are proved."""
    proved = [it for it in bounds if it.word == "proved"]
    return [*bounds[:1], *(it for it in proved[:1] if it is not bounds[0])]


def line_of(bound: Bound) -> str:
    """The line of a bound; the numbers or the job of a step stand behind a colon."""
    return " ".join([str(bound.value), bound.word, *(it.name for it in bound.steps)])


def write_evidence(folder: str, instance: Instance, schedule: str, bounds: Sequence[Bound]) -> None:
    """Writes a folder, which is new or empty: an instance, the text of a schedule with its cost, and what shows the greatest bounds."""
    try:
        os.makedirs(folder, exist_ok=True)
        if os.listdir(folder):
            raise Misfit(f"{folder} is not empty: evidence is written into a new folder")
    except OSError as fault:
        raise Misfit(f"cannot write {folder}: {fault.strerror}") from None
    those = worth_writing(bounds)
    parts = {"instance.txt": instance.text(), "schedule.txt": schedule, "bounds.txt": "".join(f"{line_of(it)}\n" for it in those)}
    for number, bound in enumerate(those, 1):
        parts.update((f"bound-{number}-step-{at}.txt", it.text) for at, it in enumerate(bound.steps, 1))
        parts[f"bound-{number}-{'certificate' if bound.evidence.startswith('certificate') else 'report'}.txt"] = bound.evidence
    for name, text in parts.items():
        write_text(os.path.join(folder, name), text, newline="\n")
