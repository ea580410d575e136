"""Refusals: what is wrong, where it stands, and the status with which a command ends."""
from __future__ import annotations

import re

PLACE = re.compile(r"((?:.*: )?(?:line|row) [0-9]+(?:, column [^:\n]*)?|columns|--[a-z][a-z-]*): ", re.S)


class Refusal(Exception):
    """Something is refused. `status` is the one of docs/formats.md, `place` a line, a word or the columns (or empty), `note` says what is wrong
    there."""
    status = 3

    def __init__(self, text: str, status: int | None = None) -> None:
        super().__init__(text)
        found = PLACE.match(text)
        self.place = found[1] if found else ""
        self.note = text[found.end():] if found else text
        if status is not None:
            self.status = status


class Fault(Refusal):
    """A fault of a text or a list: status 3."""


class Misfit(Refusal):
    """Words that do not fit, or a file that cannot be read or written: status 2."""
    status = 2


class ProgramRefusal(Refusal):
    """The program refuses: 3 a fault of the text, 4 a limit, 5 no solver, 6 no chain, 9 out of memory, and others of docs/formats.md."""
