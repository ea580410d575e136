"""What differs between a program and the independent implementation on a call.

All bytes are compared, but where the requirements leave the choice free: there the schedule must pass the independent `check` and
the certificate the independent `accept`, and all other lines are compared.
"""
from math import gcd
from typing import Callable, Optional

from msp_reference.command import Outcome, answer

from .calls import Call, part_from
from .program import Program

_FREE_PIECES = {b"unrelated", b"slots-late", b"slots-count", b"open2", b"open-cut", b"uniform-cut", b"late-table", b"search",
                b"places-late", b"places-count", b"lines-late", b"lines-count"}
_FREE_COUNTS = {b"open-cut", b"uniform-cut"}
_FREE_PROOFS = {b"segments", b"block", b"prices"}


def difference(program: Program, call: Call) -> Optional[str]:
    """What differs on a call, or None."""
    ours, theirs = answer(call.words, call.text), program.call(call.words, call.text)
    if ours == theirs:
        return None
    both = f"reference {shown(ours)}\nprogram   {shown(theirs)}"
    if ours.status != 0 or theirs.status != 0 or theirs.note:
        return both
    free = _FREE.get(call.words[0])
    found = free(call, ours, theirs) if free else "other bytes"
    return f"{found}\n{both}" if found else None


def shown(outcome: Outcome) -> str:
    """An outcome in a line, its report cut where it is long."""
    report = outcome.report if len(outcome.report) <= 2000 else outcome.report[:2000] + b"..."
    return f"status {outcome.status} {report!r} {outcome.note!r}"


def word_after(report: bytes, key: bytes) -> bytes:
    """The rest of the first line that begins with a key."""
    return next((line[len(key) + 1:] for line in report.split(b"\n") if line.startswith(key + b" ")), b"")


def _without(report: bytes, *words: bytes) -> list[bytes]:
    return [line for line in report.split(b"\n") if line.split(b" ")[0] not in words]


def _solve_differs(call: Call, ours: Outcome, theirs: Outcome) -> Optional[str]:
    if _without(ours.report, b"piece", b"unit") != _without(theirs.report, b"piece", b"unit"):
        return "other lines than pieces differ"
    checked = answer([b"check"], call.text + part_from(theirs.report, b"schedule\n"))
    if checked.status != 0:
        return f"not accepted by check: {shown(checked)}"
    if not is_settled(theirs.report):
        return "not in the lowest unit, or pieces out of order"
    return None if word_after(ours.report, b"solver") in _FREE_PIECES else "pieces differ, though both are best"


def _trial_differs(_: Call, ours: Outcome, theirs: Outcome) -> Optional[str]:
    free = word_after(ours.report, b"solver") in _FREE_COUNTS
    return None if free and _without(ours.report, b"pieces") == _without(theirs.report, b"pieces") else "other lines"


def _certify_differs(call: Call, ours: Outcome, theirs: Outcome) -> Optional[str]:
    kind = word_after(ours.report, b"kind")
    if kind not in _FREE_PROOFS or ours.report.split(b"kind ")[0] != theirs.report.split(b"kind ")[0]:
        return "other lines"
    accepted = answer([b"accept"], call.text + part_from(theirs.report, b"certificate\n"))
    if accepted.status != 0 or word_after(accepted.report, b"kind") != kind:
        return f"not accepted: {shown(accepted)}"
    return None


_FREE: dict[bytes, Callable[[Call, Outcome, Outcome], Optional[str]]] = {
    b"solve": _solve_differs, b"trial": _trial_differs, b"certify": _certify_differs}


def is_settled(report: bytes) -> bool:
    """Whether the printed schedule is in its lowest unit and in order."""
    common, keys = int(word_after(report, b"unit")), []
    for line in report.split(b"\n"):
        if line.startswith(b"piece "):
            machine, begin, end = map(int, line.split(b" ")[3:])
            common = gcd(common, begin, end)
            keys.append((begin, machine))
    return common == 1 and keys == sorted(keys)
