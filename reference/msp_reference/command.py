"""The command line: words, the order of refusals, statuses and notes."""
import io
import os
import sys
from typing import BinaryIO, Callable, NamedTuple, Sequence, Union

from . import reports, selftest
from .certificate_text import read_certificate
from .certificates import CERTIFIED, Certificate, accepts, make_proof, value
from .classes import Class, UNRELATED
from .closure import Verdicts
from .dispatch import Cannot, SOLVED, solve_any, solve_by
from .faults import TextFault
from .generate import generate
from .instance_text import read_front, read_instance
from .lines import number_of
from .names import NameFault, name_of, parse
from .results import read_results
from .schedule import cost, first_break, settle, solution
from .schedule_text import read_schedule

SHORT_LIMIT = 4_194_304
LONG_LIMIT = 67_108_864


class Refused(Exception):
    """A status from 2 to 9 with its note."""

    def __init__(self, status: int, note: Union[str, bytes]) -> None:
        super().__init__(note)
        self.status = status
        self.note = note if isinstance(note, bytes) else note.encode()


class Outcome(NamedTuple):
    """What a call leaves: its status, its report and its note."""
    status: int
    report: bytes
    note: bytes


class _Call:
    """The words and the input of a call, and whether what it finds is tested."""

    def __init__(self, words: Sequence[bytes], source: BinaryIO, tested: bool) -> None:
        self.words = words
        self.source = source
        self.tested = tested

    def only(self, count: int) -> None:
        """Refuses any other number of words."""
        if len(self.words) != count:
            raise _misfit()

    def name(self, place: int) -> Class:
        """The class that a word names, the command being word 1."""
        try:
            return parse(self.words[place - 1])
        except NameFault as fault:
            raise Refused(2, f"usage: word {place}: name: {fault}") from None

    def number(self, place: int, least: int, greatest: int) -> int:
        """The number that a word gives."""
        found = number_of(self.words[place - 1])
        if found is None or not least <= found <= greatest:
            raise Refused(2, f"usage: word {place}: not a number from {least} to {greatest}")
        return found

    def text(self, limit: int = SHORT_LIMIT) -> bytes:
        """All bytes of the input."""
        try:
            found = self.source.read(limit + 1)
        except OSError:
            raise Refused(7, "cannot read") from None
        if len(found) > limit:
            raise Refused(4, f"more than {limit} bytes")
        return found

    def verdicts(self) -> Verdicts:
        """What follows from the results in the input."""
        return Verdicts(read_results(self.text()))


def _misfit() -> Refused:
    return Refused(2, "usage: words fit no command")


def _label(call: _Call) -> reports.Report:
    classes = [call.name(place) for place in range(2, len(call.words) + 1)]
    return reports.labels_text(call.verdicts(), classes)


def _frontier(call: _Call) -> reports.Report:
    call.only(1)
    return reports.frontier_text(call.verdicts())


def _why(call: _Call) -> reports.Report:
    call.only(2)
    cls = call.name(2)
    return reports.why_text(call.verdicts(), cls)


def _solve(call: _Call) -> reports.Report:
    target = None
    if len(call.words) == 3 and call.words[1] == b"--at":
        target = call.name(3)
    else:
        call.only(1)
    filed = read_instance(call.text())
    return reports.solve_text(filed.names, solve_any(filed.instance, target, call.tested))


def _check(call: _Call) -> reports.Report:
    call.only(1)
    text = call.text(LONG_LIMIT)
    front = read_front(text)
    inst = front.filed.instance
    if inst.cls.cut and inst.cls.env in UNRELATED:
        raise Refused(5, f"no check for {name_of(inst.cls)}")
    stated = read_schedule(front, text)
    broken = first_break(inst, stated.schedule)
    return reports.check_text(front.filed, stated, broken, cost(inst, stated.schedule))


def _trial(call: _Call) -> reports.Report:
    call.only(4)
    cls = call.name(2)
    job_count = call.number(3, 1, 400)
    seed = call.number(4, 0, 2 ** 31 - 1)
    inst = generate(cls, job_count, seed)
    return reports.trial_text(inst, seed, solve_any(inst, None, call.tested))


def _rows(call: _Call) -> reports.Report:
    call.only(1)
    return reports.rows_text()


def _certify(call: _Call) -> reports.Report:
    call.only(1)
    filed = read_instance(call.text())
    inst = filed.instance
    if inst.cls not in CERTIFIED:
        raise Refused(5, f"no certificate for {name_of(inst.cls)}")
    solver = next(solver for solver in SOLVED if solver.cls == inst.cls)
    best = solution(inst, settle(solve_by(solver, inst).schedule))
    proof = make_proof(inst, best.cost)
    if call.tested:
        selftest.demand_right(inst, best)
        selftest.demand(value(inst, proof) == best.cost, f"the value of {proof}")
    return reports.certify_text(filed, Certificate(best.cost, proof))


def _accept(call: _Call) -> reports.Report:
    call.only(1)
    text = call.text(LONG_LIMIT)
    front = read_front(text)
    certificate = read_certificate(front, text)
    inst = front.filed.instance
    return reports.accept_text(inst, certificate, accepts(inst, certificate))


_COMMANDS: dict[bytes, Callable[[_Call], reports.Report]] = {
    b"label": _label, b"frontier": _frontier, b"why": _why, b"solve": _solve, b"check": _check, b"trial": _trial,
    b"rows": _rows, b"certify": _certify, b"accept": _accept}


def _run(call: _Call) -> reports.Report:
    try:
        for word in call.words:
            word.decode("utf-8")
    except UnicodeDecodeError:
        raise _misfit() from None
    command = _COMMANDS.get(call.words[0] if call.words else b"")
    if command is None:
        raise _misfit()
    try:
        return command(call)
    except TextFault as fault:
        raise Refused(4 if fault.limit else 3, fault.note) from None
    except Cannot as cannot:
        raise Refused(cannot.status, cannot.note) from None


def answer(words: Sequence[bytes], text: Union[bytes, BinaryIO], tested: bool = False) -> Outcome:
    """What a call with these words and this input leaves."""
    source = io.BytesIO(text) if isinstance(text, bytes) else text
    try:
        status, report = _run(_Call(words, source, tested))
    except Refused as refused:
        return Outcome(refused.status, b"", b"msp: " + refused.note + b"\n")
    return Outcome(status, report, b"")


def main() -> None:
    """Run on the words and standard streams of the process, and end it with the status."""
    words = [os.fsencode(word) for word in sys.argv[1:]]
    tested = words[:1] == [b"--self-test"]
    status, report, note = answer(words[1:] if tested else words, sys.stdin.buffer, tested)
    sys.stderr.buffer.write(note)
    sys.stderr.buffer.flush()
    try:
        sys.stdout.buffer.write(report)
        sys.stdout.buffer.flush()
    except OSError:
        sys.stderr.buffer.write(b"msp: cannot write\n")
        sys.stderr.buffer.flush()
        status = 8
        os.dup2(os.open(os.devnull, os.O_WRONLY), 1)
    sys.exit(status)
