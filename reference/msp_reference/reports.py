"""The report texts of all commands, as bytes."""
from fractions import Fraction
from typing import Iterable, Optional, Sequence, Union

from . import rows
from .certificate_text import certificate_lines, kind_of
from .certificates import Certificate
from .classes import Class, unrank
from .closure import Chain, Verdicts
from .dispatch import Answer
from .instance import Instance
from .instance_text import Filed
from .names import name_of
from .schedule import Break
from .schedule_text import Stated, schedule_lines

Report = tuple[int, bytes]                      # a status and a text
_Line = Union[str, bytes]


def _text(lines: Iterable[_Line]) -> bytes:
    return b"".join((line if isinstance(line, bytes) else line.encode()) + b"\n" for line in lines)


def chain_lines(chain: Chain) -> list[_Line]:
    """The lines of a chain."""
    return [f"start {name_of(chain.start)}", *(f"row {row} {name_of(cls)}" for row, cls in zip(chain.rows, chain.classes))]


def _with_clashes(verdicts: Verdicts, lines: list[_Line]) -> Report:
    """The report of some lines with the clashes behind them."""
    clash, strong_clash = verdicts.clash(), verdicts.strong_clash()
    if clash:
        lines = lines + ["clash"] + chain_lines(clash)
    if strong_clash:
        lines = lines + ["strong clash"] + chain_lines(strong_clash)
    return 1 if clash or strong_clash else 0, _text(lines + ["end"])


def labels_text(verdicts: Verdicts, classes: Sequence[Class]) -> Report:
    """The report of `label`."""
    if classes:
        return _with_clashes(verdicts, [f"{name_of(cls)} {verdicts.label(cls)}" for cls in classes])
    return _with_clashes(verdicts, [f"{name_of(unrank(number))} {label}" for number, label in enumerate(verdicts.labels())])


def frontier_text(verdicts: Verdicts) -> Report:
    """The report of `frontier`."""
    lines: list[_Line] = []
    for words, classes in zip(("maximal easy", "minimal hard", "minimal open", "maximal open"), verdicts.frontier()):
        lines.append(f"{words} {len(classes)}")
        lines += [name_of(cls) for cls in classes]
    return _with_clashes(verdicts, lines)


def why_text(verdicts: Verdicts, cls: Class) -> Report:
    """The report of `why`."""
    lines: list[_Line] = [f"class {name_of(cls)}", f"label {verdicts.label(cls)}"]
    easy = verdicts.why_easy(cls)
    pseudo = None if easy else verdicts.why_pseudo(cls)
    if easy:
        lines += ["easy", *chain_lines(easy), _record(verdicts, easy.last(), "easy")]
    if pseudo:
        lines += ["pseudo", *chain_lines(pseudo), _record(verdicts, pseudo.last(), "pseudo")]
    hard, strong = verdicts.why_hard(cls), verdicts.why_strong(cls)
    if hard:
        lines += ["hard", _record(verdicts, hard.start, "hard", "strong"), *chain_lines(hard)]
    if strong:
        lines += ["strong", _record(verdicts, strong.start, "strong"), *chain_lines(strong)]
    return _with_clashes(verdicts, lines)


def _record(verdicts: Verdicts, cls: Class, *words: str) -> bytes:
    number, source = next((number, entry.source) for number, entry in enumerate(verdicts.entries, 1)
                          if entry.cls == cls and entry.verdict in words)
    return b"record %d" % number + (b" " + source if source else b"")


def solve_text(names: Sequence[bytes], answer: Answer) -> Report:
    """The report of `solve`."""
    return 0, _text([*chain_lines(answer.chain), f"solver {answer.solver.printed}", *schedule_lines(names, answer.solution)])


def check_text(filed: Filed, stated: Stated, broken: Optional[Break], cost: Fraction) -> Report:
    """The report of `check`; the cost counts only where nothing is broken."""
    front = [f"class {name_of(filed.instance.cls)}", f"jobs {len(filed.instance.jobs)}", f"pieces {len(stated.schedule.pieces)}"]
    if broken:
        return 1, _text(front + ["feasible no", break_line(filed.names, broken), "end"])
    agree = cost == stated.cost
    return 0 if agree else 1, _text(front + ["feasible yes", f"cost {cost}", f"stated {stated.cost}",
                                             "agree " + ("yes" if agree else "no"), "end"])


def break_line(names: Sequence[bytes], broken: Break) -> str:
    """The line of a break."""
    if broken.word in ("route", "work"):
        return f"break {broken.word} {names[broken.numbers[0]].decode()} {broken.numbers[1] + 1}"
    return " ".join(["break", broken.word] + [str(number + 1) for number in broken.numbers])


def trial_text(inst: Instance, seed: int, answer: Answer) -> Report:
    """The report of `trial`."""
    return 0, _text([f"class {name_of(inst.cls)}", f"jobs {len(inst.jobs)}", f"seed {seed}", f"solver {answer.solver.printed}",
                     f"rows {len(answer.chain.rows)}", f"pieces {len(answer.solution.schedule.pieces)}",
                     f"cost {answer.solution.cost}", "end"])


def rows_text() -> Report:
    """The report of `rows`."""
    return 0, _text([*(f"row {row} {rows.kind(row)} {rows.text(row)}" for row in range(1, rows.ROW_COUNT + 1)), "end"])


def certify_text(filed: Filed, certificate: Certificate) -> Report:
    """The report of `certify`."""
    return 0, _text([f"class {name_of(filed.instance.cls)}", f"cost {certificate.bound}",
                     *certificate_lines(filed.names, certificate)])


def accept_text(inst: Instance, certificate: Certificate, accepted: bool) -> Report:
    """The report of `accept`."""
    return 0 if accepted else 1, _text([f"class {name_of(inst.cls)}", f"kind {kind_of(certificate.proof)}",
                                        f"bound {certificate.bound}", "accepted " + ("yes" if accepted else "no"), "end"])
