"""What a further result would change."""
from __future__ import annotations

import csv
import io
import os
from concurrent.futures import ThreadPoolExecutor
from dataclasses import dataclass, field

from ..faults import Misfit
from ..files import find_file, read_text
from ..literature import labels_in
from ..naming import Meaning, beyond_names, known_of_a_fixed_number, meaning_of
from ..program import Program, need_program
from .frame import Command, Parser, Tell, add_program

SAYS = """
Says what a further result would change: which labels it settles, whether it clashes, and how the frontier moves.

FILE is a file of known results, as examples/known-strengths.csv. NAME is a class in any spelling of docs/notation.md (`Pm`, for each fixed
number of machines, is entered at two and at three, `tree` at intree and outtree) and VERDICT what is found of it: easy or hard, or
where the file tells strengths easy, pseudo, hard or strong. The first form prints each class whose label changes, with both labels,
the clash if there is one, and what comes to the four lists of the frontier and what goes from them.

It ends with 0, with 1 where the result clashes with the file, with 2 where the words do not fit, and with 3 where the file has a fault.
"""
VERDICTS = {"verdict": ("easy", "hard"), "strength": ("easy", "pseudo", "hard", "strong")}


@dataclass
class Wanted:
    """The words of the call."""
    file: str = ""
    name: str | None = None
    verdict: str | None = None
    each_open: bool = False
    program: str | None = None


@dataclass
class Moved:
    """A list of the frontier: its name, how many classes it had and has, those that go and those that come."""
    name: str
    before: int
    after: int
    gone: list[str]
    come: list[str]


@dataclass
class Change:
    """What entries change: each class whose label changes with both labels, the lines of a clash, and the lists that move."""
    entries: list[str]
    verdict: str
    labels: list[tuple[str, str, str]]
    clash: list[str]
    frontier: list[Moved]


@dataclass
class Settled:
    """How many open classes were settled if an open class were easy, and how many if it were hard."""
    name: str
    easy: int
    hard: int


@dataclass
class Answer:
    """What a result would change, or what each open class would settle; `hard` says in which sense."""
    change: Change | None
    open: list[Settled] = field(default_factory=list)
    hard: str = "hard"
    single: bool = field(default=True, repr=False)


def with_entries(text: str, names: list[str], verdict: str) -> str:
    """The text of the file with entries behind its last one."""
    entry = io.StringIO()
    csv.writer(entry, lineterminator="\n").writerows((name, verdict, "what if") for name in names)
    return text + ("" if text.endswith("\n") else "\n") + entry.getvalue()


def frontier_in(report: str) -> dict[str, list[str]]:
    """The four lists of the frontier in a report of `frontier`."""
    lists: dict[str, list[str]] = {}
    those: list[str] = []
    for line in report.splitlines():
        if line.startswith(("maximal ", "minimal ")):
            those = lists.setdefault(" ".join(line.split(" ")[:2]), [])
        elif line.count("|") == 2 and " " not in line:
            those.append(line)
        else:
            break
    return lists


def moved_lists(before: dict[str, list[str]], after: dict[str, list[str]]) -> list[Moved]:
    """The lists of the frontier that move."""
    found = []
    for at, those in before.items():
        gone, come = set(those) - set(after[at]), set(after[at]) - set(those)
        if gone or come:
            found.append(Moved(at, len(those), len(after[at]), [it for it in those if it in gone], [it for it in after[at] if it in come]))
    return found


def change_of(program: Program, text: str, names: list[str], verdict: str) -> Change:
    """What the entries change."""
    further = with_entries(text, names, verdict)
    old = labels_in(program.report(["label"], text).report)
    status, report, _ = program.report(["label"], further)
    new, lines = labels_in(report), report.splitlines()
    clash = lines[next(at for at, line in enumerate(lines) if "clash" in line): -1] if status == 1 else []
    before, after = (frontier_in(program.report(["frontier"], it).report) for it in (text, further))
    labels = [(it, label, new[it]) for it, label in old.items() if label != new[it]]
    return Change(names, verdict, labels, clash, moved_lists(before, after))


def each_open(program: Program, text: str, hard: str) -> list[Settled]:
    """What each open class would settle, the one that settles most in both cases together first."""
    old = labels_in(program.report(["label"], text).report)
    classes = [it for it, label in old.items() if label == "open"]

    def settled(name: str, verdict: str) -> int:
        new = labels_in(program.report(["label"], with_entries(text, [name], verdict)).report)
        return sum(new[it] != "open" for it in classes)

    with ThreadPoolExecutor(4) as pool:
        easy = pool.map(lambda it: settled(it, "easy"), classes)
        tough = pool.map(lambda it: settled(it, hard), classes)
        return sorted((Settled(*it) for it in zip(classes, easy, tough)), key=lambda it: -it.easy - it.hard)


def entered(program: Program, text: str, name: str) -> Meaning:
    """The classes at which a result is entered; a misfit where none has its number of machines, with what the file says of that number."""
    means = meaning_of(name)
    if means.beyond is None:
        return means
    labels = labels_in(program.report(["label"], text).report)
    said = (": ".join(known_of_a_fixed_number(it, labels)) for it in means.with_input)
    raise Misfit(f"{beyond_names(name, means)}; for {means.beyond} machines the file says {'; '.join(said)}")


def answer(wanted: Wanted, _: Tell) -> Answer:
    """What a result would change, or each open class would settle."""
    if wanted.each_open == (wanted.name is not None) or (wanted.name is not None and wanted.verdict is None):
        raise Misfit("the words are FILE NAME VERDICT or FILE --each-open; --help shows more")
    program = need_program(wanted.program)
    text = read_text(wanted.file if os.path.exists(wanted.file) else find_file(wanted.file) or wanted.file)
    head = text.removeprefix("\ufeff").split("\n", 1)[0].strip().split(",")
    known = VERDICTS.get(head[1] if len(head) > 1 else "", ())
    hard = "strong" if "strong" in known else "hard"
    if wanted.name is None:
        return Answer(None, each_open(program, text, hard), hard)
    verdict = wanted.verdict or ""
    if known and verdict not in known:
        raise Misfit(f"{verdict} is no verdict of this file: it is one of {', '.join(known)}")
    means = entered(program, text, wanted.name)
    return Answer(change_of(program, text, [str(it) for it in means.classes], verdict), single=means.single)


def show(found: Answer) -> None:
    """Prints what is found in the form of the program's reports."""
    change = found.change
    if change is None:
        print("\n".join([f"open {len(found.open)}", *(f"{it.name} easy {it.easy} {found.hard} {it.hard}" for it in found.open), "end"]))
        return
    lines = [f"entry {it} {change.verdict}" for it in ([] if found.single else change.entries)]
    lines += [f"labels {len(change.labels)}", *(f"{name} {old} {new}" for name, old, new in change.labels), *change.clash]
    for it in change.frontier:
        lines += [f"{it.name} {it.before} {it.after}", *(f"- {name}" for name in it.gone), *(f"+ {name}" for name in it.come)]
    print("\n".join([*lines, "end"]))


def found_status(found: Answer) -> int:
    """1 where the result clashes with the file."""
    return int(found.change is not None and bool(found.change.clash))


def words(parser: Parser) -> None:
    """Adds the words."""
    parser.add_argument("file", metavar="FILE", help="a file of known results; those of examples/ come with the package")
    parser.add_argument("name", metavar="NAME", nargs="?", help="the class of the further result")
    parser.add_argument("verdict", metavar="VERDICT", nargs="?", help="what it says of the class")
    parser.add_argument("--each-open", action="store_true",
                        help="says of each open class how many open classes were settled if it were easy, and how many if it were hard (in the "
                             "strong sense, where the file tells strengths), the class that settles most in both cases together first")
    add_program(parser)


COMMAND = Command("what-if", "FILE (NAME VERDICT | --each-open) [OPTION ..]", SAYS, "what-if examples/known-strengths.csv 'O2|pmtn|sumC' hard",
                  Wanted, words, answer, show, found_status)
