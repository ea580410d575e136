"""Holds what cite, choose, reduces and what-if make of each name of docs/results/names.csv to what stands there.

    python3 check.py NAMES LABELS NOTATION

LABELS is a report of `msp label` over all classes, NOTATION is docs/notation.md, whose classes on uniform machines are those at which other
speeds are told. The commands are called with a stand-in for the program, which notes the classes that it is asked of.
"""
from __future__ import annotations

import csv
import re
import sys
from typing import Callable, Sequence
from unittest.mock import patch

from msp_tools.classes import class_named
from msp_tools.commands import choose, cite, reduces, what_if
from msp_tools.commands.what_if import Wanted as Further
from msp_tools.faults import Misfit
from msp_tools.literature import lines_of
from msp_tools.naming import known_of_a_fixed_number, meaning_of
from msp_tools.program import Program, Reply


class Noted(Program):
    """A program that notes the names it is asked of, and says that nothing is known and nothing is solved."""

    def __init__(self, labels: str) -> None:
        super().__init__("no program")
        self.labels, self.asked = labels, list[str]()

    def call(self, words: Sequence[str], text: str = "") -> Reply:
        """Notes the names of classes, and answers as for an open class."""
        if words[0] == "why":
            self.asked.append(words[1])
            return Reply(0, f"class {words[1]}\nlabel open\nend\n", "")
        if words[0] == "label":
            self.asked += [line.split(",what if")[0].rsplit(",", 1)[0].strip('"') for line in text.splitlines() if line.endswith(",what if")]
            return Reply(0, self.labels, "")
        return Reply(0, "end\n", "") if words[0] in ("rows", "frontier") else Reply(5, "", "no solver")


def asked_by(command: Callable[[Noted], object], labels: str) -> list[str] | Misfit:
    """The classes of which a command asks the program, or the misfit with which it refuses."""
    program = Noted(labels)
    try:
        command(program)
    except Misfit as fault:
        return fault
    return list(dict.fromkeys(it for it in program.asked if class_named(it)))


def commands(text: str) -> dict[str, Callable[[Noted], object]]:
    """The four commands, each asked of a name."""
    def with_program(module: object, call: Callable[[], object]) -> Callable[[Noted], object]:
        def run(program: Noted) -> object:
            with patch.object(module, "need_program", lambda _: program), patch.object(choose, "solver_of", lambda *_: None), \
                    patch.object(choose, "bounding", lambda *_: []), patch.object(choose, "serving", lambda *_: []):
                return call()
        return run

    return {"cite": with_program(cite, lambda: cite.answer(cite.Wanted(name=text), print)),
            "choose": with_program(choose, lambda: choose.answer(choose.Wanted(name=text), print)),
            "reduces": with_program(reduces, lambda: reduces.answer(reduces.Wanted(start=text, end=text), print)),
            "what-if": with_program(what_if, lambda: what_if.answer(Further(file="known.csv", name=text, verdict="hard"), print))}


def wanted_of(row: dict[str, str], tool: str, greatest: dict[str, str]) -> list[str] | None:
    """The classes that a tool is to ask of for a row; None where it is to refuse."""
    if row[tool] == "refuses":
        return None
    names = row["class"].split(";")
    return [*(greatest[it[0]] + it[1:] for it in names), *names] if row["means"] == "fixed" else names


def speeds(labels: str, classes: Sequence[str], notation: str) -> int:
    """Prints how many classes have a word on speeds in `cite` and `choose`; gives how many faults that are beside the table of the notation."""
    with open(notation, encoding="utf-8") as file:
        listed = {it.replace("\\|", "|") for it in re.findall(r"(?m)^\| `(Q\S+)` \| \w+ \| \w+ \|$", file.read())}
    said = {it for it in classes if any("any speeds" in line for line in lines_of(Noted(labels), "", meaning_of(it)))}
    print(f"{len(said)} classes with a word on speeds, {len(said ^ listed)} others than those of the notation")
    return len(said ^ listed)


def main() -> int:
    """Runs through the table, and prints each false answer."""
    greatest = {"P": "P3", "Q": "Q2", "R": "R2", "O": "O3", "F": "F3", "J": "J2"}
    with open(sys.argv[2], encoding="utf-8") as file:
        labels = file.read()
    by_name = dict(it.split(" ") for it in labels.splitlines() if re.fullmatch(r"\S+\|\S*\|\S+ \w+", it))
    with open(sys.argv[1], encoding="utf-8", newline="") as file:
        rows = list(csv.DictReader(file))
    faults = 0
    for row in rows:
        for tool, command in commands(row["text"]).items():
            got, wanted = asked_by(command, labels), wanted_of(row, tool, greatest)
            good = isinstance(got, Misfit) and row["part"] in str(got) if wanted is None else not isinstance(got, Misfit) and set(got) == set(wanted)
            if not good:
                faults += 1
                print(f"{tool} {row['text']}: {got}, and {wanted or 'a misfit with ' + row['part']} is wanted")
        for kind in map(class_named, row["class"].split(";") if row["means"] == "fixed" else []):
            if kind is None or known_of_a_fixed_number(kind, by_name)[0] != row["verdict"]:
                faults += 1
                print(f"{row['text']}: {kind and known_of_a_fixed_number(kind, by_name)}, and {row['verdict']} is wanted")
    print(f"{len(rows)} names, {faults} false answers")
    faults += speeds(labels, [it for it in by_name if it.startswith(("Q", "P2"))], sys.argv[3])
    return int(faults > 0)


if __name__ == "__main__":
    sys.exit(main())
