"""The calls on which the ports are held against the native program, and how it ends each of them.

cases() are those of msp_cases that need no failing device, examples() those of the folder, trials() are drawn by the program, damaged() and
drawn() by tools/torture from a seed, wide() are instances of 400 jobs on as many machines as there may be.
"""
import importlib.machinery
import importlib.util
import os
import random
import re
import subprocess
import sys
from pathlib import Path
from typing import Any, Iterable, Iterator, List, NamedTuple, Tuple

TOP = Path(__file__).resolve().parent.parent
NATIVE = TOP / "released" / "msp"
SECONDS = 600  # no call may take longer
MOST_MACHINES = 32


class Call(NamedTuple):
    """The words of a call and the bytes on its standard input."""
    words: Tuple[bytes, ...]
    text: bytes = b""

    def __str__(self) -> str:
        found = re.match(rb"msp 1\nclass (.*)\n", self.text)
        words = " ".join(os.fsdecode(word) for word in self.words)
        return f"{words} ({found.group(1).decode(errors='replace')})" if found else words


class Answer(NamedTuple):
    """How a call ended."""
    status: int
    report: bytes
    note: bytes


def call_of(words: str, text: bytes = b"") -> Call:
    """A call, its words with blanks between."""
    return Call(tuple(word.encode() for word in words.split()), text)


def answer_of(command: Iterable[object], call: Call) -> Answer:
    """How a program ends a call."""
    words = [os.fsencode(str(word)) for word in command] + list(call.words)
    done = subprocess.run(words, input=call.text, capture_output=True, timeout=SECONDS, check=False)
    return Answer(done.returncode, done.stdout, done.stderr)


def native(call: Call) -> Answer:
    """How the native program ends a call."""
    return answer_of([NATIVE], call)


def spelled(lines: List[str]) -> bytes:
    """The bytes of an indented text of a case."""
    text = "".join(line[4:] + "\n" for line in lines).encode()
    text = text.replace(b"\\\n", b"")
    return re.sub(rb"\\([0-9a-f]{2})", lambda found: bytes([int(found.group(1), 16)]), text)


def case_of(block: str) -> Tuple[bool, Call]:
    """Whether a case needs no failing device, and its call."""
    parts = re.findall(r"^(?![ #\n])(.+)\n((?:    .*\n|\n(?=    ))*)", block, re.M)
    heads = [head for head, _ in parts]
    words = next(head for head in heads if head.startswith("$ msp")).split(" ")[2:]
    text = next((body for head, body in parts if head == "input"), "")
    fails = any(re.match(r"(read|write|note) \d+ fails|room \d+", head) for head in heads)
    return not fails, Call(tuple(b"" if word == "''" else word.encode() for word in words), spelled(text.splitlines()))


def cases() -> Iterator[Call]:
    """Every case of msp_cases that needs no failing device."""
    for path in sorted((TOP / "crates" / "msp_cases" / "data").glob("*.cases")):
        for block in re.split(r"^(?=case )", path.read_text(encoding="utf-8"), flags=re.M)[1:]:
            taken, call = case_of(block)
            if taken:
                yield call


def examples() -> Iterator[Call]:
    """Every example, by the command that reads it, and what the program writes for it by the command that reads that."""
    for path in sorted((TOP / "examples").glob("*.txt")):
        text = path.read_bytes()
        if path.name.startswith("accept-"):
            yield call_of("accept", text)
            continue
        command, reader, head = ("certify", "accept", b"certificate\n") if path.name.startswith("certify-") else ("solve", "check", b"schedule\n")
        call = call_of(command, text)
        yield call
        report = native(call).report
        yield call_of(reader, text + report[report.index(head):])
    for path in sorted((TOP / "examples").glob("*.csv")):
        text = path.read_bytes()
        yield from (call_of(words, text) for words in ("label", "frontier", "why P||Lmax", "label 1||Cmax J2||Cmax"))
    yield call_of("rows")


def solved() -> List[str]:
    """The classes that have a solver of their own, as docs/solved-classes.md lists them."""
    lines = (TOP / "docs" / "solved-classes.md").read_text(encoding="utf-8").splitlines()
    rows = [line.replace("\\|", "!").split("|") for line in lines if line.startswith("| `") and "\\|" in line]
    return [row[1].strip(" `").replace("!", "|") for row in rows if int(row[3]) == 0]


def trials(jobs: int) -> Iterator[Call]:
    """A trial of each solver."""
    yield from (call_of(f"trial {name} {jobs} {seed}") for seed, name in enumerate(solved(), 1))


def torture() -> Any:
    """tools/torture, which draws damaged and whole calls."""
    sys.dont_write_bytecode = True
    loader = importlib.machinery.SourceFileLoader("torture", str(TOP / "tools" / "torture"))
    spec = importlib.util.spec_from_loader("torture", loader)
    assert spec is not None
    module = importlib.util.module_from_spec(spec)
    loader.exec_module(module)
    return module


def from_torture(found: Any) -> Call:
    """A call of tools/torture."""
    return Call(tuple(os.fsencode(word) for word in found.words), found.text)


def damaged(seed: int, count: int) -> Iterator[Call]:
    """Calls with damaged words or inputs."""
    hostile, draw = torture(), random.Random(seed)
    stock = hostile.stock_of(str(NATIVE))
    yield from (from_torture(hostile.damaged_call(draw, stock)[1]) for _ in range(count))


def drawn(seed: int, count: int) -> Iterator[Call]:
    """Calls with nothing damaged."""
    hostile, draw = torture(), random.Random(seed)
    stock = hostile.stock_of(str(NATIVE))
    yield from (from_torture(hostile.whole_call(draw, stock, draw.choice(hostile.COMMANDS))) for _ in range(count))


def worked() -> List[Call]:
    """A few calls of all commands, each with a report."""
    return [from_torture(call) for call in torture().worked_calls(str(NATIVE))]


def wide(jobs: int) -> Iterator[Call]:
    """An instance of each solver, on as many machines as there may be."""
    for name in solved():
        more = ["--machines", str(MOST_MACHINES)] if name.split("|")[0] in ("P", "Q", "R", "O", "F", "J") else []
        words = [str(TOP / "companions" / "make-instance"), name, str(jobs), "1", "--program", str(NATIVE), *more]
        yield call_of("solve", subprocess.run(words, capture_output=True, check=True).stdout)
