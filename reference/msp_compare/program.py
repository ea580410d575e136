"""The program that is compared: which one, and its calls."""
import os
import shlex
import subprocess
from pathlib import Path
from typing import NamedTuple, Optional, Sequence

from msp_reference.command import Outcome

ROOT = Path(__file__).resolve().parents[2]
LONGEST = 600                   # seconds that a call may take


class NoProgram(Exception):
    """Why there is no program to compare."""


class Program(NamedTuple):
    """A program by the words of its command."""
    command: tuple[str, ...]

    def call(self, words: Sequence[bytes], text: bytes) -> Outcome:
        """What a call with these words and this input leaves; a status below 0 is that of a signal."""
        try:
            done = subprocess.run([*self.command, *map(os.fsdecode, words)], input=text, capture_output=True, timeout=LONGEST,
                                  check=False, close_fds=False)
        except subprocess.TimeoutExpired:
            return Outcome(-1, b"", f"no answer in {LONGEST} seconds".encode())
        return Outcome(done.returncode, done.stdout, done.stderr)

    def __str__(self) -> str:
        return shlex.join(self.command)


def program_named(given: Optional[str]) -> Program:
    """The program of a command line, or the one that `./run-msp` runs."""
    program = Program(tuple(shlex.split(given))) if given else _default()
    try:
        first = program.call([b"rows"], b"")
    except OSError as fault:
        raise NoProgram(f"{program}: {fault.strerror}") from None
    if first.status != 0 or not first.report.endswith(b"\nend\n"):
        raise NoProgram(f"{program} does not answer `rows`: {first.note.decode(errors='replace').strip()}")
    return program


def _default() -> Program:
    """`run-msp` looks at all sources on each call, so what it runs is asked once, after it had its first call.

    Where that is neither the released program nor the one that is built here, it is called itself.
    """
    run = ROOT / "run-msp"
    first = Program((str(run),)).call([b"rows"], b"")
    if first.status != 0:
        raise NoProgram(first.note.decode(errors="replace").strip())
    released, built = ROOT / "released" / "msp", ROOT / "crates" / "msp" / "out" / "msp"
    asked = subprocess.run(["sh", str(ROOT / "tools" / "released")], capture_output=True, check=False)
    for path in [released] if asked.returncode == 0 else [built]:
        if os.access(path, os.X_OK) and _runs(path):
            return Program((str(path),))
    return Program((str(run),))


def _runs(path: Path) -> bool:
    try:
        return Program((str(path),)).call([b"rows"], b"").status == 0
    except OSError:
        return False
