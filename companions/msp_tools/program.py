"""The program `msp`: where it is, how it is called, and what it answers. Nothing here judges an instance or a schedule."""
from __future__ import annotations

import os
import platform
import shutil
import subprocess
import sys
import sysconfig
from dataclasses import dataclass
from pathlib import Path
from typing import Iterator, NamedTuple, Sequence

from .faults import Misfit, ProgramRefusal
from .files import PACKAGE

CLONE = PACKAGE.parent.parent
PORTS = ("--ports",)
# (the released program for each machine on which Linux may run, by what Python calls it)
RELEASED = {"x86_64": "msp", "amd64": "msp", "aarch64": "msp-aarch64", "arm64": "msp-aarch64"}


class Reply(NamedTuple):
    """What the program answers: its status, its report, and its note without `msp: ` in front."""
    status: int
    report: str
    note: str


@dataclass(frozen=True)
class Program:
    """The program, by the words that call it: its path, or Node and the path of the port."""
    command: tuple[str, ...]

    def __str__(self) -> str:
        return " ".join(self.command)

    def call(self, words: Sequence[str], text: str = "") -> Reply:
        """Calls the program with a text on its standard input."""
        try:
            got = subprocess.run([*self.command, *words], input=text.encode(), capture_output=True, check=False)
        except OSError as fault:
            raise Misfit(f"cannot run {self}: {fault.strerror}") from None
        note = got.stderr.decode("utf-8", "replace").strip()
        return Reply(got.returncode, got.stdout.decode("utf-8", "replace"), note.removeprefix("msp: "))

    def report(self, words: Sequence[str], text: str = "", fine: Sequence[int] = (0, 1)) -> Reply:
        """The same, where statuses that are not fine are refusals."""
        reply = self.call(words, text)
        if reply.status not in fine:
            raise ProgramRefusal(reply.note or f"the program ended with status {reply.status}", reply.status)
        return reply


def named_program(path: str) -> Program:
    """The program of a path or a name in PATH; a port for Node ends with .mjs."""
    found = shutil.which(path) or (path if path.endswith(".mjs") and os.path.isfile(path) else None)
    if found is None:
        raise Misfit(f"there is no program {path}")
    return by_node(found) if found.endswith(".mjs") else Program((os.path.abspath(found),))


def by_node(path: str) -> Program:
    """The port that Node runs."""
    node = shutil.which("node") or shutil.which("nodejs")
    if node is None:
        raise Misfit(f"{path} needs Node, and there is no node in PATH")
    return Program((node, os.path.abspath(path)))


def beside_package() -> Iterator[Path]:
    """Where the program may stand beside the package: in its folder, in that of the commands, or where pip puts programs (with --target, too)."""
    yield PACKAGE.parent / "msp"
    yield PACKAGE.parent / "bin" / "msp"
    yield Path(sysconfig.get_path("scripts")) / "msp"
    if not hasattr(sys, "real_prefix") and sys.prefix == sys.base_prefix:
        yield Path(sysconfig.get_path("scripts", f"{os.name}_user")) / "msp"


def in_clone() -> Iterator[Path]:
    """Where the program may stand in a clone: the released one of this machine where it is that of the sources, and the built one."""
    name = RELEASED.get(platform.machine().lower())
    if sys.platform == "linux" and name and (CLONE / "released" / name).is_file() and is_released(*PORTS * (name != "msp")):
        yield CLONE / "released" / name
    yield CLONE / "crates" / "msp" / "out" / "msp"


def is_released(*words: str) -> bool:
    """Whether the released program, or with --ports what was made of it for other machines, has its checksum, and is that of the sources."""
    return subprocess.run(["sh", str(CLONE / "tools" / "released"), *words], stdout=subprocess.DEVNULL, check=False).returncode == 0


def find_program(named: str | None = None) -> Program | None:
    """The named program; or $MSP, or msp beside the package, in PATH or in the clone; or the port that Node runs; or None.

    What is released in a clone is taken where it has its checksum, and is that of the sources.
    """
    wanted = named or os.environ.get("MSP")
    if wanted:
        return named_program(wanted)
    in_path = shutil.which("msp")
    for places in (beside_package(), [Path(in_path)] if in_path else [], in_clone()):
        for path in places:
            if path.is_file() and os.access(path, os.X_OK):
                return Program((os.path.abspath(path),))
    ours, released = PACKAGE / "data" / "released" / "msp.mjs", CLONE / "released" / "msp.mjs"
    if not (shutil.which("node") or shutil.which("nodejs")):
        return None
    port = ours if ours.is_file() else released if released.is_file() and is_released(*PORTS) else None
    return by_node(str(port)) if port else None


def need_program(named: str | None = None) -> Program:
    """The program, or a misfit that says where it was looked for."""
    program = find_program(named)
    if program is None:
        raise Misfit("there is no program msp beside the companions, in PATH or in crates/msp/out, and none in released/ that is that of the "
                     "sources; make builds it")
    return program
