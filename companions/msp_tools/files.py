"""Files: read with their faults told, and the ones that come with the package found."""
from __future__ import annotations

import os
import sys
from pathlib import Path

from .faults import Fault, Misfit

PACKAGE = Path(__file__).resolve().parent


def read_bytes(path: str | None = None) -> bytes:
    """The bytes of a file, or of standard input where the path is None or `-`."""
    try:
        if path in (None, "-"):
            return sys.stdin.buffer.read()
        with open(str(path), "rb") as file:
            return file.read()
    except OSError as fault:
        raise Misfit(f"cannot read {path}: {fault.strerror}") from None


def read_text(path: str | None = None, encoding: str = "utf-8") -> str:
    """The text of a file, or of standard input where the path is None or `-`."""
    data = read_bytes(path)
    try:
        return data.decode(encoding)
    except UnicodeDecodeError as fault:
        line = data[: fault.start].count(b"\n") + 1
        raise Fault(f"line {line}: a byte that is not {encoding}") from None


def write_text(path: str, text: str, newline: str | None = None) -> None:
    """Writes a file in UTF-8."""
    try:
        with open(path, "w", encoding="utf-8", newline=newline) as file:
            file.write(text)
    except OSError as fault:
        raise Misfit(f"cannot write {path}: {fault.strerror}") from None


def left_out(place: str, folders: list[str], files: list[str]) -> list[str]:
    """The paths in a folder that a walk leaves out: what begins with a dot, and links to folders. These folders are taken out of the list."""
    left = [it for it in sorted([*folders, *files]) if it.startswith(".") or it in folders and os.path.islink(os.path.join(place, it))]
    folders[:] = sorted(it for it in folders if it not in left)
    return [os.path.join(place, it) for it in left]


def find_file(name: str) -> str | None:
    """The path of a file that comes with the package, by its name in the repository: in the clone, in the package, or as make installs it."""
    for folder in (PACKAGE.parent.parent, PACKAGE / "data", PACKAGE.parent.parent.parent / "share" / "msp"):
        if (folder / name).is_file():
            return str(folder / name)
    return None


def shipped(name: str) -> str | None:
    """The text of a file that comes with the package, or None where it is not there."""
    path = find_file(name)
    return read_text(path) if path else None


def need_file(named: str | None, name: str, option: str) -> str:
    """The path of the named file, or of the one that comes with the package; a misfit names the option."""
    path = named or find_file(name)
    if path is None:
        raise Misfit(f"there is no {name} in the clone or in the package; {option} FILE names one")
    return path
