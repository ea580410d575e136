"""The version of the package, which is that of the program."""
from __future__ import annotations

from pathlib import Path

PACKAGE = Path(__file__).resolve().parent


def version_in(package: Path) -> str:
    """The version that stands in the clone, in the package, or where make installs it."""
    for path in (package.parent.parent / "VERSION", package / "data" / "VERSION", package.parent.parent.parent / "share" / "msp" / "VERSION"):
        if path.is_file():
            return path.read_text(encoding="utf-8").strip()
    return "0"


VERSION = version_in(PACKAGE)
