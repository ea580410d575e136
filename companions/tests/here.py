"""What the scripts of this folder share: the package and the reference of the repository on the path, and one form of reading words.

A script imports it in front of them.
"""
from __future__ import annotations

import argparse
import sys
from pathlib import Path

COMPANIONS = Path(__file__).resolve().parent.parent
TOP = COMPANIONS.parent
sys.dont_write_bytecode = True
sys.path[:0] = [str(COMPANIONS), str(TOP / "reference")]
# (the classes without a solver of which plans and bounds are measured)
MEASURED = ("1|r|Lmax", "1|r|sumC", "1||sumT", "1||sumwT", "1|r|sumwU", "P||Cmax", "P||Lmax", "P||sumwC", "P||sumT", "P|r|Lmax", "P|prec|Cmax",
            "Q||Cmax", "R||Cmax", "R||sumwC", "F3||Cmax", "O3||Cmax", "F||sumC", "J||Cmax", "J||Lmax", "J||sumwT")


def reader_of(doc: str | None) -> argparse.ArgumentParser:
    """A reader of words, by the text of a script, whose third line is its usage."""
    text = doc or ""
    return argparse.ArgumentParser(usage=text.split("\n")[2].strip(), description=text, allow_abbrev=False,
                                   formatter_class=argparse.RawDescriptionHelpFormatter)
