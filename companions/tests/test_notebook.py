"""Executes docs/notebook.ipynb, and compares what its cells print with what stands there (pictures are not compared).

    /usr/bin/python3 companions/tests/test_notebook.py [--store]

With --store the notebook is written with what its cells print. It needs Debian's python3-nbconvert and python3-ipykernel; where they are
missing, it is skipped.
"""
from __future__ import annotations

import importlib.util
import json
import os
import subprocess
import sys
import tempfile
import unittest
from pathlib import Path
from typing import Any

NOTEBOOK = Path(__file__).resolve().parent.parent.parent / "docs" / "notebook.ipynb"
THERE = all(importlib.util.find_spec(it) for it in ("nbconvert", "ipykernel"))


def executed(folder: str) -> Any:
    """The notebook as executing it leaves it; a cell that raises is told."""
    words = ["-m", "nbconvert", "--to", "notebook", "--execute", "--output-dir", folder, "--output", "executed.ipynb", str(NOTEBOOK)]
    settings = {**os.environ, "PYTHONPATH": str(NOTEBOOK.parent.parent / "companions")}
    got = subprocess.run([sys.executable, *words], env=settings, capture_output=True, text=True, check=False)
    if got.returncode != 0:
        raise AssertionError(got.stderr)
    return json.loads((Path(folder) / "executed.ipynb").read_text(encoding="utf-8"))


def texts(notebook: Any) -> list[str]:
    """What the cells print and answer, as texts, one for each cell."""
    found = []
    for cell in notebook["cells"]:
        parts = [it.get("text") or it.get("data", {}).get("text/plain", "") for it in cell.get("outputs", [])]
        found.append("\n".join("".join(it) for it in parts))
    return found


def store() -> None:
    """Writes the notebook with what its cells print, without times and numbers of runs."""
    with tempfile.TemporaryDirectory() as folder:
        notebook = executed(folder)
    for cell in notebook["cells"]:
        cell["metadata"] = {}
    notebook["metadata"] = {"kernelspec": {"display_name": "Python 3", "language": "python", "name": "python3"}, "language_info": {"name": "python"}}
    NOTEBOOK.write_text(json.dumps(notebook, ensure_ascii=False, indent=1) + "\n", encoding="utf-8")


class Notebook(unittest.TestCase):
    """The tour of docs."""

    @unittest.skipUnless(THERE, "there is no nbconvert, or no ipykernel")
    def test_outputs(self) -> None:
        """Each cell prints what stands there."""
        stored = json.loads(NOTEBOOK.read_text(encoding="utf-8"))
        self.assertEqual(len(stored["cells"]), 20)
        with tempfile.TemporaryDirectory() as folder:
            got = executed(folder)
        for at, (wanted, found) in enumerate(zip(texts(stored), texts(got)), 1):
            self.assertEqual(wanted, found, f"cell {at}")


if __name__ == "__main__":
    if "--store" in sys.argv:
        store()
    else:
        unittest.main()
