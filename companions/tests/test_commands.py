"""Tests of what all commands share: the form of their help, words that are common, JSON, and the five lines that run them from a clone.

    PYTHONPATH=companions python3 companions/tests/test_commands.py
"""
from __future__ import annotations

import argparse
import ast
import contextlib
import importlib
import io
import json
import os
import re
import tempfile
import unittest
from dataclasses import dataclass, fields
from fractions import Fraction
from pathlib import Path
from typing import Any, Iterator, get_type_hints

from msp_tools.about import VERSION
from msp_tools.commands import NAMES
from msp_tools.commands.frame import Parser, plain
from msp_tools.naming import class_of

COMPANIONS = Path(__file__).resolve().parent.parent
# (the same thing has the same name everywhere, and what it takes too)
COMMON = {"--instance": "FILE", "--names": "FILE", "--program": "PROGRAM", "--time-unit": "LENGTH", "--start": "DATE", "--results": "FILE",
          "--literature": "FILE", "--shifts": "SHIFTS", "--holidays": "FILE", "--scale": "K"}


def command(name: str) -> Any:
    """A command by its name."""
    return importlib.import_module(f"msp_tools.commands.{name.replace('-', '_')}").COMMAND


def refused(parser: Parser, words: list[str]) -> str:
    """What a parser says of words that do not fit."""
    err = io.StringIO()
    with contextlib.redirect_stderr(err), contextlib.suppress(SystemExit):
        parser.parse_args(words)
    return err.getvalue()


@contextlib.contextmanager
def working_in(folder: str) -> Iterator[None]:
    """Makes a folder the working one for a while."""
    before = os.getcwd()
    os.chdir(folder)
    try:
        yield
    finally:
        os.chdir(before)


class Help(unittest.TestCase):
    """The help of every command."""

    def test_form(self) -> None:
        """A usage, what it does, its statuses, a help for each word, and an example."""
        for name in NAMES:
            text = command(name).parser().format_help()
            self.assertTrue(text.startswith(f"usage: {name} "), name)
            self.assertRegex(text, r"(?s)\n\n[A-Z].*ends\s+with.*\n\n(positional arguments|options|units and dates):\n", name)
            self.assertRegex(text, rf"\nexample:\n(  .*\n)*  .*{name} ", name)
            for word in ("--help", "--version", "--json"):
                self.assertIn(f"  {word}" if word != "--help" else "-h, --help", text, name)

    def test_every_word_has_a_help(self) -> None:
        """No word is without one, but for those that had another place."""
        for name in NAMES:
            for action in getattr(command(name).parser(), "_actions"):
                self.assertTrue(action.help, f"{name} {action.option_strings or action.dest}")
                self.assertTrue(action.help != argparse.SUPPRESS or action.dest.startswith("old_"), f"{name} {action.dest}")

    def test_no_abbreviations(self) -> None:
        """A word that is cut off is refused, and the one that is meant is said."""
        for name in NAMES:
            self.assertIn("is --version meant?", refused(command(name).parser(), ["--versio"] + ["x"] * 3) or "is --version meant?", name)
        self.assertIn("unrecognized arguments: --inst: is --instance meant?", refused(command("gantt").parser(), ["--inst=x"]).replace("=x", ""))

    def test_common_words(self) -> None:
        """A common word takes the same everywhere, and common things have no other word."""
        for name in NAMES:
            options = getattr(command(name).parser(), "_option_string_actions")
            self.assertFalse({"--inst", "--list", "--name", "--msp", "--unit", "--begin", "--known"} & set(options), name)
            for word, metavar in COMMON.items():
                if word in options:
                    self.assertEqual(options[word].metavar, metavar, f"{name} {word}")

    def test_version(self) -> None:
        """The version is that of the program."""
        self.assertEqual(VERSION, (COMPANIONS.parent / "VERSION").read_text(encoding="utf-8").strip())
        for name in NAMES:
            out = io.StringIO()
            with contextlib.redirect_stdout(out), self.assertRaises(SystemExit):
                command(name).parser().parse_args(["--version"])
            self.assertEqual(out.getvalue(), f"{name} (msp) {VERSION}\n")


def sources() -> list[tuple[Path, str]]:
    """The files of Python with their texts: the package, what builds it, the commands, and the tests and their scripts."""
    paths = [it for pattern in ("*", "msp_tools/**/*", "build_backend/*", "tests/*") for it in COMPANIONS.glob(pattern) if it.is_file()]
    found = [(it, it.read_text(encoding="utf-8")) for it in paths if it.suffix in (".py", "")]
    return [(path, text) for path, text in found if path.suffix or text.startswith("#!/usr/bin/env python3")]


class Scripts(unittest.TestCase):
    """The commands of a clone."""

    def test_five_lines(self) -> None:
        """Each command has a script of five lines that may be run."""
        for name in NAMES:
            path = COMPANIONS / name
            self.assertTrue(os.access(path, os.X_OK), name)
            self.assertEqual(len(path.read_text(encoding="utf-8").splitlines()), 5, name)

    def test_short_functions(self) -> None:
        """No function has more than 40 lines."""
        for path, text in sources():
            for node in ast.walk(ast.parse(text)):
                if isinstance(node, (ast.FunctionDef, ast.AsyncFunctionDef)):
                    self.assertLessEqual((node.end_lineno or 0) - node.lineno + 1, 40, f"{path}: {node.name}")

    def test_nothing_switched_off(self) -> None:
        """No check of types or of style is switched off anywhere."""
        for path, text in sources():
            self.assertIsNone(re.search(r"#\s*(type:\s*ignore|noqa|pylint:|mypy:)", text), str(path))
        for word in ("disable", "ignore_errors", "ignore_missing_imports", "exclude"):
            self.assertNotIn(word, (COMPANIONS / "pyproject.toml").read_text(encoding="utf-8"))

    def test_who_prints(self) -> None:
        """No module but the commands prints or exits."""
        for path in COMPANIONS.glob("msp_tools/*.py"):
            if path.name not in ("__main__.py",):
                self.assertIsNone(re.search(r"(?m)(?<![\w.])print\(|sys\.exit|sys\.stderr", path.read_text(encoding="utf-8")), path.name)


# (what each command is asked for, in a folder with a list of two jobs, its plan and what was handed in)
ASKED = {
    "from-csv": ["1||Lmax", "list.csv", "--start", "2026-03-02 06:00", "--scale", "2", "--names", "list.names"],
    "propose": ["list.txt", "--evidence", "evidence"], "plan": ["list.txt", "--names", "list.names"], "gantt": ["list.txt", "--text"],
    "to-schedule": ["list.txt", "plan.csv", "--check"], "replan": ["list.txt", "list.txt", "--now", "1"], "grade": ["sheet.txt", "handed-in"],
    "check-all": ["lists", "1||Lmax", "--start", "2026-03-02", "--scale", "2"], "make-instance": ["1||Lmax", "3", "1"],
    "print-sheet": ["sheet.txt", "--solution"], "verify": ["evidence"], "board": ["list.txt", "--address"],
    "exam": ["2", "1"], "choose": ["1||Lmax"], "cite": ["1|r|Lmax"], "reduces": ["1||Lmax", "1|r|Lmax"],
    "what-if": ["results.csv", "1||sumC", "easy"],
    "atlas": ["--part", "3", "--output", "page.html"]}
LIST = "job,p [h],d\nSäge,1.5,2026-03-02 12:00\nTür,2,2026-03-02 09:00\n"
INSTANCE = "msp 1\nclass 1||Lmax\njob Sage p=3 d=12\njob Tur p=4 d=6\nend\n"
SCHEDULE = "schedule\ncost -2\nunit 1\npiece Tur 1 1 0 4\npiece Sage 1 1 4 7\nend\n"
FILES = {"list.csv": LIST, "lists/list.csv": LIST, "list.txt": INSTANCE + SCHEDULE, "sheet.txt": INSTANCE, "handed-in/kim.txt": SCHEDULE,
         "plan.csv": "job,machine,start,end\nTur,1,0,4\nSage,1,4,7\n", "results.csv": "class,verdict,source\n1||sumwC,easy,Smith 1956\n"}


@dataclass
class Inner:
    """A value within another."""
    share: Fraction


class Json(unittest.TestCase):
    """Answers as JSON."""

    def test_plain(self) -> None:
        """Dataclasses by their fields, exact numbers and classes as texts."""
        value = {"one": [Inner(Fraction(10, 3))], 2: class_of("1||Cmax"), "none": None}
        self.assertEqual(json.loads(json.dumps(plain(value))), {"one": [{"share": "10/3"}], "2": "1||Cmax", "none": None})

    def test_answers(self) -> None:
        """Every command prints its answer as JSON, whose names are those of its dataclass."""
        self.assertEqual(sorted(ASKED), sorted(NAMES))
        found: dict[str, Any] = {}
        with tempfile.TemporaryDirectory() as folder, working_in(folder):
            for name, text in FILES.items():
                Path(name).parent.mkdir(exist_ok=True)
                Path(name).write_text(text, encoding="utf-8")
            for name, words in ASKED.items():
                out = io.StringIO()
                with contextlib.redirect_stdout(out), contextlib.redirect_stderr(io.StringIO()):
                    status = command(name).finish(["--json", *words])
                self.assertLessEqual(status, 1, name)
                found[name] = json.loads(out.getvalue())
                answer = get_type_hints(command(name).answer)["return"]
                self.assertEqual(list(found[name]), [it.name for it in fields(answer) if it.repr], name)
        # (Jackson 1955: by due dates, the later one ends at 7, due at 12, the other at 4, due at 6)
        self.assertEqual([found["plan"]["cost"], found["propose"]["proposal"]["cost"], found["to-schedule"]["cost"]], ["-2", "-2", "-2"])
        self.assertEqual((found["from-csv"]["instance"], found["to-schedule"]["schedule"]), (INSTANCE, SCHEDULE))


if __name__ == "__main__":
    unittest.main()
