"""What all commands share: one builder of parsers, one way to run, notes on standard error, and statuses.

A command is a module with `COMMAND = Command(..)`: a dataclass of its words with their defaults, a function that adds them to a parser, a
function from the words to an answer, which is a dataclass, and one that prints the answer. `--json` prints the dataclass instead.
"""
from __future__ import annotations

import argparse
import dataclasses
import json
import os
import re
import sys
from dataclasses import dataclass
from fractions import Fraction
from typing import Any, Callable, Generic, NoReturn, Sequence, TypeVar, cast

from ..about import VERSION
from ..classes import ClassName
from ..faults import Refusal
from ..naming import near
from . import NAMES

Tell = Callable[[str], None]
W = TypeVar("W")
A = TypeVar("A")


# Parsers

class Form(argparse.RawDescriptionHelpFormatter):
    """The form of all help: descriptions and examples as they stand, words in one column."""

    def __init__(self, prog: str) -> None:
        super().__init__(prog, max_help_position=28)


class Parser(argparse.ArgumentParser):
    """A parser without abbreviations; of a word that is unknown it says which may be meant."""

    def error(self, message: str) -> NoReturn:
        front, _, words = message.partition("unrecognized arguments: ")
        unknown = next((it.split("=")[0] for it in words.split(" ") if it.startswith("--")), None) if not front else None
        if unknown:
            options = [it for it in self._option_string_actions if it.startswith("--")]
            meant = next((it for it in options if it.startswith(unknown)), None) or near(unknown, options)
            message += f": is {meant} meant?" if meant else ""
        super().error(message)

    def read(self, words: Sequence[str] | None, wanted: W) -> W:
        """Reads words into an object that has their defaults; options and others in any order, but for words that another command reads."""
        if any(it.nargs == argparse.REMAINDER for it in self._actions):
            return self.parse_args(words, namespace=wanted)
        self.parse_intermixed_args(words, namespace=cast(argparse.Namespace, wanted))
        return wanted


def positive(text: str) -> int:
    """A reader of whole numbers from 1."""
    if not text.isdecimal() or len(text) > 9 or int(text) < 1:
        raise argparse.ArgumentTypeError(f"{text}: write a whole number from 1")
    return int(text)


# Words that several commands have, each with one name

def add_program(words: argparse.ArgumentParser) -> None:
    """The program that is called."""
    words.add_argument("--program", metavar="PROGRAM", help="the program; without it $MSP, or msp beside the companions, in PATH or in the clone")


def add_results(words: argparse.ArgumentParser) -> None:
    """A file of known results."""
    words.add_argument("--results", metavar="FILE", help="known results; without it examples/known-strengths.csv")


# Commands

@dataclass(frozen=True)
class Command(Generic[W, A]):
    """A command. `wanted` makes its words with their defaults, `words` adds them to a parser; `answer` may tell notes; `show` prints."""
    name: str
    usage: str
    says: str
    example: str
    wanted: Callable[[], W]
    words: Callable[[Parser], None]
    answer: Callable[[W, Tell], A]
    show: Callable[[A], None]
    status: Callable[[A], int] = lambda _: 0

    def parser(self) -> Parser:
        """The parser of the words; its help calls an installed command msp-NAME, as people do."""
        installed = os.path.basename(sys.argv[0]).partition(".")[0] == f"msp-{self.name}"
        example = re.sub(rf"(?<![\w./-])({'|'.join(NAMES)})(?=\s|$)", r"msp-\1", self.example) if installed else self.example
        examples = "\n".join(f"  {it}" for it in example.strip().split("\n"))
        parser = Parser(prog=f"msp-{self.name}" if installed else self.name, usage=f"%(prog)s {self.usage}", description=self.says.strip(),
                        epilog=f"example:\n{examples}", allow_abbrev=False, formatter_class=Form)
        self.words(parser)
        parser.add_argument("--json", action="store_true", help="prints the answer as JSON; exact numbers are texts, as 10/3")
        parser.add_argument("--version", action="version", version=f"{self.name} (msp) {VERSION}", help="prints the version")
        return parser

    def tell(self, line: str) -> None:
        """Prints a note on standard error behind the command's name."""
        print(f"{self.name}: {line}", file=sys.stderr, flush=True)

    def read(self, words: Sequence[str] | None) -> W:
        """Reads the words."""
        return self.parser().read(words, self.wanted())

    def finish(self, words: Sequence[str] | None) -> int:
        """Reads the words, prints the answer, and gives the status."""
        wanted = self.read(words)
        answer = self.answer(wanted, self.tell)
        if vars(wanted).get("json"):
            print(json.dumps(plain(answer), ensure_ascii=False, indent=1))
        else:
            self.show(answer)
        sys.stdout.flush()
        return self.status(answer)

    def run(self, words: Sequence[str] | None = None) -> NoReturn:
        """Runs the command, and ends with its status; 8 says that writing failed."""
        try:
            sys.exit(self.finish(words))
        except Refusal as fault:
            print("\n".join(f"{self.name}: {line}" for line in str(fault).split("\n")), file=sys.stderr)
            sys.exit(fault.status)
        except ValueError as fault:
            # (Python reads no whole number of more than 4,300 digits)
            if "digits" not in str(fault):
                raise
            self.tell("a number of more than 4,300 digits")
            sys.exit(3)
        except OSError as fault:
            if not isinstance(fault, BrokenPipeError):  # (a reader that ends early is no fault to be told)
                self.tell(f"cannot write: {fault.strerror}")
            # (nothing is left to be flushed at the end)
            os.dup2(os.open(os.devnull, os.O_WRONLY), sys.stdout.fileno())
            sys.exit(8)


def plain(value: Any) -> Any:
    """A value as JSON has it: dataclasses by their fields, exact numbers and classes as texts."""
    if isinstance(value, (Fraction, ClassName)):
        return str(value)
    if dataclasses.is_dataclass(value) and not isinstance(value, type):
        return {it.name: plain(getattr(value, it.name)) for it in dataclasses.fields(value) if it.repr}
    if isinstance(value, dict):
        return {str(key): plain(it) for key, it in value.items()}
    if isinstance(value, (list, tuple, set, frozenset)):
        return [plain(it) for it in value]
    return value
