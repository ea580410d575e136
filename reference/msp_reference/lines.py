"""A text that is read line by line from the left, and the faults of its fields."""
import re
from typing import Mapping, Optional

from .faults import TextFault
from .instance import LONGEST_NAME

_NUMBER = re.compile(rb"0|-?[1-9][0-9]*")
_NAME = re.compile(rb"[A-Za-z0-9_.-]+")
_HUGE = 10 ** 60


def number_of(field: bytes) -> Optional[int]:
    """The number that a field spells, or None; a very long one counts as some huge number."""
    if not _NUMBER.fullmatch(field):
        return None
    if len(field) > 60:
        return -_HUGE if field.startswith(b"-") else _HUGE
    return int(field)


class Lines:
    """A text that is read line by line; it keeps the number of the current line."""

    def __init__(self, text: bytes, place: int = 0, line: int = 1) -> None:
        self.text = text
        self.place = place
        self.line = line - 1

    def next(self) -> list[bytes]:
        """The fields of the next line; faults `missing` and `cut`."""
        self.line += 1
        if self.place >= len(self.text):
            raise self.fault("missing")
        end = self.text.find(b"\n", self.place)
        if end < 0:
            raise self.fault("cut")
        line = self.text[self.place:end]
        self.place = end + 1
        return line.split(b" ")

    def fault(self, words: str) -> TextFault:
        """A fault of the current line that is no limit."""
        return TextFault(f"line {self.line}: {words}")

    def limit(self, what: str) -> TextFault:
        """A passed limit in the current line."""
        return TextFault(f"line {self.line}: limit of {what}", limit=True)

    def demand(self, fields: list[bytes], *words: bytes) -> None:
        """A fault unless the first word of the line is one of these."""
        if fields[0] not in words:
            raise self.fault("not expected here")

    def count(self, fields: list[bytes], needed: int) -> None:
        """A fault unless the line has so many fields."""
        if len(fields) != needed:
            raise self.fault("count of fields")

    def only(self, word: bytes, needed: int) -> list[bytes]:
        """The fields of the next line, which has this first word and so many fields."""
        fields = self.next()
        self.demand(fields, word)
        self.count(fields, needed)
        return fields

    def number(self, field: bytes, least: int, greatest: int, what: str) -> int:
        """The number in a field; faults `number` and a limit."""
        value = number_of(field)
        if value is None:
            raise self.fault("number")
        if not least <= value <= greatest:
            raise self.limit(what)
        return value

    def name(self, field: bytes) -> bytes:
        """A job name; faults `name` and a limit."""
        if not _NAME.fullmatch(field):
            raise self.fault("name")
        if len(field) > LONGEST_NAME:
            raise self.limit("name")
        return field

    def known(self, field: bytes, places: Mapping[bytes, int]) -> int:
        """The place of a job name that some job has; fault `unknown name` besides those of a name."""
        name = self.name(field)
        if name not in places:
            raise self.fault("unknown name")
        return places[name]

    def end_of_text(self) -> None:
        """A fault where a byte follows."""
        if self.place < len(self.text):
            self.line += 1
            raise self.fault("after the end")
