"""The results file: records as the Rust crate `csv` reads them, and entries with the first fault."""
from typing import Iterator, NamedTuple

from .classes import Class
from .faults import TextFault
from .names import NameFault, parse

MOST_ENTRIES = 20_000
LONGEST_SOURCE = 200
VERDICTS = {b"verdict": (b"easy", b"hard"), b"strength": (b"easy", b"pseudo", b"hard", b"strong")}

_COMMA, _QUOTE, _CR, _LF = 44, 34, 13, 10


class Entry(NamedTuple):
    """A listed result: its class, its verdict, and its source as bytes."""
    cls: Class
    verdict: str
    source: bytes


class _Records:
    """The states of csv's reader: what it has of a record, and a method for each place in which the next byte may be."""

    def __init__(self) -> None:
        self.fields: list[bytes] = []
        self.field = bytearray()
        self.next = self._start_record
        self.ended = False

    def take(self) -> list[bytes]:
        """The fields of the record that ends here."""
        fields = self.fields + [bytes(self.field)]
        self.fields, self.field, self.ended = [], bytearray(), False
        return fields

    def within(self) -> bool:
        """Whether a record has begun and has not ended."""
        return self.next not in (self._start_record, self._after_cr)

    def _start_record(self, byte: int) -> None:
        if byte not in (_CR, _LF):
            self._start_field(byte)

    def _after_cr(self, byte: int) -> None:
        self.next = self._start_record
        if byte != _LF:
            self._start_record(byte)

    def _start_field(self, byte: int) -> None:
        if byte == _QUOTE:
            self.next = self._in_quoted
        else:
            self._in_field(byte)

    def _in_field(self, byte: int) -> None:
        self.next = self._in_field
        if byte == _COMMA:
            self.fields.append(bytes(self.field))
            self.field = bytearray()
            self.next = self._start_field
        elif byte in (_CR, _LF):
            self.ended = True
            self.next = self._after_cr if byte == _CR else self._start_record
        else:
            self.field.append(byte)

    def _in_quoted(self, byte: int) -> None:
        if byte == _QUOTE:
            self.next = self._after_quote
        else:
            self.field.append(byte)

    def _after_quote(self, byte: int) -> None:
        if byte == _QUOTE:
            self.field.append(byte)
            self.next = self._in_quoted
        else:
            self._in_field(byte)


def records(text: bytes) -> Iterator[list[bytes]]:
    """The records of a text, one list of fields after another."""
    state = _Records()
    for byte in text:
        state.next(byte)
        if state.ended:
            yield state.take()
    if state.within():
        yield state.take()


def read_results(text: bytes) -> list[Entry]:
    """The entries of a results file; raises TextFault with the first fault."""
    if text.startswith(b"\xef\xbb\xbf"):
        text = text[3:]
    stream = records(text)
    header: list[bytes] = next(stream, [])
    if len(header) != 3 or header[0] != b"class" or header[1] not in VERDICTS or header[2] != b"source":
        raise TextFault("header")
    return [_entry(number, record, VERDICTS[header[1]]) for number, record in enumerate(stream, 1)]


def _entry(number: int, record: list[bytes], verdicts: tuple[bytes, ...]) -> Entry:
    if number > MOST_ENTRIES:
        raise TextFault("limit of records", limit=True)
    if len(record) != 3:
        raise TextFault(f"record {number}: width")
    name, verdict, source = record
    try:
        cls = parse(name)
    except NameFault as fault:
        raise TextFault(f"record {number}: name: {fault}") from None
    if verdict not in verdicts:
        raise TextFault(f"record {number}: verdict")
    if not _is_plain_text(source):
        raise TextFault(f"record {number}: source")
    if len(source) > LONGEST_SOURCE:
        raise TextFault(f"record {number}: limit of source", limit=True)
    return Entry(cls, verdict.decode(), source)


def _is_plain_text(source: bytes) -> bool:
    try:
        source.decode("utf-8")
    except UnicodeDecodeError:
        return False
    return all(byte >= 32 and byte != 127 for byte in source)
