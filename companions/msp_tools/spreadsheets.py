"""Lists as spreadsheets save them: CSV in the encodings and with the separators of German and English ones, and workbooks `.xlsx`.

Workbooks are read and written by openpyxl, where it is installed. Cells become texts: dates as YYYY-MM-DD HH:MM, lengths of time as 27:30,
both to the second; numbers as a spreadsheet shows them, with 15 digits.
"""
from __future__ import annotations

import csv
import importlib
import io
import math
import re
import unicodedata
import warnings
import zipfile
import zlib
from collections.abc import Iterable, Sequence
from dataclasses import dataclass, field, replace
from datetime import date, datetime, time, timedelta
from fractions import Fraction
from types import ModuleType
from typing import Protocol, cast

from .dates import HOUR, MINUTE
from .faults import Fault, Misfit
from .numbers import said

MARKS = ((b"\xff\xfe", "utf-16"), (b"\xfe\xff", "utf-16"), (b"\xef\xbb\xbf", "utf-8-sig"))
SAVE = "save it as CSV (separated by semicolons or commas), or as .xlsx"
LOOKED_AT = 20  # (lines that tell the separator)
NOTHING = "\x1f"  # (what separates where no mark does)


@dataclass(frozen=True)
class Record:
    """A record that is not blank: the line on which it begins, or the row of a workbook, and its fields."""
    line: int
    fields: list[str]


@dataclass
class Table:
    """A list: its records, whether semicolons separate the fields, what its lines are called, what is to be said of it, and the text that was
    parted, with the number of its first line."""
    records: list[Record]
    semicolons: bool = False
    line: str = "line"
    notes: list[str] = field(default_factory=list)
    text: str = field(default="", repr=False)
    first: int = 1

    def of_one_column(self) -> Table:
        """The list with each line as one field, where it is CSV: nothing separates the fields of a single column."""
        return replace(self, records=records_of(self.text, NOTHING, self.first), semicolons=False) if self.text else self


def table_of(data: bytes, encoding: str = "utf-8", sheet: str | None = None) -> Table:
    """The list in a file's bytes, CSV or a workbook; a Fault where it is none, a Misfit where `sheet` names none of its sheets."""
    if data[:4] == b"PK\x03\x04":
        if b"opendocument" in data[:100]:
            raise Fault(f"this is a sheet of OpenDocument (.ods): {SAVE}")
        return workbook(data, sheet)
    if data[:4] == b"\xd0\xcf\x11\xe0":
        raise Fault(f"this is an old workbook (.xls): {SAVE}")
    if sheet is not None:
        raise Misfit("--sheet goes with workbooks (.xlsx), and this is a list of one sheet")
    return parted(text_of(data, encoding))


# CSV

def text_of(data: bytes, encoding: str) -> str:
    """The text of a list: a mark in front decides the encoding; accents are joined with their letters, line ends are one line feed."""
    name = next((name for mark, name in MARKS if data.startswith(mark)), encoding)
    try:
        text = data.decode(name)
    except LookupError:
        raise Misfit(f"no encoding {encoding}: cp1252, latin-1, utf-8, utf-16 are some") from None
    except UnicodeError as fault:
        line = f"line {fault.object[: fault.start].count(10) + 1}: " if isinstance(fault, UnicodeDecodeError) else ""
        cure = "; --encoding cp1252 reads lists from Windows" if name == "utf-8" else ""
        raise Fault(f"{line}a byte that is not {name}{cure}") from None
    if "\0" in text:
        raise Fault("this is no list, or one in UTF-16 without a mark: --encoding utf-16-le reads that")
    return unicodedata.normalize("NFC", text.removeprefix("\ufeff").replace("\r\n", "\n").replace("\r", "\n"))


def separator_of(text: str) -> str:
    """The separator of a list: the one that stands equally often in most of its first lines; where none does, nothing separates."""
    lines = [re.sub('"[^"]*"', "", it) for it in text.split("\n") if it.strip()][:LOOKED_AT]
    best, most = NOTHING, (0, 0)
    # (spreadsheets save tabs in UTF-16)
    for mark in "\t;,":
        often = [it.count(mark) for it in lines if mark in it]
        alike = max(map(often.count, often), default=0)
        if often and (mark in lines[0] or 2 * len(often) > len(lines)) and (alike, len(often)) > most:
            best, most = mark, (alike, len(often))
    return best


def parted(text: str) -> Table:
    """The records of a text; a first line `sep=;` says the separator, else the lines do: semicolons, commas or tabs."""
    found = re.match(r'"?sep=(.)"?\n', text)
    rest, line = (text[found.end():], 2) if found else (text, 1)
    delimiter = found[1] if found else separator_of(text)
    return Table(records_of(rest, delimiter, line), delimiter == ";", text=rest, first=line)


def records_of(text: str, delimiter: str, first: int) -> list[Record]:
    """The records of a text whose first line has a number, by the separator of its fields."""
    reader, line, records = csv.reader(io.StringIO(text), delimiter=delimiter, strict=True), first, []
    try:
        for fields in reader:
            records += [Record(line, fields)] if any(it.strip() for it in fields) else []
            line = reader.line_num + first
    except csv.Error as fault:
        raise Fault(f"line {line}: {fault}") from None
    return records


# Rows of values

def length_text(seconds: int) -> str:
    """A length of time as spreadsheets write it: hours, minutes, and seconds where there are some."""
    front, rest = "-" if seconds < 0 else "", abs(seconds)
    return f"{front}{rest // HOUR}:{rest // MINUTE % 60:02d}" + (f":{rest % 60:02d}" if rest % 60 else "")


def date_text(value: date) -> str:
    """A date as lists have it, with its clock time where it is not midnight."""
    if not isinstance(value, datetime):
        return value.isoformat()
    value += timedelta(microseconds=500000)
    return value.strftime("%Y-%m-%d" + (" %H:%M:%S" if value.second else " %H:%M" if value.hour or value.minute else ""))


def cell_text(value: object, zero: datetime = datetime(1899, 12, 31)) -> str:
    """A value of Python as a list has it: numbers, dates, lengths of time and texts, several of them in a list; nothing for None and for what is
    no number (NaN).

    `zero` is the day 0 of a workbook: a cell that shows a clock time beyond 24 hours is a date near it there, and a length of time.
    """
    if value is None or isinstance(value, float) and math.isnan(value) or str(value) in ("NaT", "<NA>"):
        return ""
    if isinstance(value, (list, tuple)):
        return ("|" if any(isinstance(it, str) for it in value) else " ").join(map(cell_text, value))
    if isinstance(value, datetime) and zero <= value < zero + timedelta(days=366):
        value -= zero
    if isinstance(value, time):
        value = timedelta(hours=value.hour, minutes=value.minute, seconds=value.second)
    if isinstance(value, date):
        return date_text(value)
    if isinstance(value, timedelta):
        return length_text(round(value.total_seconds()))
    return f"{value:.15g}" if isinstance(value, float) else said(value) if isinstance(value, Fraction) else str(value)


def table_of_rows(rows: Iterable[Sequence[object]]) -> Table:
    """The list of rows of values, the first of them the names of the columns; rows count from 1."""
    records = [Record(at, [cell_text(it) for it in row]) for at, row in enumerate(rows, 1)]
    return Table(filled(records), line="row")


def filled(records: Iterable[Record]) -> list[Record]:
    """The records that are not blank."""
    return [it for it in records if any(map(str.strip, it.fields))]


# Workbooks

class Sheet(Protocol):
    """A sheet of a workbook."""
    title: str

    def iter_rows(self, *, values_only: bool) -> Iterable[Sequence[object]]:
        """The rows, from the first one."""

    def append(self, values: Sequence[object]) -> None:
        """Writes a row below the others."""

    def cell(self, row: int, column: int) -> object:
        """A cell; both count from 1."""


class Workbook(Protocol):
    """A workbook."""
    worksheets: list[Sheet]
    epoch: datetime

    def create_sheet(self, title: str) -> Sheet:
        """A new sheet behind the others."""

    def remove(self, sheet: Sheet) -> None:
        """Takes a sheet away."""

    def save(self, filename: str) -> None:
        """Writes the workbook."""


def openpyxl(what: str) -> ModuleType:
    """The library openpyxl; a Misfit that says what to install where it is missing."""
    try:
        return importlib.import_module("openpyxl")
    except ImportError:
        raise Misfit(f"{what} needs openpyxl, which is not installed: pip install openpyxl (Debian: python3-openpyxl), or use CSV") from None


def new_workbook(what: str) -> Workbook:
    """A workbook with one sheet."""
    return cast(Workbook, openpyxl(what).Workbook())


UNREADABLE = (zipfile.BadZipFile, zlib.error, SyntaxError, ArithmeticError, AttributeError, EOFError, LookupError, RuntimeError,
              TypeError, ValueError, OSError)


def workbook(data: bytes, wanted: str | None) -> Table:
    """The records of a sheet of a workbook: the wanted one, else the first one."""
    library = openpyxl("a workbook .xlsx")
    try:
        with warnings.catch_warnings():
            warnings.simplefilter("ignore")
            book = cast(Workbook, library.load_workbook(io.BytesIO(data), data_only=True))
        sheets = {it.title: it for it in book.worksheets}
        sheet = sheets.get(wanted) if wanted is not None else book.worksheets[0]
        zero = datetime(1904, 1, 1) if book.epoch.year == 1904 else datetime(1899, 12, 31)
        records = [Record(at, [cell_text(it, zero) for it in row]) for at, row in enumerate(sheet.iter_rows(values_only=True) if sheet else (), 1)]
    except UNREADABLE:
        raise Fault(f"this workbook cannot be read: {SAVE}") from None
    if sheet is None:
        raise Misfit(f"--sheet {wanted}: there are the sheets {', '.join(sheets)}")
    said_sheet = [f"the sheet {sheet.title} is read, the first one of {len(sheets)}: --sheet NAME reads another"]
    return Table(filled(records), line="row", notes=said_sheet * (len(sheets) > 1 and wanted is None))
