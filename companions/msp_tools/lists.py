"""From a list of jobs, as a spreadsheet has it, to an instance: columns, units, scales and dates, with every fault at its line and column.

`instance_of` is what from-csv does; its words are those of `ListWords`, and what it tells goes into a `Told`.
"""
from __future__ import annotations

import re
import unicodedata
from dataclasses import dataclass
from fractions import Fraction

from . import limits
from .calendars import said_holidays
from .cells import unit_in_header
from .classes import ClassName
from .columns import LONG, Header, header_of, needed_keys, reason
from .dates import said_length
from .faults import Fault
from .rows import Row, RowReader, arcs_of, refuse_order, row_of_sums
from .settings import ListUnits, ListWords, settled, units_of
from .spreadsheets import Table
from .telling import Place, Told, line_of


@dataclass
class Made:
    """What was made of a list: the instance text, pairs of a job's name there and in the list, what else the file of names says, and the
    factors of moments and of the cost."""
    text: str
    names: list[tuple[str, str]]
    words: dict[str, object]
    moments: Fraction
    cost: Fraction
    has_calendar: bool


# The names

def plain(name: str) -> str:
    """The name with signs that a job name may have."""
    text = unicodedata.normalize("NFKD", name.replace("ß", "ss")).encode("ascii", "ignore").decode()
    return re.sub(r"[^A-Za-z0-9_.-]+", "_", text.strip()).strip("_")[:32] or "job"


def names_of(rows: list[Row], header: Header, told: Told) -> dict[str, str]:
    """A name for each job, all distinct, by what stands in the column job."""
    found: dict[str, str] = {}
    lines: dict[str, int] = {}
    for row in rows:
        said_name = row.get("job")
        if not said_name or said_name in found:
            told.fault(Place(row.line, header.said("job")),
                       f"the name {said_name} stands again, as in {told.line} {lines[said_name]}" if said_name else "no name")
            continue
        lines[said_name] = row.line
        name, count = plain(said_name), 2
        while name in found.values():
            name, count = f"{plain(said_name)[:28]}-{count}", count + 1
        found[said_name] = name
    return found


# The list

def left_out(header: Header, table: Table, used: set[str], kind: ClassName, told: Told) -> None:
    """Says of each column that is not used that it is left out, or refuses the list."""
    lines = []
    for it in header.columns:
        # (spreadsheets write columns without a name and a field at the right)
        below = [record.fields[it.place] for record in table.records if record.line > header.line and len(record.fields) > it.place]
        filled = any(map(str.strip, below))
        # (an order that the class does not know is refused)
        if it.key not in used and (it.header or filled) and not (it.key == "after" and filled):
            why = reason(it.key, kind) if it.key else "--column names another one" if it.header else "it has no name"
            lines.append(f"column {it.header or it.place + 1} is left out: {why}")
    if lines and told.strict:
        told.fault(Place(header.line), "--strict: " + "; ".join(lines))
    elif not told.strict:
        told.notes += lines


def need_columns(header: Header, needed: list[str], name: str, words: ListWords, told: Told) -> None:
    """Refuses a list without a column that the class needs."""
    place = Place(header.line)
    if "job" not in header.keys:
        there = [it.header for it in header.columns if it.header]
        told.fault(place, "no column job" + (f"; there are {', '.join(there)}: --column job=NAME says what it is called" if header.titles else ""))
    for key in needed:
        if key not in header.keys and not (key == "r" and words.blank_is_0):
            word = LONG.get(key, key)
            told.fault(place, f"no column {key}, which {name} needs: --column {word}=NAME says what it is called")
    told.refuse()


def rows_of(table: Table, header: Header, told: Told) -> list[Row]:
    """The rows of the list below its header."""
    rows, count = [], len(header.columns)
    for record in table.records:
        if record.line <= header.line:
            continue
        if any(map(str.strip, record.fields[count:])):
            told.fault(Place(record.line), f"{len(record.fields)} fields, and {count} columns: put a field that holds the separator in quotes")
        # (line breaks in cells are blanks)
        rows.append(Row(record.line, {column.key: " ".join(it.split()) for column, it in zip(header.columns, record.fields) if column.key}))
    if not rows:
        raise Fault(f"{told.line} {header.line + 1}: no jobs")
    return rows


def without_sums(rows: list[Row], reader: RowReader) -> list[Row]:
    """The rows without a last one of sums, which is refused where --sum-row does not say what it is."""
    last, told, meant = rows[-1], reader.told, reader.words.sum_row
    sums = None if meant == "keep" else row_of_sums(rows, reader)
    if sums and meant == "drop":
        told.notes.append(f"{told.line} {last.line} is left out, a row of sums: {sums}")
    elif sums:
        told.fault(Place(last.line), f"the last row, {last.get('job') or 'without a name'}, looks like a row of sums ({sums}): delete it, or "
                                     "--sum-row drop leaves it out; --sum-row keep takes it for a job")
    kept = rows[:-1] if sums else rows
    if len(kept) > limits.MOST_JOBS:
        raise Fault(f"{told.line} {kept[limits.MOST_JOBS].line}: more than {limits.said(limits.MOST_JOBS)} jobs")
    if not kept:
        told.refuse()
        raise Fault(f"{told.line} {last.line}: no jobs")
    return kept


def tell_titles(header: Header, table: Table, told: Told) -> None:
    """Says what stands above the names of the columns."""
    told.notes += table.notes
    if header.titles:
        told.notes.append(f"{line_of(told.line, header.line)} names the columns; what stands above is taken for a title: {' / '.join(header.titles)}")


def instance_of(table: Table, name: str, words: ListWords, told: Told) -> Made:
    """The instance of a list, of a class by its name. Faults are told all at once, in a Fault; remarks are in `told`, also where there is one."""
    told.line, found = table.line, settled(name, words)
    if not table.records:
        raise Fault(f"{told.line} 1: the list is empty")
    kind, needed = found.kind, needed_keys(found.kind, found.machines)
    header = header_of(table, dict(words.column), needed)
    table = table.of_one_column() if len(header.columns) == 1 else table
    tell_titles(header, table, told)
    need_columns(header, needed, name, words, told)
    left_out(header, table, {"job", *needed, *["after"] * bool(kind.precedence)}, kind, told)
    reader = RowReader(found, header, words, units_of(header, kind, words, told), told, table.semicolons)
    rows = without_sums(rows_of(table, header, told), reader)
    names = names_of(rows, header, told)
    lines = [*found.lines, *lines_of(rows, names, reader), "end", ""]
    moments = found.speeds.of_moments * words.scale
    cost = (Fraction(1) if kind.criterion.endswith("U") else moments) * (words.scale_weights if kind.criterion.startswith("sumw") else 1)
    more = words_for_names(moments, cost, reader.units, words)
    return Made("\n".join(lines), [(it, original) for original, it in names.items()], more, moments, cost, reader.units.calendar is not None)


def lines_of(rows: list[Row], names: dict[str, str], reader: RowReader) -> list[str]:
    """The lines of the jobs and of the arcs; all faults of the rows are refused here."""
    refuse_order(rows, reader)
    lines = [line for row in rows for line in reader.lines(row, names.get(row.get("job"), ""))]
    lines += arcs_of(rows, names, reader)
    reader.finish()
    reader.told.refuse()
    return lines


def words_for_names(moments: Fraction, cost: Fraction, units: ListUnits, words: ListWords) -> dict[str, object]:
    """What the file of names says beside the names: scales, units, the moment 0, the calendar and the machines."""
    found: dict[str, object] = {"scale": moments, "cost": cost}
    found.update({"time-unit": said_length(units.time_unit)} if units.time_unit is not None else {})
    found.update({"start": units.start.said()} if units.start else {})
    if units.calendar:
        found["shifts"] = units.calendar.said()
        found.update({"holidays": said_holidays(units.calendar.holidays)} if units.calendar.holidays else {})
    # (on R, O and F kinds a column with the times of a machine may have the machine's name)
    found.update({f"machine {key[1:]}": unit_in_header(name)[0] for key, name in words.column if re.fullmatch("p[1-9][0-9]*", key)})
    machines = enumerate((words.machine_names or "").split(","), 1)
    found.update({f"machine {at}": name.strip() for at, name in machines if name.strip()})
    return found
