"""A plan as a list, by `plan --csv` or by hand, read back to the pieces of a schedule."""
from __future__ import annotations

import math
import re
from collections.abc import Mapping
from fractions import Fraction

from . import limits
from .faults import Fault
from .schedules import Piece, text_of
from .spreadsheets import Record, Table
from .telling import Place, Told
from .texts import Instance
from .units import Units

KEYS = ("job", "machine", "operation", "start", "end")


def places_of(table: Table, columns: Mapping[str, str]) -> dict[str, int]:
    """The place of each column by its key; `columns` has the names of columns by their keys."""
    header = table.records[0].fields
    where, names = f"{table.line} {table.records[0].line}", [it.strip().lower() for it in header]
    places = {}
    for key in KEYS:
        name = columns.get(key, key).lower()
        if names.count(name) > 1:
            raise Fault(f"{where}: the column {name} stands twice")
        if name in names:
            places[key] = names.index(name)
        elif key != "operation" or key in columns:
            raise Fault(f"{where}: no column {columns.get(key, key)}; there are {', '.join(it.strip() for it in header if it.strip())}")
    return places


def counted(text: str, what: str) -> int:
    """A number of a machine or an operation."""
    if not re.fullmatch(r"0*[1-9][0-9]{0,8}", text):
        raise Fault(f"not the number of {what}: {text or 'an empty field'}")
    return int(text)


class PlanReader:
    """Reads the rows of a plan; `strict` refuses moments outside of the shifts. Faults go to `told`."""

    def __init__(self, table: Table, columns: Mapping[str, str], instance: Instance, units: Units, strict: bool) -> None:
        self.table, self.instance, self.units, self.strict = table, instance, units, strict
        self.places = places_of(table, columns)
        self.headers = {key: table.records[0].fields[place].strip() for key, place in self.places.items()}
        self.names = {original: name for name, original in units.names.jobs.items()}
        self.machines = {name: str(number) for number, name in units.names.machines.items()}
        self.told = Told(table.line)

    def pieces(self) -> list[Piece]:
        """The pieces of the plan, the operation 0 where it is not said; all faults of the rows are refused at once."""
        found = []
        for record in self.table.records[1:]:
            faults = len(self.told.faults)
            piece = self.piece(record)
            found += [piece] if piece and len(self.told.faults) == faults else []
        self.told.refuse()
        return found

    def piece(self, record: Record) -> Piece | None:
        """The piece of a row; None where its fields are empty."""
        count = len(self.table.records[0].fields)
        if any(map(str.strip, record.fields[count:])):
            self.told.fault(Place(record.line), f"{len(record.fields)} fields, and {count} columns: decimal commas go with semicolons")
        fields = {key: record.fields[place].strip() if place < len(record.fields) else "" for key, place in self.places.items()}
        if not any(fields.values()):
            return None
        name = self.names.get(fields["job"], fields["job"])
        if self.instance.job(name) is None:
            self.told.fault(self.place(record, "job"), f"the instance has no job {fields['job'] or 'with an empty name'}")
        start, end = self.moment(record, "start", fields["start"]), self.moment(record, "end", fields["end"])
        if self.units.calendar and start is not None and start == end:
            self.told.fault(Place(record.line), f"nothing is worked from {fields['start']} to {fields['end']}")
        machine = self.number(record, "machine", self.machines.get(fields["machine"], fields["machine"]), "a machine")
        if machine > self.instance.machines:
            self.told.fault(self.place(record, "machine"), f"machine {machine}, and the instance has {self.instance.machines}")
        operation = self.number(record, "operation", fields["operation"], "an operation") if fields.get("operation") else 0
        return Piece(name, operation, machine, start or Fraction(0), end or Fraction(0), record.line)

    def place(self, record: Record, key: str) -> Place:
        """The place of a field."""
        return Place(record.line, self.headers[key])

    def number(self, record: Record, key: str, text: str, what: str) -> int:
        """The number of a machine or an operation; 0 where it has a fault."""
        try:
            return counted(text, what)
        except Fault as fault:
            self.told.caught(self.place(record, key), fault, text)
            return 0

    def moment(self, record: Record, key: str, text: str) -> Fraction | None:
        """A moment of the plan; None where it has a fault."""
        place = self.place(record, key)
        try:
            return self.units.read_moment(text, self.told.where(place), self.strict)
        except Fault as fault:
            self.told.caught(place, fault, text)
            return None


def settle_operations(pieces: list[Piece], instance: Instance, line: str) -> None:
    """Gives each piece without an operation the one with its machine; of several, the first that lacks work."""
    given: dict[tuple[str, int], Fraction] = {}
    for piece in sorted(pieces, key=lambda it: it.start):
        job = instance.job(piece.job)
        operations = instance.operations(job) if job else []
        fits = [at for at, (machine, _) in enumerate(operations, 1) if machine in (None, piece.machine)]
        if piece.operation == 0 and not fits:
            raise Fault(f"{line} {piece.line}: {piece.job} has no operation on machine {piece.machine}")
        if piece.operation == 0:
            lacking = [at for at in fits if len(fits) == 1 or given.get((piece.job, at), Fraction(0)) < operations[at - 1][1]]
            piece.operation = lacking[0] if lacking else fits[-1]
        key = piece.job, piece.operation
        given[key] = given.get(key, Fraction(0)) + piece.end - piece.start


def schedule_text(pieces: list[Piece], cost: Fraction) -> str:
    """The schedule text in the least unit, pieces by their beginning and machine; a Fault where its numbers are beyond the limits."""
    unit = math.lcm(*(it.denominator for piece in pieces for it in (piece.start, piece.end)))
    if unit > limits.GREATEST_UNIT or any(it.end * unit > limits.GREATEST_MOMENT for it in pieces):
        raise Fault(f"the moments are too fine: a schedule text has parts of at least 1/{limits.said(limits.GREATEST_UNIT)}, and moments of "
                    f"at most {limits.said(limits.GREATEST_MOMENT)} of them")
    return text_of(sorted(pieces, key=lambda it: (it.start, it.machine)), cost)
