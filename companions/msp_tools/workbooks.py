"""A plan as a workbook `.xlsx`, with numbers and dates as such in its cells; openpyxl writes it, where it is installed."""
from __future__ import annotations

from dataclasses import dataclass
from datetime import datetime
from fractions import Fraction
from typing import Union

from .charts import clean
from .faults import Misfit
from .schedules import Schedule
from .spreadsheets import Sheet, new_workbook
from .texts import Instance
from .units import Units

Value = Union[str, int, float, datetime, None]


@dataclass
class Sheets:
    """What the two sheets of a workbook show, and how many of their cells are rounded."""
    schedule: Schedule
    instance: Instance | None
    units: Units
    rounded: int = 0

    def number(self, value: Fraction) -> Value:
        """A number of a cell: whole, or the nearest one with 53 bits."""
        self.rounded += Fraction(float(value)) != value
        return value.numerator if value.denominator == 1 and abs(value) < 2**53 else float(value)

    def moment(self, value: Fraction | int, ends: bool = False) -> Value:
        """A moment of a cell: a number, or a date to the second."""
        found = self.units.at(value, ends)
        if found is None:
            return self.number(Fraction(value) * self.units.factor)
        self.rounded += found.part != 0
        return found.date

    def pieces(self) -> list[list[Value]]:
        """The rows of the pieces, by machine, with their head."""
        units = self.units
        rows: list[list[Value]] = [["machine", "job", "operation", "start", "end", *["pauses"] * bool(units.calendar)]]
        for it in sorted(self.schedule.pieces, key=lambda it: (it.machine, it.start, it.end)):
            pauses: list[Value] = [units.pauses(it.start, it.end, 100)] if units.calendar else []
            machine: Value = units.names.machines.get(it.machine, it.machine)
            rows.append([machine, clean(units.job(it.job)), it.operation, self.moment(it.start), self.moment(it.end, True), *pauses])
        return rows

    def jobs(self) -> list[list[Value]]:
        """The rows of the jobs with their head: due dates and lateness where the instance has some."""
        ends = self.schedule.ends()
        if self.instance is None:
            return [["job", "end"], *([clean(self.units.job(it)), self.moment(end, True)] for it, end in sorted(ends.items(), key=lambda it: it[1]))]
        dated = any(it.due is not None for it in self.instance.jobs)
        rows: list[list[Value]] = [["job", "end", *["due", "lateness"] * dated]]
        for job in self.instance.jobs:
            end = ends.get(job.name)
            row: list[Value] = [clean(self.units.job(job.name)), None if end is None else self.moment(end, True)]
            if dated:
                row += [self.moment(job.due_date, True), None if end is None else self.number((end - job.due_date) * self.units.factor)]
            rows.append(row)
        return rows


def fill(sheet: Sheet, rows: list[list[Value]]) -> None:
    """Writes rows to a sheet, dates as they are read."""
    for at, row in enumerate(rows, 1):
        sheet.append(row)
        for column, value in enumerate(row, 1):
            if isinstance(value, datetime):
                setattr(sheet.cell(at, column), "number_format", "yyyy-mm-dd hh:mm:ss" if value.second else "yyyy-mm-dd hh:mm")


def write_workbook(path: str, sheets: Sheets) -> list[str]:
    """Writes the workbook of a plan; answers what is to be said of it. A Misfit where openpyxl is missing, or the file cannot be written."""
    book = new_workbook("a workbook .xlsx")
    first = book.worksheets[0]
    first.title = "pieces"
    fill(first, sheets.pieces())
    fill(book.create_sheet("jobs"), sheets.jobs())
    try:
        book.save(path)
    except OSError as fault:
        raise Misfit(f"cannot write {path}: {fault.strerror}") from None
    return [f"{sheets.rounded} cells of {path} are rounded: a workbook has seconds, and 53 bits of a number"] if sheets.rounded else []
