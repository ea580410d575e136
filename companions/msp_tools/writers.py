"""Sheets and solutions for print: what stands in them, and two writers, Markdown and LaTeX.

Texts have names of jobs as they are, and formulas between dollar signs, which both writers leave as they stand.
"""
from __future__ import annotations

import re

from abc import ABC, abstractmethod
from typing import Callable, List, Sequence, Tuple

from .numbers import Number, said
from .rules import Rule, Solution
from .schedules import Piece, ends_of
from .texts import Instance, Job

Row = Sequence[str]

MACHINES = {"1": "one machine", "P": "{} identical machines", "Q": "{} uniform machines", "R": "{} unrelated machines",
            "O": "an open shop of {} machines", "F": "a flow shop of {} machines", "J": "a job shop of {} machines"}
ASKED = {"Cmax": "the makespan $C_{max}$", "Lmax": "the maximum lateness $L_{max}$", "fmax": "the greatest cost $f_{max}$",
         "sumC": "the sum of completion times $C_j$", "sumwC": "the weighted sum of completion times $w_j C_j$", "sumU": "the number of late jobs",
         "sumwU": "the weighted number of late jobs", "sumT": "the total tardiness", "sumwT": "the total weighted tardiness"}
ORDERS = {"chains": "the jobs form chains", "intree": "the jobs form an intree", "outtree": "the jobs form an outtree",
          "prec": "some jobs come after others"}


# Writers

NUMBER = re.compile(r"-?[0-9]+([./][0-9]+)?")  # (as `said` writes them)


def numeric(rows: Sequence[Row], at: int) -> bool:
    """Whether a column has numbers alone; they stand at the right."""
    return all(NUMBER.fullmatch(row[at]) for row in rows)


class Writer(ABC):
    """What both writers share: texts, in which formulas stand between dollar signs."""

    ending = ""

    @abstractmethod
    def plain(self, text: str) -> str:
        """A text without formulas."""

    @abstractmethod
    def formula(self, text: str) -> str:
        """A formula with its dollar signs."""

    @abstractmethod
    def code(self, text: str) -> str:
        """A name of a class."""

    @abstractmethod
    def heading(self, text: str) -> str:
        """A heading within the document."""

    @abstractmethod
    def table(self, heads: Row, rows: Sequence[Row]) -> str:
        """A table of texts."""

    @abstractmethod
    def document(self, title: str, parts: Row) -> str:
        """The whole text."""

    def text(self, text: str) -> str:
        """A text with formulas."""
        return "".join(self.formula(it) if it.startswith("$") else self.plain(it) for it in re.split(r"(\$[^$]*\$)", text))


class Markdown(Writer):
    """Writes Markdown with tables, as pandoc and most course systems read it."""
    ending = ".md"
    special = re.compile(r"([\\`*_{}\[\]<>#|$&])")

    def plain(self, text: str) -> str:
        """A text without formulas."""
        return self.special.sub(r"\\\1", text)

    def formula(self, text: str) -> str:
        """A formula with its dollar signs."""
        return text

    def code(self, text: str) -> str:
        """A name of a class."""
        return f"`{text}`"

    def heading(self, text: str) -> str:
        """A heading within the document."""
        return f"## {self.text(text)}"

    def table(self, heads: Row, rows: Sequence[Row]) -> str:
        """A table of texts."""
        under = ["---:" if numeric(rows, at) else "---" for at in range(len(heads))]
        lines = [[self.text(it) for it in heads], under, *([self.text(it) for it in row] for row in rows)]
        return "\n".join(f"| {' | '.join(line)} |" for line in lines)

    def document(self, title: str, parts: Row) -> str:
        """The whole text."""
        return "\n\n".join([f"# {self.plain(title)}", *parts]) + "\n"


class Latex(Writer):
    """Writes a document for LaTeX."""
    ending = ".tex"
    special = re.compile(r"[\\{}$&#^_~%|<>]")
    spelled = {"\\": r"\textbackslash{}", "^": r"\textasciicircum{}", "~": r"\textasciitilde{}", "|": r"\textbar{}", "<": r"\textless{}",
               ">": r"\textgreater{}"}
    front = ("\\documentclass[11pt,a4paper]{article}", "\\usepackage[utf8]{inputenc}", "\\usepackage[T1]{fontenc}",
             "\\usepackage[margin=2cm]{geometry}", "\\usepackage{longtable}", "\\begin{document}")

    def plain(self, text: str) -> str:
        """A text without formulas."""
        return self.special.sub(lambda it: str(self.spelled.get(it[0], f"\\{it[0]}")), text)

    def formula(self, text: str) -> str:
        """A formula with its dollar signs."""
        return text.replace("max", r"\max")

    def code(self, text: str) -> str:
        """A name of a class."""
        return f"\\texttt{{{self.plain(text)}}}"

    def heading(self, text: str) -> str:
        """A heading within the document."""
        return f"\\subsection*{{{self.text(text)}}}"

    def cell(self, text: str) -> str:
        """A cell of a table; a number below 0 is a formula, for its sign."""
        return f"${text}$" if text.startswith("-") and NUMBER.fullmatch(text) else self.text(text)

    def table(self, heads: Row, rows: Sequence[Row]) -> str:
        """A table of texts; long cells are broken into lines."""
        longest = [max((len(row[at]) for row in rows), default=0) for at in range(len(heads))]
        columns = "".join("r" if numeric(rows, at) else "l" if longest[at] <= 20 else "p{6cm}" for at in range(len(heads)))
        first, *others = [" & ".join(map(self.cell, line)) + " \\\\" for line in (heads, *rows)]
        return "\n".join([f"\\begin{{longtable}}{{{columns}}}", "\\hline", first, "\\hline", "\\endhead", *others, "\\hline", "\\end{longtable}"])

    def document(self, title: str, parts: Row) -> str:
        """The whole text."""
        return "\n".join(self.front) + "\n" + "\n\n".join([f"\\section*{{{self.plain(title)}}}", *parts, "\\end{document}"]) + "\n"


# What stands in a sheet

Column = Tuple[str, Callable[[Job], str]]


def columns_of(instance: Instance) -> list[Column]:
    """The columns of the table of jobs, in the field's words: pairs of a head and what gives a job's cell."""
    kind = instance.kind
    columns: List[Column] = [("job", lambda job: job.name)]
    if kind.general and kind.kind in "1PQ":
        columns.append(("processing time $p_j$", lambda job: str(job.time)))
    elif kind.general and kind.kind in "ROF":
        front = "time on machine {} " if instance.machines <= 3 else ""  # (tables of many machines are wide)
        columns += [(f"{front.format(at)}$p_{{{at}j}}$", time_at(at)) for at in range(1, instance.machines + 1)]
    if kind.kind == "J":
        columns.append(("route: machine (time)" if kind.general else "route", route_of))
    for key, head, name in (("r", "release date $r_j$", "release"), ("d", "due date $d_j$", "due"), ("w", "weight $w_j$", "weight")):
        if key in kind.keys:
            columns.append((head, value_of(name)))
    if kind.criterion == "fmax":
        columns.append(("cost $f_j(t)$", curve_of))
    if kind.precedence:
        columns.append(("comes after", lambda job: ", ".join(one for one, other in instance.arcs if other == job.name)))
    return columns


def time_at(machine: int) -> Callable[[Job], str]:
    """What gives the time of a job on a machine."""
    return lambda job: str(job.times[machine - 1])


def value_of(name: str) -> Callable[[Job], str]:
    """What gives a field of a job."""
    return lambda job: str(getattr(job, name))


def route_of(job: Job) -> str:
    """The route of a job in a job shop."""
    return ", ".join(str(machine) if time is None else f"{machine} ({time})" for machine, time in job.route)


def curve_of(job: Job) -> str:
    """The cost of a job that ends at t, as a formula and what is added."""
    slope, base, *steps = job.curve
    front = "t" if slope == 1 else f"{slope}t" if slope else ""
    line = f"{front} {'-' if base < 0 else '+'} {abs(base)}" if front and base else front or str(base)
    return ", ".join([f"${line}$", *(f"{add} more after {above}" for above, add in zip(steps[::2], steps[1::2]))])


def setting(instance: Instance) -> str:
    """The sentences that say what is given, and what is asked."""
    kind = instance.kind
    given = [f"{len(instance.jobs)} job{'s' * (len(instance.jobs) != 1)} on " + MACHINES[kind.kind].format(instance.machines)]
    given += [f"of speeds {', '.join(map(str, instance.speeds))}"] if instance.speeds else []
    rest = [ORDERS[kind.precedence]] if kind.precedence else []
    rest += ["each job may be cut and go on later" + (", also on another machine" if kind.kind in "PQR" else "")] if "pmtn" in kind.items else []
    rest += ["no job begins before its release date"] if "r" in kind.items else []
    what = "operation" if kind.kind in "OFJ" else "job"
    rest += [f"each {what} takes {1 if 'p=1' in kind.items else instance.time}"] if not kind.general else []
    return f"{' '.join(given)}" + "".join(f"; {it}" for it in rest) + f". Minimize {ASKED[kind.criterion]}."


def jobs_table(writer: Writer, instance: Instance) -> str:
    """The table of jobs."""
    columns = columns_of(instance)
    return writer.table([head for head, _ in columns], [[cell(job) for _, cell in columns] for job in instance.jobs])


def problem(writer: Writer, instance: Instance) -> list[str]:
    """What every sheet begins with: what is asked, and the table of jobs."""
    return [f"{writer.text('Problem')} {writer.code(str(instance.kind))}: {writer.text(setting(instance))}", jobs_table(writer, instance)]


def sheet(writer: Writer, title: str, instance: Instance) -> str:
    """A sheet without its solution."""
    return writer.document(title, problem(writer, instance))


def schedule_table(writer: Writer, instance: Instance, pieces: Sequence[Piece]) -> str:
    """The pieces of a schedule by machine, with due dates where the class has them."""
    dated, shop = "d" in instance.kind.keys, instance.kind.kind in "OFJ"
    last = ends_of(pieces)
    heads = ["machine", "job", *["operation"] * shop, "start", "end", *["due date", "lateness"] * dated]
    rows = []
    for piece in sorted(pieces, key=lambda it: (it.machine, it.start)):
        row = [str(piece.machine), piece.job, *[str(piece.operation)] * shop, said(piece.start), said(piece.end)]
        due = instance.by_name[piece.job].due or 0
        ends = piece.end == last[piece.job]
        rows.append(row + ([said(due), said(piece.end - due) if ends else ""] if dated else []))
    return writer.table(heads, rows)


def solution(writer: Writer, title: str, instance: Instance, rule: Rule, found: Solution, cost: Number) -> str:
    """A sheet with its solution, step by step."""
    parts = [*problem(writer, instance), writer.heading(rule.name), *map(writer.text, (rule.words, *found.before))]
    parts += [writer.table(list(it.heads), it.rows()) for it in found.tables]
    parts += map(writer.text, found.behind)
    parts += [writer.heading("Schedule"), schedule_table(writer, instance, found.pieces),
              writer.text(f"The least {ASKED[instance.kind.criterion].removeprefix('the ')}: {said(cost)}.")]
    return writer.document(title, parts)
