"""The library: instances, the commands of the program as functions that answer dataclasses, schedules, and charts that a notebook shows.

Numbers are exact: whole numbers and `Fraction`s. Moments, times and costs are in the units of the instance, counted from its moment 0; what
shows them to people (`chart`, `table`, `cost_in_words`) uses the units and the dates of the list, where it came from one. Every function
refuses by a `Refusal`: a `Fault` of a text (status 3), a `Misfit` of words or files (2), or a `ProgramRefusal` with the status of the program
(4 a limit, 5 no solver, 9 out of memory); each has `status`, `note` and `place`. A `program` that is not named is $MSP, or the one beside the
package, in PATH or in the clone; without any a `Misfit` says where it was looked for.
"""
from __future__ import annotations

from dataclasses import dataclass, field, fields
from fractions import Fraction
from typing import Any, Dict, Iterable, List, Mapping, Protocol, Sequence

from . import judging, lists, schedules, texts
from .charts import Chart, Options
from .faults import Fault, Misfit, ProgramRefusal, Refusal
from .files import need_file, read_bytes, read_text
from .judging import AsTheyStand, Verdict, verdict_of
from .literature import Why, labels_in, read_why
from .naming import class_of
from .numbers import fraction
from .pictures import svg
from .program import Program, need_program
from .proposals import Proposal as Proposed
from .proposals import Search, proposal_of
from .schedules import Piece, cost_at, cost_of, ends_of
from .settings import ListWords
from .spreadsheets import Record, Table, table_of, table_of_rows
from .telling import Told
from .texts import Job
from .units import Names, Units, UnitWords

__all__ = ["Acceptance", "Certificate", "Fault", "Frame", "Instance", "Job", "Label", "ListWords", "Misfit", "Piece", "Program", "ProgramRefusal",
           "Proposal", "Refusal", "Schedule", "Trial", "Verdict", "Why", "accept", "certify", "check", "label", "labels", "need_program", "propose",
           "solve", "trial", "why"]
Row = Mapping[str, object]


# Instances

def values_of(instance: texts.Instance) -> dict[str, Any]:
    """The values of an instance text that was read, by the names of its fields."""
    return {it.name: getattr(instance, it.name) for it in fields(texts.Instance)}


class Frame(Protocol):
    """A table as pandas has it."""

    def to_dict(self, orient: str) -> List[Dict[str, object]]:
        """The rows of the table."""


@dataclass
class Instance(texts.Instance):
    """An instance of a class: `kind` (its name by str()), the number of `machines`, their `speeds` on Q kinds, the `time` that all jobs share (or
    None), the `jobs`, and `arcs`, pairs of names of which the first comes before the second. One that was read from a list has its `units` and
    what was remarked on the list (`remarks`)."""
    units: Units | None = field(default=None, compare=False, repr=False)
    remarks: list[str] = field(default_factory=list, compare=False, repr=False)

    @classmethod
    def from_text(cls, text: str) -> Instance:
        """Reads an instance text (docs/formats.md). A Fault names the line; conditions of the class are the program's to refuse."""
        return cls(**values_of(texts.read_instance(text)))

    @classmethod
    def from_file(cls, path: str) -> Instance:
        """Reads the instance text of a file. A Fault has its path and the line, a Misfit says that it cannot be read."""
        return cls(**values_of(texts.read_instance_at(path)))

    @classmethod
    def _from_table(cls, kind: str, table: Table, words: ListWords | None = None) -> Instance:
        """The instance of a list, with its units and remarks."""
        told = Told()
        made = lists.instance_of(table, kind, words or ListWords(), told)
        found = cls.from_text(made.text)
        said_words = {word: str(value) for word, value in made.words.items()}
        found.units = Units(UnitWords(), names=Names("the list", dict(made.names), said_words))
        found.remarks = list(told.heard())
        return found

    @classmethod
    def from_spreadsheet(cls, kind: str, path: str, words: ListWords | None = None, encoding: str = "utf-8", sheet: str | None = None) -> Instance:
        """Reads a list as spreadsheets save it: CSV in an encoding, or a workbook .xlsx (by openpyxl), its first sheet or a named one. `kind` is the
        name of its class; `words` say what its columns mean and in what they count. A Fault tells all faults of the list, each at its line; a
        Misfit says which words do not fit the class, or that the file cannot be read."""
        return cls._from_table(kind, table_of(read_bytes(path), encoding, sheet), words)

    @classmethod
    def from_rows(cls, kind: str, rows: Iterable[Row], words: ListWords | None = None) -> Instance:
        """Makes the instance of rows, each a mapping from names of columns (job, p, r, d, w, after ..) to values: texts, numbers, dates, lengths of
        time (timedelta), and lists, as those of a route or of the jobs in `after`. A Fault tells all faults, rows counted from 1."""
        those = list(rows)
        columns = list(dict.fromkeys(str(name) for row in those for name in row))
        table = table_of_rows([columns, *([row.get(name) for name in columns] for row in those)])
        counted = [Record(it.line - 1, it.fields) for it in table.records]
        return cls._from_table(kind, Table(counted, line=table.line), words)

    @classmethod
    def from_frame(cls, kind: str, frame: Frame, words: ListWords | None = None) -> Instance:
        """Makes the instance of a frame of pandas, whose columns are those of a list, in the same way."""
        return cls.from_rows(kind, frame.to_dict("records"), words)

    def __str__(self) -> str:
        """The instance text."""
        return self.text()


def as_ours(instance: texts.Instance) -> Instance:
    """An instance as the library has it."""
    return instance if isinstance(instance, Instance) else Instance(**values_of(instance))


# Schedules

@dataclass
class Schedule:
    """A schedule of an instance: its stated cost and its pieces, in the units of the instance; of a solved one also the solver, and the chain to
    its class, pairs of a row's number and the class to which it leads. Whether it is feasible is for `check` to say."""
    instance: Instance = field(repr=False)
    cost: Fraction
    pieces: list[Piece]
    solver: str | None = None
    chain: list[tuple[int, str]] = field(default_factory=list)

    @classmethod
    def from_text(cls, instance: Instance, text: str) -> Schedule:
        """Reads a schedule text, or a report of `solve`. A Fault names the line."""
        found = schedules.read_schedule(text)
        return cls(instance, found.cost, found.pieces, found.solver, found.chain)

    @classmethod
    def from_pieces(cls, instance: Instance, pieces: Sequence[Piece]) -> Schedule:
        """The schedule of pieces, with its cost; a Fault where a job has no piece or is unknown."""
        ends = ends_of(pieces)
        unknown = next((it for it in ends if instance.job(it) is None), None)
        missing = next((it.name for it in instance.jobs if it.name not in ends), None)
        if unknown is not None or missing is not None:
            raise Fault(f"the instance has no job {unknown}" if missing is None else f"{missing} has no piece")
        return cls(instance, cost_of(instance, ends), list(pieces))

    def text(self) -> str:
        """The schedule text: moments in the greatest parts of a unit in which all are whole."""
        return schedules.text_of(self.pieces, self.cost)

    def ends(self) -> dict[str, Fraction]:
        """When each job ends, by name."""
        return ends_of(self.pieces)

    def lateness(self) -> dict[str, Fraction]:
        """The end of each job less its due date, by name; a Fault where the class has no due dates."""
        ends = self.ends()
        return {it.name: ends[it.name] - it.due_date for it in self.instance.jobs if it.name in ends}

    def costs(self) -> dict[str, Fraction]:
        """What each job costs by the criterion, by name."""
        ends = self.ends()
        return {it.name: Fraction(cost_at(self.instance, it, ends[it.name])) for it in self.instance.jobs if it.name in ends}

    def units(self) -> Units:
        """How moments are shown: as in the list, or as they stand in the instance."""
        return self.instance.units or Units(UnitWords())

    def table(self) -> list[dict[str, str]]:
        """The pieces as rows, for people: machine, job, operation, start and end, in the names and units of the list."""
        units = self.units()
        return [{"machine": units.names.machines.get(it.machine, str(it.machine)), "job": units.job(it.job), "operation": str(it.operation),
                 "start": units.moment(it.start), "end": units.moment(it.end, True)}
                for it in sorted(self.pieces, key=lambda it: (it.machine, it.start, it.end))]

    def cost_in_words(self) -> str:
        """The cost with its name and its unit, as `makespan 12 h`."""
        return self.units().cost_in_words(self.cost, self.instance.kind.criterion)

    def chart(self, width: int = 1200, by_job: bool = False, title: str | None = None) -> str:
        """A Gantt chart as SVG, so many pixels wide, with a line for each machine, or for each job."""
        drawn = schedules.Schedule(self.cost, 1, self.pieces, str(self.instance.kind))
        return svg(Chart(drawn, self.instance, self.units(), Options(by_job, title)), width)

    def _repr_svg_(self) -> str:
        """What a notebook shows."""
        return self.chart(900)


# The program's commands

@dataclass
class Certificate:
    """A certificate of a least cost: the class, the cost in the units of the instance, and the text that `accept` reads behind the instance."""
    name: str
    cost: Fraction
    text: str


@dataclass
class Acceptance:
    """What `accept` says: the class, the kind of the certificate, the bound that it states, and whether its evidence shows it."""
    name: str
    kind: str
    bound: Fraction
    accepted: bool


@dataclass
class Label:
    """The label of a class under known results, and whether these clash."""
    name: str
    label: str
    clash: bool


@dataclass
class Trial:
    """A drawn instance that was solved: how many rows lead to its solver, how many pieces the schedule has, and its cost."""
    name: str
    jobs: int
    seed: int
    solver: str
    rows: int
    pieces: int
    cost: Fraction


@dataclass
class Proposal(Proposed):
    """A plan with its cost, the greatest bound, the gap between them and what is known of it: proved, argued or open."""

    @property
    def schedule(self) -> Schedule:
        """The plan as a schedule."""
        return Schedule(as_ours(self.instance), self.cost, self.pieces)


def fields_in(report: str) -> dict[str, str]:
    """The first words of the lines of a report, each with what stands behind it."""
    return dict(it.split(" ", 1) for it in report.splitlines() if " " in it)


def solve(instance: texts.Instance, program: Program | None = None) -> Schedule:
    """The best schedule of an instance. ProgramRefusal: 3 where it has a fault, 4 a limit, 5 no solver for its class."""
    given = as_ours(instance)
    return Schedule.from_text(given, (program or need_program()).report(["solve"], given.text(), (0,)).report)


def propose(instance: texts.Instance, tries: int | None = None, seed: int = 1, begin: Schedule | None = None,
            program: Program | None = None) -> Proposal:
    """A plan for an instance of any class that `check` judges, by rules and a local search that looks at so many schedules (without a number at
    what takes seconds); the same `seed` gives the same plan. `begin` is a plan of one's own from which it begins; a Fault where that is not
    feasible. ProgramRefusal: 3 where the instance has a fault, 4 a limit, 5 where its class is cut and on R2 or R."""
    given = as_ours(instance)
    start = None if begin is None else schedules.Schedule(begin.cost, 1, begin.pieces)
    found = proposal_of(program or need_program(), given, Search(tries, seed, start))
    return Proposal(**vars(found))


def check(schedule: Schedule, program: Program | None = None) -> Verdict:
    """Whether a schedule is feasible, what is broken first, what it costs, and whether that is the stated cost. ProgramRefusal: 3 where instance or
    schedule have a fault, 4 a limit, 5 where the class is cut and on R2 or R."""
    given = schedule.instance
    reply = (program or need_program()).report(["check"], given.text() + schedule.text())
    return verdict_of(reply.report, schedule.pieces, judging.Words(given, given.units or AsTheyStand()))


def certify(instance: texts.Instance, program: Program | None = None) -> Certificate:
    """The least cost of an instance with a certificate. ProgramRefusal: 3 where it has a fault, 4 a limit, 5 where its class has none."""
    report = (program or need_program()).report(["certify"], instance.text(), (0,)).report
    found = fields_in(report)
    return Certificate(found["class"], fraction(found["cost"], "cost"), report[report.index("certificate\n"):])


def accept(instance: texts.Instance, certificate: Certificate | str, program: Program | None = None) -> Acceptance:
    """Whether a certificate shows its bound for an instance. ProgramRefusal 3 where one of the two has a fault, with its line in the text of both."""
    text = certificate.text if isinstance(certificate, Certificate) else certificate
    found = fields_in((program or need_program()).report(["accept"], instance.text() + text).report)
    return Acceptance(found["class"], found["kind"], fraction(found["bound"], "bound"), found["accepted"] == "yes")


def known(results: str | None) -> str:
    """The text of a file of known results; without one that of examples/known-strengths.csv."""
    return read_text(need_file(results, "examples/known-strengths.csv", "results"))


def labels(names: Sequence[str] = (), results: str | None = None, program: Program | None = None) -> list[Label]:
    """The labels of classes, or of all 9,720, under the known results of a file (without one those of the literature that come with the package).
    A Misfit says what is meant by a name that is none."""
    words = ["label", *(str(class_of(it)) for it in names)]
    status, report, _ = (program or need_program()).report(words, known(results))
    return [Label(name, it, status == 1) for name, it in labels_in(report).items()]


def label(name: str, results: str | None = None, program: Program | None = None) -> Label:
    """The label of a class: easy, pseudo, weak, hard, strong or open (or both, torn, where the results clash)."""
    return labels([name], results, program)[0]


def why(name: str, results: str | None = None, program: Program | None = None) -> Why:
    """The label of a class with the chains of reductions that decide it; none where it is open."""
    return read_why((program or need_program()).report(["why", str(class_of(name))], known(results)).report)


def trial(name: str, jobs: int, seed: int, program: Program | None = None) -> Trial:
    """Solves the instance of a class that a seed draws: from 1 to 400 jobs, seeds from 0 to 2^31 - 1. ProgramRefusal 5 where its class has no
    solver."""
    found = fields_in((program or need_program()).report(["trial", str(class_of(name)), str(jobs), str(seed)], "", (0,)).report)
    counts = [int(found[it]) for it in ("jobs", "seed", "rows", "pieces")]
    return Trial(found["class"], counts[0], counts[1], found["solver"], counts[2], counts[3], fraction(found["cost"], "cost"))
