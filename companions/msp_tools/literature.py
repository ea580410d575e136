"""The literature: reports of `why`, the bibliography, and where a proof of our own or a reason of an open class stands.

Nothing here works out a label or a chain: they are read from what the program printed.
"""
from __future__ import annotations

import csv
import io
import re
import unicodedata
from dataclasses import dataclass, field

from .faults import Fault
from .naming import Meaning, equal_times, speeds_note
from .program import Program

OUR_FIELDS = ("source", "alsosource", "named")
NO_PUBLICATION = ("own proof", "from CLIQUE", "from VERTEX COVER")
KINDS = ("easy", "pseudo", "hard", "strong", "clash", "strong clash")


# Labels

def labels_in(report: str) -> dict[str, str]:
    """The labels of classes in a report of `label`, in order."""
    found = {}
    for line in report.splitlines():
        name, _, label = line.partition(" ")
        if name.count("|") == 2 and label.isalpha():
            found[name] = label
    return found


def lines_of(program: Program, results: str, means: Meaning) -> list[str]:
    """What is said by labels of a name that stands for several classes, or fixes a number of machines, and of unit times on uniform machines."""
    other = [equal_times(it) for it in means.classes]
    if means.single and other == means.classes:
        return []
    names = [str(it) for it in [*means.classes, *means.with_input, *other]]
    labels = labels_in(program.report(["label", *dict.fromkeys(names)], results).report)
    return means.lines(labels) + [line for it in means.classes for line in speeds_note(it, labels)]


# Reports of `why`

@dataclass
class Reason:
    """A chain behind a label: `kind` is easy, pseudo, hard or strong (or clash, strong clash, without a record)."""
    kind: str
    record: int = 0
    source: str = ""
    start: str = ""
    rows: list[tuple[int, str]] = field(default_factory=list)  # (pairs of a row's number and the class to which it leads)

    @property
    def listed(self) -> str:
        """The class of the entry: the last of the chain where the class leads down to it, the first where it comes from it."""
        return self.rows[-1][1] if self.rows and self.kind in ("easy", "pseudo") else self.start


@dataclass
class Why:
    """A report of `why`: a class, its label, and the chains that decide it."""
    name: str
    label: str
    reasons: list[Reason]


def read_reason(reason: Reason, word: str, rest: str) -> bool:
    """Reads a line of a chain; whether it is one."""
    if word == "record":
        count, _, reason.source = rest.partition(" ")
        reason.record = int(count)
    elif word == "start":
        reason.start = rest
    elif word == "row":
        row, _, lower = rest.partition(" ")
        reason.rows.append((int(row), lower))
    return word in ("record", "start", "row")


def read_why(text: str) -> Why:
    """The parts of a report of `why`."""
    name = label = ""
    reasons: list[Reason] = []
    for number, line in enumerate(text.split("\n"), 1):
        word, _, rest = line.partition(" ")
        if line in KINDS:
            reasons.append(Reason(line))
        elif word == "class":
            name = rest
        elif word == "label":
            label = rest
        elif line == "end" and name and label:
            return Why(name, label, reasons)
        elif not reasons or not read_reason(reasons[-1], word, rest):
            raise Fault(f"line {number}: not a line of a report of why: {line}")
    raise Fault("the line end of the report of why is missing")


# The bibliography

@dataclass
class Reference:
    """An entry of the bibliography."""
    kind: str
    key: str
    fields: dict[str, str]

    def bibtex(self) -> str:
        """The entry without the fields that only this repository uses."""
        lines = [f"  {name} = {{{text}}}" for name, text in self.fields.items() if name not in OUR_FIELDS]
        return f"@{self.kind}{{{self.key},\n" + ",\n".join(lines) + "\n}"

    def text(self) -> str:
        """The entry as a line of plain text."""
        said = {name: plain(text) for name, text in self.fields.items()}
        authors = said.get("author", "").split(" and ")
        names = authors[0] if len(authors) == 1 else ", ".join(authors[:-1]) + " and " + authors[-1]
        place = " ".join(said[it] for it in ("journal", "volume") if it in said)
        if "booktitle" in said:
            place = "In " + (said["editor"].replace(" and ", ", ") + " (eds.): " if "editor" in said else "") + said["booktitle"]
        parts = [place] + [said[it] for it in ("series", "type", "number", "institution", "publisher") if it in said]
        line = ", ".join([it for it in parts if it] + ([said["pages"]] if "pages" in said else []) + ([said["year"]] if "year" in said else []))
        note = f" ({said['note']})" if "note" in said else ""
        doi = f", doi:{self.fields['doi']}" if "doi" in self.fields else ""
        return f"{names}: " + (f"{said['title']}. " if "title" in said else "") + line + doi + note


def plain(text: str) -> str:
    """A field without TeX."""
    text = text.replace("\\&", "&").replace("--", "–").replace("``", "“").replace("''", "”").replace("\\mid", "|").replace("\\ ", " ")
    text = re.sub(r"\\(?:mathit|mathrm)\b", "", text)
    text = re.sub(r"\\sum\b", "sum", text).replace("\\max", "max")
    return re.sub(r"[{}$\\]", "", text)


def read_references(text: str) -> list[Reference]:
    """The references of a bibliography, in order."""
    found = []
    for block in re.split(r"\n(?=@)", "\n" + text)[1:]:
        head = re.match(r"@(\w+)\{(\w+),\n", block)
        if head is None:
            raise Fault(f"not an entry of a bibliography: {block.splitlines()[0]}")
        fields = dict(re.findall(r"^  (\w+) = \{(.*)\},?$", block, flags=re.M))
        found.append(Reference(head[1], head[2], fields))
    if not found:
        raise Fault("a bibliography without an entry")
    return found


def by_source(references: list[Reference]) -> dict[str, list[Reference]]:
    """From each source string to its references."""
    found: dict[str, list[Reference]] = {}
    for it in references:
        for name in ("source", "alsosource"):
            if name in it.fields:
                found.setdefault(it.fields[name], []).append(it)
    return found


def words_to_find(text: str) -> str:
    """The words of a text as a search compares them, each once: small, without marks, and with ae, oe, ue beside a, o, u."""
    small = re.sub("['’]", "", text.lower().replace("ß", "ss"))
    plainly = "".join(it for it in unicodedata.normalize("NFD", small) if not unicodedata.combining(it))
    spelt = re.sub("[äöü]", lambda it: {"ä": "ae", "ö": "oe", "ü": "ue"}[it[0]], small)
    words = re.findall("[a-z0-9]+", plainly) + [it for it in re.findall(r"\w+", spelt) if it.isascii()]
    return " ".join(it for it in dict.fromkeys(words) if len(it) > 1)


def source_of(entry: str) -> tuple[str, str]:
    """The source of an entry up to its semicolon, and the step behind it."""
    source, _, step = entry.partition(";")
    return source.strip(), step.strip()


def verdicts_in(results: str) -> list[str]:
    """What the records of a file of known results say of their classes, by number; the one at 0 is that of the head."""
    return [it[1] for it in csv.reader(io.StringIO(results.removeprefix("\ufeff"), newline="")) if it]


@dataclass(frozen=True)
class Fact:
    """What the literature says beside a result: the time of the rule in its source, or the problem from which it was reduced; and where."""
    time: str
    problem: str
    source: str

    def text(self) -> str:
        """The fact as a line of plain text."""
        if self.problem:
            return f"reduced from {self.problem} ({self.source})"
        return f"the rule takes {self.time} ({self.source}); that is the time of the literature's rule, not of the solver here"


def facts_in(text: str) -> dict[tuple[str, str], Fact]:
    """The facts of docs/results/facts.csv, by class and verdict."""
    rows = csv.DictReader(io.StringIO(text, newline=""))
    return {(it["class"], it["verdict"]): Fact(it["time"], it["from"], it["source"]) for it in rows}


def own_results(results: str, published: str) -> set[tuple[str, str]]:
    """The classes with their verdicts that stand in a file of results and not in the one of what is published."""
    known, printed = ([(it[0], it[1]) for it in csv.reader(io.StringIO(text, newline="")) if len(it) > 1] for text in (results, published))
    return set(known) - set(printed)


# Documents

def proofs_in(text: str) -> dict[str, str]:
    """From each class that has a proof in proofs-of-results.md to the heading of its section."""
    found, heading = {}, ""
    for line in text.splitlines():
        if line.startswith("### "):
            heading = line[4:]
        elif re.match(r"(Easy|Strong|Hard): `", line):
            for name in re.findall(r"`([^`]+)`", line):
                found[name] = heading
    return found


def reasons_in(text: str) -> dict[str, tuple[str, str]]:
    """From each open class that has a row in open.md to the heading of its group and the reason."""
    found, heading = {}, ""
    for line in text.splitlines():
        if line.startswith("## "):
            heading = line[3:]
        row = re.match(r"\| `([^`]+)` \| [\d,]+ \| [\d,]+ \| (.*) \|$", line)
        if row:
            why = re.sub(r"\[([^\]]*)\]\([^)]*\)", r"\1", row[2]).replace("`", "").replace("\\|", "|")
            found[row[1].replace("\\|", "|")] = (heading, why)
    return found


def rows_in(text: str) -> dict[int, str]:
    """From the number of each row to what it says, by a report of `rows`."""
    return {int(it[1]): it[2] for it in re.finditer(r"(?m)^row (\d+) \w+ (.*)$", text)}
