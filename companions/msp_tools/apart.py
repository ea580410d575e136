"""What the page of all classes says beyond labels and chains: the published results apart from proofs of our own, times, proofs, the version.

Nothing of it is there for a results file of one's own.
"""
from __future__ import annotations

import csv
import io
import re
from dataclasses import dataclass
from typing import Any, Dict, List, Mapping, Sequence, Tuple

from .about import VERSION
from .literature import Why, facts_in
from .reductions import Entry

Record = List[Any]  # (the number of a class, a verdict and a source)
Numbers = Dict[int, int]  # (from the number of a record to that of the same entry in another file)


@dataclass
class Apart:
    """The entries of all results and of the published ones, each file with its own numbers."""
    entries: Sequence[Entry]
    published: Sequence[Entry]

    def numbers(self) -> tuple[Numbers, list[Entry]]:
        """The number of each published entry among all entries, and those that claim less than an entry there: they are numbered behind."""
        places = {(name, verdict): at for at, (name, verdict, _) in enumerate(self.entries, 1)}
        found: Numbers = {}
        weaker: list[Entry] = []
        for at, (name, verdict, source) in enumerate(self.published, 1):
            if (name, verdict) not in places:
                weaker.append((name, verdict, source))
            found[at] = places.get((name, verdict), len(self.entries) + len(weaker))
        return found, weaker

    def own(self) -> list[int]:
        """The entries that are not among the published ones: each rests on a proof of our own."""
        return sorted(set(range(1, len(self.entries) + 1)) - set(self.numbers()[0].values()))


def renumbered(whys: Mapping[str, Why], numbers: Numbers) -> Mapping[str, Why]:
    """Chains whose entries have other numbers."""
    for why in whys.values():
        for reason in why.reasons:
            reason.record = numbers[reason.record]
    return whys


def without_same(words: str, other: str) -> str:
    """Packed chains, with `=` in place of each word that stands in another table at the same class."""
    return ",".join("=" if one and one == it else one for one, it in zip(words.split(","), other.split(",")))


def facts_of(entries: Sequence[Entry], text: str | None) -> dict[int, list[str]]:
    """From the number of an entry to the time of the rule in its source, the problem from which it was reduced, and where that stands."""
    listed = {entry: [it.time, it.problem, it.source] for entry, it in facts_in(text or "").items()}
    return {at: listed[name, verdict] for at, (name, verdict, _) in enumerate(entries, 1) if (name, verdict) in listed}


def sections_of(text: str | None) -> dict[str, str]:
    """From the heading of each section of the proofs to its text."""
    found: dict[str, str] = {}
    for heading, body in re.findall(r"(?ms)^### ([^\n]+)\n(.*?)(?=^#|\Z)", text or ""):
        found[heading] = body.strip()
    return found


def chapters_of(text: str | None) -> dict[str, list[str]]:
    """From each chapter of the proofs to the headings of its sections."""
    chapters = re.findall(r"(?ms)^## ([^\n]+)\n(.*?)(?=^## |\Z)", text or "")
    found = {title: re.findall(r"(?m)^### (.+)$", body) for title, body in chapters}
    return {title: headings for title, headings in found.items() if headings}


def citation_of(text: str | None) -> dict[str, str] | None:
    """The version, and what CITATION.cff says of it."""
    if text is None:
        return None
    fields = dict(re.findall(r"(?m)^(title|date-released): (.*)$", text))
    author = re.search(r"(?m)^authors:\n {2}- name: (.*)$", text)
    return {"version": VERSION, "title": fields["title"], "author": author[1] if author else "", "released": fields["date-released"]}


# The list of all labels

Line = Tuple[str, ...]
HEAD: Line = ("class", "label", "published", "entries", "references", "solver", "rows")
OWN_KEY = "msp"  # (of the BibTeX entry for proofs of our own)


@dataclass
class Listing:
    """What a list of labels says of each class: labels, the entries that decide, references, the solver."""
    labels: Mapping[str, str]
    published: Mapping[str, str]
    whys: Mapping[str, Why]
    data: Mapping[str, Any]

    def references(self, records: Sequence[int]) -> list[str]:
        """The keys of the references of entries, each once."""
        found: dict[str, None] = {}
        for record in records:
            keys = self.data["references"].get(self.data["entries"][record][2].split(";")[0].strip(), [])
            found.update(dict.fromkeys([*keys, OWN_KEY] if record in self.data.get("own", []) else keys))
        return list(found)

    def line(self, at: int, name: str) -> Line:
        """What is said of a class."""
        reasons = self.whys[name].reasons if name in self.whys else []
        listed = {it.record: it.listed for it in reasons if it.record}
        entries = ";".join(f"{entry} {self.data['entries'][record][1]}" for record, entry in listed.items())
        solver = (self.data["solvers"] or {}).get(at, ["", ""])
        return name, self.labels[name], self.published.get(name, ""), entries, " ".join(self.references(list(listed))), solver[0], str(solver[1])

    def csv(self) -> str:
        """The list as a CSV file."""
        text = io.StringIO()
        csv.writer(text, lineterminator="\n").writerows([HEAD, *(self.line(at, name) for at, name in enumerate(self.labels))])
        return text.getvalue()
