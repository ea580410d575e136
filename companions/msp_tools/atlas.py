"""The atlas: one HTML page of all classes, and whether a page says what the program prints."""
from __future__ import annotations

import csv
import io
import json
import re
from concurrent.futures import ThreadPoolExecutor
from dataclasses import dataclass
from typing import Any, Dict, Iterator, List, Mapping, Sequence, Tuple, TypeVar

from .apart import Apart, Listing, chapters_of, citation_of, facts_of, renumbered, sections_of, without_same
from .classes import class_named
from .draws import Wanted, text_of
from .faults import Fault, ProgramRefusal
from .files import find_file, need_file, read_text, shipped
from .literature import (Reference, Why, by_source, labels_in, proofs_in, read_references, read_why, reasons_in, rows_in, source_of,
                         words_to_find)
from .program import Program, Reply
from .reductions import KINDS, Entry, Row, Steps, all_names, entries_of, neighbours_of, problems_of, whys_of

LABELS = ("easy", "pseudo", "weak", "hard", "strong", "open", "both", "torn")
ASKED = 200
DATA = "/* the data */"
Data = Dict[str, Any]
Chain = Tuple[int, int, List[Row]]  # (the record, the first class and the rows)
Thing = TypeVar("Thing")


def answer(program: Program, words: Sequence[str], text: str = "") -> Reply:
    """A report of the program; statuses beyond 1, by which results clash, are faults."""
    try:
        return program.report(words, text)
    except ProgramRefusal as fault:
        raise Fault(f"msp {' '.join(words)}: {fault}") from None


def labels_of(program: Program, results: str) -> dict[str, str]:
    """The label of each class, in order of rank."""
    return labels_in(answer(program, ["label"], results).report)


# Chains as the page has them

def packed(whys: Mapping[str, Why], number: Mapping[str, int], kind: str) -> str:
    """The chains of a kind, one word for each class: nothing, the record where the chain has no row, the row and the class behind (or in
    front) of it where that has the rest of the chain, or else the record and the whole chain."""
    chains: dict[int, Chain] = {}
    for name, why in whys.items():
        for reason in why.reasons:
            if reason.kind == kind:
                chains[number[name]] = (reason.record, number[reason.start], [(row, number[it]) for row, it in reason.rows])
    words = [""] * len(number)
    for at, (record, start, rows) in chains.items():
        words[at] = f"!{record}:{start}" + "".join(f":{row}:{it}" for row, it in rows)
        if not rows:
            words[at] = f"r{record}"
        elif kind in ("easy", "pseudo"):
            row, following = rows[0]
            if chains.get(following) == (record, following, rows[1:]):
                words[at] = f"{row}:{following}"
        else:
            row, before = rows[-1][0], rows[-2][1] if len(rows) > 1 else start
            if chains.get(before) == (record, start, rows[:-1]):
                words[at] = f"{row}:{before}"
    return ",".join(words)


def unpacked(words: Sequence[str], at: int, kind: str) -> Chain | None:
    """The record, the first class and the rows of a chain, as packed; None where there is none."""
    word = words[at]
    if not word:
        return None
    if word.startswith("r"):
        return int(word[1:]), at, []
    if word.startswith("!"):
        record, start, *rest = [int(it) for it in word[1:].split(":")]
        return record, start, list(zip(rest[::2], rest[1::2]))
    row, other = [int(it) for it in word.split(":")]
    behind = unpacked(words, other, kind)
    if behind is None:
        raise Fault(f"a page whose chain of class {at} leads to a class without one")
    record, start, rows = behind
    return (record, at, [(row, other), *rows]) if kind in ("easy", "pseudo") else (record, start, [*rows, (row, at)])


# Solvers

def solvers_of(program: Program, number: Mapping[str, int], asked: set[str]) -> dict[int, list[Any]] | None:
    """From the number of each solved class to its solver, the number of rows, and the chain to it (of the classes that are asked for);
    None where the document is not there."""
    page = find_file("docs/solved-classes.md")
    if page is None:
        return None
    listed = re.findall(r"(?m)^\| `([^`]+)` \| (\S+) \| (\d+) \|$", read_text(page))

    def solved(row: tuple[str, str, str]) -> tuple[int, list[Any]]:
        name, solver, rows = row[0].replace("\\|", "|"), row[1], int(row[2])
        kind, chain = class_named(name), None
        if name in asked and kind:
            report = answer(program, ["solve"], text_of(Wanted(kind, 1), 1)).report
            chain = [(int(it[1]), number[it[2]]) for it in re.finditer(r"(?m)^row (\d+) (\S+)$", report)]
            if len(chain) != rows or f"\nsolver {solver}\n" not in report:
                raise Fault(f"docs/solved-classes.md says something else of {name} than solve")
        return number[name], [solver, rows, chain]

    with ThreadPoolExecutor(4) as pool:
        return dict(pool.map(solved, listed))


# The page

def frontier_of(program: Program, results: str, number: Mapping[str, int]) -> dict[str, list[int]]:
    """The four lists of `frontier`, by their names."""
    found: dict[str, list[int]] = {}
    those: list[int] = []
    for line in answer(program, ["frontier"], results).report.splitlines():
        if re.fullmatch(r"(max|min)imal \w+ \d+", line):
            those = found.setdefault(line.rsplit(" ", 1)[0], [])
        elif line in number and found:
            those.append(number[line])
        elif line in ("clash", "strong clash", "end"):
            break
    return found


def spread(things: Sequence[Thing], count: int) -> list[Thing]:
    """So many of the things, spread evenly."""
    count = min(count, len(things))
    return [things[at * len(things) // count] for at in range(count)]


@dataclass
class Table:
    """The classes in order of rank, their labels, the rows that apply to each, and the chains of those that are asked for."""
    names: list[str]
    labels: Mapping[str, str]
    steps: Steps
    whys: Mapping[str, Why]

    @property
    def number(self) -> dict[str, int]:
        """The number of each class."""
        return {name: at for at, name in enumerate(self.names)}

    def packed_steps(self) -> Data:
        """The rows that apply to each class: numbers of pairs of a row and how far behind the class that one stands to which it leads."""
        pairs = sorted({(row, it - at) for at, those in enumerate(self.steps) for row, it in those})
        place = {pair: at for at, pair in enumerate(pairs)}
        words = (" ".join(str(place[row, it - at]) for row, it in those) for at, those in enumerate(self.steps))
        return {"pairs": pairs, "steps": ",".join(words)}


@dataclass
class Made:
    """What a page has, whether the results clash, and the list of all labels."""
    data: Data
    clash: bool
    listing: Listing


@dataclass
class Source:
    """What a page is made of: the program, the results and the bibliography; `own` says that the results are not the shipped ones."""
    program: Program
    results: str
    literature: str
    own: bool

    def compared(self, whys: Mapping[str, Why]) -> list[Why]:
        """What `why` prints of two hundred classes, spread evenly; a fault where it prints other chains than these."""
        with ThreadPoolExecutor(4) as pool:
            reports = pool.map(lambda it: answer(self.program, ["why", it], self.results).report, spread(list(whys), ASKED))
            printed = [read_why(it) for it in reports]
        for why in printed:
            if (why.label, [it for it in why.reasons if it.record]) != (whys[why.name].label, whys[why.name].reasons):
                raise Fault(f"why {why.name} prints other chains than those that follow from the rows")
        return printed

    def documents(self, number: Mapping[str, int]) -> Data:
        """The proofs of our own, and the reasons of open classes."""
        proofs, opened = (None if self.own else find_file(f"docs/results/{it}.md") for it in ("proofs-of-results", "open"))
        return {"proofs": {number[it]: heading for it, heading in (proofs_in(read_text(proofs)) if proofs else {}).items() if it in number},
                "open": {number[it]: list(why) for it, why in (reasons_in(read_text(opened)) if opened else {}).items() if it in number}}

    def sources(self, entries: Sequence[tuple[str, str, str]]) -> Data:
        """The references of the entries, and the words by which they are found."""
        references = by_source(read_references(self.literature))
        sources = sorted({source_of(source)[0] for _, _, source in entries})
        used: dict[str, list[Reference]] = {source: references[source] for source in sources if source in references}
        return {"references": {source: [it.key for it in those] for source, those in used.items()},
                "texts": {it.key: [it.text(), it.bibtex()] for those in used.values() for it in those},
                "finds": {source: [words_to_find(it) for it in (source, " ".join(it.text() for it in used.get(source, [])))] for source in sources}}

    def told(self, results: str, table: Table, chains: Data) -> Data:
        """Labels, chains and the frontier under a file of results."""
        return {"labels": "".join(str(LABELS.index(table.labels[it])) for it in table.names), "chains": chains,
                "frontier": frontier_of(self.program, results, table.number)}

    def published(self, table: Table, data: Data) -> tuple[Data, dict[str, str]]:
        """What the published results alone say, beside what all of them say, and their labels; nothing where they are not at hand."""
        text = None if self.own else shipped("examples/known-published.csv")
        if text is None:
            return {}, {}
        apart = Apart(entries_of(self.results), entries_of(text))
        numbers, weaker = apart.numbers()
        further = len(apart.entries) + 1
        data["entries"].update({at: [table.number[name], verdict, source] for at, (name, verdict, source) in enumerate(weaker, further)})
        labels = labels_of(self.program, text)
        every = renumbered(whys_of(table.names, labels, table.steps, text), numbers)
        whys = {name: every[name] for name in table.whys}
        chains = {kind: without_same(packed(whys, table.number, kind), data["chains"][kind]) for kind in KINDS}
        other = Table(table.names, labels, table.steps, whys)
        return {"own": apart.own(), "published": self.told(text, other, chains)}, labels

    def beside(self, entries: Sequence[Entry]) -> Data:
        """Times, the texts of proofs and the version."""
        if self.own:
            return {}
        proofs = shipped("docs/results/proofs-of-results.md")
        return {"facts": facts_of(entries, shipped("docs/results/facts.csv")), "sections": sections_of(proofs), "chapters": chapters_of(proofs),
                "citation": citation_of(shipped("CITATION.cff"))}

    def data(self, part: int | None) -> Made:
        """What the page has, with chains of all classes or of a part of them, and whether the results clash."""
        labels = labels_of(self.program, self.results)
        names = list(labels)
        rows = rows_in(answer(self.program, ["rows"]).report)
        steps = neighbours_of(names, rows)
        every = whys_of(names, labels, steps, self.results)
        table = Table(names, labels, steps, {name: every[name] for name in (spread(names, part) if part else names)})
        number, entries = table.number, entries_of(self.results)
        clashes = [it for it in self.compared(table.whys)[0].reasons if not it.record]
        data = {
            **self.told(self.results, table, {kind: packed(table.whys, number, kind) for kind in KINDS}),
            **table.packed_steps(),
            "label_names": LABELS,
            "rows": rows,
            "entries": {at: [number[name], verdict, source] for at, (name, verdict, source) in enumerate(entries, 1)},
            **self.sources(entries),
            **self.documents(number),
            **self.beside(entries),
            "solvers": solvers_of(self.program, number, set(table.whys)),
            "problems": problems_of(steps),
            "asked": len(table.whys),
            "clashes": [[it.kind, number[it.start], [(row, number[name]) for row, name in it.rows]] for it in clashes],
        }
        more, published = self.published(table, data)
        data.update(more)
        return Made(data, bool(clashes), Listing(labels, published, table.whys, data))


def page_of(data: Data) -> str:
    """The page with its data."""
    template = read_text(need_file(None, "companions/atlas-page.html", "--output"))
    if template.count(DATA) != 1:
        raise Fault("atlas-page.html has no single place for the data")
    return template.replace(DATA, json.dumps(data, ensure_ascii=False, separators=(",", ":")).replace("</", "<\\/").replace("<!", "\\u003c!"))


# A page and the program

class Page:
    """A page that was read."""

    def __init__(self, page: str) -> None:
        found = re.search(r'<script id="data" type="application/json">(.*?)</script>', page, flags=re.S)
        if found is None:
            raise Fault("a page without data: atlas --output writes one that has them")
        self.data: Data = json.loads(found[1].replace("<\\/", "</"))
        self.names = all_names()
        self.chains = {kind: words.split(",") for kind, words in self.data["chains"].items()}
        pairs: list[Row] = [(int(row), int(gap)) for row, gap in self.data["pairs"]]
        self.steps: Steps = [[pairs[int(it)] for it in words.split()] for words in self.data["steps"].split(",")]

    def report(self, name: str) -> str:
        """What the page says of a class, in the form of `why`."""
        at = self.names.index(name)
        lines = [f"class {name}", f"label {self.data['label_names'][int(self.data['labels'][at])]}"]
        for kind in KINDS:
            chain = unpacked(self.chains[kind], at, kind)
            if chain is None:
                continue
            record, start, rows = chain
            source = self.data["entries"][str(record)][2]
            said = f"record {record}" + (f" {source}" if source else "")
            walk = [f"start {self.names[start]}", *(f"row {row} {self.names[it]}" for row, it in rows)]
            lines += [kind, *walk, said] if kind in ("easy", "pseudo") else [kind, said, *walk]
        return "\n".join([*lines, "end", ""])

    def reached(self, at: int) -> set[str]:
        """The classes to which rows lead from a class, itself among them."""
        seen, waiting = {at}, [at]
        while waiting:
            here = waiting.pop()
            those = {here + gap for _, gap in self.steps[here]} - seen
            seen |= those
            waiting += those
        return {self.names[it] for it in seen}


@dataclass
class Difference:
    """A class of which a page and the program say different things."""
    name: str
    page: str
    program: str


def chains_that_differ(program: Program, results: str, page: Page, asked: Sequence[str]) -> Iterator[Difference]:
    """The classes whose chains on the page are others than those that `why` prints."""
    with ThreadPoolExecutor(4) as pool:
        reports = pool.map(lambda it: answer(program, ["why", it], results).report, asked)
        for name, report in zip(asked, reports):
            report = re.sub(r"(?ms)^(clash|strong clash)\n.*^end$", "end", report)
            if page.report(name) != report:
                yield Difference(name, page.report(name), report)


def neighbours_that_differ(program: Program, page: Page, sample: Sequence[str]) -> Iterator[str]:
    """The classes whose neighbours' neighbours on the page are not the classes to which rows lead, by `label`."""
    for name in sample:
        listed = io.StringIO()
        csv.writer(listed, lineterminator="\n").writerows([("class", "verdict", "source"), (name, "hard", "")])
        hard = {it for it, label in labels_of(program, listed.getvalue()).items() if label == "hard"}
        if page.reached(page.names.index(name)) != hard:
            yield name
