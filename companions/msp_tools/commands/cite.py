"""For a class the chains that decide its label, and the references of the entries at their ends."""
from __future__ import annotations

from dataclasses import dataclass, field

from ..faults import Misfit, ProgramRefusal
from ..files import need_file, read_text, shipped
from ..literature import (NO_PUBLICATION, Fact, Reason, Reference, Why, by_source, facts_in, lines_of, own_results, proofs_in, read_references,
                          read_why, reasons_in, rows_in, source_of, verdicts_in)
from ..naming import meaning_of
from ..program import Program, need_program
from .frame import Command, Parser, Tell, add_program, add_results

SAYS = """
Prints for a class the chains that decide its label and the references of the entries at their ends.

CLASS is a name in any spelling of docs/notation.md, as '1|r|Lmax'; `Pm`, a fixed number of machines, stands for the classes with two and
with three, and `tree` for intree and outtree. The label and the chains are those of `msp why CLASS`, over examples/known-strengths.csv or the
results file that is named; the references stand in docs/results/literature.bib or the file that is named, by the words of the source
up to its semicolon. Where a proof of our own stands in docs/results/proofs-of-results.md its section is named, and of an open class the
reason of docs/results/open.md where it has one. The running time of a rule, or the problem from which a class was reduced, is shown
where docs/results/facts.csv has it: that time is the literature's, not the solver's here. An entry that rests on a proof of our own says so;
--published leaves all of these out.

It ends with 1 where the results clash, with 2 where the words do not fit, and with 3 where a file is none of its kind.
"""
PUBLISHED = "examples/known-published.csv"
OURS = "no publication is known: it rests on a proof of our own that no journal has seen"
# (of CITATION.cff, which a test compares)
OUR_ENTRY = """@misc{msp,
  author = {{Withuqe maintainers}},
  title = {msp, a classifier and solver of deterministic machine scheduling problems whose answers are proved},
  year = {2026},
  note = {docs/results/proofs-of-results.md: proofs on paper, not refereed}
}"""
NOT_FIRST = "(the entry at the end of a chain is what decides here; who showed it first may be another)"


@dataclass
class Wanted:
    """The words of the call."""
    name: str = ""
    bibtex: bool = False
    published: bool = False
    results: str | None = None
    literature: str | None = None
    program: str | None = None


@dataclass
class Cited:
    """A chain with what stands for the entry at its end: its verdict, its references, and what there is instead of one."""
    reason: Reason
    rows: list[str]  # (what each row says)
    verdict: str
    references: list[Reference]
    instead: list[str]
    fact: Fact | None = None
    own: bool = False


@dataclass
class Class:
    """A class with its label and chains; of an open one the place and the reason, where it has one."""
    name: str
    label: str
    chains: list[Cited]
    reason: tuple[str, str] | None


@dataclass
class Answer:
    """The classes for which a name stands, and lines on the name where these are several."""
    lines: list[str]
    classes: list[Class]
    clash: bool
    bibtex: bool = field(default=False, repr=False)


@dataclass
class Documents:
    """The files that are cited: verdicts by record, references by source, proofs of our own, reasons of open classes, texts of rows."""
    verdicts: list[str]
    references: dict[str, list[Reference]]
    proofs: dict[str, str]
    opened: dict[str, tuple[str, str]]
    rows: dict[int, str]
    facts: dict[tuple[str, str], Fact]
    own: set[tuple[str, str]]

    def cited(self, reason: Reason) -> Cited:
        """A chain with what stands for its entry."""
        rows = [self.rows[row] for row, _ in reason.rows]
        if not reason.record:
            return Cited(reason, rows, "", [], [])
        source, _ = source_of(reason.source)
        found = self.references.get(source, [])
        instead = [] if found or source in NO_PUBLICATION else [f"no reference for: {source or 'an entry without a source'}"]
        if reason.listed in self.proofs:
            instead.append(f"a proof of our own: docs/results/proofs-of-results.md, {self.proofs[reason.listed]}")
        verdict = self.verdicts[reason.record]
        entry = (reason.listed, verdict)
        return Cited(reason, rows, verdict, found, instead, self.facts.get(entry), entry in self.own)

    def cite(self, why: Why) -> Class:
        """A class with all that is cited for it."""
        return Class(why.name, why.label, [self.cited(it) for it in why.reasons], None if why.reasons else self.opened.get(why.name))


def documents_of(program: Program, wanted: Wanted, results: str) -> Documents:
    """The files that are cited; documents of the shipped results say nothing of a file of one's own."""
    literature = read_text(need_file(wanted.literature, "docs/results/literature.bib", "--literature"))
    proofs, opened, facts, published = ("" if wanted.results else shipped(it) or "" for it in (
        "docs/results/proofs-of-results.md", "docs/results/open.md", "docs/results/facts.csv", PUBLISHED))
    return Documents(verdicts_in(results), by_source(read_references(literature)), proofs_in(proofs), reasons_in(opened),
                     rows_in(program.report(["rows"]).report), facts_in(facts), own_results(results, published) if published else set())


def answer(wanted: Wanted, _: Tell) -> Answer:
    """What is cited for a class, or for each class for which a name stands."""
    means = meaning_of(wanted.name)
    program = need_program(wanted.program)
    if wanted.published and wanted.results:
        raise Misfit("--published names a results file of its own: leave --results out")
    results = read_text(need_file(wanted.results, PUBLISHED if wanted.published else "examples/known-strengths.csv", "--results"))
    try:
        replies = [program.report(["why", str(kind)], results) for kind in means.classes]
    except ProgramRefusal as fault:
        raise ProgramRefusal(f"{wanted.results or 'the results file'}: msp why: {fault}", 3) from None
    documents = documents_of(program, wanted, results)
    clash = any(it.status for it in replies)
    lines = [] if replies[0].status else lines_of(program, results, means)
    return Answer(lines, [documents.cite(read_why(it.report)) for it in replies], clash, wanted.bibtex)


# Text

def chain_lines(cited: Cited) -> list[str]:
    """A chain as lines: its first class, each row with what it says, and what stands for its entry."""
    reason = cited.reason
    lines = ["", reason.kind, f"  {reason.start}"]
    lines += [f"  row {row} ({said}): {name}" for (row, name), said in zip(reason.rows, cited.rows)]
    if reason.record:
        lines.append(f"this decides: {reason.listed} is listed {cited.verdict}: entry {reason.record}, {reason.source or 'without a source'}")
        lines += [f"  {it.text()}" for it in cited.references] + [f"  {it}" for it in cited.instead]
        lines += [f"  {OURS}"] * cited.own + ([f"  {cited.fact.text()}"] if cited.fact else [])
    return lines


def as_text(found: Class) -> str:
    """The chains and references of a class as text."""
    lines = [f"{found.name} {found.label}"]
    if any(it.reason.record for it in found.chains):
        lines.append(NOT_FIRST)
    if not found.chains:
        lines.append("The results say nothing of it: no chain leads to an easy entry, and none from a hard one.")
        lines += [f"docs/results/open.md, {found.reason[0]}:", f"  {found.reason[1]}"] if found.reason else []
    return "\n".join([*lines, *(line for it in found.chains for line in chain_lines(it))]) + "\n"


def as_bibtex(found: Class, seen: set[str]) -> str:
    """The references of a class as BibTeX, each once; those whose keys were seen stand already."""
    parts = [f"% {found.name} is {found.label}: by msp why\n% {NOT_FIRST}"]
    for cited in found.chains:
        for it in cited.references:
            if it.key not in seen:
                parts.append(f"% decides by {cited.reason.listed}, listed {cited.verdict}\n{it.bibtex()}")
            seen.add(it.key)
        if cited.own and "msp" not in seen:
            parts.append(f"% decides by {cited.reason.listed}, listed {cited.verdict}: {OURS}\n{OUR_ENTRY}")
            seen.add("msp")
        for line in cited.instead:
            comment = f"% {cited.reason.listed} ({cited.reason.source}): {line}"
            parts += [comment] if comment not in parts else []
    return "\n\n".join(parts) + "\n"


def show(found: Answer) -> None:
    """Prints the classes as text, or their references as BibTeX."""
    seen: set[str] = set()
    parts = [as_bibtex(it, seen) if found.bibtex else as_text(it) for it in found.classes]
    head = "".join(f"% {it}\n" if found.bibtex else f"{it}\n" for it in found.lines)
    print("\n".join([head, *parts] if head else parts), end="")


def status(found: Answer) -> int:
    """1 where the results clash."""
    return int(found.clash)


def words(parser: Parser) -> None:
    """Adds the words."""
    parser.add_argument("name", metavar="CLASS", help="the name of a class")
    parser.add_argument("--bibtex", action="store_true", help="prints the references alone, as BibTeX, each once; what has none is a comment there")
    parser.add_argument("--published", action="store_true", help="takes published results alone: none that rests on a proof of our own")
    add_results(parser)
    parser.add_argument("--literature", metavar="FILE", help="a bibliography; without it docs/results/literature.bib")
    add_program(parser)


COMMAND = Command("cite", "CLASS [OPTION ..]", SAYS, "cite '1|r|Lmax'\ncite 'P|prec,p=1|Cmax' --bibtex", Wanted, words, answer, show, status)
