"""Questions for an exam on the complexity of classes, and their answers."""
from __future__ import annotations

import random
from dataclasses import dataclass, field
from typing import Iterator, List

from ..classes import ENVIRONMENTS, ClassName, class_named
from ..faults import Misfit
from ..files import need_file, read_text
from ..literature import labels_in, read_why
from ..program import Program, need_program
from ..writers import ASKED, MACHINES, ORDERS, Latex, Markdown, Writer
from .cite import PUBLISHED, Cited, Documents, documents_of
from .cite import Wanted as Citing
from .frame import Command, Parser, Tell, add_program, positive

SAYS = """
Draws questions for an exam on the complexity of classes by a seed, and with --solution writes their answers, in Markdown or LaTeX.

A question is a class in the three-field notation and in words: is there a polynomial algorithm, or is it NP-hard, and if so in the strong
sense? It is to be shown by reductions to a result of the literature, or from one. Easy and hard classes take turns; each is decided by another
result, over one to four rows (--rows). The answer has the chain of `msp why`, the reference, and the running time of the rule or the problem
from which the result was reduced, as docs/results/facts.csv has it; that time is the literature's, not the solver's here. Published results
alone decide (examples/known-published.csv), and none of a proof of our own.

It ends with 0, with 1 where fewer questions are found than were asked for, and with 2 where the words do not fit.
"""
LABELS = {"easy": "There is a polynomial algorithm.", "weak": "It is NP-hard, and has a pseudopolynomial algorithm.",
          "hard": "It is NP-hard; whether it is so in the strong sense is not known here.", "strong": "It is NP-hard in the strong sense."}
ASKS = ("Is there a polynomial algorithm, or is the problem NP-hard, and if so in the strong sense? Show it by reductions to a result of the "
        "literature, or from one. How long does the rule of that result take, or from which problem was it reduced that is none of scheduling?")
ITEMS = {"pmtn": "jobs may be cut and go on later", "r": "no job begins before its release date", "p=1": "all times are 1",
         "p=p": "all times are equal", "n<=2": "each job has at most two operations"}


@dataclass
class Wanted:
    """The words of the call."""
    count: str = ""
    seed: str = ""
    environment: str | None = None
    rows: int = 4
    solution: bool = False
    latex: bool = False
    title: str = "Exam"
    program: str | None = None


@dataclass
class Question:
    """A class with its label, and the chains that decide: of a weak one that to its algorithm, too."""
    name: str
    label: str
    chains: list[Cited]


@dataclass
class Answer:
    """The questions, and the text; `few` says that fewer were found than were asked for."""
    questions: list[Question]
    text: str
    few: bool = field(default=False, repr=False)


def number(text: str, what: str) -> int:
    """A whole number from 1, or a misfit."""
    if not text.isdecimal() or len(text) > 9 or int(text) < 1:
        raise Misfit(f"{what} is a whole number from 1, not {text}")
    return int(text)


# Drawing

@dataclass
class Drawing:
    """What questions are drawn from; `used` are the entries that decide those before."""
    program: Program
    results: str
    documents: Documents
    most: int
    used: set[int]

    def question(self, name: str) -> Question | None:
        """The question on a class; None where its chain is too short or too long, or its entry was used or is too little known."""
        found = self.documents.cite(read_why(self.program.report(["why", name], self.results).report))
        chain = found.chains[-1]
        if not (1 <= len(chain.rows) <= self.most and chain.fact and chain.references) or chain.reason.record in self.used:
            return None
        self.used.add(chain.reason.record)
        return Question(found.name, found.label, found.chains if found.label == "weak" else [chain])

    def questions(self, names: List[str]) -> Iterator[Question]:
        """The questions on classes, in the order of their names here."""
        return (it for it in map(self.question, names) if it)


def drawn(drawing: Drawing, environment: str | None, count: int, seed: int) -> list[Question]:
    """So many questions, on easy and on hard classes in turn."""
    labels = labels_in(drawing.program.report(["label"], drawing.results).report)
    among = [it for it in labels if environment in (None, it.split("|")[0])]
    random.Random(seed).shuffle(among)
    kinds = [drawing.questions([it for it in among if labels[it] in those]) for those in (("easy",), ("weak", "hard", "strong"))]
    found: list[Question] = []
    while kinds and len(found) < count:
        question = next(kinds[0], None)
        kinds = [*kinds[1:], kinds[0]] if question else kinds[1:]
        found += [question] if question else []
    return found


# Text

def in_words(kind: ClassName) -> str:
    """A class in words."""
    rest = [ITEMS.get(it) or ORDERS[it] for it in kind.items]
    machines = MACHINES[kind.kind].format(kind.machines or "any number of")
    return f"Minimize {ASKED[kind.criterion]} on {machines}{''.join(f'; {it}' for it in rest)}."


def asked(writer: Writer, question: Question) -> list[str]:
    """What is asked of a class."""
    kind = class_named(question.name)
    said = in_words(kind) if kind else ""
    return [f"{writer.code(question.name)}: {writer.text(f'{said} {ASKS}')}"]


def shown(writer: Writer, chain: Cited) -> list[str]:
    """A chain from its first class on, and what is said of the entry at its end."""
    reason = chain.reason
    rows = [("", "", reason.start), *((str(row), said, name) for (row, name), said in zip(reason.rows, chain.rows))]
    behind = [f"{reason.listed} is listed {chain.verdict}: {'; '.join(it.text() for it in chain.references)}."]
    behind += [f"{chain.fact.text()[:1].upper()}{chain.fact.text()[1:]}."] if chain.fact else []
    return [writer.table(("row", "what it says", "class"), rows), *map(writer.text, behind)]


def answered(writer: Writer, question: Question) -> list[str]:
    """The answer: the label, and the chains that decide."""
    return [writer.text(LABELS[question.label]), *(line for it in question.chains for line in shown(writer, it))]


def text_of(wanted: Wanted, questions: list[Question]) -> str:
    """The whole text."""
    writer = Latex() if wanted.latex else Markdown()
    parts = []
    for at, it in enumerate(questions, 1):
        parts += [writer.heading(f"Question {at}"), *asked(writer, it), *(answered(writer, it) if wanted.solution else [])]
    return writer.document(f"{wanted.title}, answers" if wanted.solution else wanted.title, parts)


def answer(wanted: Wanted, tell: Tell) -> Answer:
    """The questions."""
    count, seed = number(wanted.count, "QUESTIONS"), number(wanted.seed, "SEED")
    if wanted.environment and wanted.environment not in ENVIRONMENTS:
        raise Misfit(f"{wanted.environment} is no environment: it is one of {' '.join(ENVIRONMENTS)}")
    program = need_program(wanted.program)
    results = read_text(need_file(None, PUBLISHED, "--results"))
    drawing = Drawing(program, results, documents_of(program, Citing(published=True), results), wanted.rows, set())
    found = drawn(drawing, wanted.environment, count, seed)
    if len(found) < count:
        tell(f"{len(found)} questions are found in place of {count}")
    return Answer(found, text_of(wanted, found), len(found) < count)


def show(found: Answer) -> None:
    """Prints the text."""
    print(found.text, end="")


def status(found: Answer) -> int:
    """1 where fewer questions are found."""
    return int(found.few)


def words(parser: Parser) -> None:
    """Adds the words."""
    parser.add_argument("count", metavar="QUESTIONS", help="how many questions")
    parser.add_argument("seed", metavar="SEED", help="a whole number by which they are drawn: the same gives the same")
    parser.add_argument("--environment", metavar="E", help="draws classes on these machines alone, as 1, P2, P or F")
    parser.add_argument("--rows", metavar="N", type=positive, help="at most N reductions in a chain; 4 without it")
    parser.add_argument("--solution", action="store_true", help="the questions with their answers")
    parser.add_argument("--latex", action="store_true", help="a document for LaTeX instead of Markdown")
    parser.add_argument("--title", metavar="TEXT", help="a title; without it Exam")
    add_program(parser)


COMMAND = Command("exam", "QUESTIONS SEED [OPTION ..]", SAYS, "exam 5 3 > exam.md\nexam 5 3 --solution > answers.md", Wanted, words, answer, show,
                  status)
