"""A plan for an instance of any class, with its cost, a lower bound, and the gap between them."""
from __future__ import annotations

from dataclasses import dataclass, field
from typing import List

from ..benchmarks import jssp, taillard
from ..evidence import write_evidence
from ..faults import Fault, Misfit
from ..files import read_text
from ..minizinc import NODES
from ..numbers import said
from ..program import need_program
from ..proposals import Candidate, Proposal, Search, candidates_of, proposal_of
from ..schedules import need_jobs, read_schedule, text_of
from ..texts import Instance, read_instance, read_instance_at
from ..units import Units, UnitWords
from .frame import Command, Parser, Tell, add_program, positive

SAYS = """
Proposes a plan for an instance of any class, also where there is no solver, and says how far from the best it can be.

FILE (or standard input) is an instance text; all classes that `msp check` judges will do (all but R and R2 where work may be cut). The
schedule is the best that rules of the field and a local search find, and for the greatest lateness on one machine branching. Its cost is what
`msp check` says. The bound is the greatest that a loosening of the instance gives to a class with a solver, or a certificate that `msp accept`
takes on the instance; docs/bounds.md has the steps. One of three words says what is known:

    proved   nothing costs less: by a solver of the class, or a certificate on this very instance
    argued   nothing costs less: by the least cost of a loosened instance, and the steps that lead there
    open     cost and bound do not meet

The report has lines on them in front of a schedule text: plan and gantt read it, and check behind the instance. Costs and bounds are in the
units of the instance. The same words give the same report: nothing looks at a clock. Ctrl-C prints the best plan so far, with the line
interrupted.

It ends with 0 where there is a plan, with 1 where it was interrupted, with 2 where the words do not fit, with 3 to 5 where the program
refuses the instance: a fault, a limit, or a class of which check judges no schedule.
"""


@dataclass
class Wanted:
    """The words of the call."""
    file: str | None = None
    tries: int | None = None
    seed: int = 1
    begin: str | None = None
    solver: str | None = None
    nodes: int = NODES
    taillard: bool = False
    jssp: bool = False
    number: int = 1
    candidates: bool = False
    progress: bool = False
    names: str | None = None
    evidence: str | None = None
    program: str | None = None


@dataclass
class Answer:
    """The proposal, or the candidates alone."""
    proposal: Proposal | None
    candidates: List[Candidate] | None
    units: Units = field(repr=False)


def instance_of(wanted: Wanted) -> Instance:
    """The instance of a file, or of standard input; of a text of benchmarks that of the number."""
    if wanted.taillard and wanted.jssp:
        raise Misfit("--taillard and --jssp: a text is of one kind")
    if not (wanted.taillard or wanted.jssp):
        return read_instance_at(wanted.file) if wanted.file else read_instance(read_text(None))
    those = list(taillard(read_text(wanted.file)) if wanted.taillard else jssp(read_text(wanted.file)))
    if not those:
        raise Fault("there is no instance in the text: no line has the numbers of jobs and machines")
    if wanted.number > len(those):
        raise Misfit(f"--number {wanted.number}: the number of instances in the text is {len(those)}")
    return those[wanted.number - 1]


def answer(wanted: Wanted, tell: Tell) -> Answer:
    """The plan that is proposed."""
    program, units = need_program(wanted.program), Units(UnitWords(names=wanted.names))
    given = instance_of(wanted)
    units.need(None, given)
    begin = read_schedule(read_text(wanted.begin)) if wanted.begin else None
    if begin:
        need_jobs(begin.pieces, given)
    search = Search(wanted.tries, wanted.seed, begin, wanted.nodes if wanted.solver else None, tell if wanted.progress else lambda line: None)
    if wanted.candidates:
        return Answer(None, candidates_of(program, given, search), units)
    found = proposal_of(program, given, search)
    if wanted.evidence:
        write_evidence(wanted.evidence, given, text_of(found.pieces, found.cost), found.bounds)
    if wanted.names:
        tell(in_words(found, units))
    return Answer(found, None, units)


def in_words(found: Proposal, units: Units) -> str:
    """Cost, bound and gap in the units of the list."""
    criterion = found.instance.kind.criterion
    bound = f"; nothing is below {units.cost(found.bound.value, criterion)}" if found.bound else ""
    return f"{units.cost_in_words(found.cost, criterion)}{bound}: {found.word}"


def show(found: Answer) -> None:
    """Prints the report, or the table of candidates."""
    if found.proposal:
        print(found.proposal.text(), end="")
        return
    those = found.candidates or []
    costs = [said(it.cost) for it in those]
    width = max(map(len, costs), default=0)
    for cost, it in zip(costs, those):
        print(f"{cost.rjust(width)}  {it.rule} ({it.timing})")


def status(found: Answer) -> int:
    """1 where the search was interrupted."""
    return int(found.proposal is not None and found.proposal.interrupted)


def words(parser: Parser) -> None:
    """Adds the words."""
    parser.add_argument("file", metavar="FILE", nargs="?", help="the instance; without it standard input")
    parser.add_argument("--tries", metavar="N", type=positive, help="how many schedules the search looks at; without it what takes seconds")
    parser.add_argument("--seed", metavar="N", type=positive, default=1, help="another sequence of what the search draws; without it 1")
    parser.add_argument("--from", metavar="SCHEDULE", dest="begin", help="a schedule text to begin with, as one's own plan")
    parser.add_argument("--by", choices=["minizinc"], dest="solver",
                        help="takes a schedule of Gecode, which MiniZinc calls, as one more to begin with; no cuts")
    parser.add_argument("--nodes", metavar="N", type=positive, default=NODES, help=f"how many nodes Gecode looks at; without it {NODES}")
    parser.add_argument("--jssp", action="store_true", help="FILE is a usual text of job shops: numbers of jobs and machines, and for each job its "
                        "machines from 0 with their times")
    parser.add_argument("--taillard", action="store_true", help="FILE is a text of Taillard's flow shops or job shops")
    parser.add_argument("--number", metavar="N", type=positive, default=1, help="which instance of such a text; without it the first")
    parser.add_argument("--candidates", action="store_true", help="prints what each rule gives, and does not search")
    parser.add_argument("--progress", action="store_true", help="tells bound and each better cost on standard error")
    parser.add_argument("--names", metavar="FILE", help="the file that from-csv --names wrote: cost and bound are told in the units of the list, too")
    parser.add_argument("--evidence", metavar="FOLDER", help="writes instance, schedule, each loosened instance with what solve says of it, and a "
                        "certificate where there is one, into a new folder that verify judges")
    add_program(parser)


EXAMPLE = "propose orders.txt > orders.plan\npropose orders.txt | plan --instance orders.txt"
COMMAND = Command("propose", "[FILE] [OPTION ..]", SAYS, EXAMPLE, Wanted, words, answer, show, status)
