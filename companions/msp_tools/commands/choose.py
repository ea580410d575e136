"""The class of a problem, what is known of it, and how to solve an instance of it."""
from __future__ import annotations

import re
import sys
from dataclasses import dataclass, field

from ..bounds import Bound, bounds_of, of_each_class
from ..classes import ClassName
from ..faults import Misfit
from ..files import need_file, read_text
from ..literature import lines_of
from ..naming import Meaning, Variant, meaning_in_words, meaning_of
from ..nearby import Near, Served, Solver, bounding, schedules_for, serving, solver_of
from ..program import Program, need_program
from ..texts import Instance, read_instance_at
from ..units import Units, UnitWords
from .frame import Command, Parser, Tell, add_program, add_results

SAYS = """
Finds the class of a problem, what is known of it, and how to solve an instance of it.

Without words it asks, and reads the answers from standard input. NAME is a name in any spelling of docs/notation.md, as
'Pm | r_j, prmp | \\sum w_j C_j'; --environment and --criterion with the words behind them say the same. With --instance it takes the class of
an instance, and bounds and schedules for it.

It prints the class, its label with the reason (a chain of reductions to or from a result of the literature), and whether it has a solver,
over which rows. A name with a fixed number of machines that is not said, as Pm, stands for the classes with two and with three; tree
stands for intree and outtree. Where a class has no solver, it prints the nearest classes that have one: relaxations, whose best cost
bounds that of the instance from below, and those whose schedules may serve, each with the command that rewrites the instance; behind it
`check` says whether the schedule fits, and what it costs. With --instance it prints the greatest bounds, each with its word (docs/bounds.md),
with what `solve` or `accept` showed and with the steps to it, and of the schedules those that `check` finds feasible, the best first. Bounds
and costs are in the units of the instance, or with the file that from-csv --names wrote in those of the list; a schedule is always in those
of the instance.

It ends with 0 where the class has a solver, with 1 where it has none (of several classes: one has none), and with 2 where the words do
not fit.
"""
QUESTIONS = (("environment", "machines: 1, P (identical), Q (uniform), R (unrelated), O (open shop), F (flow shop), J (job shop), or P2, P3, Q2, R2, "
              "O2, O3, F2, F3, J2, or Pm .. for any fixed number"),
             ("preemption", "may jobs be cut? yes or no"), ("precedence", "precedence: none, chains, intree, outtree or prec"),
             ("releases", "release dates? yes or no"), ("times", "times: any, equal or unit"),
             ("criterion", "criterion: Cmax, Lmax, fmax, sumC, sumwC, sumU, sumwU, sumT or sumwT"))
YES, NO = ("y", "yes", "j", "ja", "oui"), ("n", "no", "nein", "non")
MOST_BOUNDS = 5
TIMES: dict[str, list[str]] = {"any": [], "": [], "equal": ["p=p"], "unit": ["p=1"]}


@dataclass
class Wanted:
    """The words of the call."""
    name: str | None = None
    environment: str | None = None
    criterion: str | None = None
    preemption: bool = False
    precedence: str | None = None
    releases: bool = False
    times: str = "any"
    two_operations: bool = False
    instance: str | None = None
    names: str | None = None
    results: str | None = None
    program: str | None = None


@dataclass
class Found:
    """A class: its report of `why`, its solver, and where it has none the classes near by, or bounds and schedules of the instance."""
    name: str
    why: list[str]
    solver: Solver | None
    bounding: list[Near] = field(default_factory=list)
    serving: list[Near] = field(default_factory=list)
    bounds: list[Bound] = field(default_factory=list)
    schedules: list[Served] = field(default_factory=list)


@dataclass
class Answer:
    """What a problem is: lines on its name where it stands for several classes, and the classes."""
    lines: list[str]
    classes: list[Found]
    single: bool = field(default=True, repr=False)
    instance: Instance | None = field(default=None, repr=False)
    units: Units | None = field(default=None, repr=False)


# The class that is meant

def by_words(wanted: Wanted, environment: str, criterion: str) -> Meaning:
    """What the options mean."""
    if wanted.times.lower() not in TIMES:
        raise Misfit(f"times are any, equal or unit, not {wanted.times}")
    order = wanted.precedence.lower() if wanted.precedence else "none"
    items = ["pmtn"] * wanted.preemption + ([] if order in ("none", "no") else [order]) + ["r"] * wanted.releases
    return meaning_in_words(environment, items + TIMES[wanted.times.lower()] + ["n<=2"] * wanted.two_operations, criterion)


def asked() -> Meaning:
    """What is meant, by questions on standard error and answers on standard input."""
    said = {}
    for name, question in QUESTIONS:
        print(f"{question}: ", end="", file=sys.stderr, flush=True)
        line = sys.stdin.readline()
        if not line:
            raise Misfit(f"no answer on the {name}")
        said[name] = line.strip()
        if name in ("preemption", "releases") and said[name].lower() not in YES + NO:
            raise Misfit(f"{said[name] or 'nothing'} is neither yes nor no: the question was on the {name}")
    wanted = Wanted(preemption=said["preemption"].lower() in YES, precedence=said["precedence"], releases=said["releases"].lower() in YES,
                    times=said["times"])
    return by_words(wanted, said["environment"], said["criterion"])


def meant(wanted: Wanted, lines: list[str]) -> Meaning:
    """What the words mean: a name, answers or options; lines say what was read otherwise."""
    if wanted.name is not None:
        name = re.sub(r"T(?=_?\{?\\?max)", "L", wanted.name)
        if name != wanted.name:
            lines.append("Tmax has no name: Lmax decides it, since Tmax is the greater of 0 and Lmax")
        return meaning_of(name)
    if wanted.environment is None and wanted.criterion is None:
        return asked()
    if wanted.environment is None or wanted.criterion is None:
        raise Misfit("an environment and a criterion are wanted; --help shows more")
    return by_words(wanted, wanted.environment, wanted.criterion)


# What is known of it

def found_of(program: Program, kind: ClassName, results: str, given: Instance | None, tell: Tell) -> Found:
    """A class with its label, its solver, and what is near by."""
    why = program.report(["why", str(kind)], results).report.splitlines()[:-1]
    found = Found(str(kind), why, solver_of(program, kind))
    if found.solver is None and given:
        found.bounds, found.schedules = list(of_each_class(bounds_of(given, program, tell)))[:MOST_BOUNDS], schedules_for(program, given)
    elif found.solver is None:
        found.bounding, found.serving = bounding(program, kind), serving(program, kind)
    return found


def answer(wanted: Wanted, tell: Tell) -> Answer:
    """The classes that are meant, and what is known of them."""
    if wanted.instance and (wanted.name or wanted.environment or wanted.criterion):
        raise Misfit("--instance has its class: leave the others out")
    if wanted.names and not wanted.instance:
        raise Misfit("--names goes with --instance")
    program = need_program(wanted.program)
    results = read_text(need_file(wanted.results, "examples/known-strengths.csv", "--results"))
    given = read_instance_at(wanted.instance) if wanted.instance else None
    units = Units(UnitWords(names=wanted.names))
    lines: list[str] = []
    if given:
        units.need(None, given)
    means = Meaning(str(given.kind), (Variant(given.kind, None, None),)) if given else meant(wanted, lines)
    lines += lines_of(program, results, means)
    return Answer(lines, [found_of(program, kind, results, given, tell) for kind in means.classes], means.single, given, units)


# Printing

def show_near(near: Near, serves: bool) -> None:
    """Prints how the nearest class is used: for a bound, or for a schedule that `check` judges."""
    print(f"  {near.name}    {', '.join(near.moves)}")
    # (a schedule without release dates or times fits few instances: it is printed where it does)
    if near.sed is None or serves and any(f" {key}=" in near.sed for key in "rp"):
        print("    choose --instance instance.txt")
    elif serves:
        print(f"    sed '{near.sed}' instance.txt | msp solve | sed -n '/^schedule$/,$p' > schedule.txt")
        print("    cat instance.txt schedule.txt | msp check")
    else:
        print(f"    sed '{near.sed}' instance.txt | msp solve")


def show_instance(found: Found, given: Instance, units: Units) -> None:
    """Prints the bounds and the schedules for an instance."""
    counted = f"in the units of the {'list' if units.names.path else 'instance'}"
    criterion = given.kind.criterion
    print(f"lower bounds, by relaxation, {counted}:" if found.bounds else "lower bounds, by relaxation: none near by")
    for bound in found.bounds:
        behind = bound.solved if "|" in bound.solved else f"certificate {bound.solved}"
        steps = [", ".join(it.words for it in bound.steps)] if bound.steps else []
        print("    ".join([f"  at least {units.cost(bound.value, criterion)}", bound.word, behind, *steps]))
    print(f"schedules that fit, by check, {counted}:" if found.schedules else "schedules that fit, by check: none near by")
    for served in found.schedules:
        print(f"  cost {units.cost(served.cost, criterion)}    {served.near.name}    {', '.join(served.near.moves)}")
    if found.schedules:
        print(found.schedules[0].text, end="")


def show_class(found: Found, given: Instance | None, units: Units | None) -> None:
    """Prints a class."""
    print("\n".join(found.why))
    if found.solver:
        chain = found.solver.chain
        print(f"solver {found.solver.name}" + (f" over {len(chain)} rows" if len(chain) > 1 else " over one row" if chain else ""))
        print("".join(f"  row {number} {name}\n" for number, name in chain), end="")
        print("  msp solve < instance.txt")
        return
    print("no solver")
    if given and units:
        show_instance(found, given, units)
        return
    for title, those, serves in (("a lower bound, by relaxation", found.bounding, False), ("a schedule that may serve", found.serving, True)):
        print(f"{title}:" if those else f"{title}: none near by")
        for near in those:
            show_near(near, serves)


def show(found: Answer) -> None:
    """Prints what is found."""
    for line in found.lines:
        print(line)
    for at, it in enumerate(found.classes):
        print("\n" * (at > 0 or not found.single), end="")
        show_class(it, found.instance, found.units)


def status(found: Answer) -> int:
    """1 where a class has no solver."""
    return int(any(it.solver is None for it in found.classes))


def words(parser: Parser) -> None:
    """Adds the words."""
    parser.add_argument("name", metavar="NAME", nargs="?", help="the name of a class")
    parser.add_argument("--environment", metavar="E",
                        help="1, P, Q, R, O, F or J, with the number of machines behind it where the class fixes it (P2, O3, or Pm for any fixed "
                             "number), or in words: one, identical, uniform, unrelated, open-shop, flow-shop, job-shop")
    parser.add_argument("--criterion", metavar="C",
                        help="Cmax, Lmax, fmax, sumC, sumwC, sumU, sumwU, sumT or sumwT, or in words: makespan, lateness, late-jobs, tardiness ..")
    parser.add_argument("--preemption", action="store_true", help="jobs may be cut and go on later, on another machine too")
    parser.add_argument("--precedence", metavar="K", help="chains, intree, outtree, tree (either of the two) or prec")
    parser.add_argument("--releases", action="store_true", help="jobs have release dates")
    parser.add_argument("--times", metavar="T", help="any (without it), equal or unit")
    parser.add_argument("--two-operations", action="store_true", help="in job shops: at most two operations for each job")
    parser.add_argument("--instance", metavar="FILE", help="takes the class of an instance, and prints bounds and schedules for it")
    parser.add_argument("--names", metavar="FILE", help="the file that from-csv --names wrote: bounds and costs are in the units of the list")
    add_results(parser)
    add_program(parser)


EXAMPLE = r"""
choose 'Pm | r_j, prmp | \sum w_j C_j'
choose --environment identical --criterion makespan
choose --instance instance.txt
"""
COMMAND = Command("choose", "[NAME] [OPTION ..]", SAYS, EXAMPLE, Wanted, words, answer, show, status)
