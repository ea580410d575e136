"""False bounds offered to `accept`: damaged certificates, and those of another instance."""
import re
from fractions import Fraction
from random import Random
from typing import Optional

import msp_search
from msp_reference.certificates import CERTIFIED
from msp_reference.classes import (CLASS_COUNT, CMAX, Class, FMAX, JOB_SHOPS, ONE, OPEN_SHOPS, FLOW_SHOPS, SUMC, UNIFORM,
                                   IDENTICAL, UNRELATED, unrank)
from msp_reference.command import answer
from msp_reference.dispatch import find_target, solve_any
from msp_reference.instance import Instance
from msp_search.grid import grid_size

from .calls import Call, part_from
from .comparisons import Judge, draw_of, told
from .drawing import Sizes, small_instance, text_of
from .judging import difference, word_after
from .program import Program

_SIZES = Sizes(jobs=4, time=3)
_MOST_VECTORS = 100_000         # of work that is left, on a grid: more take minutes
_KINDS = (b"group", b"machine", b"line", b"levels", b"segments", b"block", b"prices")


def _can_be_shown(cls: Class) -> bool:
    """Whether some kind of certificate says something of a class."""
    if cls.crit == CMAX:
        return cls.env in IDENTICAL + UNIFORM + OPEN_SHOPS + FLOW_SHOPS + JOB_SHOPS
    return cls.env == ONE and cls.crit == FMAX or cls.env in UNRELATED and cls.crit == SUMC and not cls.cut


_SHOWN = [cls for cls in map(unrank, range(CLASS_COUNT)) if _can_be_shown(cls)]


def _relatives(cls: Class) -> list[Class]:
    """The certified classes whose certificates could say something of a class."""
    kinds = (UNRELATED, OPEN_SHOPS + FLOW_SHOPS + JOB_SHOPS, IDENTICAL + UNIFORM)
    kind = next(kind for kind in kinds if cls.env in kind)
    return [other for other in CERTIFIED if other.crit == cls.crit
            and (other.env in kind or other.env in OPEN_SHOPS and kind[0] in OPEN_SHOPS)] or list(CERTIFIED)


def optimum(inst: Instance, text: bytes) -> Optional[Fraction]:
    """The least cost of an instance, or with preemption and no solver one that is not below it; None where neither is found."""
    if find_target(inst.cls):
        return solve_any(inst).solution.cost
    problem, _ = msp_search.read(text.decode())
    if problem.cut and grid_size(problem, 1) > _MOST_VECTORS:
        return None
    try:
        return msp_search.least(problem).cost
    except msp_search.TooLarge:
        return None


def _twin(draw: Random, inst: Instance, cls: Class) -> Instance:
    """An instance of another class with as many jobs."""
    while True:
        found = small_instance(draw, cls, _SIZES)
        if len(found.jobs) == len(inst.jobs):
            return found


def _certificate(draw: Random, inst: Instance, text: bytes) -> bytes:
    """A certificate of the instance or, more often, of another one of its class or of a class that is like it."""
    if inst.cls in CERTIFIED and draw.random() < 0.4:
        return part_from(answer([b"certify"], text).report, b"certificate\n")
    cls = inst.cls if inst.cls in CERTIFIED and draw.random() < 0.5 else draw.choice(_relatives(inst.cls))
    return part_from(answer([b"certify"], text_of(_twin(draw, inst, cls))).report, b"certificate\n")


def _spoilt(draw: Random, certificate: bytes, best: Fraction) -> bytes:
    """A certificate with another bound, mostly one just above the optimum, and other numbers, jobs or lines."""
    bound = best + Fraction(draw.choice((0, 1, 6, 12, 12, 24)), 12)
    lines = re.sub(rb"bound \S+", b"bound %s" % str(bound).encode(), certificate).split(b"\n")
    for _ in range(draw.choice((0, 1, 1, 2, 3))):
        place = draw.randrange(2, max(3, len(lines) - 2))
        way = draw.randrange(5)
        if way == 0:
            lines.insert(place, draw.choice(lines[3:-1]))
        elif way == 1 and len(lines) > 5:
            lines.pop(place)
        elif way == 2:
            lines[2] = b"kind " + draw.choice(_KINDS)
        else:
            numbers = re.findall(rb"(?<= )-?\d+$", lines[place])
            if numbers:
                end = len(lines[place]) - len(numbers[0])
                lines[place] = lines[place][:end] + b"%d" % (int(numbers[0]) + draw.choice((-2, -1, 1, 1, 2)))
            elif lines[place].startswith(b"job j"):
                lines[place] = b"job j%d" % draw.randint(1, 4)
    return b"\n".join(lines)


def false_bounds(program: Program, seed: int) -> Judge:
    """Certificates of which none with a bound above the optimum may be accepted."""
    def judge(turn: int) -> Optional[str]:
        draw = draw_of("bounds", seed, turn)
        cls = draw.choice(CERTIFIED) if draw.random() < 0.6 else draw.choice(_SHOWN)
        inst = small_instance(draw, cls, _SIZES)
        text = text_of(inst)
        best = optimum(inst, text)
        call = Call((b"accept",), text + _spoilt(draw, _certificate(draw, inst, text), best or Fraction(1)))
        theirs = program.call(call.words, call.text)
        if theirs.status == 0 and best is not None and Fraction(word_after(theirs.report, b"bound").decode()) > best:
            return told(call, f"accepted, though a schedule costs {best}")
        return told(call, difference(program, call))
    return judge
