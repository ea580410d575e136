"""What can be compared: random calls, all classes, bounds, small instances against the search, and large ones.

Each function answers the judge of a comparison: what turn number N finds wrong, or None. A turn draws from the seed and its
number alone, so it can be repeated by itself.
"""
from random import Random
from typing import Callable, Optional, Sequence

from msp_reference.classes import CLASS_COUNT, Class, unrank
from msp_reference.command import answer
from msp_reference.dispatch import SOLVED, find_target
from msp_reference.generate import generate
from msp_reference.instance_text import read_front

from .calls import Call, part_from, random_call, some_schedule
from .drawing import Sizes, small_instance, text_of
from .judging import difference, shown, word_after
from .program import Program

Judge = Callable[[int], Optional[str]]
LARGE = 400


def told(call: Call, found: Optional[str]) -> Optional[str]:
    """A difference with the call that it is of."""
    return f"words {b' '.join(call.words)!r}\ninput {call.text!r}\n{found}" if found else None


def draw_of(what: str, seed: int, turn: int) -> Random:
    """The draws of a turn."""
    return Random(f"{what} {seed} {turn}")


def random_calls(program: Program, seed: int, commands: tuple[str, ...]) -> Judge:
    """Calls of these commands, half of them damaged."""
    def judge(turn: int) -> Optional[str]:
        call = random_call(draw_of("calls", seed, turn), commands)
        return told(call, difference(program, call))
    return judge


def one_call(program: Program, words: Sequence[bytes], text: bytes) -> Judge:
    """A given call."""
    def judge(_: int) -> Optional[str]:
        return difference(program, Call(tuple(words), text))
    return judge


def all_classes(program: Program, seed: int) -> tuple[int, Judge]:
    """An instance of each class: `solve`, `check` of some schedule, and `certify`."""
    def judge(turn: int) -> Optional[str]:
        draw = draw_of("classes", seed, turn)
        text = text_of(small_instance(draw, unrank(turn), Sizes(jobs=6)))
        for call in (Call((b"solve",), text), Call((b"check",), text + some_schedule(draw, read_front(text))),
                     Call((b"certify",), text)):
            found = told(call, difference(program, call))
            if found:
                return found
        return None
    return CLASS_COUNT, judge


def solved_classes() -> list[Class]:
    """All classes that have a solver."""
    return [cls for cls in map(unrank, range(CLASS_COUNT)) if find_target(cls)]


def large_instances(program: Program, seed: int) -> tuple[int, Judge]:
    """400 jobs of each solver: the schedule by the independent `check`, the least cost by the independent solver."""
    def judge(turn: int) -> Optional[str]:
        solver = SOLVED[turn]
        inst = generate(solver.cls, LARGE, seed)
        if not solver.fits(inst):
            inst = generate(solver.cls, LARGE // 2, seed)
        call = Call((b"solve",), text_of(inst))
        theirs = program.call(call.words, call.text)
        if theirs.status != 0:
            return f"{solver.printed}: {shown(theirs)}"
        checked = answer([b"check"], call.text + part_from(theirs.report, b"schedule\n"))
        ours = answer(call.words, call.text)
        if checked.status != 0 or word_after(theirs.report, b"cost") != word_after(ours.report, b"cost"):
            return f"{solver.printed}: reference cost {word_after(ours.report, b'cost')!r}, check of the program's {shown(checked)}"
        return None
    return len(SOLVED), judge
