"""Random calls of all commands, half of them with a small damage."""
import re
from random import Random
from typing import NamedTuple

from msp_reference.certificates import CERTIFIED
from msp_reference.classes import Class
from msp_reference.command import answer
from msp_reference.dispatch import SOLVED, find_target
from msp_reference.generate import names_for
from msp_reference.instance_text import Front, read_front
from msp_reference.names import name_of
from msp_reference.schedule import solution
from msp_reference.schedule_text import schedule_lines

from .drawing import Sizes, any_class, random_results, random_schedule, small_instance, text_of

COMMANDS = ("label", "frontier", "why", "solve", "check", "trial", "rows", "certify", "accept")

_PIECES = (b" ", b"\n", b"0", b"1", b"-", b"/", b"x", b"\xff", b"9" * 45, b"job", b"arc", b"end", b",", b'"', b"\r", b"j1", b"j2",
           b"piece j1 1 1 0 1\n", b"1000000001", b"easy", b"w=", b"|", b"pmtn", b"\n\n", b"2147483648")
_NUMBERS = (-10 ** 24 - 1, -10 ** 9 - 1, -10 ** 9, -1, 0, 2, 31, 32, 33, 400, 401, 10 ** 6, 10 ** 6 + 1, 10 ** 9, 10 ** 9 + 1, 2 ** 30,
            10 ** 12 + 1, 10 ** 13, 10 ** 13 + 1, 10 ** 15 + 1, 10 ** 24 + 1, 2 * 10 ** 26 + 1, 10 ** 38)
_WORDS = (b"--at", b"", b"x", b"1||Cmax", b"P|prec|Cmax", b"0", b"401", b"-1", b"solve", b"\xff", b"1|p=1,p=p|Cmax")


class Call(NamedTuple):
    """The words of a call, and its input."""
    words: tuple[bytes, ...]
    text: bytes


def random_call(draw: Random, commands: tuple[str, ...] = COMMANDS) -> Call:
    """A call of one of these commands."""
    command = draw.choice(commands)
    call = _RESULTS_CALLS[command](draw) if command in _RESULTS_CALLS else _instance_call(draw, command)
    return call if draw.random() < 0.5 else damaged(draw, call)


def damaged(draw: Random, call: Call) -> Call:
    """A call with a small damage of its input, often a number at or beyond a limit, or now and then of its words."""
    if draw.random() < 0.15 or not call.text:
        place = draw.randrange(len(call.words) + 1)
        words = draw.choice((_WORDS, call.words))
        return Call(call.words[:place] + (draw.choice(words),) + call.words[place + draw.randint(0, 1):], call.text)
    numbers = list(re.finditer(rb"(?<=[ =])-?\d+", call.text))
    if numbers and draw.random() < 0.4:
        begin, end = draw.choice(numbers).span()
        return Call(call.words, call.text[:begin] + b"%d" % draw.choice(_NUMBERS) + call.text[end:])
    place = draw.randrange(len(call.text) + 1)
    return Call(call.words, call.text[:place] + draw.choice(_PIECES) + call.text[place + draw.randint(0, 2):])


def _some_names(draw: Random) -> tuple[bytes, ...]:
    return tuple(name_of(any_class(draw)).encode() for _ in range(3))


def _label_call(draw: Random) -> Call:
    return Call((b"label", *draw.choice(((), _some_names(draw)))), random_results(draw))


def _frontier_call(draw: Random) -> Call:
    return Call((b"frontier",), random_results(draw))


def _why_call(draw: Random) -> Call:
    return Call((b"why", _some_names(draw)[0]), random_results(draw))


def _trial_call(draw: Random) -> Call:
    name = name_of(_mostly_solved(draw)).encode()
    return Call((b"trial", name, b"%d" % draw.choice((1, 2, 5, 20, 60)), b"%d" % draw.randrange(2 ** 31)), b"")


def _rows_call(_: Random) -> Call:
    return Call((b"rows",), b"")


_RESULTS_CALLS = {"label": _label_call, "frontier": _frontier_call, "why": _why_call, "trial": _trial_call, "rows": _rows_call}


def _mostly_solved(draw: Random) -> Class:
    cls = any_class(draw)
    while draw.random() < 0.95 and find_target(cls) is None:
        cls = any_class(draw)
    return cls


def _instance_call(draw: Random, command: str) -> Call:
    certified = command in ("certify", "accept") and draw.random() < 0.95
    cls = draw.choice(CERTIFIED) if certified else _mostly_solved(draw)
    text = text_of(small_instance(draw, cls, Sizes(jobs=8)))
    words = [command.encode()]
    if command == "solve" and draw.random() < 0.3:
        words += [b"--at", name_of(draw.choice(SOLVED).cls).encode()]
    if command == "check":
        text += schedule_behind(draw, text)
    if command == "accept":
        text += part_from(answer([b"certify"], text).report, b"certificate\n") or b"certificate\nbound 1\nkind line\njob j1\nend\n"
    return Call(tuple(words), text)


def part_from(report: bytes, mark: bytes) -> bytes:
    """A report from a line on, or nothing where it has no such line."""
    place = report.find(mark)
    return report[place:] if place >= 0 else b""


def schedule_behind(draw: Random, text: bytes) -> bytes:
    """A best schedule of an instance text, or some feasible one."""
    found = part_from(answer([b"solve"], text).report, b"schedule\n") if draw.random() < 0.5 else b""
    return found or some_schedule(draw, read_front(text))


def some_schedule(draw: Random, front: Front) -> bytes:
    """The text of some feasible schedule, now and then with another cost."""
    inst = front.filed.instance
    found = solution(inst, random_schedule(draw, inst))
    if draw.random() < 0.3:
        found = found._replace(cost=found.cost + draw.choice((-1, 1)))
    return "".join(line + "\n" for line in schedule_lines(names_for(len(inst.jobs)), found)).encode()
