"""Spellings of class names: reading with the exact first fault, and canonical printing."""
from functools import lru_cache
from typing import Union

from .classes import (Class, CRITERION_TEXT, EQUAL, GENERAL, FREE, CHAINS, INTREE, OUTTREE, PREC, ORDER_TEXT,
                      ENVIRONMENT_TEXT, J2, J, J2SHORT, JSHORT, SHORT_ROUTES, TIMES_TEXT, UNIT)

_ENVIRONMENTS = {b"1": 0, b"P2": 1, b"P3": 2, b"P": 3, b"Q2": 4, b"Q": 5, b"R2": 6, b"R": 7, b"O2": 8, b"O3": 9, b"O": 10,
                 b"F2": 11, b"F3": 12, b"F": 13, b"J2": J2, b"J": J}

# Each spelling of an item: the part that it fills, and its value.
_ITEMS: dict[bytes, tuple[str, int]] = {
    b"pmtn": ("cut", 1),
    b"chains": ("order", CHAINS), b"chain": ("order", CHAINS),
    b"intree": ("order", INTREE), b"in-tree": ("order", INTREE),
    b"outtree": ("order", OUTTREE), b"out-tree": ("order", OUTTREE),
    b"prec": ("order", PREC),
    b"r": ("heads", 1), b"r_j": ("heads", 1), b"rj": ("heads", 1),
    b"p=1": ("times", UNIT), b"p_j=1": ("times", UNIT), b"pj=1": ("times", UNIT),
    b"p_ij=1": ("times", UNIT), b"pij=1": ("times", UNIT),
    b"p=p": ("times", EQUAL), b"p_j=p": ("times", EQUAL), b"pj=p": ("times", EQUAL),
    b"p_ij=p": ("times", EQUAL), b"pij=p": ("times", EQUAL),
    b"n<=2": ("short", 1), b"n_j<=2": ("short", 1), b"nj<=2": ("short", 1)}

_CRITERIA: dict[bytes, int] = {spelling: number for number, spellings in enumerate((
    (b"Cmax", b"C_max"), (b"Lmax", b"L_max"), (b"fmax", b"f_max"), (b"sumC", b"sumC_j"),
    (b"sumwC", b"sumw_jC_j"), (b"sumU", b"sumU_j"), (b"sumwU", b"sumw_jU_j"),
    (b"sumT", b"sumT_j"), (b"sumwT", b"sumw_jT_j"))) for spelling in spellings}


class NameFault(Exception):
    """The first fault of a name; its text is the FAULT of the notes."""


def parse(text: bytes) -> Class:
    """The class that the bytes spell; raises NameFault with the first fault."""
    if text.count(b"|") != 2:
        raise NameFault("not two bars")
    first, items, last = text.split(b"|")
    if first not in _ENVIRONMENTS:
        raise NameFault("environment at 0")
    env = _ENVIRONMENTS[first]
    parts = _parts(items, len(first) + 1, env)
    if last not in _CRITERIA:
        raise NameFault(f"criterion at {len(first) + 1 + len(items) + 1}")
    if "short" in parts:
        env = J2SHORT if env == J2 else JSHORT
    return Class(env, "cut" in parts, parts.get("order", FREE), "heads" in parts, parts.get("times", GENERAL), _CRITERIA[last])


def _parts(items: bytes, place: int, env: int) -> dict[str, int]:
    """The parts that the items from a place on fill."""
    parts: dict[str, int] = {}
    for item in items.split(b",") if items else ():
        if item not in _ITEMS:
            raise NameFault(f"item at {place}")
        part, value = _ITEMS[item]
        if parts.get(part) == value:
            raise NameFault(f"item again at {place}")
        if part in parts or part == "short" and env not in (J2, J):
            raise NameFault(f"item does not fit at {place}")
        parts[part] = value
        place += len(item) + 1
    return parts


def class_named(text: Union[str, bytes]) -> Class:
    """The class of a name that has no fault, as a text or as bytes."""
    return parse(text.encode() if isinstance(text, str) else text)


@lru_cache(maxsize=None)
def name_of(cls: Class) -> str:
    """The canonical spelling of a class."""
    items = []
    if cls.cut:
        items.append("pmtn")
    if cls.order != FREE:
        items.append(ORDER_TEXT[cls.order])
    if cls.heads:
        items.append("r")
    if cls.times != GENERAL:
        items.append(TIMES_TEXT[cls.times])
    if cls.env in SHORT_ROUTES:
        items.append("n<=2")
    return f"{ENVIRONMENT_TEXT[cls.env]}|{','.join(items)}|{CRITERION_TEXT[cls.crit]}"
