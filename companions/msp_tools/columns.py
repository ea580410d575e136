"""The columns of a list of jobs: which record names them, what each of them means, and in which unit it counts."""
from __future__ import annotations

import re
from dataclasses import dataclass

from .cells import unit_in_header
from .classes import ClassName
from .faults import Fault
from .spreadsheets import Record, Table
from .telling import line_of

KEYS = {"time": "p", "release": "r", "due": "d", "weight": "w"}
LONG = {letter: word for word, letter in KEYS.items()}
KNOWN = re.compile(r"job|p|p[1-9][0-9]*|route|curve|r|d|w|after")
LOOKED_AT = 20  # (records among which the names of the columns are)


@dataclass(frozen=True)
class Column:
    """A column: its place from 0, its name in the header, its key (`p`, `d` ..; its own name where it has none), and the seconds of its unit."""
    place: int
    header: str
    key: str
    unit: int | None


@dataclass
class Header:
    """The columns of a list, the line that names them, and what stands above it."""
    columns: list[Column]
    line: int
    titles: list[str]

    def find(self, key: str) -> Column | None:
        """The column of a key."""
        return next((it for it in self.columns if it.key == key), None)

    def said(self, key: str) -> str:
        """The name of a key's column, as the header has it."""
        found = self.find(key)
        return found.header if found else key

    @property
    def keys(self) -> list[str]:
        """The keys of all columns."""
        return [it.key for it in self.columns]


def key_named(word: str) -> str | None:
    """The key that a word means, as time for p and time2 for p2; None where it is none."""
    key = KEYS.get(word, re.sub("^time(?=[1-9])", "p", word))
    return key if KNOWN.fullmatch(key) else None


def is_named(header: str, name: str) -> bool:
    """Whether a column is the one of a name: with its unit or without it, in small letters or capitals."""
    return name.strip().lower() in (header.strip().lower(), unit_in_header(header.strip())[0].lower())


def needed_keys(kind: ClassName, machines: int) -> list[str]:
    """The columns that a class needs besides job."""
    times = [] if not kind.general else [f"p{it}" for it in range(1, machines + 1)] if kind.kind in "ROF" else []
    return [*kind.keys, *times, *["route"] * (kind.kind == "J"), *["curve"] * (kind.criterion == "fmax")]


def reason(key: str, kind: ClassName) -> str:
    """Why the class has no place for a column."""
    if not KNOWN.fullmatch(key):
        return f"--column KEY='{key}' gives it a meaning"
    if re.fullmatch(r"p[0-9]*", key):
        return ("the times are all 1" if "p=1" in kind.items else "--time has the times" if "p=p" in kind.items else
                "the times are in the column route" if kind.kind == "J" else "the times are in the column p" if kind.kind in "1PQ" else
                "the times are in the columns p1, p2 .." if key == "p" else "there are fewer machines")
    return {"r": "there are no release dates", "d": "there are no due dates", "w": "there are no weights",
            "after": "there is no precedence", "route": "there are no routes", "curve": "there are no cost curves"}[key]


# The header

def hits(fields: list[str], named: dict[str, str], needed: list[str]) -> int:
    """How many of the columns that are wanted a record names."""
    wanted = [named.get(it, it) for it in dict.fromkeys(["job", *needed, *named])]
    return sum(any(is_named(field, name) for field in fields if field.strip()) for name in wanted)


def header_at(records: list[Record], named: dict[str, str], needed: list[str]) -> int:
    """Which record names the columns: of the first ones that which names most of the wanted ones; titles above it have fewer fields."""
    filled = [sum(bool(it.strip()) for it in record.fields) for record in records[:LOOKED_AT]]
    scores = [hits(record.fields, named, needed) for record in records[:LOOKED_AT]]
    if max(scores) > scores[0] and (max(scores) > 1 or filled[0] == 1):
        return scores.index(max(scores))
    if max(scores) == 0 and filled[0] == 1:
        return next((at for at, count in enumerate(filled) if count > 1), 0)
    return 0


def header_of(table: Table, named: dict[str, str], needed: list[str]) -> Header:
    """The header of a list; `named` has the names of columns by their keys, as --column gives them."""
    at = header_at(table.records, named, needed)
    record, where = table.records[at], line_of(table.line, table.records[at].line)
    names = [" ".join(it.split()) for it in record.fields]
    keys = {}
    for key, name in named.items():
        found = [it for it, header in enumerate(names) if header.lower() == name.strip().lower()] or \
            [it for it, header in enumerate(names) if is_named(header, name)]
        if not found:
            raise Fault(f"{where}: no column {name}; there are {', '.join(filter(None, names))}")
        if len(found) > 1:
            raise Fault(f"{where}: {len(found)} columns are named {name}: {', '.join(names[it] for it in found)}")
        keys[found[0]] = key
    columns = [Column(place, header, keys.get(place) or own_key(header, named), unit_in_header(header)[1]) for place, header in enumerate(names)]
    found_keys = [it.key for it in columns]
    again = next((it for it in found_keys if KNOWN.fullmatch(it) and found_keys.count(it) > 1), None)
    if again:
        raise Fault(f"{where}: the column {again} stands twice")
    titles = ["; ".join(filter(None, map(str.strip, it.fields))) for it in table.records[:at]]
    return Header(columns, record.line, titles)


def own_key(header: str, named: dict[str, str]) -> str:
    """The key of a column that --column does not name: its name, if that is a key; nothing where another column has that key."""
    bare = unit_in_header(header)[0].lower()
    if not KNOWN.fullmatch(bare):
        return header
    return "" if bare in named else bare
