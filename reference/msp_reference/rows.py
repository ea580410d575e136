"""The table of the 54 elementary reductions between classes."""
from functools import lru_cache
from typing import Callable, NamedTuple, Optional

from .classes import (Class, GENERAL, UNIT, EQUAL, FREE, CHAINS, INTREE, OUTTREE, PREC, CMAX, LMAX, FMAX, SUMC, SUMWC, SUMU,
                      SUMWU, SUMT, SUMWT, ONE, P2, P3, P, Q2, Q, R2, R, O2, O3, O, F2, F3, F, J2SHORT, JSHORT, J2, J,
                      FLOW_SHOPS, JOB_SHOPS)

ROW_COUNT = 54
THRESHOLD_ROWS = (15, 16)
GROWING_ROWS = (26, 27)     # rows that multiply numbers by a common multiple of the speeds

_TURNED = {FREE: FREE, CHAINS: CHAINS, INTREE: OUTTREE, OUTTREE: INTREE, PREC: PREC}


def _open_to_reversal(cls: Class) -> bool:
    return cls.env not in FLOW_SHOPS and cls.env not in JOB_SHOPS


def _arbitrary_times(cls: Class) -> bool:
    return cls.times == GENERAL


def _scales(cls: Class) -> bool:
    return cls.crit in (CMAX, SUMC, SUMWC)


def _reversed_without_heads(cls: Class) -> bool:
    return _open_to_reversal(cls) and not cls.heads and cls.crit == CMAX


def _one_machine_without_heads(cls: Class) -> bool:
    return cls.env == ONE and not cls.heads


def _exchanges(cls: Class) -> bool:
    return cls.env == ONE and not cls.cut and not cls.heads and cls.times == GENERAL and cls.crit == SUMWC


class _Row(NamedTuple):
    """A row: its text, the part that it changes from a value to another, its condition, and whether it turns the arcs round."""
    text: str
    part: str
    before: int
    after: int
    condition: Optional[Callable[[Class], bool]] = None
    turns: bool = False


_TABLE = (
    _Row("none to chains", "order", FREE, CHAINS),
    _Row("chains to intree", "order", CHAINS, INTREE),
    _Row("chains to outtree", "order", CHAINS, OUTTREE),
    _Row("intree to prec", "order", INTREE, PREC),
    _Row("outtree to prec", "order", OUTTREE, PREC),
    _Row("no r to r", "heads", False, True),
    _Row("p=1 to p=p", "times", UNIT, EQUAL),
    _Row("Cmax to Lmax", "crit", CMAX, LMAX),
    _Row("Lmax to fmax", "crit", LMAX, FMAX),
    _Row("sumC to sumwC", "crit", SUMC, SUMWC),
    _Row("sumC to sumT", "crit", SUMC, SUMT),
    _Row("sumwC to sumwT", "crit", SUMWC, SUMWT),
    _Row("sumT to sumwT", "crit", SUMT, SUMWT),
    _Row("sumU to sumwU", "crit", SUMU, SUMWU),
    _Row("Lmax to sumU", "crit", LMAX, SUMU),
    _Row("Lmax to sumT", "crit", LMAX, SUMT),
    _Row("1 to P", "env", ONE, P),
    _Row("P2 to P", "env", P2, P),
    _Row("P3 to P", "env", P3, P),
    _Row("P2 to Q2", "env", P2, Q2),
    _Row("P to Q", "env", P, Q),
    _Row("Q2 to Q", "env", Q2, Q),
    _Row("P2 to R2", "env", P2, R2),
    _Row("P to R", "env", P, R),
    _Row("R2 to R", "env", R2, R),
    _Row("Q to R", "env", Q, R, _arbitrary_times),
    _Row("Q2 to R2", "env", Q2, R2, _arbitrary_times),
    _Row("1 to F2", "env", ONE, F2, _arbitrary_times),
    _Row("1 to O2", "env", ONE, O2, _arbitrary_times),
    _Row("F2 to F3", "env", F2, F3, _arbitrary_times),
    _Row("O2 to O3", "env", O2, O3, _arbitrary_times),
    _Row("1 to F", "env", ONE, F),
    _Row("1 to O", "env", ONE, O),
    _Row("1 to J2 with n<=2", "env", ONE, J2SHORT),
    _Row("F2 to F", "env", F2, F),
    _Row("F3 to F", "env", F3, F),
    _Row("O2 to O", "env", O2, O),
    _Row("O3 to O", "env", O3, O),
    _Row("F2 to J2 with n<=2", "env", F2, J2SHORT),
    _Row("F to J", "env", F, J),
    _Row("J2 with n<=2 to J2", "env", J2SHORT, J2),
    _Row("J2 with n<=2 to J with n<=2", "env", J2SHORT, JSHORT),
    _Row("J2 to J", "env", J2, J),
    _Row("J with n<=2 to J", "env", JSHORT, J),
    _Row("intree to outtree by reversal", "order", INTREE, OUTTREE, _reversed_without_heads),
    _Row("outtree to intree by reversal", "order", OUTTREE, INTREE, _reversed_without_heads),
    _Row("r, Cmax to no r, Lmax", "crit", CMAX, LMAX, _open_to_reversal, True),
    _Row("no r, Lmax to r, Cmax", "crit", LMAX, CMAX, _open_to_reversal, True),
    _Row("pmtn to uncut", "cut", True, False, _one_machine_without_heads),
    _Row("uncut to pmtn", "cut", False, True, _one_machine_without_heads),
    _Row("intree to outtree by exchange", "order", INTREE, OUTTREE, _exchanges),
    _Row("outtree to intree by exchange", "order", OUTTREE, INTREE, _exchanges),
    _Row("p=p to general", "times", EQUAL, GENERAL),
    _Row("p=p to p=1", "times", EQUAL, UNIT, lambda cls: not cls.heads and _scales(cls)),
)
_PARTS = {part: place for place, part in enumerate(Class._fields)}


def goes(row: int, cls: Class) -> Optional[Class]:
    """The class to which a row leads from a class, or None where the row does not apply."""
    given = _TABLE[row - 1]
    if cls[_PARTS[given.part]] != given.before:
        return None
    if given.turns and cls.heads != (given.before == CMAX):
        return None
    if given.condition is not None and not given.condition(cls):
        return None
    values = list(cls)
    values[_PARTS[given.part]] = given.after
    lower = Class(values[0], bool(values[1]), values[2], bool(values[3]), values[4], values[5])
    if given.turns:
        lower = lower._replace(order=_TURNED[cls.order], heads=not cls.heads)
    return lower


_LEAVING: dict[tuple[int, int], list[int]] = {}     # the rows that change a part with a value
for _number, _row in enumerate(_TABLE, 1):
    _LEAVING.setdefault((_PARTS[_row.part], _row.before), []).append(_number)


@lru_cache(maxsize=None)
def successors(cls: Class) -> tuple[tuple[int, Class], ...]:
    """All pairs of a row that applies to a class and the class to which it leads, by number."""
    rows = sorted(row for place, value in enumerate(cls) for row in _LEAVING.get((place, value), ()))
    led = ((row, goes(row, cls)) for row in rows)
    return tuple((row, lower) for row, lower in led if lower is not None)


def every_row(row: int) -> bool:
    """A choice of rows for chains: all."""
    return 1 <= row <= ROW_COUNT


def carries(row: int) -> bool:
    """Whether a row carries schedules; the two threshold rows do not."""
    return row not in THRESHOLD_ROWS


def keeps_size(row: int) -> bool:
    """Whether a row keeps the size of numbers."""
    return row not in GROWING_ROWS


def text(row: int) -> str:
    """The text of a row."""
    return _TABLE[row - 1].text


def kind(row: int) -> str:
    """The kind word of a row in the report of `rows`."""
    return "carries" if carries(row) else "threshold"
