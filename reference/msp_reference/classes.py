"""Problem classes in the three-field notation, and their ranks."""
from typing import NamedTuple, Optional

# Environments, in the order of their numbers.
(ONE, P2, P3, P, Q2, Q, R2, R, O2, O3, O, F2, F3, F, J2SHORT, JSHORT, J2, J) = range(18)
ENVIRONMENT_TEXT = ("1", "P2", "P3", "P", "Q2", "Q", "R2", "R", "O2", "O3", "O", "F2", "F3", "F", "J2", "J", "J2", "J")
# Precedence.
FREE, CHAINS, INTREE, OUTTREE, PREC = range(5)
ORDER_TEXT = ("", "chains", "intree", "outtree", "prec")
# Processing times.
GENERAL, UNIT, EQUAL = range(3)
TIMES_TEXT = ("", "p=1", "p=p")
# Criteria.
(CMAX, LMAX, FMAX, SUMC, SUMWC, SUMU, SUMWU, SUMT, SUMWT) = range(9)
CRITERION_TEXT = ("Cmax", "Lmax", "fmax", "sumC", "sumwC", "sumU", "sumwU", "sumT", "sumwT")

CLASS_COUNT = 18 * 2 * 5 * 2 * 3 * 9

IDENTICAL = (ONE, P2, P3, P)
UNIFORM = (Q2, Q)
UNRELATED = (R2, R)
OPEN_SHOPS = (O2, O3, O)
FLOW_SHOPS = (F2, F3, F)
JOB_SHOPS = (J2SHORT, JSHORT, J2, J)
ONE_OPERATION = IDENTICAL + UNIFORM + UNRELATED
SHORT_ROUTES = (J2SHORT, JSHORT)
_FIXED_MACHINES = {ONE: 1, P2: 2, P3: 3, Q2: 2, R2: 2, O2: 2, O3: 3, F2: 2, F3: 3, J2SHORT: 2, J2: 2}

USES_DUE = (LMAX, SUMU, SUMWU, SUMT, SUMWT)
USES_WEIGHT = (SUMWC, SUMWU, SUMWT)


class Class(NamedTuple):
    """A problem class: environment, preemption, precedence, release dates, times, criterion."""
    env: int
    cut: bool
    order: int
    heads: bool
    times: int
    crit: int


def rank(cls: Class) -> int:
    """The number of a class in the order of all classes."""
    return ((((cls.env * 2 + cls.cut) * 5 + cls.order) * 2 + cls.heads) * 3 + cls.times) * 9 + cls.crit


def unrank(number: int) -> Class:
    """The class with a given number below CLASS_COUNT."""
    number, crit = divmod(number, 9)
    number, times = divmod(number, 3)
    number, heads = divmod(number, 2)
    number, order = divmod(number, 5)
    env, cut = divmod(number, 2)
    return Class(env, bool(cut), order, bool(heads), times, crit)


def fixed_machines(env: int) -> Optional[int]:
    """The fixed count of machines of an environment, or None where any count may stand."""
    return _FIXED_MACHINES.get(env)
