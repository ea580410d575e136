"""Numbers as texts and people write them. All are exact."""
from __future__ import annotations

import re
from fractions import Fraction
from typing import Union

from .faults import Fault

NUMBER = re.compile(r"0|-?[1-9][0-9]*")
MOST_DIGITS = 1000  # (the greatest number of the formats has 38)
Number = Union[int, Fraction]


def whole(text: str, where: str) -> int:
    """The whole number that a text spells in the way of the formats."""
    if not NUMBER.fullmatch(text):
        raise Fault(f"{where}: not a number: {shortened(text)}")
    refuse_long(text, where)
    return int(text)


def shortened(text: str) -> str:
    """The text as notes show it."""
    return text if len(text) <= 60 else f"{text[:40]}.. ({len(text)} characters)"


def refuse_long(text: str, where: str) -> None:
    """Refuses numbers of more digits than any that is meant."""
    if len(text) > MOST_DIGITS:
        raise Fault(f"{where}: a number of {len(text)} digits: {shortened(text)}")


def fraction(text: str, where: str) -> Fraction:
    """The number or fraction (`9/2`) that a text spells in the way of the formats."""
    above, _, below = text.partition("/")
    if "/" in text and whole(below, where) < 1:
        raise Fault(f"{where}: not a fraction: {text}")
    return Fraction(whole(above, where), int(below or 1))


def decimal(text: str, where: str) -> Fraction:
    """The value of a number as people write it: `3`, `1.5`, `1,5`, `10/3`, exact."""
    plain = text.strip().replace(",", ".")
    if not re.fullmatch(r"[+-]?([0-9]+(\.[0-9]*)?|\.[0-9]+|[0-9]+/0*[1-9][0-9]*)", plain):
        raise Fault(f"{where}: not a number: {shortened(text.strip())}")
    refuse_long(plain, where)
    return Fraction(plain)


def said(number: Number) -> str:
    """A number as people read it, exact: `3`, `1.5`, and `10/3` where no decimal is exact."""
    value = Fraction(number)
    twos = fives = 0
    below = value.denominator
    while below % 2 == 0:
        below, twos = below // 2, twos + 1
    while below % 5 == 0:
        below, fives = below // 5, fives + 1
    if below != 1:
        return f"{value.numerator}/{value.denominator}"
    places = max(twos, fives)
    digits = str(abs(value.numerator) * 10**places // value.denominator).rjust(places + 1, "0")
    front = ("-" if value < 0 else "") + digits[: len(digits) - places]
    return front + ("." + digits[len(digits) - places:] if places else "")
