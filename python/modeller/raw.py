"""Numbers as a model has them: exact fractions, and raw numbers, which count steps of 2^-32."""

from __future__ import annotations

import math
from decimal import Decimal
from fractions import Fraction
from numbers import Rational, Real

from .faults import WrongNumber, WrongType

#: How many raw units one unit of the model has.
UNIT = 1 << 32
#: The greatest raw number; the least is its negative.
GREATEST = (1 << 62) - 1
#: Decimals that a computed constant is rounded to. A raw unit is 2.3e-10, so these say more than is read.
DECIMALS = 20


def exact(value: object, what: str = "a number") -> Fraction:
    """The number that was written. A float stands for its shortest numeral, so 1.7 is 17/10 and not its neighbour."""
    if isinstance(value, bool) or not isinstance(value, (Real, Decimal)):
        raise WrongType(f"{what} is a number, and {described(value)} is none")
    if isinstance(value, Rational):
        number = Fraction(value)
    elif math.isfinite(value):
        number = Fraction(value) if isinstance(value, Decimal) else Fraction(repr(float(value)))
    else:
        raise WrongNumber(f"{what} is finite, and {value} is not")
    if abs(number) >= 1 << 30:
        raise WrongNumber(f"{what} lies between -2^30 and 2^30, and {float(number):g} does not")
    return Fraction(round(number * 10**DECIMALS), 10**DECIMALS) if number.denominator > 10**DECIMALS else number


def described(value: object) -> str:
    """A value as a sentence names it: a text in quotes, and anything else by its type."""
    if isinstance(value, str):
        return f"the text {value!r}"
    if value is None or isinstance(value, bool):
        return repr(value)
    name = type(value).__name__
    return f"{'an' if name[0] in 'aeiouAEIOU' else 'a'} {name}"


def raw_constant(number: Fraction) -> int:
    """The raw number that the program reads of a numeral: the nearest, halves away from 0."""
    cut = math.floor(abs(number) * 10**28)
    raw = min((cut * UNIT * 2 + 10**28) // (2 * 10**28), GREATEST)
    return -raw if number < 0 else raw
