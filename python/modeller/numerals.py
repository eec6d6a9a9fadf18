"""Numbers of Python as numerals that the program reads."""
from __future__ import annotations

import math
import numbers
from decimal import Decimal
from fractions import Fraction

PLACES = 28  # what the program reads of a numeral behind its point


def numeral(value: object) -> str:
    """The numeral of a number.

    A whole number and a `Decimal` are written as they are, a float by the shortest decimal that is read back as it,
    which is what was typed, and a fraction is cut behind the last place that the program reads. Anything else is a
    `TypeError`, and what is not finite a `ValueError`.
    """
    if isinstance(value, bool) or not isinstance(value, (numbers.Real, Decimal)):
        raise TypeError(f"a number is wanted here, and {value!r} is none")
    if isinstance(value, numbers.Integral):
        return str(int(value))
    if isinstance(value, numbers.Rational):
        return _decimal(Fraction(value))
    if not math.isfinite(value):
        raise ValueError(f"{value!r} is no number that a part may have")
    return format(value if isinstance(value, Decimal) else Decimal(repr(float(value))), "f")


def _decimal(value: Fraction) -> str:
    whole, part = divmod(math.floor(abs(value) * 10**PLACES), 10**PLACES)
    digits = f"{part:0{PLACES}}".rstrip("0")
    return f"{'-' if value < 0 else ''}{whole}{'.' + digits if digits else ''}"
