"""The value of a part at a place, computed in whole numbers by the rules of the arithmetic of models.

This is a second opinion on the program: it shares nothing with it but the rules. A value is a whole number of raw
units, 2^-32 each, between -(2^62 - 1) and 2^62 - 1; the result of an operation is exact, then rounded down, then
brought into that range.
"""

from __future__ import annotations

import math
from fractions import Fraction
from typing import TYPE_CHECKING, Callable, Sequence

from .emit import Clause, Text, clauses_of
from .expressions import Value
from .raw import GREATEST, UNIT

if TYPE_CHECKING:
    from .solids import Solid


def brought_in(raw: int) -> int:
    """A whole number, brought into the range of raw numbers."""
    return -GREATEST if raw < -GREATEST else GREATEST if raw > GREATEST else raw


def _quotient(a: int, b: int) -> int:
    if b:
        return brought_in((a << 32) // b)
    return GREATEST if a > 0 else -GREATEST if a < 0 else 0


#: What each operation makes of the raw numbers of its operands.
OPERATIONS: dict[str, Callable[..., int]] = {
    "neg": lambda a: -a,
    "abs": abs,
    "floor": lambda a: brought_in(a >> 32 << 32),
    "square": lambda a: brought_in(a * a >> 32),
    "sqrt": lambda a: math.isqrt(a << 32) if a > 0 else 0,
    "add": lambda a, b: brought_in(a + b),
    "sub": lambda a, b: brought_in(a - b),
    "mul": lambda a, b: brought_in(a * b >> 32),
    "div": _quotient,
    "min": min,
    "max": max,
}


def evaluator(clauses: Sequence[Clause]) -> Callable[[int, int, int], int]:
    """What gives the raw number of the last clause at a place that is given by raw numbers."""
    steps = [(it.op, it.args, it.raw()) for it in clauses]

    def value(x: int, y: int, z: int) -> int:
        values: list[int] = []
        place = {"var-x": x, "var-y": y, "var-z": z}
        for op, args, number in steps:
            if op in OPERATIONS:
                values.append(OPERATIONS[op](*[values[it] for it in args]))
            else:
                values.append(place.get(op, number))
        return values[-1]

    return value


def value_at(part: Solid | Value | Text, x: Fraction | float, y: Fraction | float, z: Fraction | float) -> Fraction:
    """The exact value of a part at a place, each coordinate of which is first rounded down to a raw unit."""
    if isinstance(part, Text):
        text = part
    else:
        text = clauses_of(part) if isinstance(part, Value) else part.clauses()
    raw = [brought_in(math.floor(Fraction(it) * UNIT)) for it in (x, y, z)]
    return Fraction(evaluator(text.clauses)(*raw), UNIT)
