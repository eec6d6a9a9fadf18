"""Numbers as the shapes and the operations take them: plain ones, and those that are made of named sizes."""

from __future__ import annotations

from fractions import Fraction
from typing import Any

from .emit import MOST_CLAUSES
from .expressions import Value
from .faults import WrongNumber, WrongType
from .raw import exact


def number_or_value(it: object, what: str) -> Any:
    """A length as it was given: an exact number, or a value that does not depend on the place."""
    if isinstance(it, Value):
        if it.now is None:
            raise WrongType(f"{what} is a number or made of sizes, and this value depends on x, y or z")
        return it
    return exact(it, what)


def positive(it: object, what: str) -> Any:
    """A length above 0."""
    found = number_or_value(it, what)
    if now(found) <= 0:
        raise WrongNumber(f"{what} is above 0, and {now(found):g} is not")
    return found


def plain(it: object, what: str) -> Fraction:
    """A number that Python needs itself, as an angle; a size is refused."""
    if isinstance(it, Value):
        who = f"the size {it.name!r}" if it.name else "a value"
        raise WrongType(f"{what} is a plain number, and {who} is none: its sine or its count is computed by Python")
    return exact(it, what)


def count(it: object, what: str, least: int = 1, most: int = MOST_CLAUSES) -> int:
    """A whole number within limits."""
    number = plain(it, what)
    if number.denominator != 1 or not least <= number <= most:
        raise WrongNumber(f"{what} is a whole number from {least} to {most:,}, and {float(number):g} is not")
    return int(number)


def now(length: Any) -> float:
    """The number that a length has with the sizes as they are."""
    return float(length.now if isinstance(length, Value) else length)
