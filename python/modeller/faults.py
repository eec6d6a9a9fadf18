"""What is refused while a part is put together, before the program is called: each with one sentence that mends it."""

from __future__ import annotations

from .errors import ModellerError


class WrongType(ModellerError, TypeError):
    """A value where a solid is wanted, a size where Python needs a number, and the like."""


class WrongNumber(ModellerError, ValueError):
    """A radius that is not above 0, a polygon that crosses itself, and the like."""


class TooManyClauses(ModellerError):
    """A part that would have more than 65,535 clauses; the sentence names the operation that made most of them."""


class Unbounded(ModellerError):
    """A part that reaches as far as is looked; `directions` has the ways in which it does, as `+x`."""

    def __init__(self, message: str, directions: tuple[str, ...]) -> None:
        super().__init__(message)
        self.directions = directions


class EmptyPart(ModellerError):
    """A part or a mesh with nothing inside."""


class TooManyCells(ModellerError):
    """More cells than a mesh has; `least` is the least cell that fits, in the units of the part."""

    def __init__(self, message: str, least: float) -> None:
        super().__init__(message)
        self.least = least


class TouchesBorder(UserWarning):
    """The part reaches to the ends of its view, and is closed off there by a flat face."""
