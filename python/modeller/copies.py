"""Moving a body, and copies of it at several places, which solids and shapes of the plane have alike."""

from __future__ import annotations

from fractions import Fraction
from typing import Any, Sequence, TypeVar

from .body import Body, Frame, union
from .expressions import Operand, Value
from .faults import WrongNumber
from .lengths import count, number_or_value, positive
from .origin import here
from .turning import axis_number, place_of

Place = Sequence[Operand]
Self = TypeVar("Self", bound="Placed")


class Placed(Body):
    """A body that can be moved, enlarged, mirrored and repeated. `axes` is how many coordinates it has."""

    axes = 3

    def scale(self: Self, factor: Operand) -> Self:
        """Made so many times as large, from the origin, alike along all axes.

        All lengths are multiplied, and the value stays a distance where it was one. What was made of a formula has
        its value multiplied, and with it the rounding errors of that value.
        """
        times = positive(factor, "the factor of scale")
        return type(self)(
            "scale", (self,), None,
            lambda frame: Frame(frame.x, frame.y, frame.z, frame.factor * times, frame.maker),
        )

    def mirror(self: Self, axis: str = "x", at: Operand = 0, keep: bool = False) -> Self:
        """Its image in a mirror that stands across an axis, at a place on it; with `keep` the body and its image."""
        which = axis_number(axis, "the axis of mirror", self.axes)
        far = number_or_value(at, "the place of the mirror")

        def place(frame: Frame) -> Frame:
            parts = [frame.x, frame.y, frame.z]
            parts[which] = frame.mm(far * 2) - parts[which]
            return frame.at(*parts)

        image = type(self)("mirror", (self,), None, place)
        return union(self, image) if keep else image

    def at(self: Self, *places: Place) -> Self:
        """A copy at each of several places, as `hole.at((10, 0), (-10, 5))`."""
        return self._copies([place_of(it, "a place of at", self.axes) for it in places], "at")

    def row(self: Self, number: Any, step: Operand, axis: str = "x") -> Self:
        """So many copies in a row along an axis, a step apart; the middle of the row is where the body is."""
        many, which = count(number, "the number of row"), axis_number(axis, "the axis of row", self.axes)
        far = number_or_value(step, "the step of row")
        places = [[Fraction(0)] * 3 for _ in range(many)]
        for it, place in enumerate(places):
            place[which] = _steps(it, many, far)
        return self._copies(places, "row")

    def grid(self: Self, nx: Any, ny: Any, step_x: Operand, step_y: Operand | None = None) -> Self:
        """Rows of copies, nx along x and ny along y, a step apart; the middle is where the body is."""
        many_x, many_y = count(nx, "nx of grid"), count(ny, "ny of grid")
        count(many_x * many_y, "the number of copies of grid")
        far_x = number_or_value(step_x, "the step of grid")
        far_y = far_x if step_y is None else number_or_value(step_y, "the step of grid")
        return self._copies(
            [
                (_steps(i, many_x, far_x), _steps(j, many_y, far_y), Fraction(0))
                for j in range(many_y)
                for i in range(many_x)
            ],
            "grid",
        )

    def _moved(self: Self, far: Sequence[Any], kind: str, maker: str = "") -> Self:
        def place(frame: Frame) -> Frame:
            parts = zip((frame.x, frame.y, frame.z), far)
            return frame.at(*[less(it, frame.mm(length)) for it, length in parts], maker=maker)

        return type(self)(kind, (self,), None, place)

    def _copies(self: Self, places: Sequence[Sequence[Any]], called: str) -> Self:
        if not places:
            raise WrongNumber(f"{called} has one place or more, and got none")
        maker = f"{called} on {here(called).told()}"
        return union(*[self._moved(it, called, maker) for it in places])


def less(it: Value, length: Any) -> Value:
    """A coordinate less a length; of one below 0 the sum, so that the number is found as it was written."""
    return it + -length if isinstance(length, Fraction) and length < 0 else it - length


def _steps(it: int, many: int, far: Any) -> Any:
    """How far a copy of a row lies from its middle."""
    share = Fraction(2 * it - many + 1, 2)
    return far * share if share else Fraction(0)
