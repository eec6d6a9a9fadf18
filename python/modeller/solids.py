"""Solids: what a part and the pieces of one can do."""

from __future__ import annotations

from fractions import Fraction
from typing import Any, Sequence

from .body import Frame, union
from .copies import Place, Placed
from .expressions import Operand, Value, x, y, z
from .faults import WrongType
from .lengths import count, number_or_value, plain
from .origin import here
from .part import Results
from .raw import described
from .turning import axis_number, place_of, rotation, turned


class Solid(Placed, Results):
    """A part, or a piece of one: what is inside where its value is below 0.

    Solids are made by `ball`, `box`, `cylinder` and the other shapes, by `extrude` and `revolve` of a shape in the
    plane, and by `solid(value)` of a formula. `a | b` is their union, `a & b` what is in both, and `a - b` is a
    without b. The methods give new solids, and leave this one as it is.
    """

    word = "solid"

    @property
    def value(self) -> Value:
        """The formula of the solid: below 0 inside, 0 on its surface, above 0 outside."""
        return self.value_in(Frame(x, y, z))

    def move(self, x: Operand = 0, y: Operand = 0, z: Operand = 0) -> Solid:
        """Moved so far along x, y and z."""
        return self._moved(place_of((x, y, z), "move", 3), "move")

    def rotate(self, degrees: Any, axis: str | Sequence[Any] = "z", about: Place = (0, 0, 0)) -> Solid:
        """Turned by an angle about an axis, counterclockwise to who looks against the axis.

        The axis is 'x', 'y', 'z' or a vector, and goes through the origin or the place `about`. The angle is a plain
        number: its sine is computed here, and becomes a constant.
        """
        rows = rotation(degrees, axis)
        centre = place_of(about, "about", 3)

        def place(frame: Frame) -> Frame:
            far = [frame.mm(it) for it in centre]
            parts = turned(rows, [it - away for it, away in zip((frame.x, frame.y, frame.z), far)])
            return frame.at(*[it + away for it, away in zip(parts, far)])

        return Solid("rotate", (self,), None, place)

    def around(self, number: Any, radius: Operand = 0, axis: str = "z", start: Any = 0) -> Solid:
        """So many copies on a circle about an axis, each turned as it goes round.

        The first is moved out by the radius along x (about z), y (about x) or z (about y), and turned by `start`
        degrees.
        """
        many, which = count(number, "the number of around"), axis_number(axis, "the axis of around")
        first = plain(start, "the start of around")
        out = [Fraction(0)] * 3
        out[(which + 1) % 3] = number_or_value(radius, "the radius of around")
        one = self._moved(out, "around")
        maker = f"around on {here('around').told()}"
        return union(*[_turned(one, first + Fraction(360 * it, many), axis, maker) for it in range(many)])


def _turned(part: Solid, degrees: Fraction, axis: str, maker: str) -> Solid:
    rows = rotation(degrees, axis)
    return Solid(
        "around", (part,), None, lambda frame: frame.at(*turned(rows, (frame.x, frame.y, frame.z)), maker=maker)
    )


def solid(formula: Value) -> Solid:
    """The solid of a formula: inside where its value is below 0.

    It is meshed best where its value rises by 1/2 to 1 for each unit of length at its surface.
    """
    if not isinstance(formula, Value):
        what = "a solid already" if isinstance(formula, Solid) else described(formula)
        raise WrongType(f"solid makes a solid of a value, and this is {what}")

    def join(frame: Frame, values: Sequence[Value]) -> Value:
        k = frame.factor
        if frame.x is x and frame.y is y and frame.z is z and frame.as_written:
            return formula
        return Value("at", (formula, frame.x / k, frame.y / k, frame.z / k)) * k

    return Solid("formula", (), join)
