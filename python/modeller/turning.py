"""Rotations as constants: sines and cosines are computed here, since no clause computes them."""

from __future__ import annotations

import math
from fractions import Fraction
from typing import Any, Sequence

from .expressions import Value
from .faults import WrongNumber, WrongType
from .lengths import number_or_value, plain
from .raw import described, exact

#: What a row of a rotation is multiplied by before it is rounded to a raw unit, and its sum divided by: so a turned
#: place is off by less than 2 raw units within 1,000 units of the origin, and not by as many as its distance has units.
FINE = 1024

Row = tuple[float, float, float]
_AXES: dict[str, Row] = {"x": (1.0, 0.0, 0.0), "y": (0.0, 1.0, 0.0), "z": (0.0, 0.0, 1.0)}
_ONE_OF = {2: "'x' or 'y'", 3: "'x', 'y' or 'z'"}


def axis_number(axis: object, what: str, axes: int = 3) -> int:
    """The number of an axis that is named x, y or, where there are three, z."""
    if isinstance(axis, str) and axis in tuple("xyz"[:axes]):
        return "xyz".index(axis)
    raise WrongType(f"{what} is {_ONE_OF[axes]}, and {described(axis)} is none")


def direction(axis: object, what: str) -> Row:
    """A unit vector: of an axis by its name, of which '-x' runs the other way, or of three numbers."""
    if isinstance(axis, str):
        sign, name = (-1.0, axis[1:]) if axis[:1] == "-" else (1.0, axis)
        axis_number(name, what)
        return tuple(sign * it for it in _AXES[name])  # type: ignore[return-value]
    if not isinstance(axis, (tuple, list)) or len(axis) != 3:
        raise WrongType(f"{what} is 'x', 'y', 'z' or three numbers, and {described(axis)} is none")
    parts = [float(plain(it, f"a part of {what}")) for it in axis]
    length = math.hypot(*parts)
    if not length:
        raise WrongNumber(f"{what} has a direction, and (0, 0, 0) has none")
    return tuple(it / length for it in parts)  # type: ignore[return-value]


def cosine_and_sine(degrees: object, what: str = "the angle") -> tuple[float, float]:
    """Of an angle in degrees, exact for the quarter turns and their thirds."""
    angle = plain(degrees, what) % 360
    if angle.denominator == 1 and angle % 30 == 0:
        half_root = math.sqrt(3) / 2
        cosines = (1.0, half_root, 0.5, 0.0, -0.5, -half_root, -1.0, -half_root, -0.5, 0.0, 0.5, half_root)
        step = int(angle) // 30
        return cosines[step], cosines[step - 3]
    return math.cos(math.radians(float(angle))), math.sin(math.radians(float(angle)))


def rotation(degrees: object, axis: object) -> tuple[Row, Row, Row]:
    """The rows of a rotation by an angle about an axis, counterclockwise to who looks against the axis."""
    cosine, sine = cosine_and_sine(degrees)
    a, b, c = direction(axis, "the axis")
    k = 1 - cosine
    return (
        (cosine + a * a * k, a * b * k - c * sine, a * c * k + b * sine),
        (b * a * k + c * sine, cosine + b * b * k, b * c * k - a * sine),
        (c * a * k - b * sine, c * b * k + a * sine, cosine + c * c * k),
    )


def dotted(row: Sequence[float], parts: Sequence[Value]) -> Value:
    """The sum of the parts, each times its number of the row, which is a unit vector."""
    terms = [(factor, it) for factor, it in zip(row, parts) if abs(factor) > 1e-15]
    if len(terms) == 1:
        factor, it = terms[0]
        return it if factor > 0 else -it
    total: Any = 0
    for factor, it in terms:
        total = total + it * exact(FINE * factor)
    return total / FINE


def turned(rows: tuple[Row, Row, Row], parts: Sequence[Value]) -> tuple[Value, Value, Value]:
    """The place that a rotation brings to the given one."""
    return tuple(dotted([row[it] for row in rows], parts) for it in range(3))  # type: ignore[return-value]


def place_of(it: object, what: str, parts: int) -> tuple[Any, ...]:
    """A place of so many coordinates as lengths; what is left out is 0."""
    if not isinstance(it, (tuple, list)) or not 0 < len(it) <= parts:
        raise WrongType(
            f"{what} is a place of up to {parts} numbers, as {(5, 0, 2)[:parts]}, and {described(it)} is none"
        )
    lengths = [number_or_value(number, f"a coordinate of {what}") for number in it]
    return (*lengths, *[Fraction(0)] * (parts - len(lengths)))


def frame_along(way: Sequence[float]) -> tuple[Row, Row, Row]:
    """Three unit vectors at right angles, of which the last one looks along a way."""
    size = math.hypot(*way)
    along = [it / size for it in way]
    least = min(range(3), key=lambda it: abs(along[it]))
    start = [float(it == least) for it in range(3)]
    share = along[least]
    rest = [a - share * b for a, b in zip(start, along)]
    size = math.hypot(*rest)
    across = [it / size for it in rest]
    over = [
        along[1] * across[2] - along[2] * across[1],
        along[2] * across[0] - along[0] * across[2],
        along[0] * across[1] - along[1] * across[0],
    ]
    return tuple(across), tuple(over), tuple(along)  # type: ignore[return-value]
