"""Distances, as exact near a surface as the arithmetic allows."""

from __future__ import annotations

import math
from fractions import Fraction
from typing import Any, Sequence

from .expressions import Value, abs, length, max, min, sqrt, square
from .lengths import now
from .raw import exact

Point = tuple[Any, Any]


def away(parts: Sequence[Value], near: Any) -> Value:
    """The length of a way, for a surface where it is about `near`.

    A square is rounded down by up to a raw unit, which a root near 0 makes much of. So for a small radius the parts
    are multiplied first; then a value is off by less than 9 raw units from a radius of 1/1024 on.
    """
    factor = 1
    while now(near) * factor < 0.5 and factor < 1024:
        factor *= 2
    total = None
    for it in parts:
        step = square(it * factor)
        total = step if total is None else total + step
    return sqrt(total) / factor


def fine_away(a: Value, b: Value) -> Value:
    """The length of a way of two parts, within 3 raw units for ways of any length up to 1000, down to 0.

    Two forms of it err downwards only, the root of the squares when it is short, and the greater part times a root of
    1 and more when it is long; the greater of both is off by no more than the better one.
    """
    p, q = abs(a), abs(b)
    great = max(p, q)
    return max(sqrt(square(p) + square(q)), great * sqrt(square(min(p, q) / great) + 1))


def beyond(u: Value, v: Value, start: Point, end: Point) -> Value:
    """How far the place (u, v) lies to the right of the line from start to end, below 0 on its left.

    Along the line between both points it is 0 within 4 raw units. Its numbers are the differences that the points
    have, since these are exact, where the parts of a unit normal would be rounded and the error grow with the line.
    """
    du, dv = end[0] - start[0], end[1] - start[1]
    if isinstance(du, Fraction) and isinstance(dv, Fraction):
        if not du:
            return u - start[0] if dv > 0 else start[0] - u
        if not dv:
            return start[1] - v if du > 0 else v - start[1]
        size = math.hypot(now(du), now(dv))
        times = Fraction(2) ** max(0, -math.floor(math.log2(size)))  # so that a short line's length is 1 or more
        return ((u - start[0]) * (dv * times) - (v - start[1]) * (du * times)) / exact(size * float(times))
    return ((u - start[0]) * dv - (v - start[1]) * du) / length(du, dv)


def rounded(parts: Sequence[Value], radius: Any) -> Value:
    """The distance from a box grown by a radius, of the distances beyond the faces of the box that is not yet grown."""
    outside = away([max(it, 0) for it in parts], radius)
    return outside + min(max(*parts), 0) - radius


def capped(wall: Value, cap: Value, off: Any) -> Value:
    """What is within a wall and between caps; the edge of both is cut off at 45 degrees by `off`, if that is not 0."""
    if isinstance(off, Fraction) and not off:
        return max(wall, cap)
    return max(wall, cap, (wall + cap + off) * exact(math.sqrt(0.5)))
