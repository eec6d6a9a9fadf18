"""What tests of shapes share: exact values, formulas in fractions, and places on a surface.

A formula here is one of fractions where its coordinates are: then all but its roots is exact, and a root is found by
comparing squares, to 2^-80 below it. The same formula in floats finds places on its surface, which are then compared
in fractions.
"""

from __future__ import annotations

import math
import random
from fractions import Fraction
from typing import Any, Callable

from modeller import Solid
from modeller.exact import evaluator

UNIT = 1 << 32
FINE = 1 << 80
Place = tuple[Any, Any, Any]
Formula = Callable[[Any, Any, Any], Any]


def root(square: Any) -> Any:
    """A root: of a fraction the greatest multiple of 2^-80 whose square is not above it, and of a float a float."""
    if isinstance(square, float):
        return math.sqrt(square)
    square = Fraction(square)
    return Fraction(math.isqrt(square.numerator * FINE * FINE // square.denominator), FINE)


def hypot(*parts: Any) -> Any:
    """The root of the sum of the squares."""
    return root(sum(it * it for it in parts))


def raw(place: Place) -> tuple[int, int, int]:
    """The raw place nearest to a place."""
    return tuple(round(Fraction(it) * UNIT) for it in place)  # type: ignore[return-value]


def grid_place(place: Place) -> tuple[Fraction, Fraction, Fraction]:
    """The same in fractions, so that a formula and the arithmetic of a model see one place."""
    return tuple(Fraction(it, UNIT) for it in raw(place))  # type: ignore[return-value]


def random_place(rng: random.Random, reach: Any) -> tuple[Fraction, Fraction, Fraction]:
    """A place in fractions of 2^-32 within a cube about the origin."""
    most = int(reach * UNIT)
    return tuple(Fraction(rng.randint(-most, most), UNIT) for _ in range(3))  # type: ignore[return-value]


class Exact:
    """The value of a solid at any place, in raw units."""

    def __init__(self, solid: Solid) -> None:
        self.value = evaluator(solid.clauses().clauses)

    def __call__(self, place: Place) -> int:
        return self.value(*raw(place))


def surface_places(formula: Formula, reach: float, many: int, seed: int = 1) -> list[Place]:
    """Places where a formula in floats is 0, found by halving ways from an inside place to an outside one."""
    rng = random.Random(seed)
    inside: list[Place] = []
    places: list[Place] = []
    while len(places) < many:
        place = tuple(rng.uniform(-reach, reach) for _ in range(3))
        if formula(*place) < 0:
            inside.append(place)
        elif inside:
            a, b = rng.choice(inside), place
            for _ in range(44):
                middle = tuple((p + q) / 2 for p, q in zip(a, b))
                a, b = (middle, b) if formula(*middle) < 0 else (a, middle)
            places.append(b)
    return places


def slope(value: Exact, place: Place, step: float = 1e-4) -> float:
    """How steeply a value rises at a place, by differences on one side of it for each axis and both signs.

    At an edge, where sides differ, it is the least of the eight ways to take them.
    """
    middle = value(place)
    ways = []
    for axis in range(3):
        pair = []
        for sign in (1, -1):
            other = list(place)
            other[axis] += sign * step
            pair.append(abs(value(tuple(other)) - middle) / UNIT / step)
        ways.append(pair)
    return min(math.sqrt(a * a + b * b + c * c) for a in ways[0] for b in ways[1] for c in ways[2])


def segment_square(p: Any, a: Any, b: Any) -> Any:
    """The square of how far a place of the plane lies from the way between two others."""
    dx, dy, px, py = b[0] - a[0], b[1] - a[1], p[0] - a[0], p[1] - a[1]
    size, along = dx * dx + dy * dy, px * dx + py * dy
    if along <= 0:
        return px * px + py * py
    if along >= size:
        return (p[0] - b[0]) ** 2 + (p[1] - b[1]) ** 2
    across = px * dy - py * dx
    return across * across / size


def polygon_distance(corners: Any, p: Any) -> Any:
    """The signed distance from a polygon: by its nearest side, and inside by how often a ray crosses its sides."""
    sides = list(zip(corners, corners[1:] + corners[:1]))
    far = root(min(segment_square(p, a, b) for a, b in sides))
    crossed = sum(
        (a[1] > p[1]) != (b[1] > p[1]) and p[0] < (b[0] - a[0]) * (p[1] - a[1]) / (b[1] - a[1]) + a[0]
        for a, b in sides
    )
    return -far if crossed % 2 else far
