"""A polygon as least and greatest of the half planes of its sides, each of which stands once.

A polygon is its convex hull less its pockets, the polygons that lie between a side of the hull and the chain of sides
behind it; and a pocket is its own hull less its pockets in turn. The side of the hull over a pocket is no side of the
polygon, and it is not needed: beyond it the surrounding hull decides. So every half plane is that of a side, and at
the outline the value is the distance from one of them.
"""

from __future__ import annotations

from fractions import Fraction
from typing import Any, NamedTuple, Sequence, Union

from .faults import WrongNumber
from .lengths import now

_Exact = tuple[Fraction, Fraction]


class Join(NamedTuple):
    """The greatest or the least of so many values before it."""

    greatest: bool
    count: int


#: The number of a side, whose half plane is meant, or a join of the last values: as of a calculator with a stack.
Step = Union[int, Join]


def outline(corners: Sequence[Any]) -> tuple[list[Any], list[Step]]:
    """The corners of a polygon counterclockwise, without those on straight lines, and the steps that make its value.

    Side number k runs from corner k to the next one. A polygon that crosses or touches itself is refused.
    """
    places: list[_Exact] = [(_place(a), _place(b)) for a, b in corners]
    if not any(_side_of(places[0], b, c) for b, c in zip(places, places[1:])):
        raise WrongNumber("a polygon has three corners or more that do not lie on one line")
    kept = _without_straight(places)
    places, corners = [places[it] for it in kept], [corners[it] for it in kept]
    _refuse_crossings(places)
    if sum(a[0] * b[1] - a[1] * b[0] for a, b in zip(places, places[1:] + places[:1])) < 0:
        places.reverse()
        corners.reverse()
    return list(corners), _steps(places)


def _place(length: Any) -> Fraction:
    return length if isinstance(length, Fraction) else Fraction(now(length))


def _side_of(a: _Exact, b: _Exact, c: _Exact) -> Fraction:
    """Above 0 where c lies to the left of the line from a to b, and 0 where it lies on it."""
    return (b[0] - a[0]) * (c[1] - a[1]) - (b[1] - a[1]) * (c[0] - a[0])


def _without_straight(places: Sequence[_Exact]) -> list[int]:
    """The numbers of the corners that are not between their neighbours on one line, and not twice at one place."""
    kept = [it for it in range(len(places)) if places[it] != places[it - 1]]
    changed = True
    while changed and len(kept) > 2:
        changed = False
        for it in range(len(kept)):
            a, b, c = (places[kept[(it + step) % len(kept)]] for step in (-1, 0, 1))
            if not _side_of(a, b, c):
                if (b[0] - a[0]) * (c[0] - b[0]) + (b[1] - a[1]) * (c[1] - b[1]) < 0:
                    raise WrongNumber(f"the outline of a polygon turns back on itself at {_told(b)}")
                del kept[it]
                changed = True
                break
    return kept


def _told(place: _Exact) -> str:
    return f"({float(place[0]):g}, {float(place[1]):g})"


def _refuse_crossings(places: Sequence[_Exact]) -> None:
    """Refuses an outline of which two sides that are no neighbours meet."""
    many = len(places)
    sides = [(places[it], places[(it + 1) % many]) for it in range(many)]
    spans = [(min(a[0], b[0]), max(a[0], b[0])) for a, b in sides]
    order = sorted(range(many), key=lambda it: spans[it][0])
    for at, one in enumerate(order):
        for other in order[at + 1 :]:
            if spans[other][0] > spans[one][1]:
                break
            if (one - other) % many not in (1, many - 1) and _meet(sides[one], sides[other]):
                first, second = sorted((one, other))
                raise WrongNumber(
                    "the outline of a polygon does not cross or touch itself, and this one does: the side that begins "
                    f"at {_told(places[first])} meets the one that begins at {_told(places[second])}"
                )


def _meet(one: tuple[_Exact, _Exact], other: tuple[_Exact, _Exact]) -> bool:
    (a, b), (c, d) = one, other
    if max(a[1], b[1]) < min(c[1], d[1]) or max(c[1], d[1]) < min(a[1], b[1]):
        return False
    if max(a[0], b[0]) < min(c[0], d[0]) or max(c[0], d[0]) < min(a[0], b[0]):
        return False
    return _side_of(a, b, c) * _side_of(a, b, d) <= 0 and _side_of(c, d, a) * _side_of(c, d, b) <= 0


def _steps(places: Sequence[_Exact]) -> list[Step]:
    """The steps of a polygon that runs counterclockwise."""
    many = len(places)
    start = min(range(many), key=lambda it: places[it])  # a corner of the hull
    steps: list[Step] = []
    # a chain of corners from one number to another, whether the greatest is taken of it; or a join to be written
    stack: list[Any] = [(start, start + many, True)]
    while stack:
        item = stack.pop()
        if isinstance(item, (Join, int)):
            steps.append(item)
            continue
        first, last, greatest = item
        hull = _hull(first, last, places)
        parts = [
            a % many if b == a + 1 else (a, b, not greatest) for a, b in zip(hull, hull[1:])
        ]
        if len(parts) > 1:
            stack.append(Join(greatest, len(parts)))
        stack.extend(reversed(parts))
    return steps


def _hull(first: int, last: int, places: Sequence[_Exact]) -> list[int]:
    """The corners of a chain that are corners of its hull, in the order of the chain; its ends among them."""
    many = len(places)
    at = [places[it % many] for it in range(first, last + 1)]
    numbers = sorted(range(len(at) - (last - first == many)), key=lambda it: at[it])
    found: set[int] = {0, len(at) - 1}
    for order in (numbers, numbers[::-1]):
        lower: list[int] = []
        for it in order:
            while len(lower) > 1 and _side_of(at[lower[-2]], at[lower[-1]], at[it]) <= 0:
                lower.pop()
            lower.append(it)
        found.update(lower)
    return [first + it for it in sorted(found)]
