"""What solids and plane shapes have in common: a tree of steps, each evaluated at a place of its own.

A body has no value by itself. It gets one in a `Frame`, the coordinates at which it is looked at: so a moved body is
its child in a moved frame, and a scaled one is its child with all lengths multiplied, whose surface is then as exact
as that of a body which was written so large.
"""

from __future__ import annotations

import math
from collections import Counter
from fractions import Fraction
from typing import Any, Callable, Iterable, Sequence, TypeVar, cast

from .distances import away
from .emit import MOST_CLAUSES, too_many
from .expressions import Operand, Value, balanced, max, min
from .faults import WrongNumber, WrongType
from .lengths import now, number_or_value, positive
from .origin import Origin, building, here
from .raw import described, exact


class Frame:
    """Where a body is looked at.

    x, y, z  the coordinates, which are lengths as the finished part has them
    factor   what the body's own lengths are multiplied by
    maker    the operation that repeats the body here, for the refusal of too many clauses
    """

    __slots__ = ("x", "y", "z", "factor", "maker")

    def __init__(self, x: Value, y: Value, z: Value, factor: Any = Fraction(1), maker: str = "") -> None:
        self.x, self.y, self.z, self.factor, self.maker = x, y, z, factor, maker

    def mm(self, length: Any) -> Any:
        """A length of the body, in the lengths of the finished part."""
        if self.as_written or isinstance(length, Fraction) and not length:
            return length
        return length * self.factor

    @property
    def as_written(self) -> bool:
        """Whether lengths stay as they are."""
        return isinstance(self.factor, Fraction) and self.factor == 1

    def at(self, x: Value, y: Value, z: Value, maker: str = "") -> Frame:
        """A frame with other coordinates and all else alike."""
        return Frame(x, y, z, self.factor, self.maker or maker)


#: How many steps are made at most, of which equal ones become one clause.
_MOST_STEPS = 8 * MOST_CLAUSES

Join = Callable[[Frame, Sequence[Value]], Value]
Place = Callable[[Frame], Frame]
Self = TypeVar("Self", bound="Body")


class Body:
    """A step of the tree.

    kind      what it is, as `cylinder`, which names its clauses where no variable does
    children  the bodies that it is made of
    join      from a frame and the children's values there to its own
    place     from its frame to that of its children
    """

    word = "body"  # what a refusal calls it

    def __init__(
        self, kind: str, children: Iterable[Body], join: Join | None = None, place: Place | None = None
    ) -> None:
        self.kind, self.children = kind, tuple(children)
        self._join, self._place = join, place
        self.origin: Origin = here(kind)._replace(kind=kind)

    def value_in(self, frame: Frame) -> Value:
        """The value of the body in a frame. Trees of any depth are taken, since nothing here calls itself."""
        done: dict[tuple[int, int], Value] = {}
        frames = [frame]  # each is kept, so that no other gets its number
        stack: list[tuple[Body, Frame, Frame | None]] = [(self, frame, None)]
        made: list[tuple[str, Origin]] = []
        start = Value("var-x").serial
        while stack:
            body, outer, inner = stack.pop()
            if (id(body), id(outer)) in done:
                continue
            with building(body.origin._replace(maker=outer.maker)):
                if inner is None:
                    inner = body._place(outer) if body._place else outer
                    frames.append(inner)
                    stack.append((body, outer, inner))
                    stack.extend((it, inner, None) for it in reversed(body.children))
                else:
                    values = [done[id(it), id(inner)] for it in body.children]
                    done[id(body), id(outer)] = body._join(outer, values) if body._join else values[0]
                    made.append((body.kind, body.origin._replace(maker=outer.maker)))
                    if done[id(body), id(outer)].serial - start > _MOST_STEPS:
                        raise too_many(Counter(made))
        return done[id(self), id(frame)]

    # The operators.

    def __or__(self: Self, other: object) -> Self:
        return union(self, self._same(other, "|"))

    def __and__(self: Self, other: object) -> Self:
        return intersect(self, self._same(other, "&"))

    def __sub__(self: Self, other: object) -> Self:
        return cut(self, self._same(other, "-"))

    def __ror__(self, other: object) -> Any:
        self._same(other, "|")

    def __rand__(self, other: object) -> Any:
        self._same(other, "&")

    def __rsub__(self, other: object) -> Any:
        self._same(other, "-")

    def _same(self: Self, other: object, sign: str) -> Self:
        """The other operand, where it is of the same type."""
        if type(other) is type(self):
            return cast(Self, other)
        if isinstance(other, Body):
            raise WrongType(
                f"{sign} joins two solids or two shapes, and not one of each: extrude(shape, height) and "
                "revolve(shape) are solids"
            )
        what = "a value" if isinstance(other, Value) else described(other)
        instead = ": solid(value) is a solid" if isinstance(other, Value) else ""
        if isinstance(other, (int, float)) and sign == "-":
            instead = ": .offset(-r) shrinks one"
        raise WrongType(f"{sign} joins two {self.word}s, and {what} is none{instead}")

    def _no_sum(self, other: object) -> Any:
        raise WrongType(
            f"a {self.word} is no value, so + * / < do not take it: a | b is the union, .offset(r) grows it, .scale(k) "
            "enlarges it, and .value is its formula"
        )

    __add__ = __radd__ = __mul__ = __rmul__ = __truediv__ = __rtruediv__ = __mod__ = __pow__ = _no_sum
    __lt__ = __le__ = __gt__ = __ge__ = _no_sum
    __array_ufunc__ = None

    def __neg__(self) -> Any:
        raise WrongType(f"a {self.word} has no sign: a - b is a without b")

    def __bool__(self) -> bool:
        raise WrongType(f"a {self.word} is neither true nor false: a | b is the union, and `is None` asks for nothing")

    def __repr__(self) -> str:
        return f"<{self.word} {self.kind}, made on {self.origin.told()}>"

    # What every body can do with itself.

    def union(self: Self, *others: Self, radius: Operand = 0, bevel: Operand = 0) -> Self:
        """This and others; with a radius or a bevel the inner edges where they meet are filled, as `union` says."""
        return union(self, *others, radius=radius, bevel=bevel)

    def intersect(self: Self, *others: Self, radius: Operand = 0, bevel: Operand = 0) -> Self:
        """What is in this and in all others, as `intersect` says."""
        return intersect(self, *others, radius=radius, bevel=bevel)

    def cut(self: Self, *others: Self, radius: Operand = 0, bevel: Operand = 0) -> Self:
        """This without the others, as `cut` says."""
        return cut(self, *others, radius=radius, bevel=bevel)

    def offset(self: Self, distance: Operand) -> Self:
        """Grown by a distance on all sides, or shrunk where it is below 0.

        Where the value is a distance, outer edges become round; where it is the greatest of several, as that of a
        box, they stay sharp, and faces alone move.
        """
        far = number_or_value(distance, "the distance of offset")
        return type(self)("offset", (self,), lambda frame, values: values[0] - frame.mm(far))

    def shell(self: Self, thickness: Operand) -> Self:
        """Hollow: what lies within a thickness below the surface. The outer size stays."""
        thick = positive(thickness, "the thickness of shell")
        return type(self)(
            "shell", (self,), lambda frame, values: max(values[0], -(values[0] + frame.mm(thick)))
        )


# Joining.


def _members(kind: str, parts: Sequence[Body], called: str) -> list[Body]:
    """The operands of a join, of which each that is the same plain join gives its own."""
    if len(parts) == 1 and isinstance(parts[0], (list, tuple)):
        raise WrongType(f"{called} takes its parts one by one: {called}(*parts)")
    if not parts:
        raise WrongType(f"{called} takes one or more solids or shapes, and got none")
    first = parts[0]
    if not isinstance(first, Body):
        what = "a value" if isinstance(first, Value) else described(first)
        raise WrongType(f"{called} joins solids or shapes, and {what} is none: solid(value) is a solid")
    members: list[Body] = []
    for it in parts:
        first._same(it, called)
        members.extend(it.children if it.kind == kind else (it,))
    return members


def union(*parts: Self, radius: Operand = 0, bevel: Operand = 0) -> Self:
    """What is in one of the parts or in several; they are joined in pairs, so that no chain is deep.

    Parts that are joined overlap. Two that only touch stay apart, since both values are 0 where they touch, and 0 is
    outside.

    With a radius the inner edges where two of them meet are filled by a round of that radius, and with a bevel by a
    flat that takes so much off both faces; then the parts are joined one after another. Of two that are joined so, one
    ends at least that radius deep in the other: where faces of both lie nearer to each other, or in one plane, the part
    bulges out of them, by up to 0.3 of the radius or half of the bevel. What ends in one plane is joined as shapes, and
    extruded after that. The round's value rises by 1 a unit where the faces meet at right angles, by up to 1.41 where
    they nearly run alike, and by less than a half in a notch of less than 41 degrees.
    """
    if now(number_or_value(radius, "the radius of union")) or now(number_or_value(bevel, "the bevel of union")):
        return _blended("union", parts, radius, bevel)
    members = _members("union", parts, "union")
    return type(parts[0])("union", members, lambda frame, values: balanced(list(values), "min"))


def intersect(*parts: Self, radius: Operand = 0, bevel: Operand = 0) -> Self:
    """What is in all of the parts. A radius rounds the outer edges where two meet, and a bevel cuts them off."""
    if now(number_or_value(radius, "the radius of intersect")) or now(number_or_value(bevel, "the bevel of intersect")):
        return _blended("intersect", parts, radius, bevel)
    members = _members("intersect", parts, "intersect")
    return type(parts[0])("intersect", members, lambda frame, values: balanced(list(values), "max"))


def cut(part: Self, *others: Self, radius: Operand = 0, bevel: Operand = 0) -> Self:
    """The part without the others. A radius rounds the edges that the cut makes, and a bevel cuts them off."""
    if now(number_or_value(radius, "the radius of cut")) or now(number_or_value(bevel, "the bevel of cut")):
        return _blended("cut", (part, *others), radius, bevel)
    if not others:
        return part
    _members("", (part, *others), "cut")
    taken = _members("union", others, "cut")
    first, *before = part.children if part.kind == "cut" else (part,)
    return type(part)(
        "cut", (first, *before, *taken), lambda frame, values: max(values[0], -balanced(list(values[1:]), "min"))
    )


def bevel(part: Self, other: Self, size: Operand) -> Self:
    """What is in both, with the edge where they meet cut off by a flat that takes `size` off both faces.

    `bevel(rod, slab, 0.5)` is a rod between the faces of a slab, with bevelled rims.
    """
    return intersect(part, other, bevel=positive(size, "the size of bevel"))


def _blended(called: str, parts: Sequence[Self], radius: Operand, bevel: Operand) -> Self:
    """A join of which each edge has a round or a flat, one part after another."""
    members = _members("", parts, called)
    if now(number_or_value(radius, "the radius")) and now(number_or_value(bevel, "the bevel")):
        raise WrongNumber(f"an edge of {called} has a radius or a bevel, and not both")
    flat = not now(number_or_value(radius, "the radius"))
    far = positive(bevel if flat else radius, f"the {'bevel' if flat else 'radius'} of {called}")
    half_root = exact(math.sqrt(0.5))

    def joined(frame: Frame, a: Value, b: Value) -> Value:
        # the least of both, with the edge between them filled: the two other joins are this one turned inside out
        r = frame.mm(far)
        if flat:
            return min(a, b, (a + b - r) * half_root)
        return max(r, min(a, b)) - away([max(r - a, 0), max(r - b, 0)], r)

    def join(frame: Frame, values: Sequence[Value]) -> Value:
        result = values[0]
        for it in values[1:]:
            if called == "union":
                result = joined(frame, result, it)
            else:
                result = -joined(frame, -result, it if called == "cut" else -it)
        return result

    return type(parts[0])(f"{called}-blend", members, join)
