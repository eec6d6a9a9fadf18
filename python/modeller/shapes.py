"""The solids that parts begin with. All are centred at the origin, and `move` brings them to their place.

A value is called a distance where it is how far a place lies from the surface, below 0 inside; then offsets and shells
of it are as round as they should be. All others are the greatest of several distances: right at the faces, inside and
near them, and less than the distance beyond an outer edge. At the surface every value rises by 1/2 to 1 a unit, and is
0 within 16 raw units of 2^-32. Lengths are in the units of the part, which a slicer reads as millimetres. Places lie
within some thousands of them: squares end at 32,768 of the origin. A size that a script sets changes a solid as one
that is made anew with it; only where a radius goes past 1/2, 1/4 and so on may values differ in their last raw units.
"""

from __future__ import annotations

import math
from fractions import Fraction
from typing import Any, Sequence

from .body import Frame
from .distances import away, beyond, capped, fine_away, rounded
from .expressions import Operand, Value, abs, floor, max, min, sqrt
from .faults import WrongNumber, WrongType
from .lengths import now, number_or_value, plain, positive
from .plane import Shape, is_sharp, regular, rounding
from .raw import described, exact
from .solids import Solid
from .turning import FINE, direction, dotted, frame_along


def ball(radius: Operand) -> Solid:
    """A ball of a radius about the origin. Its value is a distance."""
    r = positive(radius, "the radius of ball")
    return Solid("ball", (), lambda frame, _: away([frame.x, frame.y, frame.z], frame.mm(r)) - frame.mm(r))


def box(width: Operand, depth: Operand | None = None, height: Operand | None = None, radius: Operand = 0) -> Solid:
    """A box as long along x, y and z as its width, depth and height, about the origin; a cube where one is given.

    With a radius all its edges and corners are round, the sides as long as before, and its value is a distance;
    without one it is the greatest of the distances from the faces.
    """
    sides = [positive(width, "the width of box")]
    if (depth is None) != (height is None):
        raise WrongType("box takes one side, of a cube, or three: its width, depth and height")
    sides.append(sides[0] if depth is None else positive(depth, "the depth of box"))
    sides.append(sides[0] if height is None else positive(height, "the height of box"))
    r = rounding(radius, sides, "box")

    def join(frame: Frame, _: Sequence[Value]) -> Value:
        parts = [abs(it) - frame.mm(side / 2 - r) for it, side in zip((frame.x, frame.y, frame.z), sides)]
        return max(*parts) if is_sharp(r) else rounded(parts, frame.mm(r))

    return Solid("box", (), join)


def cylinder(radius: Operand, height: Operand, bevel: Operand = 0) -> Solid:
    """A cylinder along z about the origin, half of its height above it and half below.

    Its value is the greater of the distances from its wall and from its ends. With a bevel its rims are cut off at 45
    degrees, so much of the wall and so much of the ends.
    """
    r, h = positive(radius, "the radius of cylinder"), positive(height, "the height of cylinder")
    off = number_or_value(bevel, "the bevel of cylinder")

    def join(frame: Frame, _: Sequence[Value]) -> Value:
        wall = away([frame.x, frame.y], frame.mm(r)) - frame.mm(r)
        return capped(wall, abs(frame.z) - frame.mm(h / 2), frame.mm(off))

    return Solid("cylinder", (), join)


def cone(radius: Operand, height: Operand, top: Operand = 0) -> Solid:
    """A cone along z about the origin: of a radius at its foot, half of its height below the origin, and of the radius
    `top` at its upper end, half of its height above it, where it comes to a point where that is 0.

    Its value is the greater of the distances from its side and from its ends.
    """
    r, h = positive(radius, "the radius of cone"), positive(height, "the height of cone")
    upper = number_or_value(top, "the top of cone")
    if now(upper) < 0:
        raise WrongNumber(f"the top of cone is a radius of 0 or more, and {now(upper):g} is not")

    def join(frame: Frame, _: Sequence[Value]) -> Value:
        half = frame.mm(h / 2)
        side = beyond(fine_away(frame.x, frame.y), frame.z, (frame.mm(r), -half), (frame.mm(upper), half))
        return max(side, abs(frame.z) - half)

    return Solid("cone", (), join)


def torus(radius: Operand, tube: Operand) -> Solid:
    """A ring about z: its middle line, in the plane z = 0, has a radius, and its tube one. Its value is a distance."""
    r, thin = positive(radius, "the radius of torus"), positive(tube, "the tube of torus")
    if now(thin) > now(r):
        raise WrongNumber(f"the tube of torus is at most its radius, {now(r):g}, and not {now(thin):g}")

    def join(frame: Frame, _: Sequence[Value]) -> Value:
        ring = fine_away(frame.x, frame.y) - frame.mm(r)
        return away([ring, frame.z], frame.mm(thin)) - frame.mm(thin)

    return Solid("torus", (), join)


def capsule(radius: Operand, height: Operand) -> Solid:
    """A rod along z about the origin with half balls at its ends, so high from end to end. Its value is a distance."""
    r, h = positive(radius, "the radius of capsule"), positive(height, "the height of capsule")
    if now(h) < 2 * now(r):
        raise WrongNumber(f"the height of capsule is at least twice its radius, {2 * now(r):g}, and not {now(h):g}")

    def join(frame: Frame, _: Sequence[Value]) -> Value:
        ends = max(abs(frame.z) - frame.mm(h / 2 - r), 0)
        return away([frame.x, frame.y, ends], frame.mm(r)) - frame.mm(r)

    return Solid("capsule", (), join)


def rod(start: Sequence[Any], end: Sequence[Any], radius: Operand) -> Solid:
    """A rod from one place to another with half balls about both. Its value is a distance.

    The places are plain numbers, since the direction of the rod is computed here; the radius may be a size.
    """
    r = positive(radius, "the radius of rod")
    for it in (start, end):
        if not isinstance(it, (tuple, list)) or len(it) != 3:
            raise WrongType(f"an end of rod is a place of three numbers, as (5, 0, 2), and {described(it)} is none")
    first, last = ([plain(number, "a coordinate of rod") for number in it] for it in (start, end))
    way = [float(b - a) for a, b in zip(first, last)]
    if not any(way):
        raise WrongNumber("the ends of rod are two places, and these are one: a ball is what is meant")
    rows = frame_along(way)
    half = exact(math.hypot(*way) / 2)

    def join(frame: Frame, _: Sequence[Value]) -> Value:
        middle = [it - frame.mm((a + b) / 2) for it, a, b in zip((frame.x, frame.y, frame.z), first, last)]
        across, over, along = (dotted(row, middle) for row in rows)
        return away([across, over, max(abs(along) - frame.mm(half), 0)], frame.mm(r)) - frame.mm(r)

    return Solid("rod", (), join)


def half_space(normal: str | Sequence[Any] = "z", offset: Operand = 0) -> Solid:
    """All that lies below a plane, which looks along `normal`: 'x', '-z' and so on, or a vector of any length.

    The plane lies so far from the origin along its normal. The value is a distance, and the solid has no bounds: it is
    met with another one, or cut from it.
    """
    looks, far = direction(normal, "the normal of half_space"), number_or_value(offset, "the offset of half_space")
    return Solid(
        "half_space", (), lambda frame, _: dotted(looks, (frame.x, frame.y, frame.z)) - frame.mm(far)
    )


def prism(sides: Any, radius: Operand, height: Operand, bevel: Operand = 0) -> Solid:
    """A regular prism along z about the origin, whose sides lie at a radius: half of the width across flats.

    The first side looks along x. Its value is the greatest of the distances from its faces. A bevel cuts off the edges
    at its ends.
    """
    return extrude(regular(sides, positive(radius, "the radius of prism")), height, bevel)


def extrude(shape: Shape, height: Operand, bevel: Operand = 0) -> Solid:
    """A shape of the plane, drawn along z: half of the height above the origin, and half below.

    Its value is the greater of that of the shape and the distance from its ends. A bevel cuts off the edges at its
    ends at 45 degrees.
    """
    h, off = positive(height, "the height of extrude"), number_or_value(bevel, "the bevel of extrude")
    return Solid(
        "extrude",
        (_shape(shape, "extrude"),),
        lambda frame, values: capped(values[0], abs(frame.z) - frame.mm(h / 2), frame.mm(off)),
    )


def revolve(shape: Shape) -> Solid:
    """A shape of the plane, turned about its y axis, which becomes z; its x is the distance from the axis.

    What lies at x below 0 is not seen. The value is a distance where that of the shape is one and the shape lies at
    x of 0 and above.
    """
    return Solid(
        "revolve", (_shape(shape, "revolve"),), None,
        lambda frame: frame.at(fine_away(frame.x, frame.y), frame.z, frame.z),
    )


def _shape(it: object, called: str) -> Shape:
    if isinstance(it, Shape):
        return it
    what = "a solid" if isinstance(it, Solid) else "a value" if isinstance(it, Value) else described(it)
    raise WrongType(f"{called} makes a solid of a shape in the plane, as circle(5), and this is {what}")


def thread(radius: Operand, pitch: Operand, height: Operand) -> Solid:
    """A threaded rod along z about the origin with the profile of a metric thread, right-handed, cut off at its ends.

    The radius is the outer one and the pitch the way from turn to turn: `thread(8, 2, 30)` is an M16. Flanks stand at
    60 degrees, the crest is an eighth of the pitch wide, the root a quarter, and the groove 0.5413 of the pitch deep.
    The angle about the axis is that of a polynomial, within 0.05 degrees. The value is the greatest and least of the
    distances from crest, root, flanks and ends, those of the flanks made up to 0.3 % less.
    """
    r, p = positive(radius, "the radius of thread"), positive(pitch, "the pitch of thread")
    h = positive(height, "the height of thread")
    if now(p) > now(r):
        raise WrongNumber(f"the pitch of thread is at most its radius, {now(r):g}, and not {now(p):g}")
    steep = exact(math.sqrt(3))
    # the slope of a flank along the radius, along z, and round the axis at the root, where that is greatest
    lead = p * exact(1.1 / (2 * math.pi)) / (r - p * exact(0.5413))
    share = 1 / sqrt(lead * lead * 3 + 4)
    share = share if isinstance(share, Value) else exact(round(share, 9))

    def join(frame: Frame, _: Sequence[Value]) -> Value:
        step = frame.mm(p)
        far = fine_away(frame.x, frame.y)
        climb = frame.z * FINE / step - _turn(frame.x, frame.y)
        across = abs(climb - floor(climb / FINE) * FINE - FINE // 2)
        root = frame.mm(r) - step * exact(0.5413)
        flank = far - root - (across - FINE // 8) * step / FINE * steep
        wall = max(far - frame.mm(r), min(flank * share, far - root))
        return max(wall, abs(frame.z) - frame.mm(h / 2))

    return Solid("thread", (), join)


def _turn(x: Value, y: Value) -> Value:
    """The angle of a place, from -FINE / 2 to FINE / 2 for one turn, within 0.05 degrees, without an arc tangent."""
    p = x * FINE / (abs(x) + abs(y))
    q = abs(p)
    off = y + exact(1e-9)  # since y / abs(y) is 0 where y is 0
    side = off / abs(off)
    bend = (FINE - q) * (q * 2 - FINE) / FINE * (q * (FINE - q) * exact(0.772) / FINE + exact(0.34) * FINE) / FINE
    return side * (FINE - p * (bend + FINE) / FINE) / 4


def gyroid(period: Operand, thickness: Operand) -> Solid:
    """A sheet along the gyroid (Schoen, 1970), which repeats after a period along x, y and z, without bounds.

    It stands where sin x cos y + sin y cos z + sin z cos x is near 0, the period being 2 pi; each sine is a polynomial
    within 0.0012. The sheet is about as thick as told: of a sixteenth of the period between 0.85 and 1.1 times. The
    value is no distance, but rises by 1/2 to 1 a unit at the surface; it is 0 there within 16 raw units for periods of
    up to 100. It is met with another solid, as `gyroid(20, 1.2) & box(40)`.
    """
    p, thick = positive(period, "the period of gyroid"), positive(thickness, "the thickness of gyroid")
    if now(thick) > now(p) / 8:
        raise WrongNumber(
            f"the thickness of gyroid is at most an eighth of its period, {now(p) / 8:g}, and not {now(thick):g}"
        )

    def join(frame: Frame, _: Sequence[Value]) -> Value:
        step = frame.mm(p)
        places = [it * FINE / step for it in (frame.x, frame.y, frame.z)]
        (sin_x, cos_x), (sin_y, cos_y), (sin_z, cos_z) = ((_sine(it), _sine(it + FINE // 4)) for it in places)
        level = (sin_x * cos_y + sin_y * cos_z + sin_z * cos_x) / FINE
        return abs(level) * (step * _GYROID_SLOPE) / FINE - frame.mm(thick / 2) * _GYROID_HALF

    return Solid("gyroid", (), join)


_GYROID_SLOPE = exact(round(1 / (2 * math.pi * 1.76), 6))
_GYROID_HALF = exact(0.85)


def _sine(turns: Value) -> Value:
    """FINE times the sine of an angle of which FINE are one turn, within 0.0012 of it.

    It is a parabola for each half wave, and one of that.
    """
    h = (turns - floor(turns / FINE + Fraction(1, 2)) * FINE) * 2
    wave = h * (FINE - abs(h)) * 4 / FINE
    return wave * (abs(wave) * exact(0.225) / FINE + exact(0.775))
