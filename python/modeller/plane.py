"""Shapes of the plane x, y, which `extrude` and `revolve` make solids of. All are centred at the origin.

They are joined, moved, turned and repeated as solids are. A value is called a distance where it is how far a place
lies from the outline, below 0 inside; all others are the greatest or least of the distances from several lines. At the
outline every value rises by 1/2 to 1 a unit.
"""

from __future__ import annotations

import math
from fractions import Fraction
from typing import Any, Sequence

from .body import Frame, union
from .copies import Place, Placed
from .distances import away, beyond, rounded
from .emit import MOST_CLAUSES
from .expressions import Operand, Value, abs, balanced, max
from .faults import TooManyClauses, WrongNumber, WrongType
from .lengths import count, now, number_or_value, plain, positive
from .origin import here
from .outline import Join, outline
from .raw import described, exact
from .strokes import ADVANCE, CAPITAL, strokes_of
from .turning import cosine_and_sine, dotted, place_of


class Shape(Placed):
    """A shape of the plane, inside where its value is below 0. `extrude(shape, height)` is a solid of it."""

    word = "shape"
    axes = 2

    def move(self, x: Operand = 0, y: Operand = 0) -> Shape:
        """Moved so far along x and y."""
        return self._moved(place_of((x, y), "move", 2) + (Fraction(0),), "move")

    def rotate(self, degrees: Any, about: Place = (0, 0)) -> Shape:
        """Turned counterclockwise by an angle about the origin or another place."""
        cosine, sine = cosine_and_sine(degrees)
        centre = place_of(about, "about", 2)

        def place(frame: Frame) -> Frame:
            x0, y0 = (frame.mm(it) for it in centre)
            parts = frame.x - x0, frame.y - y0
            return frame.at(dotted((cosine, sine), parts) + x0, dotted((-sine, cosine), parts) + y0, frame.z)

        return Shape("rotate", (self,), None, place)

    def around(self, number: Any, radius: Operand = 0, start: Any = 0) -> Shape:
        """So many copies on a circle about the origin, each turned as it goes round; the first is moved out along x."""
        many, first = count(number, "the number of around"), plain(start, "the start of around")
        out = (number_or_value(radius, "the radius of around"), Fraction(0), Fraction(0))
        one = self._moved(out, "around")
        maker = f"around on {here('around').told()}"
        return union(*[_turned(one, first + Fraction(360 * it, many), maker) for it in range(many)])


def _turned(shape: Shape, degrees: Fraction, maker: str) -> Shape:
    cosine, sine = cosine_and_sine(degrees)

    def place(frame: Frame) -> Frame:
        parts = frame.x, frame.y
        return frame.at(dotted((cosine, sine), parts), dotted((-sine, cosine), parts), frame.z, maker=maker)

    return Shape("around", (shape,), None, place)


def circle(radius: Operand) -> Shape:
    """A disc of a radius about the origin. Its value is a distance."""
    r = positive(radius, "the radius of circle")
    return Shape("circle", (), lambda frame, _: away([frame.x, frame.y], frame.mm(r)) - frame.mm(r))


def rectangle(width: Operand, height: Operand | None = None, radius: Operand = 0) -> Shape:
    """A rectangle as long along x and y as its width and height, about the origin; a square where one is given.

    With a radius its corners are round, and its value is a distance; without one it is the greatest of the distances
    from the sides.
    """
    sides = [positive(width, "the width of rectangle")]
    sides.append(sides[0] if height is None else positive(height, "the height of rectangle"))
    r = rounding(radius, sides, "rectangle")

    def join(frame: Frame, _: Sequence[Value]) -> Value:
        parts = [abs(it) - frame.mm(side / 2 - r) for it, side in zip((frame.x, frame.y), sides)]
        return max(*parts) if is_sharp(r) else rounded(parts, frame.mm(r))

    return Shape("rectangle", (), join)


def rounding(radius: Operand, sides: Sequence[Any], called: str) -> Any:
    """The radius of edges, which is at most half of the shortest side; 0 is a sharp edge."""
    r = number_or_value(radius, f"the radius of {called}")
    most = sorted(now(it) for it in sides)[0] / 2
    if not 0 <= now(r) <= most:
        raise WrongNumber(f"the radius of {called} is at most half of its shortest side, {most:g}, and not {now(r):g}")
    return r


def is_sharp(radius: Any) -> bool:
    """Whether a radius is the plain number 0."""
    return isinstance(radius, Fraction) and not radius


def slot(length: Operand, width: Operand) -> Shape:
    """A slot along x about the origin, so long from end to end, with half discs there. Its value is a distance."""
    long, wide = positive(length, "the length of slot"), positive(width, "the width of slot")
    if now(long) < now(wide):
        raise WrongNumber(f"a slot is at least as long as wide, and {now(long):g} by {now(wide):g} is not")

    def join(frame: Frame, _: Sequence[Value]) -> Value:
        r = frame.mm(wide / 2)
        return away([max(abs(frame.x) - frame.mm((long - wide) / 2), 0), frame.y], r) - r

    return Shape("slot", (), join)


def regular(sides: Any, radius: Operand) -> Shape:
    """A regular polygon about the origin, whose sides lie at a radius: half of the width across flats.

    The first side looks along x. The value is the greatest of the distances from the sides.
    """
    many, r = count(sides, "the number of sides", 3, 360), positive(radius, "the radius of regular")
    turns = [cosine_and_sine(Fraction(360 * it, many)) for it in range(many)]

    def join(frame: Frame, _: Sequence[Value]) -> Value:
        parts = frame.x, frame.y
        if many % 2:
            return max(*[dotted(it, parts) for it in turns]) - frame.mm(r)
        return max(*[abs(dotted(it, parts)) for it in turns[: many // 2]]) - frame.mm(r)

    return Shape("regular", (), join)


def polygon(*points: Any) -> Shape:
    """The polygon with the given corners, as `polygon((0, 0), (20, 0), (0, 10))`, convex or not.

    Its outline does not cross or touch itself; it runs either way round. The origin is that of the corners. The value
    is made of the distances from the lines of the sides, each once, by least and greatest. Where corners are made of
    sizes, which of them look inwards is settled by the sizes as they are.
    """
    if len(points) == 1 and isinstance(points[0], (list, tuple)) and len(points[0]) > 2:
        points = tuple(points[0])
    _refuse_many(len(points), "polygon")
    corners, steps = outline([place_of(it, "a corner of polygon", 2) for it in points])

    def join(frame: Frame, _: Sequence[Value]) -> Value:
        ends = [(frame.mm(a), frame.mm(b)) for a, b in corners]
        values: list[Value] = []
        for step in steps:
            if isinstance(step, Join):
                taken = [values.pop() for _ in range(step.count)][::-1]
                values.append(balanced(taken, "max" if step.greatest else "min"))
            else:
                values.append(beyond(frame.x, frame.y, ends[step], ends[(step + 1) % len(ends)]))
        return values[0]

    return Shape("polygon", (), join)


def _refuse_many(lines: int, called: str) -> None:
    """Refuses a shape of more lines than a part can have, each of which takes several clauses."""
    if lines > MOST_CLAUSES // 4:
        raise TooManyClauses(
            f"the part would have more than {MOST_CLAUSES:,} clauses, for {called} on {here(called).told()}, which is "
            f"made of {lines:,} lines or more"
        )


def text(letters: str, height: Operand = 8, pen: Operand | None = None, align: str = "centre") -> Shape:
    """Letters of single strokes, drawn by a round pen: a font of its own, alike on every machine.

    height  how high a capital letter is, from the lower edge of its strokes to the upper one
    pen     how wide the strokes are; an eighth of the height where it is left out
    align   which of 'left', 'centre' and 'right' of the text lies at x = 0

    Capital letters stand as far below y = 0 as above it. It has the printable characters of ASCII and `°`, `±`, `×`,
    `Ø` and `µ`, and several lines where the text has them. The value is a distance.
    """
    if not isinstance(letters, str):
        raise WrongType(f"text draws a text in quotes, and this is {described(letters)}")
    high = positive(height, "the height of text")
    wide = high / 8 if pen is None else positive(pen, "the pen of text")
    if now(wide) >= now(high):
        raise WrongNumber(f"the pen of text is narrower than its height, and {now(wide):g} is not below {now(high):g}")
    align = "centre" if align == "center" else align
    if align not in ("left", "centre", "right"):
        raise WrongType(f"text is aligned 'left', 'centre' or 'right', and not {align!r}")
    _refuse_many(len(letters), "text")
    lines = [strokes_of(it) for it in letters.split("\n")]
    strokes = []
    for row, (segments, width) in enumerate(lines):
        left = {"left": Fraction(0), "centre": Fraction(width, 2), "right": Fraction(width)}[align]
        drop = Fraction(CAPITAL, 2) + row * ADVANCE - Fraction((len(lines) - 1) * ADVANCE, 2)
        strokes += [(a - left, b - drop, c - left, d - drop) for a, b, c, d in segments]
    if not strokes:
        raise WrongNumber("text draws one stroke or more, and this has none")
    _refuse_many(len(strokes), "text")

    def join(frame: Frame, _: Sequence[Value]) -> Value:
        unit = frame.mm((high - wide) / CAPITAL)
        r = frame.mm(wide / 2)
        return balanced([_stroke(frame, it, unit, r) for it in strokes], "min") - r

    return Shape("text", (), join)


def _stroke(frame: Frame, ends: Sequence[Fraction], unit: Any, r: Any) -> Value:
    """The distance from the way between two points of the font's grid, near a surface at a distance r from it."""
    x0, y0, x1, y1 = ends
    u, v = frame.x - _times(unit, (x0 + x1) / 2), frame.y - _times(unit, (y0 + y1) / 2)
    dx, dy = float(x1 - x0), float(y1 - y0)
    long = math.hypot(dx, dy)
    if not long:
        return away([u, v], r)
    along, across = dotted((dx / long, dy / long), (u, v)), dotted((-dy / long, dx / long), (u, v))
    return away([max(abs(along) - _times(unit, exact(long / 2)), 0), across], r)


def _times(unit: Any, number: Fraction) -> Any:
    return unit * number if number else Fraction(0)
