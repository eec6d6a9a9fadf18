"""Intervals of a part's value over boxes of space, by the exact rules of the arithmetic.

An interval holds every value that an operation can give over a box (Duff, SIGGRAPH 1992), so what it shows to be
outside is outside, with nothing missed. Where a `min` or a `max` is decided over a box, its other side is left out for
all boxes within.
"""

from __future__ import annotations

from math import isqrt
from typing import Callable, NamedTuple, Sequence

from .emit import Clause
from .exact import brought_in
from .raw import GREATEST

#: A step: the operation, the places of its operands in the list, and of a constant its raw number.
Step = tuple[str, int, int, int]
Tape = Sequence[Step]
#: Two raw ends along each axis: x0, x1, y0, y1, z0, z1.
Box = tuple[int, int, int, int, int, int]


class Reach(NamedTuple):
    """The least and the greatest value that the last step may have over a box.

    same  each step of `min` or `max` that is one of its operands over the whole box, and that operand
    """

    least: int
    greatest: int
    same: dict[int, int]


class Cell(NamedTuple):
    """A box that is not shown to be outside, and the steps that may matter in it."""

    tape: Tape
    box: Box


def tape_of(clauses: Sequence[Clause]) -> Tape:
    """The steps of the clauses."""
    steps = []
    for it in clauses:
        a, b = (*it.args, 0, 0)[:2]
        steps.append((it.op, a, b, it.raw()))
    return steps


def reach(tape: Tape, box: Box) -> Reach:
    """What the last step of a tape may be over a box."""
    low: list[int] = []
    high: list[int] = []
    add_low, add_high = low.append, high.append
    same: dict[int, int] = {}
    for at, (op, a, b, raw) in enumerate(tape):
        if op == "const":
            add_low(raw)
            add_high(raw)
            continue
        if op in _AXES:
            axis = _AXES[op]
            add_low(box[axis])
            add_high(box[axis + 1])
            continue
        c, d = low[a], high[a]
        if op == "mul":
            e, f = low[b], high[b]
            if e == f:
                least, most = (c * e >> 32, d * e >> 32) if e >= 0 else (d * e >> 32, c * e >> 32)
            else:
                products = (c * e >> 32, c * f >> 32, d * e >> 32, d * f >> 32)
                least, most = min(products), max(products)
        elif op == "add":
            least, most = c + low[b], d + high[b]
        elif op == "sub":
            least, most = c - high[b], d - low[b]
        elif op == "max":
            e, f = low[b], high[b]
            if c >= f:
                same[at] = a
            elif e > d:
                same[at] = b
            add_low(c if c >= e else e)
            add_high(d if d >= f else f)
            continue
        elif op == "min":
            e, f = low[b], high[b]
            if d <= e:
                same[at] = a
            elif f < c:
                same[at] = b
            add_low(c if c <= e else e)
            add_high(d if d <= f else f)
            continue
        elif op == "abs":
            least, most = (c, d) if c >= 0 else (-d, -c) if d <= 0 else (0, d if d > -c else -c)
        elif op == "square":
            c, d = (c, d) if c >= 0 else (-d, -c) if d <= 0 else (0, d if d > -c else -c)
            least, most = c * c >> 32, d * d >> 32
        elif op == "sqrt":
            least, most = (isqrt(c << 32) if c > 0 else 0), (isqrt(d << 32) if d > 0 else 0)
        elif op == "div":
            least, most = _quotients(c << 32, d << 32, low[b], high[b])
        elif op == "neg":
            least, most = -d, -c
        else:
            least, most = c >> 32 << 32, d >> 32 << 32
        if least < -GREATEST or most > GREATEST:
            least, most = brought_in(least), brought_in(most)
        add_low(least)
        add_high(most)
    return Reach(low[-1], high[-1], same)


def _quotients(c: int, d: int, e: int, f: int) -> tuple[int, int]:
    """The least and the greatest quotient of what lies from c to d by what lies from e to f."""
    if e <= 0 <= f:
        return -GREATEST, GREATEST
    if e == f > 0:
        return c // e, d // e
    quotients = (c // e, c // f, d // e, d // f)
    return min(quotients), max(quotients)


def shortened(tape: Tape, same: dict[int, int]) -> Tape:
    """The steps that the last one still depends on, where some are one of their operands."""
    if not same:
        return tape
    for at in sorted(same):  # operands stand before their step, so each is settled already
        same[at] = same.get(same[at], same[at])
    last = len(tape) - 1
    last = same.get(last, last)
    wanted = {last}
    for at in range(last, -1, -1):
        if at in wanted:
            op, a, b, _ = tape[at]
            if op not in _NONE:
                wanted.add(same.get(a, a))
                if op in _TWO:
                    wanted.add(same.get(b, b))
    new: dict[int, int] = {}
    steps: list[Step] = []
    for at in sorted(wanted):
        op, a, b, raw = tape[at]
        new[at] = len(steps)
        if op in _NONE:
            steps.append((op, 0, 0, raw))
        else:
            steps.append((op, new[same.get(a, a)], new[same.get(b, b)] if op in _TWO else 0, raw))
    return steps


_AXES = {"var-x": 0, "var-y": 2, "var-z": 4}
_NONE = {*_AXES, "const"}
_SMALL = 1 << 22  # raw units, about a thousandth
_TWO = {"add", "sub", "mul", "div", "min", "max"}


def is_outside(cells: Sequence[Cell], slab: Box, work: int) -> bool:
    """Whether all of a slab is shown to be outside by at most so many steps; False where that is left open.

    What lies in none of the cells is known to be outside.
    """
    stack = [Cell(tape, here) for tape, box in cells if (here := _common(box, slab)) is not None]
    while stack:
        tape, box = stack.pop()
        found = reach(tape, box)
        work -= len(tape)
        if found.least >= 0:
            continue
        if found.greatest < 0 or work < 0 or max(sides(box)) < 2:
            return False
        stack.extend(halves(Cell(shortened(tape, found.same), box)))
    return True


def sides(box: Box) -> tuple[int, int, int]:
    """How long a box is along each axis."""
    return box[1] - box[0], box[3] - box[2], box[5] - box[4]


def halves(cell: Cell) -> tuple[Cell, Cell]:
    """A cell cut in two across its longest side, of those along axes on which its value depends."""
    tape, box = cell
    lengths = sides(box)
    used = {_AXES[op] for op, _, _, _ in tape if op in _AXES} or set(_AXES.values())
    axis = max(used, key=lambda it: lengths[it // 2])
    middle = (box[axis] + box[axis + 1]) // 2
    lower, upper = list(box), list(box)
    lower[axis + 1] = upper[axis] = middle
    return Cell(tape, tuple(lower)), Cell(tape, tuple(upper))  # type: ignore[arg-type]


def _common(one: Box, other: Box) -> Box | None:
    """What two boxes have in common, or None."""
    ends = []
    for it in (0, 2, 4):
        low, high = max(one[it], other[it]), min(one[it + 1], other[it + 1])
        if low > high:
            return None
        ends += [low, high]
    return tuple(ends)  # type: ignore[return-value]


def refined(tape: Tape, world: Box, most: int, work: int, tick: Callable[[], None]) -> list[Cell]:
    """The cells of a box that are not shown to be outside, cut in two again and again.

    That ends where there are `most` of them, where so many steps were taken, or where they are very small.
    """
    cells = [it for it in [Cell(tape, _middle_part(tape, world))] if reach(*it).least < 0]
    while 0 < len(cells) < most and work > 0 and max(sides(cells[0].box)) >= _SMALL:
        kept = []
        for cell in cells:
            tick()
            for half in halves(cell):
                work -= len(half.tape)
                found = reach(half.tape, half.box)
                if found.least < 0:
                    kept.append(Cell(shortened(half.tape, found.same), half.box))
        cells = kept
    return cells


def _middle_part(tape: Tape, box: Box) -> Box:
    """A box, made half as large about its middle as long as all around it is shown to be outside.

    Most parts lie about the origin, and so it is not cut through there again and again.
    """
    while max(sides(box)) >= _SMALL:
        inner = tuple(it // 2 for it in box)
        for face in range(6):
            slab = list(box)
            slab[face ^ 1] = inner[face]
            if not is_outside([Cell(tape, box)], tuple(slab), 64 * len(tape)):  # type: ignore[arg-type]
                return box
        box = inner  # type: ignore[assignment]
    return box
