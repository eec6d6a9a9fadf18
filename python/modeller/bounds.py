"""How far a part reaches along each axis, so that nothing of it is missed.

Space is looked at within WORLD of the origin, and cut into cells as long as intervals do not show these to be outside.
What is left is drawn, which says how far the part reaches at least, and intervals show that it does not reach further.
What is drawn only proposes, and what intervals show is taken.
"""

from __future__ import annotations

import math
from dataclasses import dataclass
from typing import Callable, Iterable, Sequence

from .emit import Text
from .faults import EmptyPart, Unbounded
from .progress import Progress
from .raw import UNIT
from .spans import Box, Cell, is_outside, refined, tape_of

#: How far from the origin a part is looked for, along each axis: squares of three such places stay in range.
WORLD = 8192
#: Into how many cells space is cut that are not shown to be outside.
_CELLS = 512
#: How many steps are taken at most to cut space into cells, and how many to show one slab to be outside.
#: Long parts take more, a multiple of their clauses.
_WORK, _SLAB_WORK = 600_000, 40_000
_WORK_A_CLAUSE, _SLAB_WORK_A_CLAUSE = 150, 30
#: How many cells the longest side has in the drawing.
_DRAWN = 48

_DIRECTIONS = ("-x", "+x", "-y", "+y", "-z", "+z")


@dataclass(frozen=True)
class Bounds:
    """A box that a part lies in: its least and its greatest x, y and z, in the units of the part."""

    low: tuple[float, float, float]
    high: tuple[float, float, float]

    @property
    def size(self) -> tuple[float, float, float]:
        """How long the box is along x, y and z."""
        return tuple(b - a for a, b in zip(self.low, self.high))  # type: ignore[return-value]

    @property
    def centre(self) -> tuple[float, float, float]:
        """The middle of the box."""
        return tuple((a + b) / 2 for a, b in zip(self.low, self.high))  # type: ignore[return-value]

    def __str__(self) -> str:
        ends = ", ".join(f"{axis} {a:.7g} to {b:.7g}" for axis, a, b in zip("xyz", self.low, self.high))
        return f"{ends} (size {' x '.join(f'{it:.7g}' for it in self.size)})"


#: Draws a mesh between ends with so many cells an axis, and gives the places of its vertices.
Draw = Callable[[Sequence[float], Sequence[int]], Iterable[Sequence[float]]]


def bounds_of(text: Text, draw: Draw) -> Bounds:
    """The bounds of a part, as close as can be shown: where faces lie along the axes, they are those of the faces.

    A part that is not bounded within WORLD of the origin is refused as `Unbounded`, with the directions, and one with
    nothing inside as `EmptyPart`.
    """
    world = WORLD * UNIT
    tape = tape_of(text.clauses)
    with Progress("bounds") as progress:
        cells = refined(tape, (-world, world) * 3, _CELLS, _WORK + _WORK_A_CLAUSE * len(tape), progress.tick)
    if not cells:
        raise EmptyPart("the part has nothing inside: its value is 0 or more everywhere")
    box = _hull(cells)
    open_ways = tuple(way for it, way in enumerate(_DIRECTIONS) if abs(box[it]) == world)
    if open_ways:
        raise Unbounded(
            f"the part is not bounded: it may reach {WORLD:,} and further along {', '.join(open_ways)}; meet it with a "
            "solid that is, as part & box(100)",
            open_ways,
        )
    drawn, steps = _drawn(box, draw)
    with Progress("bounds") as progress:
        box = _closely(cells, box, drawn, steps, _SLAB_WORK + _SLAB_WORK_A_CLAUSE * len(tape), progress.tick)
    return Bounds(
        tuple(math.floor(box[it] / UNIT * 1e9) / 1e9 for it in (0, 2, 4)),  # type: ignore[arg-type]
        tuple(math.ceil(box[it] / UNIT * 1e9) / 1e9 for it in (1, 3, 5)),  # type: ignore[arg-type]
    )


def _hull(cells: Sequence[Cell]) -> list[int]:
    """The least box that holds all cells."""
    columns = list(zip(*(it.box for it in cells)))
    return [(max if it % 2 else min)(columns[it]) for it in range(6)]


def _slab(box: Sequence[int], face: int, far: int) -> Box:
    """The part of a box that lies within a way of one of its faces."""
    ends = list(box)
    if face % 2:
        ends[face - 1] = ends[face] - far
    else:
        ends[face + 1] = ends[face] + far
    return tuple(ends)  # type: ignore[return-value]


def _drawn(box: Sequence[int], draw: Draw) -> tuple[list[float], list[float]]:
    """How far the part reaches in a drawing, as ends, and the cells of the drawing along each axis."""
    sides = [(box[it + 1] - box[it]) / UNIT for it in (0, 2, 4)]
    if max(sides) < 0.01:
        raise EmptyPart("the part has nothing inside that is larger than a hundredth of a unit")
    for most in (_DRAWN, 4 * _DRAWN):
        cell = max(sides) / most
        counts = [max(4, math.ceil(it / cell)) for it in sides]
        cells = [a / b for a, b in zip(sides, counts)]
        ends = []
        for it in range(3):  # a cell further out on each side, so that the border closes nothing off
            ends += [box[2 * it] / UNIT - cells[it], box[2 * it + 1] / UNIT + cells[it]]
        places = list(draw(ends, [it + 2 for it in counts]))
        if places:
            columns = list(zip(*places))
            return [end for it in columns for end in (min(it), max(it))], cells
    raise EmptyPart(
        f"nothing of the part was found in a drawing of cells of {cell:.3g} between "
        f"{', '.join(f'{it / UNIT:.6g}' for it in box)}: it is empty, or thinner than that everywhere"
    )


def _closely(
    cells: Sequence[Cell], box: Sequence[int], drawn: Sequence[float], steps: Sequence[float], work: int,
    tick: Callable[[], None],
) -> list[int]:
    """The box with each face as near to the drawing as intervals show the rest to be outside."""
    found = list(box)
    for face in range(6):
        sign = 1 if face % 2 else -1

        def is_end(end: float) -> bool:
            """Whether the part is shown to end there; then the face is set."""
            raw = math.ceil(end * UNIT) * sign
            tick()
            if (found[face] - raw) * sign > 0:
                if not is_outside(cells, _slab(found, face, (found[face] - raw) * sign), work):
                    return False
                found[face] = raw - sign  # the slab holds its own ends
            return True

        reach, cell = drawn[face] * sign, steps[face // 2]
        last, first = _least(is_end, reach, [reach + cell * it for it in _SHARES])
        for step in _EVEN:  # of a part that was written in even numbers its ends are even, too
            if last - first < 64 * step:
                even = range(math.ceil(first / step - 1e-3), math.floor(last / step) + 1)
                last, first = _least(is_end, first, [round(it * step, 4) for it in even], last)
        if round(last, 2) != last:
            is_end(first + _ROUNDING)
    return found


#: How far beyond a drawing, in its cells, a part may end.
_SHARES = (1 / 4000, 1 / 500, 1 / 64, *(it / 16 for it in range(1, 33)), 3, 4, 8)
#: How far beyond its end a surface may be rounded.
_ROUNDING = 16 / UNIT
#: The steps of even numbers.
_EVEN = (1, 0.25, 0.1, 0.05, 0.01, 0.001)


def _least(
    is_end: Callable[[float], bool], first: float, ends: Sequence[float], last: float = math.inf
) -> tuple[float, float]:
    """The least of rising ends that holds, or `last`, and the greatest that does not, or `first`."""
    low, high = 0, len(ends)
    while low < high:
        middle = (low + high) // 2
        if is_end(ends[middle]):
            high, last = middle, ends[middle]
        else:
            low, first = middle + 1, ends[middle]
    return last, first
