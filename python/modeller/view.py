"""Where a part is drawn: the ends of a view, and its cells or samples."""

from __future__ import annotations

import math
from dataclasses import dataclass
from fractions import Fraction
from typing import Any

from .bounds import Bounds
from .faults import TooManyCells
from .raw import exact

#: How many cells a mesh has at most along an axis, and in all.
MOST_ALONG, MOST_CELLS = 512, 16_777_216
#: How many cells an outline has at most along an axis.
MOST_OUTLINE = 256
#: How far beyond the part a picture reaches, as a share of its longest side.
_MARGIN = 0.03


@dataclass(frozen=True)
class View:
    """The ends of a drawing and its cells along each axis: ends[0] to ends[1] along x, and so on."""

    ends: tuple[Fraction, ...]
    counts: tuple[int, int, int]

    def settings(self) -> dict[str, Any]:
        """The settings of the program."""
        names = ("x0", "x1", "y0", "y1", "z0", "z1")
        return {**dict(zip(names, self.ends)), **dict(zip(("nx", "ny", "nz"), self.counts))}


def view_of(bounds: Bounds, cell: Fraction, align: str) -> View:
    """The view of a mesh: ends that lie beyond the bounds, on multiples of the cell or half a cell off."""
    shift = Fraction(1, 2) if align == "half" else Fraction(0)
    ends, counts = _fitted(bounds, cell, shift)
    if max(counts) > MOST_ALONG or math.prod(counts) > MOST_CELLS:
        least = _least_cell(bounds, shift)
        many = " x ".join(f"{it:,}" for it in counts)
        raise TooManyCells(
            f"cells of {float(cell):g} would be {many}, and a mesh has at most {MOST_ALONG} along an axis and "
            f"{MOST_CELLS:,} in all: the least cell that fits is {least:g}",
            least,
        )
    return View(tuple(ends), tuple(counts))  # type: ignore[arg-type]


def _fitted(bounds: Bounds, cell: Fraction, shift: Fraction) -> tuple[list[Fraction], list[int]]:
    ends: list[Fraction] = []
    counts = []
    for low, high in zip(bounds.low, bounds.high):
        first = math.ceil(exact(low) / cell - shift) - 1  # so that an end lies beyond a flat that is on a multiple
        last = math.floor(exact(high) / cell - shift) + 1
        ends += [(first + shift) * cell, (last + shift) * cell]
        counts.append(last - first)
    return ends, counts


def _least_cell(bounds: Bounds, shift: Fraction) -> float:
    """The least cell, to three digits, by which a mesh has not too many cells."""
    cell = Fraction(max(max(bounds.size) / MOST_ALONG, (math.prod(bounds.size) / MOST_CELLS) ** (1 / 3)))
    while True:
        step = Fraction(10) ** (math.floor(math.log10(cell)) - 2)
        cell = math.ceil(cell / step) * step
        counts = _fitted(bounds, cell, shift)[1]
        if max(counts) <= MOST_ALONG and math.prod(counts) <= MOST_CELLS:
            return float(cell)
        cell += step / 2


def picture_settings(bounds: Bounds, size: int) -> dict[str, Any]:
    """The settings of a picture of the part with some margin, whose longer side has `size` samples."""
    margin = _MARGIN * max(bounds.size)
    low = [it - margin for it in bounds.low]
    high = [it + margin for it in bounds.high]
    wide, tall = high[0] - low[0], high[1] - low[1]
    step = max(wide, tall) / size
    return {
        "x0": low[0], "x1": high[0], "y0": low[1], "y1": high[1],
        "w": max(1, round(wide / step)), "h": max(1, round(tall / step)),
    }


def depth_settings(bounds: Bounds, layers: int) -> dict[str, Any]:
    """The settings of a height map along z: beyond the part on both sides, so that no face lies at an end."""
    margin = _MARGIN * max(bounds.size)
    return {"z0": bounds.low[2] - margin, "z1": bounds.high[2] + margin, "d": layers}


def outline_settings(bounds: Bounds, cell: Fraction | None) -> dict[str, Any]:
    """The settings of an outline: a square about the part, whose cells are as long both ways."""
    side = exact(max(bounds.size[:2]))
    length = cell or side / (MOST_OUTLINE - 4)
    count = math.ceil(side / length) + 2
    if count > MOST_OUTLINE:
        least = float(f"{float(side / (MOST_OUTLINE - 3)):.3g}")
        raise TooManyCells(
            f"cells of {float(length):g} would be {count:,} along an axis, and an outline has at most {MOST_OUTLINE}: "
            f"a cell of {least:g} fits",
            least,
        )
    half = length * count / 2
    x, y = (exact(it) for it in bounds.centre[:2])
    return {"x0": x - half, "x1": x + half, "y0": y - half, "y1": y + half, "n": count}
