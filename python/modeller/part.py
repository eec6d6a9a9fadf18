"""What a solid can be drawn as: meshes, pictures, outlines and texts, each by one call of the program."""

from __future__ import annotations

import functools
import os
from fractions import Fraction
from itertools import product
from pathlib import Path
from typing import TYPE_CHECKING, Any, Sequence, cast

from . import files, program
from .bounds import Bounds, bounds_of
from .drawings import Outline, PartMesh, Picture, look_at
from .emit import Text, clauses_of
from .expressions import Number, Value
from .faults import WrongNumber, WrongType
from .lengths import count, plain
from .turning import rotation
from .view import View, depth_settings, outline_settings, picture_settings, view_of

if TYPE_CHECKING:
    from .solids import Solid

#: From where a part is looked at, and the turns that bring the viewer above it: degrees about an axis, one by one.
VIEWS: dict[str, tuple[tuple[float, str], ...]] = {
    "above": (),
    "front": ((-90, "x"),),
    "side": ((-90, "z"), (-90, "x")),
    "corner": ((-35, "z"), (-60, "x")),
    "back": ((180, "z"), (-90, "x")),
    "left": ((90, "z"), (-90, "x")),
    "below": ((180, "x"),),
}
#: Which of them a contact sheet has.
SHEET = ("above", "front", "side", "corner")


class Results:
    """The drawings of a solid. Each is one call of the program on the text of the solid."""

    value: Value

    def clauses(self) -> Text:
        """The clauses of the part, with the line of Python that each came from."""
        return self._clauses

    @functools.cached_property
    def _clauses(self) -> Text:
        return clauses_of(self.value)

    def text(self) -> str:
        """The part as a model, in the form of a .vm file."""
        return self.clauses().text

    def sizes(self) -> dict[str, float]:
        """The named sizes that the part depends on, and their numbers."""
        return self.clauses().sizes()

    def bounds(self) -> Bounds:
        """A box that the part lies in, as close as intervals can show it; nothing of the part is outside.

        A part without bounds is refused as `Unbounded`, with the directions, and one with nothing inside as
        `EmptyPart`. It is looked for within 8,192 of the origin along each axis.
        """
        return self._bounds

    @functools.cached_property
    def _bounds(self) -> Bounds:
        def draw(ends: Sequence[float], counts: Sequence[int]) -> list[files.Point]:
            exact_ends = tuple(Fraction(round(it * 2**24), 2**24) for it in ends)
            view = View(exact_ends, tuple(counts))  # type: ignore[arg-type]
            return files.read_ply(self._run("mesh", view.settings())).vertices

        return bounds_of(self.clauses(), draw)

    def _run(self, verb: str, settings: dict[str, Any]) -> bytes:
        text = self.clauses()
        return program.run(verb, settings, text.text, source=text)

    def mesh(self, cell: Number = 0.5, align: str = "grid", bounds: Bounds | None = None) -> PartMesh:
        """The surface as triangles, closed and a manifold, by cells of a length.

        With align "grid" the cells end on whole multiples of their length from the origin, so that flats which lie
        there come out sharp, and next to them lie needles: of an enclosure of 60 by 40 by 20 mm at cells of 0.5 mm
        45 % of the triangles have an edge below a hundredth of their longest, and the shortest is 8e-6 mm. With "half"
        the cells end half a cell off: no triangle of that enclosure is a needle, the shortest edge is 0.014 mm, and
        its edges are broken by up to half a cell. The wall of `cylinder(10, 10)` lies within 0.014 mm of its radius at
        cells of 0.5 on the grid, and within 0.008 mm at cells of 0.25.

        With `bounds` the part is drawn within that box and cut off flat there, with a warning; else within its own. A
        mesh with more than 512 cells along an axis or 16,777,216 in all is refused, with the least cell that fits.
        """
        length = plain(cell, "the cell of mesh")
        if length <= 0:
            raise WrongNumber(f"the cell of mesh is above 0, and {float(length):g} is not")
        if align not in ("grid", "half"):
            raise WrongType(f"a mesh is aligned 'grid' or 'half', and not {align!r}")
        view = view_of(bounds or self.bounds(), length, align)
        ply = self._run("mesh", view.settings())
        result = PartMesh(ply, view)
        look_at(result, length)
        return result

    def render(self, z: Number = 0, size: int = 640, bounds: Bounds | None = None) -> Picture:
        """A cut at the height z: white inside, black outside, y upwards. The longer side has `size` samples."""
        settings = picture_settings(bounds or self.bounds(), count(size, "the size of render", 2, 4096))
        return Picture(self._run("render", {**settings, "z": plain(z, "the height of render")}))

    def height(self, size: int = 640, layers: int = 255, bounds: Bounds | None = None) -> Picture:
        """A height map from above, brighter where the part is higher, in so many layers; 0 where nothing is."""
        box = bounds or self.bounds()
        settings = picture_settings(box, count(size, "the size of height", 2, 1024))
        return Picture(self._run("height", {**settings, **depth_settings(box, count(layers, "the layers", 1, 1024))}))

    def shade(self, view: str = "above", size: int = 640, layers: int = 600, bounds: Bounds | None = None) -> Picture:
        """The part as it looks from a side, faces brighter the more they look at the viewer.

        view    'above' (x to the right, y upwards), 'front' (along y, z upwards), 'side' (from the right, y to the
                right), 'corner' (from the front on the right, a little above), 'back', 'left' or 'below'
        size    how many samples the longer side has
        layers  how many samples deep it looks for the nearest place inside
        """
        if view not in VIEWS:
            raise WrongType(f"a view is one of {', '.join(VIEWS)}, and {view!r} is none")
        deep = count(layers, "the layers of shade", 1, 1024)
        part, box = self._turned_to(view, bounds or self.bounds())
        settings = picture_settings(box, count(size, "the size of shade", 2, 1024))
        return Picture(part._run("shade", {**settings, **depth_settings(box, deep)}))

    def _turned_to(self, view: str, box: Bounds) -> tuple[Solid, Bounds]:
        """The part turned so that the viewer stands above it, and bounds of it there."""
        part = cast("Solid", self)
        corners: list[Sequence[float]] = list(product(*zip(box.low, box.high)))
        for degrees, axis in VIEWS[view]:
            part = part.rotate(degrees, axis)
            rows = rotation(degrees, axis)
            corners = [[sum(a * b for a, b in zip(row, it)) for row in rows] for it in corners]
        columns = list(zip(*corners))
        low, high = (tuple(end(it) for it in columns) for end in (min, max))
        return part, Bounds(low, high)  # type: ignore[arg-type]

    def views(self, size: int = 320) -> dict[str, Picture]:
        """The part from above, from the front, from the right and from a corner, each a picture of `shade`."""
        return {it: self.shade(it, size) for it in SHEET}

    def contour(self, z: Number = 0, cell: Number | None = None, bounds: Bounds | None = None) -> Outline:
        """The outline at the height z as closed paths, by cells of a length; if it is left out, as small as may be."""
        length = None if cell is None else plain(cell, "the cell of contour")
        if length is not None and length <= 0:
            raise WrongNumber(f"the cell of contour is above 0, and {float(length):g} is not")
        settings = outline_settings(bounds or self.bounds(), length)
        path = self._run("contour", {**settings, "z": plain(z, "the height of contour")})
        return Outline(path.decode("ascii"), tuple(float(settings[it]) for it in ("x0", "x1", "y0", "y1")))

    def save(
        self, path: str | os.PathLike[str], cell: Number = 0.5, align: str = "grid", view: str = "corner",
        z: Number = 0, size: int = 640,
    ) -> None:
        """Draws the part and writes a file, of the kind that its ending says.

        .ply, .stl, .3mf  a mesh of cells of that length, aligned as `mesh` says; .3mf where trimesh is there
        .png, .pgm        a picture from a side, as `shade` has it
        .svg              the outline at the height z
        .vm               the text of the model
        """
        ending = Path(path).suffix.lower()
        if ending in (".ply", ".stl", ".3mf"):
            self.mesh(cell, align).save(path)
        elif ending in (".png", ".pgm"):
            self.shade(view, size).save(path)
        elif ending == ".svg":
            self.contour(z).save(path)
        elif ending == ".vm":
            files.save(path, self.text())
        else:
            raise WrongNumber(
                f"a part is saved as .ply, .stl, .3mf, .png, .pgm, .svg or .vm, and {Path(path).name!r} has none of "
                "these endings"
            )

    def _repr_png_(self) -> bytes:
        return self.shade("corner", 400).png
