"""What a part was drawn as: a mesh, a picture, an outline, and how each is saved."""

from __future__ import annotations

import functools
import os
import warnings
from dataclasses import dataclass, field
from fractions import Fraction
from pathlib import Path

from . import files
from .bounds import Bounds
from .faults import EmptyPart, TouchesBorder, WrongNumber
from .view import View


@dataclass(frozen=True)
class PartMesh:
    """A mesh as the program wrote it, which is proved to be closed and a manifold.

    ply   the bytes of the PLY file
    view  where it was drawn, and its cells
    """

    ply: bytes = field(repr=False)
    view: View

    @functools.cached_property
    def mesh(self) -> files.Mesh:
        """The vertices and the faces."""
        return files.read_ply(self.ply)

    @property
    def vertices(self) -> list[files.Point]:
        """The places of the vertices."""
        return self.mesh.vertices

    @property
    def faces(self) -> list[files.Face]:
        """Of each triangle the numbers of its vertices, counterclockwise as seen from the outside."""
        return self.mesh.faces

    @property
    def bounds(self) -> Bounds:
        """The box that the vertices fill."""
        columns = list(zip(*self.vertices))
        return Bounds(tuple(map(min, columns)), tuple(map(max, columns)))  # type: ignore[arg-type]

    def save(self, path: str | os.PathLike[str]) -> None:
        """Writes a file by its ending: .ply as the program wrote it, binary .stl, and .3mf where trimesh is there."""
        ending = Path(path).suffix.lower()
        if ending == ".ply":
            files.save(path, self.ply)
        elif ending == ".stl":
            files.save(path, files.stl_of(self.mesh))
        elif ending == ".3mf":
            files.save(path, files.three_mf_of(self.mesh))
        else:
            raise WrongNumber(
                f"a mesh is saved as .ply, .stl or .3mf, and {Path(path).name!r} has none of these endings"
            )


@dataclass(frozen=True)
class Picture:
    """A picture as the program drew it, in the PGM form; a notebook shows it."""

    pgm: bytes = field(repr=False)

    @functools.cached_property
    def png(self) -> bytes:
        """The picture as a PNG file."""
        return files.png_of(self.pgm)

    def save(self, path: str | os.PathLike[str]) -> None:
        """Writes a file by its ending, .png or .pgm."""
        ending = Path(path).suffix.lower()
        if ending not in (".png", ".pgm"):
            raise WrongNumber(f"a picture is saved as .png or .pgm, and {Path(path).name!r} has none of these endings")
        files.save(path, self.png if ending == ".png" else self.pgm)

    def _repr_png_(self) -> bytes:
        return self.png


@dataclass(frozen=True)
class Outline:
    """A cut through a part, as closed paths in the form of the path data of SVG; a notebook shows it."""

    path: str = field(repr=False)
    ends: tuple[float, ...]

    @property
    def svg(self) -> str:
        """The outline as an SVG file in millimetres."""
        return files.svg_of(self.path, self.ends)

    def save(self, path: str | os.PathLike[str]) -> None:
        """Writes an .svg file."""
        if Path(path).suffix.lower() != ".svg":
            raise WrongNumber(f"an outline is saved as .svg, and {Path(path).name!r} does not end so")
        files.save(path, self.svg)

    def _repr_svg_(self) -> str:
        return self.svg


def look_at(drawn: PartMesh, cell: Fraction) -> None:
    """Refuses an empty mesh, and warns of one that touches the border."""
    vertices = drawn.vertices
    if not vertices:
        raise EmptyPart(
            f"the mesh is empty: no corner of a cell of {float(cell):g} is inside the part; a smaller cell may find it"
        )
    near = float(cell) / 16384
    columns = list(zip(*vertices))
    ends = drawn.view.ends
    ways = []
    for axis, column in zip(range(3), columns):
        if min(column) - float(ends[2 * axis]) < near:
            ways.append("-" + "xyz"[axis])
        if float(ends[2 * axis + 1]) - max(column) < near:
            ways.append("+" + "xyz"[axis])
    if ways:
        warnings.warn(
            f"the part touches the border of its view along {', '.join(ways)}, and is closed off there by a flat face",
            TouchesBorder,
            stacklevel=3,
        )
