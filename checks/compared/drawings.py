"""What is drawn, and by which commands: meshes of the parts, and pictures."""
from __future__ import annotations

import os
import pathlib
from collections.abc import Iterator
from decimal import Decimal

from modeller.formulas import clauses_of

from . import parts, povray
from .runs import Run

TOP = pathlib.Path(__file__).resolve().parents[2]
PROGRAM = os.path.abspath(os.environ.get("MODELLER", TOP / "crates" / "modeller" / "out" / "modeller"))
FIELDS = ["/usr/bin/python3", "-I", str(TOP / "checks" / "compared" / "fields.py")]  # the Python of Debian's packages
OURS = "modeller"
OVER_FIELDS = {  # what fields.py is asked for, and what has to be installed
    "scikit-image": ("skimage", "scikit-image"), "VTK": ("vtk", "VTK"), "VTK's flying edges": ("flying", "VTK"),
}
LAYERS = 255


class Drawings:
    """Runs of the programs that are installed, which write into a folder; brief ones are coarse."""

    def __init__(self, room: pathlib.Path, installed: set[str], brief: bool) -> None:
        self.room, self.installed = room, installed
        self.fine = [(Decimal(2), 16)] if brief else [(Decimal("0.5"), 64), (Decimal("0.25"), 128)]  # cells and sides
        self.pixels = 32 if brief else 512
        for part in parts.PARTS:
            self.model(part).write_text(clauses_of(part.formulas))

    def model(self, part: parts.Part) -> pathlib.Path:
        return self.room / f"{part.name}.vm"

    def meshes(self) -> Iterator[Run]:
        """Each part by each program that makes meshes; the cylinder is drawn more finely, too."""
        for part in parts.PARTS:
            for at, (cell, sides) in enumerate(self.fine if part is parts.CYLINDER else self.fine[:1]):
                yield from self.mesh(part, at, cell, sides)

    def mesh(self, part: parts.Part, fine: int, cell: Decimal, sides: int) -> Iterator[Run]:
        name, counts, how = self.room / f"{part.name}-{fine}", part.cells(cell), f"cells of {cell} mm"
        words = [*settings(part.ends), *(f"n{axis}={count}" for axis, count in zip("xyz", counts))]
        yield Run(part.name, OURS, how, fine, [PROGRAM, "mesh", *words], name.with_suffix(".ply"), self.model(part))
        if "OpenSCAD" in self.installed:
            scad, out = name.with_suffix(".scad"), name.with_suffix(".stl")
            scad.write_text(f"$fn = {sides};\n{part.scad}\n")
            command = ["/usr/bin/openscad", "--export-format", "binstl", "-o", str(out), str(scad)]
            yield Run(part.name, "OpenSCAD", f"{sides} sides", fine, command, out)
        for by, work in self.over_fields():
            out = self.room / f"{part.name}-{fine}-{work}.stl"
            yield Run(part.name, by, how, fine, fields(work, self.model(part), out, part.ends, counts), out)

    def over_fields(self) -> Iterator[tuple[str, str]]:
        return ((by, work) for by, (work, needed) in OVER_FIELDS.items() if needed in self.installed)

    def starts(self) -> Iterator[Run]:
        """What goes by before a mesh over a field is drawn, which two cells along each axis tell."""
        for by, work in self.over_fields():
            out = self.room / f"start-{work}.stl"
            command = fields(work, self.model(parts.CYLINDER), out, parts.CYLINDER.ends, [2, 2, 2])
            yield Run("start", by, "", 0, command, out)

    def pictures(self) -> Iterator[Run]:
        """A picture and a height map, by numpy, too, and a shaded one, by POV-Ray, too."""
        wide, sieve = 2 * self.pixels, self.model(parts.SIEVE)
        sunflower = TOP / "examples" / "sunflower.vm"
        yield from self.by_numpy("sunflower", "render", sunflower, (1, 1, 1), [wide, wide, 1], f"{wide} x {wide}")
        counts, how = [self.pixels, self.pixels, LAYERS], f"{self.pixels} x {self.pixels} x {LAYERS}"
        yield from self.by_numpy("sieve from above", "height", sieve, parts.SIEVE.ends, counts, how)
        yield ours("sieve, shaded", "shade", sieve, parts.SIEVE.ends, counts, how, self.room / "shade.pgm")
        if "POV-Ray" in self.installed:
            out, scene = self.room / "shade.ppm", self.room / "shade.pov"
            scene.write_text(povray.scene(sieve.read_text(), parts.SIEVE.ends, self.pixels, accuracy=0.01))
            words = [f"+I{scene}", f"+O{out}", f"+W{self.pixels}", f"+H{self.pixels}", "+FP", "-D", "-A", "+WT1"]
            yield Run("sieve, shaded", "POV-Ray", f"{self.pixels} x {self.pixels}", 0, ["/usr/bin/povray", *words], out)

    def by_numpy(
        self, what: str, verb: str, model: pathlib.Path, ends: parts.Ends, counts: list[int], how: str
    ) -> Iterator[Run]:
        yield ours(what, verb, model, ends, counts, how, self.room / f"{verb}.pgm")
        if "numpy" in self.installed:
            out = self.room / f"{verb}-numpy.pgm"
            yield Run(what, "numpy", how, 0, fields(verb, model, out, ends, counts), out)


def settings(ends: parts.Ends) -> list[str]:
    """The ends of a view about the origin, as the program's settings."""
    return [f"{axis}{at}={sign}{end}" for axis, end in zip("xyz", ends) for at, sign in ((0, "-"), (1, ""))]


def ours(
    what: str, verb: str, model: pathlib.Path, ends: parts.Ends, counts: list[int], how: str, out: pathlib.Path
) -> Run:
    words = [f"w={counts[0]}", f"h={counts[1]}", *settings(ends)[: 4 if verb == "render" else 6]]
    return Run(what, OURS, how, 0, [PROGRAM, verb, *words], out, model)


def fields(work: str, model: pathlib.Path, out: pathlib.Path, ends: parts.Ends, counts: list[int]) -> list[str]:
    return [*FIELDS, work, *map(str, (model, out, *ends, *counts))]
