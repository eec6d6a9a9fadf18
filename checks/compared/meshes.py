"""What a mesh in a binary STL file has: its triangles, what CGAL and PrusaSlicer say of it, and how true it is."""
from __future__ import annotations

import pathlib
import re
import struct
import subprocess
import tempfile
import time
from collections.abc import Iterator

from modeller import files

from . import parts
from .runs import Run

MARGIN = 2.0  # mm: what is nearer to an edge belongs to the edge
Triangle = tuple[parts.Point, parts.Point, parts.Point]


def triangles(data: bytes) -> list[Triangle]:
    """The triangles of a binary STL file."""
    (count,) = struct.unpack_from("<I", data, 80)
    return [(row[3:6], row[6:9], row[9:12]) for row in struct.iter_unpack("<12fH", data[84:84 + 50 * count])]


def places(triangle: Triangle) -> Iterator[parts.Point]:
    """The corners of a triangle, the middles of its sides, and its own."""
    yield from triangle
    for left, right in ((0, 1), (1, 2), (2, 0)):
        yield tuple((p + q) / 2 for p, q in zip(triangle[left], triangle[right]))
    yield tuple(sum(axis) / 3 for axis in zip(*triangle))


def wall(mesh: list[Triangle], margin: float) -> float:
    """How far the triangles of the cylinder's wall are from it, but within a margin of its rims."""
    reach = parts.HEIGHT - margin
    heights = ((it, [corner[2] for corner in it]) for it in mesh)
    of_wall = (it for it, high in heights if min(high) < reach and max(high) > -reach)
    return max(parts.off_wall(place) for it in of_wall for place in places(it) if abs(place[2]) <= reach)


def flats(mesh: list[Triangle], margin: float) -> float:
    """How far the triangles of the block are from its sides, but within a margin of its edges."""
    found = (parts.off_flat(place, margin) for triangle in mesh for place in places(triangle))
    return max(it for it in found if it is not None)


def build(room: pathlib.Path) -> pathlib.Path:
    """The program that asks CGAL."""
    source = pathlib.Path(__file__).with_name("closed.cpp")
    subprocess.run(["g++", "-O1", "-o", room / "closed", source, "-lgmp", "-lmpfr"], check=True)
    return room / "closed"


def by_cgal(program: pathlib.Path, mesh: pathlib.Path, edges: list[parts.Point]) -> dict[str, object]:
    """Whether a mesh is closed, whether its triangles cut each other, and how far the true edges are from it."""
    with tempfile.NamedTemporaryFile("w") as file:
        file.writelines(f"{x} {y} {z}\n" for x, y, z in edges)
        file.flush()
        said = subprocess.run([program, mesh, file.name], check=True, capture_output=True, text=True).stdout
    lines, closed, cut, furthest = said.split()
    return {"lines": int(lines), "closed": closed, "cut": cut, **({"edges": float(furthest)} if edges else {})}


def by_slicer(mesh: pathlib.Path) -> str:
    """Whether PrusaSlicer calls a mesh a manifold."""
    said = subprocess.run(["/usr/bin/prusa-slicer", "--info", mesh], check=True, capture_output=True, text=True).stdout
    return re.search(r"^manifold = (\w+)", said, re.MULTILINE)[1]


def measure(drawn: list[Run], room: pathlib.Path, installed: set[str]) -> None:
    """What each mesh has is put beside what it took."""
    cgal = build(room) if "CGAL" in installed else None
    for run in drawn:
        part = next(it for it in parts.PARTS if it.name == run.what)
        file = as_stl(run)
        mesh = triangles(file.read_bytes())
        run.found["triangles"] = len(mesh) + run.found.get("left out", 0)
        if part is parts.CYLINDER:
            run.found["wall"] = wall(mesh, MARGIN)
        elif part is parts.BLOCK:
            run.found["flats"] = flats(mesh, MARGIN)
        if cgal:
            run.found.update(by_cgal(cgal, file, parts.edges(part)))
            lines = run.found["lines"] + run.found.get("left out", 0)
            run.found["closed"] += f", without {lines:,} that are lines" if lines else ""
        if "PrusaSlicer" in installed:
            run.found["manifold"] = by_slicer(file)


def as_stl(run: Run) -> pathlib.Path:
    """The mesh of a run as STL, which is made of a PLY file.

    How long that takes is kept, and how many triangles become lines in single precision, which are left out there.
    """
    if run.out.suffix == ".stl":
        return run.out
    begun, file = time.process_time(), run.out.with_name(f"{run.out.stem}-{run.by}.stl")
    mesh = files.read_ply(run.out.read_bytes())
    data = files.stl_of(mesh)
    file.write_bytes(data)
    run.found["stl"] = time.process_time() - begun
    run.found["left out"] = len(mesh.faces) - len(triangles(data))
    return file
