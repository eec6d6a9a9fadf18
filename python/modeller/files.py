"""Reading what the program writes, and writing it in the forms that other programs read."""
from __future__ import annotations

import contextlib
import math
import os
import pathlib
import struct
import tempfile
import zlib
from array import array
from collections.abc import Sequence
from dataclasses import dataclass
from itertools import chain

from .errors import BadFile, CannotSave

Point = tuple[float, float, float]
Face = tuple[int, int, int]


@dataclass(frozen=True)
class Mesh:
    """Triangles: the places of the vertices, and of each face the numbers of its three vertices from 0."""

    vertices: list[Point]
    faces: list[Face]


@dataclass(frozen=True)
class Image:
    """Samples of grey, row by row from the top, from 0 to `most`; one byte each where `most` is below 256, else two."""

    width: int
    height: int
    most: int
    samples: bytes

    def pgm(self) -> bytes:
        """The image as a PGM file in the P5 form."""
        return b"P5\n%d %d\n%d\n" % (self.width, self.height, self.most) + self.samples


def read_ply(data: bytes) -> Mesh:
    """The mesh of a PLY file as `modeller mesh` writes it; anything else is a `BadFile`."""
    header, mark, body = data.partition(b"\nend_header\n")
    lines = header.split(b"\n")
    if not mark or lines[:2] != [b"ply", b"format ascii 1.0"]:
        raise BadFile("this is no PLY file in the ASCII form")
    counts = {line.split()[1]: line.split()[2] for line in lines if len(line.split()) == 3 and line[:8] == b"element "}
    names = [line.split()[-1] for line in lines if line[:9] == b"property "]
    if list(counts) != [b"vertex", b"face"] or names not in (
        [b"x", b"y", b"z", b"vertex_indices"], [b"x", b"y", b"z", b"vertex_index"],
    ):
        raise BadFile("this PLY file has other parts than the vertices and the faces of a mesh of the program")
    try:
        vertex_count, face_count = int(counts[b"vertex"]), int(counts[b"face"])
        words = body.split()
        places = list(map(float, words[: 3 * vertex_count]))
        corners = list(map(int, words[3 * vertex_count :]))
    except ValueError as error:
        raise BadFile(f"this PLY file has something else where a number should stand: {error}") from error
    if len(places) != 3 * vertex_count or len(corners) != 4 * face_count or any(size != 3 for size in corners[::4]):
        raise BadFile("this PLY file has more or fewer numbers than it says, or faces that are no triangles")
    columns = corners[1::4], corners[2::4], corners[3::4]
    if corners and not (min(map(min, columns)) >= 0 and max(map(max, columns)) < vertex_count):
        raise BadFile("this PLY file has a face whose vertex is not there")
    return Mesh(list(zip(places[::3], places[1::3], places[2::3])), list(zip(*columns)))


def single(mesh: Mesh) -> Mesh:
    """The mesh in single precision, as an STL file has it.

    Vertices at one place become one, and faces two of whose corners became one are left out; all others stay.
    """
    rounded = array("f", chain.from_iterable(mesh.vertices))
    if not all(map(math.isfinite, rounded)):
        raise BadFile("the mesh has a vertex too far out for single precision")
    number: dict[Point, int] = {}
    place = [number.setdefault(it, len(number)) for it in zip(rounded[::3], rounded[1::3], rounded[2::3])]
    faces = [(place[a], place[b], place[c]) for a, b, c in mesh.faces]
    return Mesh(list(number), [it for it in faces if it[0] != it[1] and it[1] != it[2] and it[2] != it[0]])


def is_closed(mesh: Mesh) -> bool:
    """Whether each edge runs back as often as it runs forth, so that the faces have no border."""
    count = len(mesh.vertices)
    forth, back = [], []
    for a, b, c in mesh.faces:
        forth += (a * count + b, b * count + c, c * count + a)
        back += (b * count + a, c * count + b, a * count + c)
    forth.sort()
    back.sort()
    return forth == back


def stl_of(mesh: Mesh) -> bytes:
    """The mesh as a binary STL file, whose numbers have single precision.

    Only faces two of whose corners became one place there are left out, and what is left is checked to be closed; a
    `BadFile` says that it is not, or that nothing is left. That the mesh is closed and a manifold is proved of the PLY
    file that the program wrote, and not of this one.
    """
    rounded = single(mesh)
    if not rounded.faces:
        raise BadFile("the mesh has no face, so there is nothing to save")
    if not is_closed(rounded):
        raise BadFile("the mesh is not closed, so it was not saved: an edge of a face has no partner")
    pack = struct.Struct("<12fH").pack
    vertices = rounded.vertices
    rows = []
    for a, b, c in rounded.faces:
        p, q, r = vertices[a], vertices[b], vertices[c]
        rows.append(pack(*_normal(p, q, r), *p, *q, *r, 0))
    return b"modeller, binary STL".ljust(80) + struct.pack("<I", len(rows)) + b"".join(rows)


def _normal(p: Point, q: Point, r: Point) -> Point:
    """The unit normal of a triangle, or 0 where its corners lie on one line."""
    ux, uy, uz = q[0] - p[0], q[1] - p[1], q[2] - p[2]
    vx, vy, vz = r[0] - p[0], r[1] - p[1], r[2] - p[2]
    x, y, z = uy * vz - uz * vy, uz * vx - ux * vz, ux * vy - uy * vx
    length = math.hypot(x, y, z)
    return (x / length, y / length, z / length) if length else (0.0, 0.0, 0.0)


def three_mf_of(mesh: Mesh) -> bytes:
    """The mesh as a 3MF file in millimetres, which the package `trimesh` writes; without it this is a `BadFile`."""
    try:
        import trimesh
    except ImportError as error:
        raise BadFile("a 3MF file is written by the package trimesh, which is not there; .stl needs none") from error
    try:
        return bytes(trimesh.Trimesh(mesh.vertices, mesh.faces, process=False).export(file_type="3mf"))
    except Exception as error:  # which one depends on the version, as where lxml, of which it makes use, is not there
        raise BadFile(f"trimesh could not write the 3MF file: {error}") from error


def read_pgm(data: bytes) -> Image:
    """The image of a PGM file as the program writes it; anything else is a `BadFile`."""
    try:
        magic, size, most, samples = data.split(b"\n", 3)
        width, height = map(int, size.split())
        image = Image(width, height, int(most), samples)
    except ValueError as error:
        raise BadFile("this is no PGM file of the program") from error
    if magic != b"P5" or not 0 < image.most < 65536 or len(samples) != width * height * (1 if image.most < 256 else 2):
        raise BadFile("this is no PGM file of the program")
    return image


def grey(image: Image) -> Image:
    """The image with a byte a sample, from 0 to 255."""
    if image.most == 255:
        return image
    if image.most < 256:
        table = bytes(min(255, (2 * 255 * it + image.most) // (2 * image.most)) for it in range(256))
        return Image(image.width, image.height, 255, image.samples.translate(table))
    wide = struct.unpack(f">{image.width * image.height}H", image.samples)
    return Image(image.width, image.height, 255, bytes((2 * 255 * it + image.most) // (2 * image.most) for it in wide))


def png_of(pgm: bytes) -> bytes:
    """A PGM image as PNG: 8 bits a sample, or 16 where the image has more than 256 greys."""
    image = read_pgm(pgm)
    deep = image.most > 255
    if not deep:
        image = grey(image)
    elif image.most < 65535:
        wide = struct.unpack(f">{image.width * image.height}H", image.samples)
        scaled = [(2 * 65535 * it + image.most) // (2 * image.most) for it in wide]
        image = Image(image.width, image.height, 65535, struct.pack(f">{len(scaled)}H", *scaled))
    line = image.width * (2 if deep else 1)
    rows = b"".join(b"\0" + image.samples[it : it + line] for it in range(0, len(image.samples), line))
    head = struct.pack(">IIBBBBB", image.width, image.height, 16 if deep else 8, 0, 0, 0, 0)
    return b"\x89PNG\r\n\x1a\n" + _chunk(b"IHDR", head) + _chunk(b"IDAT", zlib.compress(rows, 9)) + _chunk(b"IEND", b"")


def _chunk(kind: bytes, data: bytes) -> bytes:
    return struct.pack(">I", len(data)) + kind + data + struct.pack(">I", zlib.crc32(kind + data))


def sheet(images: Sequence[bytes], columns: int = 2, gap: int = 8) -> bytes:
    """PGM images in rows of so many, each in the middle of a black field, as one PGM image with grey between."""
    greys = [grey(read_pgm(it)) for it in images]
    field_width, field_height = max(it.width for it in greys), max(it.height for it in greys)
    blank = Image(field_width, field_height, 255, bytes(field_width * field_height))
    rows = -(-len(greys) // columns)
    width, height = columns * (field_width + gap) + gap, rows * (field_height + gap) + gap
    ground = bytearray(b"\x60" * (width * height))
    for number, image in enumerate(greys):
        left, top = gap + number % columns * (field_width + gap), gap + number // columns * (field_height + gap)
        _lay(ground, width, left, top, blank)
        _lay(ground, width, left + (field_width - image.width) // 2, top + (field_height - image.height) // 2, image)
    return Image(width, height, 255, bytes(ground)).pgm()


def _lay(ground: bytearray, width: int, left: int, top: int, image: Image) -> None:
    """Copies an image onto a larger one of so many columns."""
    for row in range(image.height):
        start = (top + row) * width + left
        ground[start : start + image.width] = image.samples[row * image.width : (row + 1) * image.width]


def svg_of(path: str, ends: Sequence[object]) -> str:
    """The outline that `modeller contour` wrote, as an SVG file of its size in millimetres.

    `ends` are x0, x1, y0 and y1 of the contour. SVG counts y downwards, so the outline is turned over.
    """
    x0, x1, y0, y1 = map(float, ends)  # type: ignore[arg-type]
    width, height = f"{x1 - x0:.10g}", f"{y1 - y0:.10g}"
    data = " ".join(path.split())
    return (
        f'<svg xmlns="http://www.w3.org/2000/svg" width="{width}mm" height="{height}mm" '
        f'viewBox="{x0:.10g} {-y1:.10g} {width} {height}">\n'
        f'<path transform="scale(1,-1)" d="{data}"/>\n</svg>\n'
    )


def save(path: str | os.PathLike[str], data: bytes | str) -> None:
    """Writes a file whole or not at all: where that fails, what stood under its name before still stands.

    The bytes go into a file beside it first, which takes its name at the end. What is no plain file, as a pipe or a
    device, is written to at once. A `CannotSave` says why it was not written.
    """
    target = pathlib.Path(path)
    content = data.encode("utf-8", "surrogateescape") if isinstance(data, str) else data
    try:
        if target.exists() and not target.is_file():
            target.write_bytes(content)
        else:
            _replace(target.resolve(), content)
    except OSError as error:
        raise CannotSave(f"{target} was not saved: {error.strerror or error}") from error


def _replace(target: pathlib.Path, content: bytes) -> None:
    handle, name = tempfile.mkstemp(dir=target.parent, prefix=f".{target.name}.")
    try:
        with open(handle, "wb") as file:
            file.write(content)
        os.chmod(name, target.stat().st_mode & 0o7777 if target.exists() else 0o666 & ~_umask())
        os.replace(name, target)
    except BaseException:
        with contextlib.suppress(OSError):
            os.unlink(name)
        raise


def _umask() -> int:
    mask = os.umask(0)
    os.umask(mask)
    return mask
