"""Meshes and images in other forms, read back by a few lines of their own that know the form alone."""
from __future__ import annotations

import collections
import os
import pathlib
import re
import stat
import struct
import subprocess
import sys
import tempfile
import textwrap
import unittest
import zlib
from unittest import mock

from modeller import files, program
from modeller.errors import BadFile, CannotSave
from tests.support import PYTHON, ROOT, example

TETRAHEDRON = files.Mesh(
    [(0.0, 0.0, 0.0), (1.0, 0.0, 0.0), (0.0, 1.0, 0.0), (0.0, 0.0, 1.0)], [(0, 2, 1), (0, 1, 3), (0, 3, 2), (1, 2, 3)]
)


def single(value: float) -> float:
    """A number in single precision."""
    return struct.unpack("<f", struct.pack("<f", value))[0]


def triangles(stl: bytes) -> list[tuple[float, ...]]:
    """The nine numbers of each triangle of a binary STL file."""
    (count,) = struct.unpack_from("<I", stl, 80)
    assert len(stl) == 84 + 50 * count
    return [struct.unpack_from("<9f", stl, 84 + 50 * it + 12) for it in range(count)]


def edges(stl: bytes) -> collections.Counter[tuple[tuple[float, ...], tuple[float, ...]]]:
    """How often each edge stands in a binary STL file, by its ends in their order."""
    found: collections.Counter[tuple[tuple[float, ...], tuple[float, ...]]] = collections.Counter()
    for it in triangles(stl):
        corners = it[:3], it[3:6], it[6:]
        found.update(zip(corners, corners[1:] + corners[:1]))
    return found


class Ply(unittest.TestCase):
    def test_the_mesh_of_the_program(self) -> None:
        data = program.run("mesh", {"n": 16}, example("bracket.vm"))
        mesh = files.read_ply(data)
        lines = data.decode().splitlines()
        start = lines.index("end_header") + 1
        vertices = [tuple(map(float, it.split())) for it in lines[start : start + len(mesh.vertices)]]
        faces = [tuple(map(int, it.split()[1:])) for it in lines[start + len(vertices) :]]
        self.assertGreater(len(faces), 1000)
        self.assertEqual((mesh.vertices, mesh.faces), (vertices, faces))

    def test_an_empty_mesh(self) -> None:
        mesh = files.read_ply(program.run("mesh", {"n": 2}, "a const 1\n"))
        self.assertEqual((mesh.vertices, mesh.faces), ([], []))

    def test_what_is_no_such_mesh(self) -> None:
        whole = program.run("mesh", {"n": 2}, "a const -1\n")
        head, body = whole.split(b"end_header\n")
        cases = {
            "nothing": b"",
            "a picture": b"P5\n1 1\n255\n\0",
            "a binary one": whole.replace(b"ascii", b"binary_little_endian"),
            "a header alone": head,
            "less than it says": whole[:-8],
            "more than it says": whole + b"3 0 1 2\n",
            "a vertex that is not there": re.sub(rb"3 \d+ ", b"3 99 ", whole, count=0),
            "a quad": re.sub(rb"\n3 ", b"\n4 ", whole),
            "a word for a number": whole.replace(body[:4], b"zero", 1),
            "colours, too": whole.replace(b"property double z", b"property double z\nproperty uchar red"),
            "no faces": whole.replace(b"element face", b"element edge"),
        }
        for name, data in cases.items():
            with self.subTest(name), self.assertRaises(BadFile):
                files.read_ply(data)


class Stl(unittest.TestCase):
    def test_a_tetrahedron(self) -> None:
        stl = files.stl_of(TETRAHEDRON)
        self.assertFalse(stl.startswith(b"solid"))
        self.assertEqual(
            triangles(stl),
            [tuple(number for corner in face for number in TETRAHEDRON.vertices[corner]) for face in TETRAHEDRON.faces],
        )
        normals = [struct.unpack_from("<3f", stl, 84 + 50 * it) for it in range(4)]
        third = single(3**-0.5)
        self.assertEqual(normals, [(0, 0, -1), (0, -1, 0), (-1, 0, 0), (third, third, third)])

    def test_it_has_the_triangles_of_the_ply(self) -> None:
        for name, settings in {"bracket.vm": {"n": 32}, "bowl.vm": {"n": 32}, "pipes.vm": {"n": 24}}.items():
            with self.subTest(name):
                mesh = files.read_ply(program.run("mesh", settings, example(name)))
                corners = [
                    tuple(tuple(map(single, mesh.vertices[it])) for it in face) for face in mesh.faces
                ]
                kept = [it for it in corners if len(set(it)) == 3]
                stl = files.stl_of(mesh)
                self.assertEqual(triangles(stl), [sum(it, ()) for it in kept])
                found = edges(stl)
                self.assertEqual(found, {(b, a): count for (a, b), count in found.items()})

    def test_faces_whose_corners_fall_together_are_left_out(self) -> None:
        near = 100.0 + 1e-9  # the single that is nearest is 100
        vertices = [(100.0, 0.0, 0.0), (near, 0.0, 0.0), (0.0, 50.0, 0.0), (0.0, -50.0, 0.0), (0.0, 0.0, 50.0)]
        faces = [(0, 1, 4), (0, 3, 1), (0, 4, 3), (1, 3, 2), (1, 2, 4), (2, 3, 4)]
        self.assertTrue(files.is_closed(files.Mesh(vertices, faces)))
        stl = files.stl_of(files.Mesh(vertices, faces))
        self.assertEqual(len(triangles(stl)), 4)
        self.assertEqual(set(edges(stl).values()), {1})

    def test_flat_faces_stay(self) -> None:
        flat = files.Mesh([(0.0, 0.0, 0.0), (1.0, 0.0, 0.0), (2.0, 0.0, 0.0)], [(0, 1, 2), (2, 1, 0)])
        self.assertEqual(len(triangles(files.stl_of(flat))), 2)

    def test_an_open_mesh_is_not_saved(self) -> None:
        for faces in (TETRAHEDRON.faces[:3], [*TETRAHEDRON.faces[:3], (3, 2, 1)], TETRAHEDRON.faces + [(0, 2, 1)]):
            with self.subTest(faces), self.assertRaises(BadFile) as caught:
                files.stl_of(files.Mesh(TETRAHEDRON.vertices, faces))
            self.assertIn("not closed", str(caught.exception))

    def test_an_empty_mesh_is_not_saved(self) -> None:
        with self.assertRaises(BadFile):
            files.stl_of(files.Mesh([], []))

    def test_a_vertex_beyond_single_precision(self) -> None:
        with self.assertRaises(BadFile):
            files.stl_of(files.Mesh([(1e39, 0.0, 0.0), *TETRAHEDRON.vertices[1:]], TETRAHEDRON.faces))


def unpacked(png: bytes) -> tuple[int, int, int, bytes]:
    """The width, height, bits and samples of a grey PNG file whose rows have no filter."""
    assert png[:8] == b"\x89PNG\r\n\x1a\n"
    at, chunks = 8, []
    while at < len(png):
        (length,) = struct.unpack_from(">I", png, at)
        kind, data = png[at + 4 : at + 8], png[at + 8 : at + 8 + length]
        assert struct.unpack_from(">I", png, at + 8 + length)[0] == zlib.crc32(kind + data)
        chunks.append((kind, data))
        at += 12 + length
    assert [it for it, _ in chunks] == [b"IHDR", b"IDAT", b"IEND"]
    width, height, bits, *rest = struct.unpack(">IIBBBBB", chunks[0][1])
    assert rest == [0, 0, 0, 0]
    rows, line = zlib.decompress(chunks[1][1]), 1 + width * bits // 8
    assert len(rows) == height * line and all(rows[it * line] == 0 for it in range(height))
    return width, height, bits, b"".join(rows[it * line + 1 : (it + 1) * line] for it in range(height))


class Images(unittest.TestCase):
    def test_a_picture_as_png(self) -> None:
        pgm = program.run("render", {"w": 37, "h": 21}, example("heart.vm"))
        self.assertEqual(unpacked(files.png_of(pgm)), (37, 21, 8, pgm.split(b"\n", 3)[3]))

    def test_greys_are_stretched_to_white(self) -> None:
        cases = [(2, bytes([0, 1, 2]), 8, bytes([0, 128, 255])), (100, bytes([0, 50, 100]), 8, bytes([0, 128, 255]))]
        cases.append((1000, struct.pack(">3H", 0, 500, 1000), 16, struct.pack(">3H", 0, 32768, 65535)))
        for most, samples, bits, wanted in cases:
            with self.subTest(most):
                png = files.png_of(b"P5\n3 1\n%d\n" % most + samples)
                self.assertEqual(unpacked(png), (3, 1, bits, wanted))

    def test_a_sample_that_is_a_line_feed(self) -> None:
        self.assertEqual(unpacked(files.png_of(b"P5\n2 1\n255\n\n\n"))[3], b"\n\n")

    def test_what_is_no_such_picture(self) -> None:
        for data in (b"", b"P6\n1 1\n255\n\0\0\0", b"P5\n2 1\n255\n\0", b"P5\n1 1\n0\n\0", b"P5\n1\n255\n\0", b"ply\n"):
            with self.subTest(data), self.assertRaises(BadFile):
                files.png_of(data)

    def test_a_sheet_of_pictures(self) -> None:
        white, black = b"P5\n1 1\n1\n\1", b"P5\n2 1\n255\n\0\0"
        image = files.read_pgm(files.sheet([white, black, black], columns=2, gap=1))
        self.assertEqual((image.width, image.height, image.most), (7, 5, 255))
        rows = [image.samples[it * 7 : it * 7 + 7].hex(" ") for it in range(5)]
        self.assertEqual(rows[1], "60 ff 00 60 00 00 60")
        self.assertEqual(rows[3], "60 00 00 60 60 60 60")
        self.assertEqual({rows[0], rows[2], rows[4]}, {"60 60 60 60 60 60 60"})

    def test_an_outline_as_svg(self) -> None:
        path = program.run("contour", {"n": 16, "x0": -1, "x1": 3, "y0": -1, "y1": 1}, example("disc.vm")).decode()
        svg = files.svg_of(path, (-1, 3, -1, 1))
        self.assertIn('width="4mm" height="2mm" viewBox="-1 -1 4 2"', svg)
        self.assertIn(f'd="{path.strip()}"', svg)
        self.assertIn('viewBox="0 -7.5 10 5"', files.svg_of(path, (0, 10, 2.5, 7.5)))


class ThreeMf(unittest.TestCase):
    def test_without_trimesh_it_says_so(self) -> None:
        with mock.patch.dict(sys.modules, {"trimesh": None}), self.assertRaises(BadFile) as caught:
            files.three_mf_of(TETRAHEDRON)
        self.assertIn("trimesh", str(caught.exception))


class Saving(unittest.TestCase):
    def test_a_file_is_new_or_replaced(self) -> None:
        with tempfile.TemporaryDirectory() as folder:
            path = pathlib.Path(folder) / "part.stl"
            files.save(path, b"one")
            self.assertEqual(path.read_bytes(), b"one")
            path.chmod(0o640)
            files.save(str(path), "two \u00fc")
            self.assertEqual(path.read_text("utf-8"), "two \u00fc")
            self.assertEqual(stat.S_IMODE(path.stat().st_mode), 0o640)
            self.assertEqual(os.listdir(folder), ["part.stl"])

    def test_a_link_stays_a_link(self) -> None:
        with tempfile.TemporaryDirectory() as folder:
            path, link = pathlib.Path(folder) / "part.stl", pathlib.Path(folder) / "link.stl"
            path.write_bytes(b"one")
            link.symlink_to(path)
            files.save(link, b"two")
            self.assertTrue(link.is_symlink())
            self.assertEqual(path.read_bytes(), b"two")

    def test_a_full_device(self) -> None:
        with self.assertRaises(CannotSave) as caught:
            files.save("/dev/full", b"one")
        self.assertEqual(str(caught.exception), "/dev/full was not saved: No space left on device")

    def test_a_folder_that_is_missing(self) -> None:
        with self.assertRaises(CannotSave) as caught:
            files.save("/nowhere/part.stl", b"one")
        self.assertIn("No such file or directory", str(caught.exception))

    def test_on_a_full_disk_what_stood_before_still_stands(self) -> None:
        code = textwrap.dedent("""
            import resource, sys
            from modeller import files
            resource.setrlimit(resource.RLIMIT_FSIZE, (1000, 1000))
            try:
                files.save(sys.argv[1], b"x" * 2000)
            except files.CannotSave as error:
                print(error)
        """)
        with tempfile.TemporaryDirectory() as folder:
            path = pathlib.Path(folder) / "part.stl"
            path.write_bytes(b"before")
            done = subprocess.run(
                [sys.executable, "-c", code, path], env={**os.environ, "PYTHONPATH": str(PYTHON)},
                capture_output=True, text=True, check=True, cwd=ROOT,
            )
            self.assertEqual(done.stdout, f"{path} was not saved: File too large\n")
            self.assertEqual(path.read_bytes(), b"before")
            self.assertEqual(os.listdir(folder), ["part.stl"])
