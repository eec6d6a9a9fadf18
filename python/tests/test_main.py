"""`python3 -m modeller part.py`, as a user calls it."""
from __future__ import annotations

import os
import pathlib
import signal
import struct
import subprocess
import sys
import tempfile
import time
import unittest

from modeller import box, cylinder, files
from modeller.__main__ import load
from modeller.errors import ModellerError
from tests.support import PYTHON, ROOT

PLATE = """\
from modeller import *

wall = size("wall", 2)
plate = box(30, 20, wall)
part = plate - cylinder(3, 10)
"""


class Called(unittest.TestCase):
    def setUp(self) -> None:
        room = tempfile.TemporaryDirectory()
        self.addCleanup(room.cleanup)
        self.folder = pathlib.Path(room.name)
        self.write(PLATE)
        self.environment = {**os.environ, "PYTHONPATH": str(PYTHON)}

    def write(self, text: str) -> None:
        (self.folder / "plate.py").write_text(text)

    def call(self, *words: str) -> subprocess.CompletedProcess[str]:
        return subprocess.run(
            [sys.executable, "-m", "modeller", *words], cwd=self.folder, env=self.environment, capture_output=True,
            text=True, timeout=120,
        )

    def refused(self, *words: str) -> str:
        """What a call that fails says; it writes no file."""
        done = self.call("plate.py", *words)
        self.assertNotEqual(done.returncode, 0)
        self.assertEqual(sorted(it.name for it in self.folder.iterdir() if it.suffix != ".py"), [])
        return done.stderr

    def test_what_the_part_measures_its_mesh_and_its_views(self) -> None:
        done = self.call("plate.py", "--mesh", "plate.stl", "--cell", "0.5")
        self.assertEqual((done.returncode, done.stderr), (0, ""))
        mesh = (box(30, 20, 2) - cylinder(3, 10)).mesh(cell=0.5)
        self.assertEqual(
            done.stdout.splitlines(),
            [
                "x from -15 to 15 mm", "y from -10 to 10 mm", "z from -1 to 1 mm", "size 30 x 20 x 2 mm",
                f"{len(mesh.faces):,} triangles, by cells of 0.5 mm", "mesh plate.stl", "views plate-views.png",
            ],
        )
        self.assertEqual((self.folder / "plate.stl").read_bytes(), files.stl_of(mesh.mesh))
        png = (self.folder / "plate-views.png").read_bytes()
        width, height = struct.unpack_from(">II", png, 16)
        self.assertEqual(width, 2 * 360 + 3 * 8)
        self.assertGreater(height, 360)

    def test_a_size_is_set_and_without_a_cell_one_is_chosen(self) -> None:
        done = self.call("plate.py", "--views", "sheet.png", "--set", "wall=3.5")
        self.assertIn("size 30 x 20 x 3.5 mm", done.stdout)
        self.assertIn("by cells of 0.5 mm", done.stdout)  # 30 mm by a hundred, and the next of 1, 2 and 5
        self.assertEqual(sorted(os.listdir(self.folder)), ["plate.py", "sheet.png"])

    def test_the_views_lie_beside_the_part(self) -> None:
        (self.folder / "parts").mkdir()
        (self.folder / "parts" / "cube.py").write_text("from modeller import *\npart = box(8)\n")
        self.assertIn("views parts/cube-views.png\n", self.call("parts/cube.py", "--cell", "1").stdout)
        self.assertEqual(sorted(os.listdir(self.folder / "parts")), ["cube-views.png", "cube.py"])

    def test_a_reader_that_goes_away_is_no_error_of_python(self) -> None:
        self.write("from modeller import *\nprint('begun', flush=True)\npart = box(8)\nprint('x' * 9_000_000)\n")
        process = self.begin("plate.py")
        assert process.stdout is not None and process.stderr is not None
        self.assertEqual(process.stdout.readline(), "begun\n")
        process.stdout.close()
        self.assertEqual((process.stderr.read(), process.wait(20)), ("", 1))

    def test_a_size_that_is_not_there(self) -> None:
        self.assertIn("no size wal; the nearest is wall", self.refused("--set", "wal=3"))
        self.assertIn("wall=3", self.refused("--set", "wall"))
        self.assertIn("'2,5' is none", self.refused("--set", "wall=2,5"))

    def test_a_cell_that_is_none(self) -> None:
        for cell in ("-1", "nan", "0,4"):
            with self.subTest(cell):
                self.assertIn(repr(cell), self.refused(f"--cell={cell}"))

    def test_too_many_cells_name_the_least(self) -> None:
        self.assertIn("least cell that fits", self.refused("--cell", "0.01"))

    def test_a_file_that_is_not_there(self) -> None:
        done = self.call("plaet.py")
        self.assertEqual(done.returncode, 1)
        self.assertEqual(done.stderr, "modeller: plaet.py can not be read: No such file or directory\n")

    def test_a_file_without_a_part(self) -> None:
        self.write("from modeller import *\na = size('a', 1)\n")
        self.assertIn("no solid at its top level", self.refused())

    def test_the_last_solid_where_none_is_named_part(self) -> None:
        (self.folder / "sizes.py").write_text("long = 12\n")  # a module beside it
        self.write("from modeller import *\nfrom sizes import long\na = box(1)\nb = box(long, 5, 6)\nc = 7\n")
        self.assertIn("size 12 x 5 x 6 mm", self.call("plate.py").stdout)

    def test_a_refusal_names_the_line(self) -> None:
        self.write("from modeller import *\npart = box(10, 5, 6)\npart = part - cylinder(-1, 3)\n")
        self.assertRegex(self.refused(), r"^modeller: plate.py, line 3: .*\n$")

    def test_an_error_of_python_is_shown_from_its_own_line(self) -> None:
        self.write("from modeller import *\npart = box(10, 5, 6)\n\nradius = 3 / 0\n")
        told = self.refused()
        self.assertIn("line 4, in <module>", told)
        self.assertIn("ZeroDivisionError", told)
        self.assertNotIn("runpy", told)
        self.write("part = box(10, 5,\n")
        self.assertIn("SyntaxError", self.refused())
        self.write("import sys\nsys.exit(0)\n")
        self.refused()

    def test_a_full_disk(self) -> None:
        done = self.call("plate.py", "--views", "/dev/full")
        self.assertEqual(done.returncode, 1)
        self.assertIn("modeller: /dev/full was not saved: No space left on device\n", done.stderr)

    def test_a_program_that_is_missing(self) -> None:
        self.environment["MODELLER"] = "/nowhere"
        self.assertEqual(self.refused(), "modeller: MODELLER names /nowhere, which is no program\n")

    def test_the_version(self) -> None:
        self.assertEqual(self.call("--version").stdout, (ROOT / "VERSION").read_text())

    def test_an_interrupt(self) -> None:
        self.write("import time\nprint('begun', flush=True)\ntime.sleep(60)\n")
        process = self.begin("plate.py")
        assert process.stdout is not None
        self.assertEqual(process.stdout.readline(), "begun\n")
        process.send_signal(signal.SIGINT)
        self.assertEqual(process.communicate(timeout=20)[1], "modeller: interrupted\n")
        self.assertEqual(process.returncode, 130)

    def begin(self, *words: str) -> subprocess.Popen[str]:
        process = subprocess.Popen(
            [sys.executable, "-u", "-m", "modeller", *words], cwd=self.folder, env=self.environment, text=True,
            stdout=subprocess.PIPE, stderr=subprocess.PIPE, start_new_session=True,
        )
        self.addCleanup(process.wait)
        self.addCleanup(process.kill)
        return process

    def test_a_file_that_is_watched_is_drawn_anew(self) -> None:
        process = self.begin("plate.py", "--watch", "--cell", "1")
        assert process.stdout is not None
        lines = iter(process.stdout.readline, "")
        until = lambda word: next(it for it in lines if word in it)  # noqa: E731
        until("size 30 x 20 x 2 mm")
        until("watching plate.py")
        before = (self.folder / "plate-views.png").read_bytes()
        self.write(PLATE.replace('"wall", 2', '"wall", 9'))
        until("size 30 x 20 x 9 mm")
        until("watching plate.py")
        self.assertNotEqual((self.folder / "plate-views.png").read_bytes(), before)
        self.write("part = (\n")
        until("watching plate.py")
        self.write(PLATE)
        until("size 30 x 20 x 2 mm")
        os.killpg(process.pid, signal.SIGINT)
        process.communicate(timeout=20)
        self.assertEqual(process.returncode, 130)


class Loaded(unittest.TestCase):
    def test_sizes_are_set_for_one_file_alone(self) -> None:
        with tempfile.TemporaryDirectory() as folder:
            path = os.path.join(folder, "plate.py")
            pathlib.Path(path).write_text(PLATE)
            self.assertEqual(load(path, {"wall": "3"}).sizes(), {"wall": 3.0})
            self.assertEqual(load(path, {}).sizes(), {"wall": 2.0})
            with self.assertRaises(ModellerError):
                load(path, {"wall": "three"})
            self.assertEqual(load(path, {}).sizes(), {"wall": 2.0})
            self.assertNotIn(folder, sys.path)
