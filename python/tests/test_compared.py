"""What checks/compare measures, and the page that it writes."""
from __future__ import annotations

import math
import os
import pathlib
import shutil
import subprocess
import sys
import tempfile
import unittest

from modeller import files
from modeller.formulas import clauses_of
from modeller.program import find_program, run
from tests.support import ROOT, example

sys.path.insert(0, str(ROOT / "checks"))
from compared import meshes, page, parts, povray, runs  # noqa: E402  what checks/compare is made of


def drawn(by: str, seconds: float, **found: object) -> runs.Run:
    """A run that drew the block."""
    return runs.Run("block", by, "", 0, [], pathlib.Path(), seconds=seconds, found=found)


class Parts(unittest.TestCase):
    def test_true_edges_of_the_block_lie_on_two_sides_of_it(self) -> None:
        edges = parts.edges(parts.BLOCK)
        self.assertEqual(len(edges), 4 * (301 + 201 + 101))
        for edge in edges:
            self.assertAlmostEqual(parts.off_flat(edge, -1), 0)
            self.assertIsNone(parts.off_flat(edge, 1e-6))

    def test_a_mesh_is_off_by_what_its_cells_make_of_it(self) -> None:
        """The wall of the cylinder by its chords, and not by the rims, which are broken by half a cell."""
        model = clauses_of(parts.CYLINDER.formulas)
        ends = {f"{axis}{at}": (2 * at - 1) * end for axis, end in zip("xyz", parts.CYLINDER.ends) for at in (0, 1)}
        ply = run("mesh", {**ends, "nx": 24, "ny": 24, "nz": 14}, model)
        mesh = meshes.triangles(files.stl_of(files.read_ply(ply)))
        self.assertEqual(len(mesh), len(files.read_ply(ply).faces))
        self.assertLess(meshes.wall(mesh, 2), 0.05)
        self.assertGreater(meshes.wall(mesh, 0), 0.3)

    def test_a_scene_has_the_formula_of_a_model(self) -> None:
        scene = povray.scene(example("disc.vm"), (1, 1, 1), 3, 0.01)
        self.assertIn("function { (((x * x) + (y * y)) - (0.5)) }", scene)
        self.assertIn("right <3.0, 0, 0>", scene)


class Page(unittest.TestCase):
    def test_figures_have_two_digits(self) -> None:
        for value, text in (
            (None, "-"), (math.nan, "-"), (0, "0"), (12, "12"), (31234, "31,234"), (0.00371, "0.0037"), (1.25, "1.2"),
            (99.6, "100"), (123.4, "123"), (2e-7, "under 0.000001"),
        ):
            with self.subTest(value):
                self.assertEqual(page.figure(value), text)

    def test_what_is_better_is_told_by_the_figures(self) -> None:
        ours = drawn("modeller", seconds=1.05, triangles=9, closed="yes", edges=0.00009)
        theirs = drawn("OpenSCAD", seconds=1.0, triangles=10, closed="no", edges=0.00001)
        self.assertEqual(
            page.sides([ours, theirs]),
            "- **OpenSCAD** does nothing better. **modeller** draws fewer triangles for the block; alone draws what "
            "CGAL calls a\n  closed manifold for the block.",
        )
        theirs.seconds, theirs.found["edges"] = 0.9, 0.001
        self.assertEqual(page.cells(ours, [ours, theirs], (page.SECONDS, page.EDGES)), ["1.1", "**0.00009**"])
        self.assertEqual(page.cells(theirs, [ours, theirs], (page.SECONDS, page.EDGES)), ["**0.9**", "0.001"])

    def test_rows_of_the_readme_are_those_of_the_page(self) -> None:
        rows = [it for it in (ROOT / "README.md").read_text().splitlines() if it.startswith("| ")]
        told = (ROOT / "docs" / "COMPARED.md").read_text().splitlines()
        self.assertTrue(rows)
        self.assertEqual([it for it in rows if it not in told], [])

    @unittest.skipUnless(shutil.which("time"), "GNU time is not installed")
    def test_it_is_written_where_no_other_program_is_installed(self) -> None:
        with tempfile.TemporaryDirectory() as room:
            query, out = pathlib.Path(room) / "dpkg-query", pathlib.Path(room) / "page.md"
            query.write_text("#!/bin/sh\nexit 1\n")
            query.chmod(0o755)
            environment = {**os.environ, "PATH": f"{room}:{os.environ['PATH']}", "MODELLER": str(find_program())}
            subprocess.run([ROOT / "checks" / "compare", "--brief", out], env=environment, check=True)
            text = out.read_text()
        self.assertIn("Not installed were OpenSCAD, scikit-image, VTK, numpy, POV-Ray, CGAL and PrusaSlicer", text)
        row = r"(?m)^\| cylinder \| modeller \| cells of 2 mm \| [\d.]+ \| [\d.]+ \| 1,968 \| - \| - \| - \|$"
        self.assertRegex(text, row)


if __name__ == "__main__":
    unittest.main()
