"""Meshes, pictures, outlines and files of a part, as the program draws them."""

import math
import os
import struct
import tempfile
import unittest
import warnings
import zlib
from fractions import Fraction

from modeller import (
    Bounds, EmptyPart, TooManyCells, TouchesBorder, ball, box, capsule, cone, cylinder, extrude, gyroid, half_space,
    polygon, prism, size, slot, solid, text, thread, torus, x, y, z, length, max, min,
)
from modeller import files, program
from modeller.exact import evaluator
from modeller.faults import WrongNumber, WrongType
from modeller.raw import exact, raw_constant
from tests.surfaces import UNIT, Exact


class Meshes(unittest.TestCase):
    def test_the_wall_of_a_cylinder_has_its_radius(self):
        part = cylinder(10, 10)
        for cell, within in ((0.5, 0.014), (0.25, 0.008)):
            vertices = part.mesh(cell).vertices
            wall = [math.hypot(a, b) - 10 for a, b, c in vertices if abs(c) < 4.999]
            self.assertGreater(len(wall), 5000)
            self.assertLess(max(abs(it) for it in wall), within)

    def test_vertices_lie_near_the_surface_and_meshes_are_closed(self):
        for part, share in [
            (ball(5), 0.1), (box(9, 7, 5, radius=1), 0.25), (cone(5, 8, 2), 0.5), (torus(5, 2), 0.15),
            (capsule(2, 9), 0.2),
            (prism(6, 5, 4), 0.5), (extrude(slot(12, 5), 4), 0.2),
            (extrude(polygon((0, 0), (9, 0), (9, 8), (4, 2)), 4), 0.5),
            (extrude(text("aR", 9, 1.5), 2), 0.6), (thread(5, 1.5, 6), 0.6), (gyroid(12, 1.5) & ball(6), 0.6),
        ]:
            for align in ("grid", "half") if share < 0.2 else ("grid",):
                with self.subTest(repr(part), align=align):
                    drawn = part.mesh(0.5, align)
                    value = Exact(part)
                    off = max(*(abs(value(it)) / UNIT for it in drawn.vertices[::61]))
                    self.assertLess(off, share * 0.5 if align == "grid" else 0.6 * 0.5)
                    self.assertTrue(files.is_closed(drawn.mesh))

    def test_ends_lie_on_multiples_of_the_cell_or_half_a_cell_off(self):
        part = box(6, 5, 4.1).move(0.25)
        for align, shift in (("grid", 0), ("half", Fraction(1, 2))):
            view = part.mesh(0.4, align).view
            for low, high, many in zip(view.ends[::2], view.ends[1::2], view.counts):
                self.assertEqual(low / Fraction(2, 5) % 1, shift)
                self.assertEqual((high - low) / many, Fraction(2, 5))

    def test_flats_on_the_grid_come_out_sharp(self):
        places = box(6, 4, 2).mesh(0.5).vertices
        for axis, half in enumerate((3, 2, 1)):
            self.assertLess(half - max(*(it[axis] for it in places)), 1e-4)
        self.assertTrue(all(max(abs(a) - 3, abs(b) - 2, abs(c) - 1) > -1e-4 for a, b, c in places))

    def test_too_many_cells_are_refused_with_the_least_that_fits(self):
        for part in (ball(10), box(300, 1, 1)):
            with self.subTest(repr(part)), self.assertRaises(TooManyCells) as caught:
                part.mesh(0.01)
            least = caught.exception.least
            self.assertIn(f"the least cell that fits is {least:g}", str(caught.exception))
            from modeller.view import view_of

            view_of(part.bounds(), Fraction(repr(least)), "grid")
            with self.assertRaises(TooManyCells):
                view_of(part.bounds(), Fraction(repr(least)) * Fraction(97, 100), "grid")

    def test_an_empty_mesh_is_refused_and_a_part_cut_by_its_view_is_told_of(self):
        with self.assertRaisesRegex(EmptyPart, "no corner of a cell of 5 is inside"):
            box(0.8, 0.8, 0.8).move(1, 1, 1).mesh(5)
        for part, bounds, ways in [
            (ball(5), Bounds((-9, -9, 0), (9, 9, 9)), "-z"),
            (half_space("z"), Bounds((-3, -3, -3), (3, 3, 3)), r"-x, \+x, -y, \+y, -z"),
        ]:
            with self.assertWarnsRegex(TouchesBorder, f"along {ways}, and"):
                part.mesh(1, bounds=bounds)
        with warnings.catch_warnings():
            warnings.simplefilter("error")
            ball(5).mesh(0.7)
            plate = box(7.2, 4.8, 2.4)
            for cell in (0.4, 0.3, 0.2, 0.6, 1.2):  # its faces lie on multiples of these
                for align in ("grid", "half"):
                    plate.mesh(cell, align)

    def test_settings_out_of_range_are_refused(self):
        small = ball(1)
        for what, fault in [
            (lambda: small.mesh(0), WrongNumber), (lambda: small.mesh(-0.1), WrongNumber),
            (lambda: small.mesh("0.1"), WrongType), (lambda: small.mesh(0.1, "middle"), WrongType),
            (lambda: small.mesh(size("c", 1)), WrongType), (lambda: small.shade("top"), WrongType),
            (lambda: small.render(size=5000), WrongNumber), (lambda: small.contour(cell=0), WrongNumber),
            (lambda: small.contour(cell=0.001), TooManyCells), (lambda: small.save("part.step"), WrongNumber),
            (lambda: small.mesh(0.5).save("part.png"), WrongNumber),
        ]:
            with self.subTest(), self.assertRaises(fault):
                what()


class SecondOpinion(unittest.TestCase):
    def test_pixels_of_the_program_are_signs_of_the_exact_values(self):
        for formula in (
            max(length(x, y) - 3, abs(z) - 2), min(x * y - 1, y / x + 2, length(x - 1.7, y) - 0.9),
            x**2 / 3 - y % 1.1 - 0.3,
            (x * 30000) * (y * 30000) - 5e8, 1 / x - y, -abs(x) + 2 * y,
        ):
            part = solid(formula)
            value = evaluator(part.clauses().clauses)
            settings = {"x0": -4, "x1": 4, "y0": -3.7, "y1": 4.1, "z": 0.3, "w": 31, "h": 29}
            image = files.read_pgm(program.run("render", settings, part.text()))
            x0, x1, y0, y1, height = (raw_constant(exact(settings[it])) for it in ("x0", "x1", "y0", "y1", "z"))
            for row in range(29):
                for column in range(31):
                    place = (x0 + (x1 - x0) * column // 30, y1 - (y1 - y0) * row // 28, height)
                    self.assertEqual(image.samples[row * 31 + column] == 255, value(*place) < 0, place)


class Pictures(unittest.TestCase):
    def test_views_show_the_part_from_its_sides(self):
        # a foot to the front on the right, and a post on it at the left: seen from each side, in quarters of a picture
        part = box(20, 20, 4).move(0, 0, -8) | box(4, 4, 16).move(-8, 8, 2)

        def corners(picture):
            image = files.read_pgm(picture.pgm)
            w, h = image.width, image.height
            at = {"upper left": (0.12, 0.12), "upper right": (0.88, 0.12), "lower left": (0.12, 0.88)}
            return {it for it, (a, b) in at.items() if image.samples[int(b * h) * w + int(a * w)]}

        self.assertEqual(corners(part.shade("front", 100)), {"upper left", "lower left"})
        self.assertEqual(corners(part.shade("side", 100)), {"upper right", "lower left"})
        self.assertEqual(corners(part.shade("back", 100)), {"upper right", "lower left"})
        self.assertEqual(corners(part.shade("left", 100)), {"upper left", "lower left"})
        self.assertEqual(list(part.views(60)), ["above", "front", "side", "corner"])
        above = files.read_pgm(part.height(100).pgm)
        self.assertGreater(above.samples[12 * above.width + 12], above.samples[88 * above.width + 88])

    def test_a_cut_shows_what_is_inside_at_its_height(self):
        image = files.read_pgm((cylinder(10, 10) - ball(5)).render(z=3, size=200).pgm)
        self.assertEqual((image.width, image.height), (200, 200))
        inside = image.samples.count(255) * (20 * 1.06 / 199) ** 2
        self.assertAlmostEqual(inside, math.pi * (100 - 16), delta=2)

    def test_an_outline_encloses_the_area_of_its_cut(self):
        outline = (box(20, 10, 4) - cylinder(3, 9)).contour(z=1)
        area = 0.0
        for line in outline.path.splitlines():
            words = [float(it) for it in line.split() if it not in "MLZ"]
            points = list(zip(words[::2], words[1::2]))
            area += sum(a[0] * b[1] - a[1] * b[0] for a, b in zip(points, points[1:] + points[:1])) / 2
        self.assertAlmostEqual(area, 200 - 9 * math.pi, delta=0.5)
        self.assertIn('viewBox="', outline.svg)

    def test_a_notebook_shows_a_png(self):
        png = ball(3)._repr_png_()
        self.assertEqual(png[:8], b"\x89PNG\r\n\x1a\n")
        width, height = struct.unpack(">II", png[16:24])
        self.assertEqual(max(width, height), 400)
        self.assertEqual(len(zlib.decompress(png[png.index(b"IDAT") + 4 : -16])), (width + 1) * height)


class Saved(unittest.TestCase):
    def test_files_by_their_endings(self):
        part = box(6, 4, 2) - cylinder(size("bore", 1.2), 9)
        with tempfile.TemporaryDirectory() as folder:
            for name, begins in [
                ("a.ply", b"ply\nformat ascii 1.0\n"), ("a.stl", b"modeller, binary STL"), ("a.png", b"\x89PNG"),
                ("a.pgm", b"P5\n"), ("a.svg", b"<svg"), ("a.vm", b"bore const 1.2\n"),
            ]:
                path = os.path.join(folder, name)
                part.save(path)
                with open(path, "rb") as file:
                    self.assertTrue(file.read().startswith(begins), name)
            with open(os.path.join(folder, "a.ply"), "rb") as file:
                self.assertEqual(file.read(), part.mesh(0.5).ply)
            with open(os.path.join(folder, "a.vm"), "rb") as file:
                self.assertEqual(file.read().decode(), part.text())

    def test_an_edited_size_gives_the_bytes_of_a_part_made_anew(self):
        def plate(wall):
            w = size("wall", wall)
            return box(20, 12, w * 2) - cylinder(w, 9).row(2, w * 3).rotate(20)

        view = plate(2).mesh(0.5, bounds=Bounds((-11, -7, -4), (11, 7, 4))).view
        words = " ".join(f"{name}={files_numeral(it)}" for name, it in view.settings().items())
        script = f"{plate(2).text()}%%\nset wall const 2.5\nmesh {words}\n"
        frame = program.run("replay", {}, script).split(b"\n", 1)[1]
        self.assertEqual(frame, program.run("mesh", view.settings(), plate(2.5).text()))


def files_numeral(number):
    from modeller.numerals import numeral

    return numeral(number)


if __name__ == "__main__":
    unittest.main()
