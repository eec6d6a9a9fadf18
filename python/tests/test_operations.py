"""Solids moved, turned, repeated and joined, against the same done to their formulas, in fractions.

Turns by other angles than right ones have no fractions: their sines are floats, whose errors of 2^-50 are far below the
raw units of 2^-32 that are counted here.
"""

import math
import random
import unittest
from fractions import Fraction

from modeller import (
    ball, bevel, box, circle, cut, extrude, half_space, intersect, length, rectangle, size, solid, union, x, y, z,
)
from modeller.faults import WrongNumber, WrongType
from tests.surfaces import UNIT, Exact, hypot, random_place

HALF = Fraction(1, 2)
PIECE = box(6, 4, 2).move(3, 1, 0.5)


def piece(a, b, c):
    return max(abs(a - 3) - 3, abs(b - 1) - 2, abs(c - HALF) - 1)


def turned(degrees, a, b):
    """A place of the plane, turned counterclockwise."""
    cosine, sine = math.cos(math.radians(degrees)), math.sin(math.radians(degrees))
    return cosine * a - sine * b, sine * a + cosine * b


class Placing(unittest.TestCase):
    def assert_same(self, part, formula, reach=12, within=8):
        value, rng = Exact(part), random.Random(1)
        for _ in range(300):
            place = random_place(rng, reach)
            self.assertLess(abs(value(place) - formula(*place) * UNIT), within, place)

    def test_moved(self):
        self.assert_same(PIECE.move(1, -2, 3), lambda a, b, c: piece(a - 1, b + 2, c - 3))
        self.assert_same(PIECE.move(z=3), lambda a, b, c: piece(a, b, c - 3))
        self.assert_same(PIECE.move(y=size("far", 2)), lambda a, b, c: piece(a, b - 2, c))

    def test_turned(self):
        def about_z(a, b, c):
            return piece(*turned(-35, a, b), c)

        def about_x(a, b, c):
            b, c = turned(-35, b, c)
            return piece(a, b, c)

        def about_y(a, b, c):
            c, a = turned(-35, c, a)
            return piece(a, b, c)

        self.assert_same(PIECE.rotate(35), about_z)
        self.assert_same(PIECE.rotate(35, "x"), about_x)
        self.assert_same(PIECE.rotate(35, "y"), about_y)
        self.assert_same(PIECE.rotate(-35, "-y"), about_y)
        self.assert_same(PIECE.rotate(35, (0, 0, 7)), about_z)
        self.assert_same(PIECE.rotate(90), lambda a, b, c: piece(b, -a, c), within=1)
        self.assert_same(PIECE.rotate(120, (1, 1, 1)), lambda a, b, c: piece(b, c, a))
        self.assert_same(
            PIECE.rotate(35, "z", about=(2, 1)),
            lambda a, b, c: piece(turned(-35, a - 2, b - 1)[0] + 2, turned(-35, a - 2, b - 1)[1] + 1, c),
        )

    def test_a_turned_part_is_exact_far_from_the_origin(self):
        value = Exact(half_space("x").rotate(33))
        for far in (1, 30, 500, 1000):
            a, b = turned(33, 0, far)
            self.assertLessEqual(abs(value((a, b, 0))), 3)

    def test_scaled(self):
        scale = Fraction(5, 2)
        self.assert_same(PIECE.scale(2.5), lambda a, b, c: piece(a / scale, b / scale, c / scale) * scale, 20)
        self.assert_same(
            PIECE.rotate(35).move(1, 2).scale(Fraction(1, 3)),
            lambda a, b, c: piece(*turned(-35, 3 * a - 1, 3 * b - 2), 3 * c) / 3, 5,
        )
        self.assert_same(solid(length(x, y, z) - 2).scale(4), lambda a, b, c: hypot(a, b, c) - 8, within=64)

    def test_mirrored(self):
        self.assert_same(PIECE.mirror("x"), lambda a, b, c: piece(-a, b, c))
        self.assert_same(PIECE.mirror("z", at=2), lambda a, b, c: piece(a, b, 4 - c))
        self.assert_same(PIECE.mirror("y", keep=True), lambda a, b, c: min(piece(a, b, c), piece(a, -b, c)))

    def test_copies(self):
        pin = ball(1)

        def pins(*places):
            return lambda a, b, c: min(hypot(a - p, b - q, c - r) - 1 for p, q, r in places)

        self.assert_same(pin.at((1, 2), (3, 4, 5), (-2,)), pins((1, 2, 0), (3, 4, 5), (-2, 0, 0)))
        self.assert_same(pin.row(3, 4), pins((-4, 0, 0), (0, 0, 0), (4, 0, 0)))
        self.assert_same(pin.row(2, size("step", 5), "z"), pins((0, 0, 5 * HALF), (0, 0, -5 * HALF)))
        self.assert_same(pin.grid(2, 3, 6, 4), pins(*[(p, q, 0) for p in (-3, 3) for q in (-4, 0, 4)]))
        self.assert_same(pin.around(4, 5), pins((5, 0, 0), (0, 5, 0), (-5, 0, 0), (0, -5, 0)))
        b, c = turned(20, 5, 0)
        self.assert_same(pin.around(2, 5, "x", start=20), pins((0, b, c), (0, -b, -c)))
        fin = box(4, 1, 1).move(4).around(3)
        self.assert_same(fin, lambda a, b, c: min(
            max(abs(turned(-it, a, b)[0] - 4) - 2, abs(turned(-it, a, b)[1]) - 0.5, abs(c) - 0.5)
            for it in (0, 120, 240)
        ))

    def test_shapes_of_the_plane_are_placed_alike(self):
        plate = rectangle(6, 4).move(3, 1)

        def flat(a, b):
            return max(abs(a - 3) - 3, abs(b - 1) - 2)

        for shape, formula in [
            (plate.rotate(35), lambda a, b: flat(*turned(-35, a, b))), (plate.mirror("y"), lambda a, b: flat(a, -b)),
            (plate.scale(2), lambda a, b: 2 * flat(a / 2, b / 2)), (plate.row(2, 9, "y"), lambda a, b: min(
                flat(a, b - 9 * HALF), flat(a, b + 9 * HALF))),
            (plate.around(2), lambda a, b: min(flat(a, b), flat(-a, -b))),
            (plate - circle(1), lambda a, b: max(flat(a, b), 1 - hypot(a, b))),
        ]:
            self.assert_same(extrude(shape, 4), lambda a, b, c: max(formula(a, b), abs(c) - 2))


class Joining(unittest.TestCase):
    def test_union_intersection_and_cut(self):
        value = {it: Exact(part) for it, part in {
            "a": PIECE, "b": ball(3), "or": PIECE | ball(3), "and": PIECE & ball(3), "cut": PIECE - ball(3),
            "all": union(PIECE, ball(3), ball(1)), "cuts": cut(PIECE, ball(3), ball(1)),
            "both": intersect(PIECE, ball(3)),
        }.items()}
        rng = random.Random(2)
        for _ in range(300):
            place = tuple(rng.uniform(-5, 8) for _ in range(3))
            a, b = value["a"](place), value["b"](place)
            self.assertEqual(value["or"](place), min(a, b))
            self.assertEqual(value["all"](place), min(a, b))
            self.assertEqual(value["and"](place), max(a, b))
            self.assertEqual(value["both"](place), max(a, b))
            self.assertEqual(value["cut"](place), max(a, -b))
            self.assertEqual(value["cuts"](place), max(a, -b))

    def test_rounded_joins_have_their_radius(self):
        floor, wall = half_space("z"), half_space("x")  # they meet in the line along y
        inner, outer = Exact(union(floor, wall, radius=2)), Exact(intersect(floor, wall, radius=2))
        cut_edge = Exact(cut(floor, wall.mirror("x"), radius=2))
        for degrees in (5, 30, 45, 85):
            a, c = 2 * math.cos(math.radians(degrees)), 2 * math.sin(math.radians(degrees))
            self.assertLessEqual(abs(inner((2 - a, 1, 2 - c))), 8)
            self.assertLessEqual(abs(outer((a - 2, 1, c - 2))), 8)
            self.assertLessEqual(abs(cut_edge((a - 2, 1, c - 2))), 8)
        for value in (inner, outer, cut_edge):
            self.assertLessEqual(abs(value((-6, 0, 0))), 8 if value is not inner else UNIT * 9)
        self.assertLessEqual(abs(inner((0, 0, 6))), 8)
        self.assertLessEqual(abs(outer((-6, 0, 0))), 8)

    def test_bevelled_joins_take_so_much_off_both_faces(self):
        floor, wall = half_space("z"), half_space("x")
        for value, sign in ((Exact(bevel(floor, wall, 2)), -1), (Exact(union(floor, wall, bevel=2)), 1)):
            for share in (0.1, 0.5, 0.9):
                self.assertLessEqual(abs(value((sign * 2 * share, 1, sign * 2 * (1 - share)))), 8)

    def test_offset_and_shell(self):
        grown, hollow = Exact(ball(3).offset(0.5)), Exact(ball(3).shell(0.5))
        self.assertLessEqual(abs(grown((0, 0, 3.5))), 8)
        for radius, inside in ((3.01, False), (2.99, True), (2.51, True), (2.49, False), (0.1, False)):
            self.assertEqual(hollow((0, radius, 0)) < 0, inside)

    def test_what_is_refused(self):
        for what, fault, says in [
            (lambda: ball(1).rotate(size("angle", 30)), WrongType, "plain number, and the size 'angle'"),
            (lambda: ball(1).row(size("n", 3), 2), WrongType, "plain number"),
            (lambda: ball(1).row(2.5, 2), WrongNumber, "whole number"),
            (lambda: ball(1).row(3, 2, "w"), WrongType, "'x'"),
            (lambda: ball(1).scale(0), WrongNumber, "above 0"), (lambda: ball(1).at(), WrongNumber, "one place"),
            (lambda: ball(1).at(5), WrongType, "place of up to 3"), (lambda: union([ball(1)]), WrongType, "one by one"),
            (lambda: union(), WrongType, "one or more"), (lambda: union(ball(1), x), WrongType, r"solid\(value\)"),
            (lambda: cut(ball(1), ball(2), radius=1, bevel=1), WrongNumber, "not both"),
            (lambda: ball(1).shell(-1), WrongNumber, "above 0"), (lambda: ball(1).move("3"), WrongType, "text '3'"),
            (lambda: ball(1).move(x), WrongType, "depends on x, y or z"), (lambda: solid(3), WrongType, "an int"),
            (lambda: solid(ball(1)), WrongType, "a solid already"),
            (lambda: circle(1).mirror("z"), WrongType, "'x' or 'y'"),
        ]:
            with self.subTest(says=says), self.assertRaisesRegex(fault, says):
                what()


if __name__ == "__main__":
    unittest.main()
