"""Each shape against its formula in fractions, whose roots are found by comparing squares.

Two formulas have no fractions: a helix has an angle, and a gyroid has sines. They are compared in floats, whose errors
are far below the 0.05 degrees and the 0.0012 by which the polynomials of the package are off; these polynomials are
compared in fractions.
"""

import math
import random
import unittest
from fractions import Fraction

from modeller import (
    ball, box, capsule, circle, cone, cylinder, extrude, gyroid, half_space, polygon, prism, rectangle, revolve,
    rod, size, slot, text, thread, torus,
)
from modeller.faults import WrongNumber, WrongType
from modeller.strokes import strokes_of
from tests.surfaces import (
    UNIT, Exact, grid_place, hypot, polygon_distance, random_place, root, segment_square, slope, surface_places,
)

F = Fraction
HALF_ROOT = root(F(1, 2))


def rounded_box(p, half, r):
    q = [abs(a) - (b - r) for a, b in zip(p, half)]
    return hypot(*[max(it, 0) for it in q]) + min(max(q), 0) - r


def bevelled(a, b, off):
    return max(a, b, (a + b + off) * HALF_ROOT)


def slant(rho, z, r, h, top):
    return max((h * (rho - r) + (r - top) * (z + h / 2)) / hypot(h, r - top), abs(z) - h / 2)


#: Cosine and sine of the sides of a hexagon and a pentagon, by roots alone.
HEXAGON = [(1, 0), (F(1, 2), root(F(3, 4))), (-F(1, 2), root(F(3, 4)))]
HEXAGON += [(-a, -b) for a, b in HEXAGON]
ROOT_5 = root(5)
PENTAGON = [(1, 0)]
for cosine, square in (((ROOT_5 - 1) / 4, (5 + ROOT_5) / 8), ((-ROOT_5 - 1) / 4, (5 - ROOT_5) / 8)):
    PENTAGON += [(cosine, root(square)), (cosine, -root(square))]


def prism_distance(turns, r, x, y):
    return max(a * x + b * y for a, b in turns) - r


def rod_distance(p, a, b, r):
    way = [j - i for i, j in zip(a, b)]
    share = sum((k - i) * d for k, i, d in zip(p, a, way)) / sum(d * d for d in way)
    share = max(0, min(1, share))
    return hypot(*[k - i - share * d for k, i, d in zip(p, a, way)]) - r


ARROW = [(-6, -7), (0, F("-2.5")), (7, -7), (F("1.3"), 8)]
COMB = [
    (-8, -5), (8, -5), (8, 5), (5, 5), (5, -2), (2, -2), (2, 5), (-2, 5), (F("-2.5"), -2), (-5, F("-2.2")), (-5, 5),
    (-8, 5)
]


def text_distance(letters, height, pen, x, y):
    segments, width = strokes_of(letters)
    unit, left = (height - pen) / 6, F(width, 2)
    ends = [((a - left) * unit, (b - 3) * unit, (c - left) * unit, (d - 3) * unit) for a, b, c, d in segments]
    return root(min(segment_square((x, y), it[:2], it[2:]) for it in ends)) - pen / 2


ROD = (1, -2, 3), (-4, 5, F(1, 2))

#: A name, a solid, its formula, and how far places are taken from the origin.
SHAPES = [
    ("ball", ball(7.3), lambda x, y, z: hypot(x, y, z) - F("7.3"), 9),
    ("small ball", ball(0.05), lambda x, y, z: hypot(x, y, z) - F("0.05"), 0.07),
    ("box", box(9, 7.2, 5), lambda x, y, z: max(abs(x) - F("4.5"), abs(y) - F("3.6"), abs(z) - F("2.5")), 6),
    ("cube", box(8), lambda x, y, z: max(abs(x), abs(y), abs(z)) - 4, 6),
    ("rounded box", box(9, 7, 5, radius=1.2),
     lambda x, y, z: rounded_box((x, y, z), (F(9, 2), F(7, 2), F(5, 2)), F("1.2")), 6),
    ("box with fine edges", box(4, 4, 4, radius=0.1), lambda x, y, z: rounded_box((x, y, z), (2, 2, 2), F("0.1")), 3),
    ("cylinder", cylinder(5, 8), lambda x, y, z: max(hypot(x, y) - 5, abs(z) - 4), 7),
    ("thin cylinder", cylinder(0.1, 1), lambda x, y, z: max(hypot(x, y) - F("0.1"), abs(z) - F(1, 2)), 0.6),
    ("bevelled cylinder", cylinder(5, 8, bevel=1), lambda x, y, z: bevelled(hypot(x, y) - 5, abs(z) - 4, 1), 7),
    ("cone", cone(6, 9), lambda x, y, z: slant(hypot(x, y), z, 6, F(9), 0), 7),
    ("blunt cone", cone(6, 9, 2.5), lambda x, y, z: slant(hypot(x, y), z, 6, F(9), F("2.5")), 7),
    ("cone that widens", cone(0.4, 0.5, top=0.9),
     lambda x, y, z: slant(hypot(x, y), z, F("0.4"), F("0.5"), F("0.9")), 1),
    ("torus", torus(6, 1.7), lambda x, y, z: hypot(hypot(x, y) - 6, z) - F("1.7"), 9),
    ("closed torus", torus(3, 3), lambda x, y, z: hypot(hypot(x, y) - 3, z) - 3, 7),
    ("capsule", capsule(2, 11), lambda x, y, z: hypot(x, y, max(abs(z) - F("3.5"), 0)) - 2, 7),
    ("rod", rod((1, -2, 3), (-4, 5, 0.5), 1.5), lambda x, y, z: rod_distance((x, y, z), *ROD, F("1.5")), 8),
    ("half space", half_space((1, -2, 2), 1.5), lambda x, y, z: (x - 2 * y + 2 * z) / 3 - F("1.5"), 9),
    ("hexagon", prism(6, 6, 5), lambda x, y, z: max(prism_distance(HEXAGON, 6, x, y), abs(z) - F("2.5")), 8),
    ("pentagon", prism(5, 5, 6), lambda x, y, z: max(prism_distance(PENTAGON, 5, x, y), abs(z) - 3), 8),
    ("disc", extrude(circle(5), 4), lambda x, y, z: max(hypot(x, y) - 5, abs(z) - 2), 6),
    ("rounded plate", extrude(rectangle(9, 6, radius=2), 4),
     lambda x, y, z: max(rounded_box((x, y), (F(9, 2), 3), 2), abs(z) - 2), 6),
    ("bevelled plate", extrude(rectangle(9, 6), 4, bevel=0.7),
     lambda x, y, z: bevelled(max(abs(x) - F(9, 2), abs(y) - 3), abs(z) - 2, F("0.7")), 6),
    ("slot", extrude(slot(12, 5), 4),
     lambda x, y, z: max(hypot(max(abs(x) - F("3.5"), 0), y) - F("2.5"), abs(z) - 2), 7),
    ("vase", revolve(circle(2).move(4, 1)), lambda x, y, z: hypot(hypot(x, y) - 4, z - 1) - 2, 7),
]


class Values(unittest.TestCase):
    def test_a_shape_has_the_value_of_its_formula_everywhere(self):
        for name, solid, formula, reach in SHAPES:
            value, rng = Exact(solid), random.Random(name)
            with self.subTest(name):
                near = 0
                for _ in range(1000):
                    place = random_place(rng, reach)
                    off = abs(value(place) - formula(*place) * UNIT)
                    near += off <= 16
                    # a root near 0, as in the middle of a rounded edge, makes 2^-16 of a rounding of 2^-32
                    self.assertLess(off, 3 * 65536, place)
                self.assertGreater(near, 990)

    def assert_surface(self, value, formula, places, factor):
        """At places of the surface, which are checked in fractions, the value is 0 and rises by a half to one."""
        for it in places:
            place = grid_place([factor * number for number in it])
            self.assertLess(abs(formula(*[number / F(factor) for number in place])) * F(factor) * UNIT, 8, place)
            self.assertLessEqual(abs(value(place)), 16, place)
            self.assertTrue(0.5 <= slope(value, place, F(factor) / 10000) <= 1.0001, place)

    def test_at_the_surface_a_shape_is_0_and_rises_by_a_half_to_one(self):
        for name, solid, formula, reach in SHAPES:
            places = surface_places(formula, reach, 40)
            for factor in (1, 0.125, 60.5):
                value = Exact(solid.scale(factor) if factor != 1 else solid)
                with self.subTest(name, scale=factor):
                    self.assert_surface(value, formula, places, factor)

    def test_polygons_and_letters_are_right_at_the_surface_and_inside(self):
        for name, solid, plane in [
            ("arrow", extrude(polygon(*ARROW), 6), lambda x, y: polygon_distance(ARROW, (x, y))),
            ("comb", extrude(polygon(COMB), 6), lambda x, y: polygon_distance(COMB, (x, y))),
            ("comb the other way round", extrude(polygon(COMB[::-1]), 6), lambda x, y: polygon_distance(COMB, (x, y))),
            ("letters", extrude(text("iR", 9, 1.5), 6), lambda x, y: text_distance("iR", F(9), F("1.5"), x, y)),
        ]:
            def formula(x, y, z):
                return max(plane(x, y), abs(z) - 3)

            places = surface_places(formula, 9, 30)
            for factor in (1, 7):
                value = Exact(solid.scale(factor) if factor != 1 else solid)
                with self.subTest(name, scale=factor):
                    self.assert_surface(value, formula, places, factor)
                    rng = random.Random(name)
                    for _ in range(1000 if factor == 1 else 50):
                        it = random_place(rng, 9)
                        far = formula(*it)
                        if abs(far) > F(16, UNIT):
                            self.assertEqual(value([factor * number for number in it]) < 0, far < 0, it)

    def test_sizes_make_the_same_shapes_as_numbers(self):
        a, b, c = size("a", 6), size("b", 9), size("c", 2.5)
        rng = random.Random(7)
        for one, other in [
            (cone(a, b, c), cone(6, 9, 2.5)), (box(a, b, c, radius=c / 5), box(6, 9, 2.5, radius=0.5)),
            (torus(a, c), torus(6, 2.5)), (capsule(c, b), capsule(2.5, 9)),
            (cylinder(a, b, c / 5), cylinder(6, 9, 0.5)),
            (extrude(polygon((0, 0), (a, 0), (c, b)), c), extrude(polygon((0, 0), (6, 0), (2.5, 9)), 2.5)),
            (prism(6, a, b), prism(6, 6, 9)), (ball(a).scale(c / 5), ball(6).scale(0.5)),
            (extrude(slot(b, c), c).move(c, 0, -a), extrude(slot(9, 2.5), 2.5).move(2.5, 0, -6)),
            (extrude(text("Q7", b, c / 2), 1), extrude(text("Q7", 9, 1.25), 1)),
            (thread(a, c / 2, b), thread(6, 1.25, 9)),
        ]:
            value, wanted = Exact(one), Exact(other)
            with self.subTest(repr(one)):
                for _ in range(100):
                    place = tuple(rng.uniform(-9, 9) for _ in range(3))
                    self.assertLess(abs(value(place) - wanted(place)), 60, place)


def true_gyroid(x, y, z, period):
    a, b, c = (2 * math.pi * it / period for it in (x, y, z))
    return math.sin(a) * math.cos(b) + math.sin(b) * math.cos(c) + math.sin(c) * math.cos(a)


class Patterns(unittest.TestCase):
    def test_a_thread_is_a_metric_profile_along_a_helix(self):
        r, p = 8, 2

        def formula(x, y, z):
            away = hypot(x, y)
            climb = z / p - math.atan2(y, x) / (2 * math.pi)
            across = abs(climb - math.floor(climb) - 0.5)
            root = r - 0.5413 * p
            flank = root + p * math.tan(math.pi / 3) * (across - 1 / 8)
            return max(away - min(max(flank, root), r), abs(z) - 9)

        value = Exact(thread(r, p, 18))
        for place in surface_places(formula, 11, 300):
            # 0.05 degrees of a pitch of 2 are 0.00028 along the axis, and the value rises by less than 1 a unit
            self.assertLess(abs(value(place)) / UNIT, 0.0003, place)
            self.assertTrue(0.5 <= slope(value, place, 1e-5) <= 1.0001, place)

    def test_a_gyroid_is_a_sheet_of_about_its_thickness(self):
        period, thick = 20, 1.2
        value = Exact(gyroid(period, thick))
        rng = random.Random(3)
        thinnest, thickest, steep = 9.0, 0.0, []
        for place in surface_places(lambda x, y, z: true_gyroid(x, y, z, period), 15, 100):
            self.assertLess(value(place), 0, place)  # the middle of the sheet
            step = 1e-4
            normal = [
                true_gyroid(*[b + step * (a == axis) for a, b in enumerate(place)], period)
                - true_gyroid(*place, period)
                for axis in range(3)
            ]
            normal = [it / hypot(*normal) for it in normal]
            found = 0.0
            for sign in (1, -1):
                low, high = 0.0, 2.0
                for _ in range(30):
                    far = (low + high) / 2
                    inside = value(tuple(a + sign * far * b for a, b in zip(place, normal))) < 0
                    low, high = (far, high) if inside else (low, far)
                found += low
                edge = tuple(a + sign * low * b for a, b in zip(place, normal))
                steep.append(slope(value, edge, 1e-5))
            thinnest, thickest = min(thinnest, found), max(thickest, found)
        self.assertTrue(0.85 * thick < thinnest and thickest < 1.1 * thick, (thinnest, thickest))
        self.assertTrue(0.5 <= min(steep) and max(steep) <= 1.0001, (min(steep), max(steep)))

    def test_threads_and_gyroids_have_the_values_of_their_polynomials(self):
        def turn(x, y):
            p = x / (abs(x) + abs(y))
            q = abs(p)
            even = 1 + (1 - q) * (2 * q - 1) * (F("0.34") + F("0.772") * q * (1 - q))
            return (1 if y >= 0 else -1) * (1 - p * even) / 4

        def rod_with_thread(x, y, z):
            climb = z / 2 - turn(x, y)
            across = abs(climb - math.floor(climb) - F(1, 2))
            groove = 8 - F("0.5413") * 2
            flank = groove + 2 * root(3) * (across - F(1, 8))
            return max(hypot(x, y) - min(max(flank, groove), 8), abs(z) - 3)

        def sine(turns):
            h = 2 * (turns - math.floor(turns + F(1, 2)))
            wave = 4 * h * (1 - abs(h))
            return wave * (F("0.775") + F("0.225") * abs(wave))

        def sheet(x, y, z):
            (a, d), (b, e), (c, f) = ((sine(it / 20), sine(it / 20 + F(1, 4))) for it in (x, y, z))
            slope = F(str(round(1 / (2 * math.pi * 1.76), 6)))
            return abs(a * e + b * f + c * d) * 20 * slope - F("0.6") * F("0.85")

        for solid, formula, reach in ((thread(8, 2, 6), rod_with_thread, 10), (gyroid(20, 1.2), sheet, 15)):
            places = surface_places(formula, reach, 100)
            for factor in (1, 0.25, 5):
                value = Exact(solid.scale(factor))
                for it in places:
                    place = grid_place([factor * number for number in it])
                    true = formula(*[number / F(factor) for number in place]) * F(factor)
                    self.assertLess(abs(true) * UNIT, 16, place)
                    self.assertLessEqual(abs(value(place)), 16, place)


class Refusals(unittest.TestCase):
    def test_shapes_refuse_what_they_can_not_be(self):
        for what, says in [
            (lambda: ball(0), "above 0"), (lambda: ball(-1), "above 0"), (lambda: box(1, 2, -3), "height of box"),
            (lambda: box(4, 4, 4, radius=2.1), "at most half"), (lambda: torus(2, 3), "at most its radius"),
            (lambda: cone(2, 3, -1), "0 or more"), (lambda: capsule(3, 5), "at least twice"),
            (lambda: rod((0, 0, 0), (0, 0, 0), 1), "two places"), (lambda: half_space((0, 0, 0)), "direction"),
            (lambda: prism(2, 3, 4), "whole number"), (lambda: prism(5.5, 3, 4), "whole number"),
            (lambda: slot(2, 3), "at least as long"), (lambda: thread(2, 3, 9), "pitch"),
            (lambda: gyroid(8, 2), "eighth"),
            (lambda: text(""), "one stroke"), (lambda: text("日"), "no '日'"), (lambda: text("A", 4, 5), "narrower"),
            (lambda: polygon((0, 0), (4, 0)), "three corners"), (lambda: polygon((0, 0), (4, 0), (8, 0)), "one line"),
            (lambda: polygon((0, 0), (4, 4), (4, 0), (0, 4)), "cross or touch"),
            (lambda: polygon((0, 0), (8, 0), (4, 0), (4, 4)), "turns back"),
            (lambda: polygon((0, 0), (6, 0), (6, 6), (3, 0), (0, 6)), "meets"),
        ]:
            with self.subTest(says=says), self.assertRaisesRegex(WrongNumber, says):
                what()

    def test_types_are_told_by_name(self):
        for what, says in [
            (lambda: prism(size("n", 6), 3, 4), "plain number, and the size 'n'"),
            (lambda: extrude(ball(1), 3), "shape in the plane, as circle"), (lambda: revolve(3), "an int"),
            (lambda: half_space("w"), "the text 'w'"), (lambda: polygon(3, 4, 5), "place of up to 2 numbers"),
            (lambda: text(5), "an int"), (lambda: text("A", align="middle"), "'middle'"),
            (lambda: circle(3) | ball(3), "one of each"), (lambda: rod((0, 0), (1, 1, 1), 2), "three numbers"),
        ]:
            with self.subTest(says=says), self.assertRaisesRegex(WrongType, says):
                what()


if __name__ == "__main__":
    unittest.main()
