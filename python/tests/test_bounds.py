"""Bounds: nothing of a part lies outside, faces along the axes are met exactly, and what has no bounds is refused."""

import math
import random
import unittest

from modeller import (
    EmptyPart, Unbounded, ball, box, cone, cylinder, extrude, gyroid, half_space, polygon, rod, size, solid, torus, x,
    z,
)
from modeller.bounds import WORLD
from modeller.spans import reach, tape_of
from tests.surfaces import UNIT, Exact


class Box(unittest.TestCase):
    def assert_bounds(self, part, low, high, within=0.0):
        found = part.bounds()
        for a, b, wanted_low, wanted_high in zip(found.low, found.high, low, high):
            self.assertTrue(wanted_low - within <= a <= wanted_low, (found.low, low))
            self.assertTrue(wanted_high <= b <= wanted_high + within, (found.high, high))

    def test_faces_along_the_axes_are_met_exactly(self):
        self.assert_bounds(box(60, 40, 20).move(1, 2, 3), (-29, -18, -7), (31, 22, 13))
        self.assert_bounds(cylinder(10, 8) - cylinder(4, 9), (-10, -10, -4), (10, 10, 4))
        self.assert_bounds(torus(10, 3).move(100), (87, -13, -3), (113, 13, 3))
        self.assert_bounds(extrude(polygon((0, 0), (30, 0), (10, 12.5)), 4), (0, 0, -2), (30, 12.5, 2))
        self.assert_bounds(box(size("w", 7), 1, 1).scale(3), (-10.5, -1.5, -1.5), (10.5, 1.5, 1.5))
        self.assert_bounds(box(25.4, 12.7, 0.3), (-12.7, -6.35, -0.15), (12.7, 6.35, 0.15))
        self.assert_bounds(ball(3) & half_space("z"), (-3, -3, -3), (3, 3, 0))

    def test_turned_and_moved_parts_are_within_a_hundredth(self):
        turn = math.radians(30)
        half = (10 * math.cos(turn) + 5 * math.sin(turn), 10 * math.sin(turn) + 5 * math.cos(turn), 4)
        self.assert_bounds(box(20, 10, 8).rotate(30), tuple(-it for it in half), half, 0.1)
        self.assert_bounds(
            box(20, 10, 8).rotate(30).move(50, -60, 70), (50 - half[0], -60 - half[1], 66),
            (50 + half[0], -60 + half[1], 74), 0.1,
        )
        self.assert_bounds(rod((0, 0, 0), (9, 9, 9), 1), (-1, -1, -1), (10, 10, 10), 0.1)
        self.assert_bounds(cone(5, 10).rotate(90, "y"), (-5, -5, -5), (5, 5, 5), 0.1)

    def test_nothing_of_a_part_lies_outside(self):
        rng = random.Random(5)
        for part in (
            box(9, 5, 3).rotate(33, (1, 2, 3)).move(4, 5, 6), gyroid(9, 1) & ball(5).move(2),
            box(20, 20, 0.02).rotate(10, "x"), cylinder(0.02, 30).rotate(40, (1, 1, 0)) | ball(1),
        ):
            found, value = part.bounds(), Exact(part)
            for _ in range(500):
                place = tuple(rng.uniform(a - 3, b + 3) for a, b in zip(found.low, found.high))
                if any(not a <= it <= b for it, a, b in zip(place, found.low, found.high)):
                    self.assertGreaterEqual(value(place), 0, place)

    def test_thin_things_are_within_the_bounds(self):
        # a wire between the corners of the cells in which the part is drawn
        found = (ball(5) | box(0.001, 0.001, 40).move(20.0003, 0.0007)).bounds()
        self.assertGreaterEqual(found.high[0], 20.0008)
        self.assertTrue(found.low[2] <= -20 and found.high[2] >= 20)

    def test_sizes_and_middles(self):
        found = box(6, 4, 2).move(1).bounds()
        self.assertEqual((found.size, found.centre), ((6, 4, 2), (1, 0, 0)))
        self.assertIn("x -2 to 4", str(found))


class Refused(unittest.TestCase):
    def test_parts_without_bounds_are_refused_by_direction(self):
        for part, ways in [
            (half_space("z"), ("-x", "+x", "-y", "+y", "-z")), (gyroid(9, 1), ("-x", "+x", "-y", "+y", "-z", "+z")),
            (solid(abs(x) - 1) & half_space("z") & half_space("-z", 5), ("-y", "+y")),
            (box(1) | (cylinder(2, 5) & half_space("x")) | solid(abs(z) - 1) & half_space("y", -3) & half_space("-y", 9)
             & half_space("x"), ("-x",)),
        ]:
            with self.subTest(ways=ways), self.assertRaises(Unbounded) as caught:
                part.bounds()
            self.assertEqual(caught.exception.directions, ways)
            self.assertIn(", ".join(ways), str(caught.exception))

    def test_a_part_that_reaches_past_the_world_is_unbounded_there(self):
        with self.assertRaises(Unbounded) as caught:
            box(10, 10, 10).move(WORLD).bounds()
        self.assertEqual(caught.exception.directions, ("+x",))

    def test_a_part_with_nothing_inside_is_refused(self):
        for part in (ball(1) - box(9), ball(1) & ball(1).move(5), solid(abs(x)), ball(0.001)):
            with self.subTest(repr(part)), self.assertRaises(EmptyPart):
                part.bounds()


class Intervals(unittest.TestCase):
    def test_an_interval_holds_every_value_of_its_box(self):
        from modeller import floor, length, min, mod, sqrt, y

        rng = random.Random(9)
        for formula in (
            x * y - z, x / (y + 3), x / y, sqrt(x) - abs(y) * 2, floor(x * 3) / 2 + mod(y, 1.5), (x - y) ** 2 - z * z,
            length(x, y, z) - min(x, y), -x * 70000 * y * 50000, 1 / (x * x + 1) - 2 / y,
        ):
            from modeller.emit import clauses_of
            from modeller.exact import evaluator

            clauses = clauses_of(formula).clauses
            tape, value_of = tape_of(clauses), evaluator(clauses)
            for _ in range(150):
                ends = []
                for _ in range(3):
                    ends += sorted(rng.choice((rng.uniform(-4, 4), rng.randint(-2, 2))) for _ in range(2))
                box_ends = tuple(round(it * UNIT) for it in ends)
                found = reach(tape, box_ends)
                for _ in range(10):
                    place = tuple(rng.randint(box_ends[it], box_ends[it + 1]) for it in (0, 2, 4))
                    value = value_of(*place)
                    self.assertTrue(found.least <= value <= found.greatest, (formula, place))


if __name__ == "__main__":
    unittest.main()
