"""Values: what they compute, how they are written, and what is refused."""

import math
import unittest
from fractions import Fraction

from modeller import (
    ball, box, clamp, floor, length, max, min, mix, mod, neg, size, sqrt, square, value, x, y, z,
)
from modeller.emit import clauses_of
from modeller.exact import value_at
from modeller.expressions import overrides
from modeller.faults import WrongNumber, WrongType


class Formulas(unittest.TestCase):
    def test_formulas_compute_what_they_say(self):
        at = (Fraction(3), Fraction(-4), Fraction(5, 2))
        for formula, wanted in [
            (x + y * 2, -5), (1 - x, -2), (x / 4, Fraction(3, 4)), (2 / x, Fraction(2 * 2**32 // 3, 2**32)),
            (-y, 4), (abs(y), 4), (x**2, 9), (square(y), 16), (sqrt(square(y)), 4), (y**0.5, 0),
            (floor(z), 2), (floor(-z), -3), (neg(x), -3), (length(x, y), 5), (min(x, y, z), -4), (max(x, y, 7), 7),
            (clamp(x, -1, 1), 1), (clamp(y, -1, 1), -1), (mix(x, 7, 0.25), 4), (mod(y, 3), 2), (-4 % x, 2),
            (y // 3, -2),
        ]:
            with self.subTest(formula=repr(formula)):
                self.assertEqual(value_at(formula, *at), wanted)

    def test_plain_numbers_stay_numbers(self):
        self.assertEqual((min(3, 2), max([1, 5, 2]), min("ab", key=ord), max([], default=7)), (2, 5, "a", 7))
        self.assertEqual((sqrt(4), square(3), floor(2.5), length(3, 4), mod(-1, 3), mix(1, 3, 0.5)), (2, 9, 2, 5, 2, 2))

    def test_numbers_are_written_as_they_are_typed(self):
        text = clauses_of(x * 1.7 + 0.1 - 1e-9 + Fraction(1, 4) + 30).text
        for numeral in ("1.7", "0.1", "0.000000001", "0.25", "30"):
            self.assertIn(f"{numeral} const {numeral}\n", text)

    def test_equal_steps_are_written_once(self):
        text = clauses_of(length(x, y) - 3 + length(x, y) * square(x)).text
        self.assertEqual(text.count("square"), 2)
        self.assertEqual(text.count("sqrt"), 1)


class Sizes(unittest.TestCase):
    def test_a_size_is_a_clause_of_its_name_and_what_is_made_of_it_follows(self):
        wall = size("wall", 2.4)
        text = clauses_of(x - (wall * 2 + 1.7)).text
        self.assertTrue(text.startswith("wall const 2.4\n"))
        self.assertRegex(text, r"\S+ mul wall 2\n")
        self.assertEqual(clauses_of(x - wall).sizes(), {"wall": 2.4})

    def test_sizes_of_one_number_are_kept_apart(self):
        text = clauses_of(x * size("a", 2) + size("b", 2) + 2).text
        for line in ("a const 2\n", "b const 2\n", "2 const 2\n"):
            self.assertIn(line, text)

    def test_two_sizes_of_one_name_are_refused(self):
        with self.assertRaisesRegex(WrongNumber, "two sizes are named wall, on line"):
            clauses_of(size("wall", 2) + size("wall", 2) + x)

    def test_names_that_no_size_has_are_refused(self):
        for name in ("", "x", "2wide", "a b", "#a", "a.b", 3):
            with self.subTest(name=name), self.assertRaises(WrongNumber):
                size(name, 1)

    def test_a_number_from_outside_takes_the_place_of_that_in_the_source(self):
        overrides["wall"] = "3"
        try:
            self.assertEqual(clauses_of(x - size("wall", 2.4)).sizes(), {"wall": 3.0})
        finally:
            del overrides["wall"]

    def test_where_python_needs_a_number_a_size_is_refused(self):
        wall = size("wall", 2)
        for what in (
            lambda: float(wall), lambda: int(wall), lambda: math.sin(wall), lambda: round(wall), lambda: bool(wall),
            lambda: wall < 3, lambda: wall == 2, lambda: wall != 2, lambda: range(wall), lambda: [1, 2][wall],
            lambda: math.ceil(wall), lambda: sorted([wall, 1]), lambda: list(wall), lambda: wall**3,
        ):
            with self.subTest(), self.assertRaises(WrongType):
                what()

    def test_functions_that_no_clause_computes_are_refused_with_a_sentence(self):
        with self.assertRaisesRegex(WrongType, "no clause computes a function such as a sine of x, y and z"):
            math.sin(x)


class Mixing(unittest.TestCase):
    def test_values_and_solids_do_not_mix(self):
        for what, says in [
            (lambda: x + ball(1), "solids are joined by"), (lambda: ball(1) + x, "a solid is no value"),
            (lambda: ball(1) | x, r"solid\(value\) is a solid"), (lambda: x | ball(1), r"min\(a, b\)"),
            (lambda: x | y, r"min\(a, b\)"), (lambda: ball(1) - 2, "offset"), (lambda: 2 - ball(1), "an int is none"),
            (lambda: min(x, ball(1)), "min takes values"), (lambda: max(ball(1), ball(2)), "max takes values"),
            (lambda: abs(ball(1)), "abs"), (lambda: -ball(1), "a without b"), (lambda: bool(ball(1)), "neither true"),
            (lambda: ball(x), "made of sizes"), (lambda: box(ball(1)), "number"), (lambda: ball("3"), "the text '3'"),
            (lambda: x + "3", "the text '3'"), (lambda: ball(True), "True"), (lambda: length(x, None), "None"),
        ]:
            with self.subTest(says=says), self.assertRaisesRegex(TypeError, says):
                what()

    def test_numbers_out_of_range_are_refused(self):
        for number in (math.inf, math.nan, 2**30, -1e12):
            with self.subTest(number=number), self.assertRaises(WrongNumber):
                value(number)


if __name__ == "__main__":
    unittest.main()
