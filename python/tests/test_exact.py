"""The arithmetic of models in whole numbers, against values that are worked out by hand from its rules."""

import unittest
from fractions import Fraction

from modeller import max, min, sqrt, square, value, x, y
from modeller.emit import clauses_of
from modeller.exact import evaluator, value_at
from modeller.expressions import Value
from modeller.raw import raw_constant
from tests.surfaces import UNIT, raw

MOST = 4611686018427387903  # 2^62 - 1
HALF = 1 << 31


class Operations(unittest.TestCase):
    """x and y are raw numbers here; one unit is 4,294,967,296 of them."""

    def assert_values(self, formula, rows):
        compute = evaluator(clauses_of(formula).clauses)
        for a, b, wanted in rows:
            with self.subTest(a=a, b=b):
                self.assertEqual(compute(a, b, 0), wanted)

    def test_sums_and_differences_end_at_the_greatest_values(self):
        self.assert_values(x + y, [(1, 2, 3), (MOST, 1, MOST), (-MOST, -1, -MOST), (MOST, -MOST, 0)])
        self.assert_values(x - y, [(1, 2, -1), (-MOST, 5, -MOST), (MOST, -5, MOST)])
        self.assert_values(-x, [(7, 0, -7), (-MOST, 0, MOST)])
        self.assert_values(abs(x), [(-7, 0, 7), (7, 0, 7), (-MOST, 0, MOST)])

    def test_products_are_rounded_down(self):
        self.assert_values(x * y, [
            (3 * UNIT, 2 * UNIT, 6 * UNIT), (3, HALF, 1), (-3, HALF, -2), (-1, 1, -1), (1, 1, 0),
            (40000 * UNIT, 40000 * UNIT, MOST), (-40000 * UNIT, 40000 * UNIT, -MOST),
        ])
        # 32768^2 is 2^30, the first whole number beyond the greatest value
        self.assert_values(square(x), [(-3, 0, 0), (65536, 0, 1), (-65537, 0, 1), (32768 * UNIT, 0, MOST)])

    def test_quotients_are_rounded_down_and_have_a_value_by_0(self):
        self.assert_values(x / y, [
            (UNIT, 3 * UNIT, 1431655765), (-UNIT, 3 * UNIT, -1431655766), (UNIT, -3 * UNIT, -1431655766),
            (-UNIT, -3 * UNIT, 1431655765), (1, 2, HALF), (MOST, 1, MOST), (-MOST, 1, -MOST), (-1, 3 * UNIT, -1),
            (5, 0, MOST), (-5, 0, -MOST), (0, 0, 0),
        ])

    def test_roots_are_rounded_down_and_0_below_0(self):
        # 6074000999^2 is below 2 * 2^64, and 6074001000^2 above it
        self.assert_values(sqrt(x), [
            (4 * UNIT, 0, 2 * UNIT), (2 * UNIT, 0, 6074000999), (1, 0, 65536), (2, 0, 92681), (0, 0, 0), (-5, 0, 0),
        ])

    def test_floors_are_whole_numbers_but_for_the_least(self):
        self.assert_values(Value("floor", (x,)), [
            (UNIT - 1, 0, 0), (UNIT, 0, UNIT), (-1, 0, -UNIT), (-UNIT, 0, -UNIT), (MOST, 0, (2**30 - 1) * UNIT),
            (-MOST, 0, -MOST),
        ])

    def test_the_lesser_and_the_greater(self):
        self.assert_values(min(x, y), [(1, 2, 1), (2, 1, 1), (-3, -3, -3)])
        self.assert_values(max(x, y), [(1, 2, 2), (2, 1, 2), (-3, -3, -3)])


class Constants(unittest.TestCase):
    def test_halves_are_rounded_away_from_0(self):
        unit = Fraction(1, UNIT)
        for number, wanted in [
            (Fraction(1, 2), HALF), (Fraction("0.1"), 429496730), (Fraction("-0.1"), -429496730),
            (Fraction("1.7"), 7301444403), (Fraction(1, 3), 1431655765), (Fraction("1e-10"), 0),
            (Fraction("1.5e-10"), 1), (Fraction("-1.5e-10"), -1), (2**30 - unit, MOST), (Fraction(2**30), MOST),
            # the last of 33 decimals of a half lie behind the 28th place and are cut, so that it is less
            (unit / 2, 0), (unit / 2 + Fraction(1, 10**28), 1), (unit * 3 / 2, 1),
        ]:
            with self.subTest(number=number):
                self.assertEqual(raw_constant(number), wanted)

    def test_the_program_reads_what_is_written_as_the_same(self):
        from modeller import program

        for number in (Fraction(1, 3), Fraction(2, 3), Fraction(1, 2**33), Fraction(-5, 7), Fraction("1.7")):
            text = clauses_of(value(number)).text
            read = program.run("text", {}, text).split()[2].decode()  # cut to ten decimals, which tell raw units apart
            raw_read = raw_constant(Fraction(read))
            self.assertEqual(raw_read, clauses_of(value(number)).clauses[-1].raw(), number)


class Places(unittest.TestCase):
    def test_places_are_rounded_as_told(self):
        self.assertEqual(raw((0.5, -1, 0)), (HALF, -UNIT, 0))
        self.assertEqual(value_at(x, Fraction(-1, 2**33), 0, 0), Fraction(-1, UNIT))
        self.assertEqual(value_at(x, 2**40, 0, 0), Fraction(MOST, UNIT))


if __name__ == "__main__":
    unittest.main()
