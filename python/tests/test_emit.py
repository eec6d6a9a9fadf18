"""The clauses of a part: their names, their order, where they came from, and how many there may be."""

import importlib.util
import os
import sys
import tempfile
import textwrap
import unittest
from unittest import mock

from modeller import ball, box, cylinder, extrude, min, polygon, size, solid, text, union, x
from modeller.emit import clauses_of
from modeller.exact import value_at
from modeller.faults import TooManyClauses, WrongNumber


def run_source(source: str):
    """Runs a source as a file, as a part is, and gives the module."""
    folder = tempfile.mkdtemp()
    path = os.path.join(folder, "part.py")
    with open(path, "w", encoding="utf-8") as file:
        file.write("from modeller import *\n" + textwrap.dedent(source))
    spec = importlib.util.spec_from_file_location("part_of_a_test", path)
    module = importlib.util.module_from_spec(spec)
    spec.loader.exec_module(module)
    return module


PLATE = """
    wall = size("wall", 2.4)
    plate = box(60, 40, wall)
    hole = cylinder(1.7, 20)
    rim = (box(60, 40, 10, radius=2)
           .shell(wall))
    part = plate - hole.row(3, 15) | rim
"""


class Text(unittest.TestCase):
    def test_a_whole_part_as_text(self):
        module = run_source("""
            r = size("r", 4)
            ring = cylinder(r, 10) - cylinder(r - 1.5, 11)
        """)
        self.assertEqual(module.ring.text(), textwrap.dedent("""\
            r const 4
            x var-x
            ring.1 square x
            y var-y
            ring.2 square y
            ring.3 add ring.1 ring.2
            ring.4 sqrt ring.3
            ring.5 sub ring.4 r
            z var-z
            ring.6 abs z
            5 const 5
            ring.7 sub ring.6 5
            ring.8 max ring.5 ring.7
            1.5 const 1.5
            ring.9 sub r 1.5
            ring.10 sub ring.4 ring.9
            5.5 const 5.5
            ring.11 sub ring.6 5.5
            ring.12 max ring.10 ring.11
            ring.13 neg ring.12
            ring.14 max ring.8 ring.13
            """))

    def test_clauses_are_named_after_the_variables_of_the_source(self):
        names = {it.name.split(".")[0] for it in run_source(PLATE).part.clauses().clauses if "." in it.name}
        self.assertEqual(names - {"1"}, {"plate", "hole", "rim", "part"})  # and 1.7

    def test_a_changed_statement_leaves_the_clauses_of_all_others(self):
        before = run_source(PLATE).part.text().splitlines()
        after = run_source(PLATE.replace("cylinder(1.7, 20)", "cylinder(1.7, 20, bevel=0.3)")).part.text().splitlines()
        lost = [it for it in before if it not in after]
        self.assertTrue(all("hole." in it for it in lost), lost)
        self.assertTrue(0 < len(lost) < len(before) / 2)

    def test_each_clause_knows_its_line(self):
        module = run_source(PLATE)
        text = module.part.clauses()
        lines = text.text.splitlines()
        wanted = {"plate": (4,), "hole": (5,), "rim": (6, 7), "part": (8,)}
        for number, line in enumerate(lines, 1):
            base = line.split(".")[0]
            if base in wanted:
                file, where = text.where(number)
                self.assertEqual(file, module.__file__)
                self.assertIn(where, wanted[base], line)
        self.assertIsNone(text.where(0))
        self.assertIsNone(text.where(len(lines) + 1))

    def test_a_set_size_gives_the_text_of_a_part_made_anew(self):
        one = run_source(PLATE).part.text().replace("wall const 2.4\n", "wall const 3\n")
        self.assertEqual(one, run_source(PLATE.replace("2.4", "3")).part.text())

    def test_the_last_clause_is_the_part(self):
        for formula in (x, min(x, x), size("only", 3)):
            self.assertEqual(value_at(clauses_of(formula), 3, 0, 0), 3)

    def test_where_no_variable_is_known_the_kind_names_the_clauses(self):
        text = eval("ball(3)").text()  # pylint: disable=eval-used
        self.assertIn("ball.1 square x\n", text)


class Many(unittest.TestCase):
    def test_the_operation_that_makes_too_many_clauses_is_named(self):
        told = r"more than {} clauses.*{} on line \d+ of .*test_emit"
        for what, says in [
            (lambda: extrude(text("W" * 99999), 1), "text"),
            (lambda: extrude(polygon([(it, it % 2) for it in range(99999)]), 1), "polygon"),
        ]:
            with self.assertRaisesRegex(TooManyClauses, told.format("65,535", says)):
                what().text()
        with mock.patch("modeller.emit.MOST_CLAUSES", 999):  # so that it takes no time
            for part, says in [
                (ball(1) | cylinder(1, 2).grid(20, 20, 3), "grid"), (ball(1).row(20, 3).row(20, 3, "y"), "row"),
                (ball(1).around(99, 90), "around"),
            ]:
                with self.assertRaisesRegex(TooManyClauses, told.format("999", says)):
                    part.text()
        with self.assertRaisesRegex(WrongNumber, "the number of row"):
            ball(1).row(10**9, 3)
        with self.assertRaisesRegex(WrongNumber, "copies of grid"):
            ball(1).grid(1000, 1000, 3)

    def test_chains_of_any_length_are_taken(self):
        limit = sys.getrecursionlimit()
        part, formula, moved = ball(1), x, ball(1)
        for step in range(2 * limit):
            part = (part | ball(1)) - box(1)
            formula = formula + step % 3
            moved = moved.move(1)
        self.assertLess(len(part.clauses().clauses), 4 * 2 * limit)
        self.assertEqual(value_at(solid(formula), 1, 0, 0), 1 + sum(it % 3 for it in range(2 * limit)))
        self.assertEqual(value_at(moved, 2 * limit, 0, 0), -1)

    def test_unions_are_joined_in_pairs(self):
        for part in (union(*[ball(1).move(3 * it) for it in range(64)]), ball(1).row(64, 3)):
            depth = {}
            clauses = part.clauses().clauses
            for at, it in enumerate(clauses):
                depth[at] = (it.op == "min") + max([depth[arg] for arg in it.args], default=0)
            self.assertEqual(depth[len(clauses) - 1], 6)


if __name__ == "__main__":
    unittest.main()
