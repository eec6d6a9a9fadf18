"""The reader of formulas: what it writes, what it refuses and where, and that a formula runs nothing."""
from __future__ import annotations

import re
import subprocess
import sys
import tempfile
import time
import unittest

from modeller import program
from modeller.formulas import FormulaError, clauses_of
from tests.support import ROOT, example

SECONDS = 5  # of the processor, where it does other work, too; alone the slowest of these takes less than one


def refusal(text: str) -> tuple[int, int, str]:
    """The line, the column and the sentence that refuse a text."""
    try:
        clauses_of(text)
    except FormulaError as error:
        return error.line, error.column, error.sentence
    raise AssertionError(f"{text[:60]!r} is not refused")


def body(text: str) -> list[str]:
    """The clauses of a text, without comments."""
    return [line for line in clauses_of(text).splitlines() if not line.startswith("#")]


class Writes(unittest.TestCase):
    def test_the_cookbook_shows_what_is_written(self) -> None:
        blocks = re.findall(r"(?:^    .*\n)+", (ROOT / "docs" / "COOKBOOK.md").read_text(), re.M)
        models = [re.sub(r"^    ", "", it, flags=re.M) for it in blocks if it.startswith("    # ")]
        self.assertGreaterEqual(len(models), 20)
        for model in models:
            formulas = "".join(it[2:] + "\n" for it in model.splitlines() if it.startswith("# "))
            with self.subTest(formulas.splitlines()[0]):
                self.assertEqual(clauses_of(formulas), model)

    def test_a_model_stands_as_it_is(self) -> None:
        for path in sorted((ROOT / "examples").glob("*.vm")):
            with self.subTest(path.name):
                self.assertEqual(clauses_of(path.read_text()), path.read_text())

    def test_a_script_stands_as_it_is(self) -> None:
        text = example("bracket.vm") + example("lighter.script")
        self.assertEqual(clauses_of(text), text)

    def test_each_form(self) -> None:
        cases = {
            "a = x": ["x var-x", "a max x x"],
            "a = -x": ["x var-x", "a neg x"],
            "a = +x": ["x var-x", "a max x x"],
            "a = x - 3": ["x var-x", "3 const 3", "a sub x 3"],
            "a = x / y * z": ["x var-x", "y var-y", "a.1 div x y", "z var-z", "a mul a.1 z"],
            "a = max(x, y, z)": ["x var-x", "y var-y", "z var-z", "a.1 max x y", "a max a.1 z"],
            "a = add(x, y, z)": ["x var-x", "y var-y", "z var-z", "a.1 add x y", "a add a.1 z"],
            "a = length(x)": ["x var-x", "a.1 square x", "a sqrt a.1"],
            "a = floor(abs(neg(x)))": ["x var-x", "a.1 neg x", "a.2 abs a.1", "a floor a.2"],
            "a = clamp(x, y, z)": ["x var-x", "y var-y", "z var-z", "a.1 max x y", "a min a.1 z"],
            "a = mix(x, y, z)": ["x var-x", "y var-y", "z var-z", "a.1 sub y x", "a.2 mul z a.1", "a add x a.2"],
            "a = mod(x, y)": ["x var-x", "y var-y", "a.1 div x y", "a.2 floor a.1", "a.3 mul y a.2", "a sub x a.3"],
        }
        for text, wanted in cases.items():
            with self.subTest(text):
                self.assertEqual(body(text), wanted)

    def test_an_equal_step_is_written_once(self) -> None:
        self.assertEqual(body("a = abs(x) - abs(x)"), ["x var-x", "a.1 abs x", "a sub a.1 a.1"])
        self.assertEqual(body("a = abs(x)\nb = 2 * abs(x)")[2:], ["2 const 2", "b mul 2 a"])

    def test_numbers_are_computed(self) -> None:
        cases = {
            "1 / 4": "0.25", "sin(pi / 6)": "0.5", "radians(180)": "3.1415926536", "2 ** 10": "1024", "-3": "-3",
            "7 // 2": "3", "-7 % 4": "1", "max(1, 2.5)": "2.5", "length(3, 4)": "5.0", "sqrt(2)": "1.4142135624",
            "clamp(5, 0, 2)": "2", "mix(2, 4, 0.25)": "2.5", "mod(-1, 3)": "2", "1e-9": "1e-09", "floor(-0.5)": "-1",
        }
        for text, wanted in cases.items():
            with self.subTest(text):
                self.assertEqual(body(f"a = {text}"), [f"a const {wanted}"])

    def test_names_of_steps_that_stand_already_are_passed_over(self) -> None:
        self.assertEqual(
            body("x var-x\na.1 neg x\n3 const 5\na = abs(x) + 3")[3:], ["a.2 abs x", "a.3 const 3", "a add a.2 a.3"]
        )

    def test_a_constant_that_stands_by_its_number_is_taken(self) -> None:
        self.assertEqual(body("x var-x\n0.5 const 0.5\na = x - 0.5"), ["x var-x", "0.5 const 0.5", "a sub x 0.5"])
        gear = example("gear.vm")
        text = clauses_of(gear + "plate = max(gear, z - 0.5)\n")
        self.assertEqual(
            text, gear + "# plate = max(gear, z - 0.5)\nz var-z\nplate.1 sub z 0.5\nplate max gear plate.1\n"
        )
        self.assertEqual(program.run("count", {"w": 1, "h": 1}, text).count(b"\n"), 3)

    def test_a_comment_behind_a_formula_stands_above_its_clauses(self) -> None:
        self.assertEqual(clauses_of("a = x  # note\n"), "# a = x  # note\nx var-x\na max x x\n")
        self.assertEqual(clauses_of("  r = 2# \u00fc ( ' x < 2\n"), "# r = 2# \u00fc ( ' x < 2\nr const 2\n")

    def test_a_model_and_a_formula_behind_it(self) -> None:
        solid = "_0 var-x\n_1 const 0.5000000000\n_2 sub _0 _1\n"
        self.assertEqual(clauses_of(solid + "part = -_2"), solid + "# part = -_2\npart neg _2\n")

    def test_marks_and_line_ends_of_windows(self) -> None:
        self.assertEqual(clauses_of("\ufeffa = 2\r\n\r\n# b\r\n"), "# a = 2\na const 2\n\n# b\n")


class Refuses(unittest.TestCase):
    def test_the_line_the_column_and_a_sentence(self) -> None:
        cases = [
            ("a = 2,5", 1, 6, "decimal comma"),
            ("a = x\nb = length(x, y) - 2,5", 2, 21, "2.5"),
            ("r const 2,5", 1, 9, "2.5"),
            ("2,5", 1, 1, "decimal comma"),
            ("a = sqrt(2,5)", 1, 5, "decimal comma"),
            ("# a\n\nx < 2", 3, 3, "comparison"),
            ("a = x < 2", 1, 7, "comparison"),
            ("wall 2", 1, 6, "wall = 2"),
            ("radius = 8\na = x - radus", 2, 9, "the nearest is radius"),
            ("a = lenght(x, y)", 1, 5, "the nearest is length"),
            ("x var-x\na ad x x", 2, 3, "the nearest is add"),
            ("x var-x\na sub x 1", 2, 9, "1 const 1"),
            ("a = 2\na = 3", 2, 1, "stands already"),
            ("  y = 3", 1, 3, "coordinate"),
            ("a = sin(x)", 1, 5, "numbers alone"),
            ("a = x ** 2", 1, 5, "square(a)"),
            ("a = x^2", 1, 6, "square(a)"),
            ("a = 2x", 1, 5, "*"),
            ("a = (x", 1, 6, "not closed"),
            ("a = x)", 1, 6, "never opened"),
            ("a =", 1, 4, "missing"),
            ("a = # x", 1, 4, "missing"),
            ("a = q # x", 1, 5, "q is no name"),
            ("x var-x\na neg x # note", 2, 9, "a comment has a line of its own"),
            ("r = 2\n%%\nset r const 3 # note", 3, 15, "a comment has a line of its own"),
            ("r = 2\n%%\nmesh n=3 # note", 3, 10, "a comment has a line of its own"),
            ("x var-x\na neg\x1cx", 2, 3, "no operation"),
            ("\x0b", 1, 1, "stands alone"),
            ("a = x y", 1, 7, "no formula"),
            ("a = x - ", 1, 5, "no formula"),
            ("a = x \u2212 1", 1, 7, "no sign"),
            ("gr\u00f6\u00dfe = 1\na = gr\u00f6\u00dfe + wort", 2, 13, "wort is no name"),
            ("a = max(x)", 1, 5, "it takes 2 or more"),
            ("a = 1 / 0", 1, 5, "divided by 0"),
            ("a = sqrt(-1)", 1, 5, "no value"),
            ("a = x if y else z", 1, 5, "min and max choose"),
            ("a = True", 1, 5, "this is none"),
            ("a = " + " + ".join(["x"] * 300), 1, 5, "add, min and max of many"),
            ("a = " + "+".join(["x"] * 9000), 1, 5, "add, min and max of many"),
            ("text", 1, 1, "behind a line %%"),
            ("a = x\n%%\nb = y", 3, 1, "before the line %%"),
            ("r = 2\n%%\nset R const 3", 3, 5, "the nearest is r"),
            ("r = 2\n%%\nset r 3", 3, 7, "no operation"),
            ("r = 2\n%%\nmash n=3", 3, 1, "the nearest is mesh"),
            ("r = 2\n%%\nmesh n = 3", 3, 6, "name=value"),
            ("r = 2\n%%\nundo r", 3, 1, "no words"),
        ]
        for text, line, column, sentence in cases:
            with self.subTest(text):
                found = refusal(text)
                self.assertEqual(found[:2], (line, column), found[2])
                self.assertIn(sentence, found[2])

    def test_too_many_clauses(self) -> None:
        lines = "".join(f"a{it} const 1\n" for it in range(65_535))
        self.assertEqual(clauses_of(lines), lines)
        self.assertEqual(refusal(lines + "b const 1\n")[0], 65_536)

    def test_a_text_that_would_grow_beyond_what_the_program_reads(self) -> None:
        long = "a" * 9000
        text = f"{long} = min(" + ", ".join(f"x - {it}" for it in range(1000)) + ")"
        self.assertIn("bytes", refusal(text)[2])


class Attacks(unittest.TestCase):
    """Texts that would run something, or never end, if formulas were taken for programs."""

    def test_none_of_them_runs(self) -> None:
        with tempfile.TemporaryDirectory() as folder:
            touch = f"touch {folder}/touched"
            attacks = [
                "().__class__.__base__.__subclasses__()",
                "x.__class__",
                f'__import__("os").system("{touch}")',
                "(lambda: 3)()",
                "[y for y in (1, 2)]",
                'f"{x}"',
                "(max)(1)(2)",
                "max.__self__.eval(1)",
                "print(x := 3)",
                "open(1)",
                "exec(1)",
                "__builtins__",
                "__import__(1)",
                "max(*x)",
                "max(**x)",
                "max(x, key=abs)",
                "await x",
                "x @ y",
                "x[0]",
                "{x}",
                "...",
                "1j",
                "x or y",
                "x, y",
                "pi.real",
                "`id`",
                "$(id)",
                "a\0b",
            ]
            for attack in attacks:
                with self.subTest(attack):
                    self.assertEqual(refusal(f"a = {attack}")[0], 1)
            done = subprocess.run(["ls", folder], capture_output=True, check=True)
            self.assertEqual(done.stdout, b"")

    def test_each_ends(self) -> None:
        attacks = {
            "a power of a power": "a = 9**9**9",
            "a product of powers": "a = " + "2**900 * " * 50 + "1",
            "a power by math": "a = pow(9.5, 9**8)",
            "a factorial": "a = factorial(10**9)",
            "a shift": "a = 1 << 10**9",
            "digits": "a = " + "9" * 19_000,
            "an exponent": "a = 1e" + "9" * 1000,
            "brackets": "a = " + "(" * 9000 + "x" + ")" * 9000,
            "signs": "a = " + "-" * 19_000 + "x",
            "a sum": "a = " + "+".join(["x"] * 9_000),
            "calls": "a = " + "abs(" * 4000 + "x" + ")" * 4000,
            "a line of 8 MB": "a = " + "x+" * 4_000_000 + "x",
            "a name of 8 MB": "a" * 8_000_000 + " = 1",
            "blanks of 8 MB": " " * 8_000_000 + "=",
            "words of 8 MB": "x " * 4_000_000,
            "lines of 8 MB": "#\n" * 4_000_000,
            "formulas of 8 MB": "".join(f"a{it} = " + "+".join("1" * 100) + "\n" for it in range(40_000)),
        }
        for name, text in attacks.items():
            with self.subTest(name):
                begun = time.process_time()
                refusal(text)
                self.assertLess(time.process_time() - begun, SECONDS)


class Script(unittest.TestCase):
    """The script `clauses` at the top of the repository."""

    def run_script(self, data: bytes, **options: object) -> subprocess.CompletedProcess[bytes]:
        return subprocess.run(
            [sys.executable, ROOT / "clauses"], input=data, stderr=subprocess.PIPE, timeout=60,
            **{"stdout": subprocess.PIPE, **options},  # type: ignore[call-overload, no-any-return]
        )

    def test_a_refusal_writes_nothing_and_one_line(self) -> None:
        done = self.run_script(b"a = x\nb = q\n")
        self.assertEqual(
            (done.returncode, done.stdout, done.stderr),
            (1, b"", b"clauses: line 2: column 5: q is no name of a line before\n"),
        )

    def test_bytes_that_are_no_text_stand_in_a_comment_alone(self) -> None:
        self.assertEqual(self.run_script(b"# \xff\na = 2\n").stdout, b"# \xff\n# a = 2\na const 2\n")
        self.assertEqual(self.run_script(b"a = \xff\n").returncode, 1)

    def test_a_text_that_is_too_long(self) -> None:
        done = self.run_script(b"#" * 8_388_609)
        self.assertEqual((done.returncode, done.stdout), (1, b""))
        self.assertIn(b"8,388,608 bytes", done.stderr)

    def test_a_full_disk_is_told(self) -> None:
        with open("/dev/full", "wb") as full:
            done = self.run_script(b"a = 2\n", stdout=full)
        self.assertEqual((done.returncode, done.stderr), (1, b"clauses: No space left on device\n"))
