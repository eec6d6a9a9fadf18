"""Running the program: what it writes comes back, and each of its refusals is an exception in plain words."""
from __future__ import annotations

import os
import pathlib
import re
import signal
import subprocess
import sys
import tempfile
import textwrap
import threading
import time
import unittest
from decimal import Decimal
from fractions import Fraction
from unittest import mock

from modeller import program, reasons
from modeller.errors import (
    BadModel, BadScript, BadWords, Died, ModellerError, NoMemory, NotFound, ReadFault, Refused, TooLong, WriteFault,
)
from modeller.numerals import numeral
from tests.support import PYTHON, ROOT, example, stand_in

DISC = "a var-x\nb var-y\nc square a\nd square b\ne add c d\nr const 0.5\nf sub e r\n"
HEAVY = example("sunflower.vm")  # of 4,201 clauses: fifty large pictures of it take a while


class Lines:
    """Says that line N of a text was written by line 100 + N of a file."""

    def where(self, line: int) -> tuple[str, int] | None:
        return ("part.py", 100 + line)


class Runs(unittest.TestCase):
    def test_a_picture(self) -> None:
        wanted = b"P5\n3 3\n255\n\0\0\0\0\xff\0\0\0\0"
        self.assertEqual(program.run("render", {"w": 3, "h": 3}, DISC), wanted)
        self.assertEqual(program.run("render", {"w": 3, "h": 3, "z": None}, DISC.encode()), wanted)

    def test_a_verb_that_reads_nothing(self) -> None:
        self.assertEqual(program.run("forge", {"w": 8, "h": 8}).splitlines()[0][:7], b"clauses")

    def test_the_output_goes_straight_into_a_file(self) -> None:
        with tempfile.TemporaryFile() as file:
            self.assertEqual(program.run("text", {}, "a const 1\n", into=file), b"")
            file.seek(0)
            self.assertEqual(file.read(), b"a const 1.0000000000\n")

    def test_numbers_become_numerals(self) -> None:
        cases: list[tuple[object, str]] = [
            (3, "3"), (-2, "-2"), (0.1, "0.1"), (1e-7, "0.0000001"), (1e9, "1000000000"), (Fraction(1, 4), "0.25"),
            (Fraction(-1, 3), "-0." + "3" * 28), (Decimal("1.50"), "1.50"), (2.0, "2"), (Fraction(7), "7"),
        ]
        for value, text in cases:
            with self.subTest(value):
                self.assertEqual(Fraction(numeral(value)), Fraction(text))
                self.assertNotRegex(numeral(value), "[eE]")
        for value in (True, "3", None, 1j):
            with self.subTest(value), self.assertRaises(TypeError):
                numeral(value)
        for value in (float("inf"), float("nan")):
            with self.subTest(value), self.assertRaises(ValueError):
                numeral(value)

    def test_numerals_are_read_as_the_numbers(self) -> None:
        for value in (0.1, -2.5e-7, 123.456, Fraction(1, 3), Decimal("0.0001")):
            with self.subTest(value):
                text = program.run("text", {}, f"a const {numeral(value)}\n").split()[2].decode()
                self.assertLessEqual(abs(Fraction(text) - Fraction(value)), Fraction(1, 2**33) + Fraction(1, 10**10))


class Refusals(unittest.TestCase):
    """Each row of the tables of docs/REFUSALS.md, and each status."""

    def refused(self, verb: str, settings: dict[str, object], text: str | bytes) -> Refused:
        with self.assertRaises(Refused) as caught:
            program.run(verb, settings, text, source=Lines())
        return caught.exception

    def rows(self, section: str) -> list[tuple[str, str, str]]:
        page = (ROOT / "docs" / "REFUSALS.md").read_text()
        table = page.split(f"\n## {section}\n")[1].split("\n## ")[0]
        rows = re.findall(r"^\| `(.*?)` \| `([a-z ]+) (\d+): (\w+)` \|", table, re.M)
        self.assertGreaterEqual(len(rows), 4)
        return [(first, number, reason) for first, _, number, reason in rows]

    def test_words(self) -> None:
        for words, number, reason in self.rows("Words"):
            verb, *settings = words.split()
            named = dict(it.split("=", 1) for it in settings if "=" in it)
            if len(named) < len(settings) or verb.startswith("-"):
                continue  # words that no call of `run` gives: one without =, or a name twice
            with self.subTest(words):
                error = self.refused(verb, named, DISC)
                self.assertIsInstance(error, BadWords)
                self.assertEqual((error.status, error.reason, error.line, error.where), (2, reason, None, None))
                self.assertIn(reasons.SENTENCES["word"][reason], str(error))
        self.assertEqual(self.refused("draw", {}, DISC).reason, "UnknownVerb")

    def test_models(self) -> None:
        for line, number, reason in self.rows("Models"):
            with self.subTest(line):
                error = self.refused("text", {}, f"x var-x\n{line}\n")
                self.assertIsInstance(error, BadModel)
                self.assertEqual((error.status, error.reason, error.line), (3, reason, int(number)))
                self.assertEqual(error.where, ("part.py", 102))
                for part in (reasons.SENTENCES["model"][reason], f"`{line}`", '"part.py", line 102'):
                    self.assertIn(part, str(error))

    def test_a_model_as_a_whole(self) -> None:
        error = self.refused("text", {}, "# nothing\n")
        self.assertEqual((error.reason, error.line, error.where), ("Empty", 0, None))
        lines = "".join(f"a{it} const 1\n" for it in range(65_536))
        error = self.refused("text", {}, lines)
        self.assertEqual((error.reason, error.line), ("TooMany", 65_536))

    def test_solids(self) -> None:
        for solid, number, reason in self.rows("Solids"):
            with self.subTest(solid):
                error = self.refused("solid", {}, solid)
                self.assertEqual((error.status, error.reason, error.line), (3, reason, int(number)))
                self.assertIn(reasons.SENTENCES["solid"][reason], str(error))

    def test_scripts(self) -> None:
        for line, number, reason in self.rows("Scripts"):
            with self.subTest(line):
                error = self.refused("replay", {}, f"{example('disc.vm')}%%\n{line}\n")
                self.assertIsInstance(error, BadScript)
                self.assertEqual((error.status, error.reason, error.line), (4, reason, int(number)))
                self.assertEqual(error.where, ("part.py", 100 + int(number)))

    def test_meshes(self) -> None:
        error = self.refused("check", {}, "x var-x\n")
        self.assertEqual((error.status, error.reason), (3, "NotPly"))
        self.assertIn(reasons.SENTENCES["mesh"]["NotPly"], str(error))

    def test_an_input_that_is_too_long(self) -> None:
        error = self.refused("text", {}, b"#" * 8_388_609)
        self.assertIsInstance(error, TooLong)
        self.assertEqual(error.status, 5)

    def test_a_full_disk(self) -> None:
        with open("/dev/full", "wb") as full, self.assertRaises(WriteFault) as caught:
            program.run("render", {}, DISC, into=full)
        self.assertEqual(caught.exception.status, 7)
        self.assertIn("disk is full", str(caught.exception))

    def test_memory_that_is_refused(self) -> None:
        with stand_in("echo 'modeller: no memory' >&2\nexit 8\n"), self.assertRaises(NoMemory) as caught:
            program.run("mesh", {"n": 256}, DISC)
        self.assertIn("not enough memory", str(caught.exception))

    def test_an_input_that_can_not_be_read(self) -> None:
        script = f'exec "{program.find_program()}" "$@" < /\n'
        with stand_in(script), self.assertRaises(ReadFault):
            program.run("text", {}, DISC)

    def test_every_reason_of_the_page_has_a_sentence(self) -> None:
        page = (ROOT / "docs" / "REFUSALS.md").read_text().split("\n## All reasons\n")[1]
        told = set(re.findall(r"`([A-Z]\w+)`", page))
        self.assertGreaterEqual(len(told), 30)
        known = {it for table in reasons.SENTENCES.values() for it in table}
        self.assertEqual(told - known, set())


class Attacks(unittest.TestCase):
    """Inputs that a program which runs or stores what it reads would not survive."""

    def test_each_is_answered_soon(self) -> None:
        x = "x var-x\n"
        attacks: dict[str, tuple[str, str]] = {
            "a model of one word": ("text", "x" * 8_000_000),
            "a numeral of 8 MB": ("text", "a const " + "9" * 8_000_000),
            "a numeral of many places": ("text", "a const 0." + "9" * 8_000_000),
            "a numeral with a large exponent": ("text", "a const 1e" + "9" * 8_000_000),
            "shell in a model": ("text", "`touch touched` var-x\n$(touch touched) neg `touch\n"),
            "solids within each other": ("solid", "scale 1 " * 1_000_000),
            "unions without an end": ("solid", "union " * 1_390_000),
            "shell in a solid": ("solid", "ball $(touch touched)"),
            "a script of undos": ("replay", x + "%%\n" + "undo\n" * 100_000),
            "a script without an end of a line": ("replay", x + "%%\nset x const " + "1" * 8_000_000),
            "shell in a script": ("replay", x + "%%\n;touch touched\n"),
            "a mesh that announces too much": (
                "check", "ply\nformat ascii 1.0\nelement vertex 2147483647\nproperty float x\nelement face 2147483647\n"
                "property list uchar int vertex_indices\nend_header\n",
            ),
        }
        with tempfile.TemporaryDirectory() as folder:
            script = f'cd {folder} && exec "{program.find_program()}" "$@"\n'
            for name, (verb, text) in attacks.items():
                with self.subTest(name), stand_in(script):
                    begun = time.monotonic()
                    try:
                        program.run(verb, {}, text)
                    except Refused as error:
                        self.assertLess(len(str(error)), 300)
                    self.assertLess(time.monotonic() - begun, 5)
            self.assertEqual(os.listdir(folder), [])


class Finding(unittest.TestCase):
    def test_a_program_that_is_missing(self) -> None:
        with mock.patch.dict(os.environ, {"MODELLER": "/nowhere/modeller"}), self.assertRaises(NotFound) as caught:
            program.run("text", {}, DISC)
        self.assertIn("/nowhere/modeller", str(caught.exception))

    def test_a_file_that_is_no_program(self) -> None:
        with tempfile.NamedTemporaryFile() as file:
            os.chmod(file.name, 0o755)
            pathlib.Path(file.name).write_bytes(b"\x7fELF of another kind")
            with mock.patch.dict(os.environ, {"MODELLER": file.name}), self.assertRaises(NotFound):
                program.run("text", {}, DISC)

    def copied(self, folder: pathlib.Path, code: str, path: str) -> str:
        """What a line of Python says in a copy of the package that stands alone, with a path and no MODELLER."""
        target = folder / "python" / "modeller"
        target.mkdir(parents=True, exist_ok=True)
        for file in (PYTHON / "modeller").glob("*.py"):
            (target / file.name).write_bytes(file.read_bytes() if file.name != "__init__.py" else b"")
        environment = {"PATH": path, "PYTHONPATH": str(folder / "python")}
        done = subprocess.run([sys.executable, "-c", code], env=environment, capture_output=True, text=True, check=True)
        return done.stdout.strip()

    def test_the_places_in_their_order(self) -> None:
        code = "from modeller.program import find_program\nprint(find_program())"
        told = "from modeller import program as p\ntry: p.find_program()\nexcept p.NotFound as error: print(error)"
        with tempfile.TemporaryDirectory() as name:
            folder = pathlib.Path(name).resolve()
            self.assertIn("was not found", self.copied(folder, told, "/nowhere"))
            for place in ("path/modeller", "modeller", "crates/modeller/out/modeller"):
                (folder / place).parent.mkdir(parents=True, exist_ok=True)
                (folder / place).write_bytes(b"\x7fELF")
                (folder / place).chmod(0o755)
                with self.subTest(place):
                    self.assertEqual(self.copied(folder, code, str(folder / "path")), str(folder / place))

    def test_the_script_that_proves_first_is_passed_over(self) -> None:
        with tempfile.TemporaryDirectory() as name:
            folder = pathlib.Path(name).resolve()
            (folder / "modeller").write_bytes(b"#!/usr/bin/env bash\n")
            (folder / "modeller").chmod(0o755)
            told = "from modeller import program\ntry: program.find_program()\nexcept program.NotFound: print('none')"
            self.assertEqual(self.copied(folder, told, "/nowhere"), "none")


def children(parent: int) -> list[int]:
    """The processes that a process has begun."""
    found = []
    for status in pathlib.Path("/proc").glob("[0-9]*/stat"):
        try:
            fields = status.read_text().rpartition(")")[2].split()
        except OSError:
            continue
        if int(fields[1]) == parent and fields[0] != "Z":
            found.append(int(status.parent.name))
    return found


def awaited(parent: int) -> int:
    """The first process that a process begins."""
    for _ in range(400):
        if found := children(parent):
            return found[0]
        time.sleep(0.025)
    raise AssertionError("no process was begun")


@unittest.skipUnless(pathlib.Path("/proc/self/stat").exists(), "it looks for processes in /proc")
class Endings(unittest.TestCase):
    def test_a_run_that_is_killed_in_the_middle(self) -> None:
        caught: list[BaseException] = []

        def run() -> None:
            try:
                program.run("replay", {}, HEAVY + "%%\n" + "render w=4096 h=4096\n" * 50)
            except ModellerError as error:
                caught.append(error)

        before = set(children(os.getpid()))
        thread = threading.Thread(target=run)
        thread.start()
        for _ in range(400):
            begun = set(children(os.getpid())) - before
            if begun:
                break
            time.sleep(0.025)
        time.sleep(0.2)
        os.kill(begun.pop(), signal.SIGKILL)
        thread.join(20)
        self.assertEqual([type(it) for it in caught], [Died])
        self.assertEqual(caught[0].status, -signal.SIGKILL)  # type: ignore[attr-defined]
        self.assertIn("signal 9", str(caught[0]))

    def test_what_was_written_before_the_end_is_not_given(self) -> None:
        with stand_in("printf 'P5\\n1 1\\n255\\n'\nkill -9 $$\n"), self.assertRaises(Died):
            program.run("render", {}, DISC)

    def test_an_interrupt_ends_the_program(self) -> None:
        code = textwrap.dedent("""
            from modeller import program
            text = open("examples/sunflower.vm").read() + "%%\\n" + "render w=4096 h=4096\\n" * 50
            try:
                program.run("replay", {}, text)
            except KeyboardInterrupt:
                print("interrupted")
        """)
        environment = {**os.environ, "PYTHONPATH": str(PYTHON)}
        caller = subprocess.Popen(
            [sys.executable, "-c", code], cwd=ROOT, env=environment, stdout=subprocess.PIPE, start_new_session=True
        )
        child = awaited(caller.pid)
        time.sleep(0.2)
        os.kill(caller.pid, signal.SIGINT)
        output, _ = caller.communicate(timeout=20)
        self.assertEqual(output, b"interrupted\n")
        self.assertFalse(pathlib.Path(f"/proc/{child}").exists())

    def test_another_program(self) -> None:
        with stand_in("echo no such verb >&2\nexit 64\n"), self.assertRaises(Died) as caught:
            program.run("render", {}, DISC)
        self.assertEqual(caught.exception.status, 64)
        self.assertIn("no such verb", str(caught.exception))


class OnATerminal(unittest.TestCase):
    def test_long_work_shows_that_it_goes_on_and_leaves_nothing(self) -> None:
        import pty

        parent, terminal = pty.openpty()
        code = "from modeller import program; program.run('text', {}, 'a const 1')"
        with stand_in("sleep 2\n"):
            environment = {**os.environ, "PYTHONPATH": str(PYTHON)}
            subprocess.run([sys.executable, "-c", code], env=environment, stderr=terminal, check=True, timeout=60)
        os.close(terminal)
        shown = b""
        try:
            while piece := os.read(parent, 4096):
                shown += piece
        except OSError:
            pass  # the end of a terminal
        os.close(parent)
        self.assertIn(b"modeller: text, 1 s", shown)
        self.assertEqual(shown.split(b"\r")[-2].strip(b" "), b"")

    def test_elsewhere_nothing_is_shown(self) -> None:
        code = "from modeller import program; program.run('text', {}, 'a const 1')"
        with stand_in("sleep 1.5\n"):
            environment = {**os.environ, "PYTHONPATH": str(PYTHON)}
            done = subprocess.run([sys.executable, "-c", code], env=environment, capture_output=True, check=True)
        self.assertEqual((done.stdout, done.stderr), (b"", b""))
