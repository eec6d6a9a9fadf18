"""The package as pip installs it, the one version, and the archive."""
from __future__ import annotations

import importlib.util
import pathlib
import re
import shutil
import subprocess
import sys
import tempfile
import unittest
import venv
import zipfile

from modeller.program import find_program
from modeller.version import version
from tests.support import PYTHON, ROOT

sys.path.insert(0, str(PYTHON))
import backend  # noqa: E402  the build backend, which stands beside the package


class Version(unittest.TestCase):
    def test_there_is_one(self) -> None:
        number = (ROOT / "VERSION").read_text()
        self.assertRegex(number, r"\A\d+\.\d+\.\d+\n\Z")
        self.assertEqual(version() + "\n", number)
        manual = (ROOT / "docs" / "modeller.1").read_text()
        self.assertIn(f'"modeller {version()}"', manual.splitlines()[0])
        self.assertEqual(set(re.findall(r"\d+\.\d+\.\d+", manual)), {version()})
        self.assertIn(f".SH VERSION\nmodeller {version()}\n", manual)
        self.assertNotIn("version =", (PYTHON / "pyproject.toml").read_text())


class Manual(unittest.TestCase):
    """The manual page has each verb, setting, form and command that docs/VERBS.md has."""

    def words(self, text: str, first: str) -> list[str]:
        """The names in backquotes of the first cells of a table, whose head begins with a word."""
        rows = text.split(f"| {first} |")[1].split("\n\n")[0].splitlines()[2:]
        return [name for row in rows for name in re.findall(r"`(\w+)", row.split(" | ")[0])]

    def test_it_lists_what_the_pages_list(self) -> None:
        pages = (ROOT / "docs" / "VERBS.md").read_text()
        manual = (ROOT / "docs" / "modeller.1").read_text()
        for section, names in (
            ("VERBS", re.findall(r"(?m)^## ([a-z]+)$", pages)),
            ("SETTINGS", self.words(pages, "Setting")),
            ("SOLIDS", self.words(pages, "Form")),
            ("SCRIPTS", self.words(pages, "Command")),
        ):
            text = manual.split(f".SH {section}\n")[1].split(".SH ")[0]
            self.assertGreater(len(names), 7)
            for name in names:
                with self.subTest(section, name=name):
                    self.assertRegex(text, rf"(?m)^\.BI? .*\b{name}\b|^\.BR .*\b{name}\b")


class Backend(unittest.TestCase):
    def test_a_wheel_has_the_package_and_is_made_alike_each_time(self) -> None:
        with tempfile.TemporaryDirectory() as one, tempfile.TemporaryDirectory() as two:
            first, second = (pathlib.Path(it) / backend.build_wheel(it) for it in (one, two))
            self.assertEqual(first.read_bytes(), second.read_bytes())
            self.assertEqual(first.name, f"modeller-{version()}-py3-none-any.whl")
            names = set(zipfile.ZipFile(first).namelist())
        modules = {f"modeller/{it.name}" for it in (PYTHON / "modeller").glob("*.py")}
        info = {f"modeller-{version()}.dist-info/{it}" for it in ("METADATA", "WHEEL", "RECORD")}
        self.assertEqual(names, modules | info | {"modeller/py.typed"})

    def test_a_source_archive_gives_the_same_wheel(self) -> None:
        with tempfile.TemporaryDirectory() as room:
            archive = pathlib.Path(room) / backend.build_sdist(room)
            shutil.unpack_archive(archive, room)
            folder = pathlib.Path(room) / f"modeller-{version()}"
            subprocess.run(
                [sys.executable, "-c", "import backend; backend.build_wheel('.')"], cwd=folder, check=True, env={}
            )
            wheel = pathlib.Path(room) / backend.build_wheel(room)
            self.assertEqual((folder / wheel.name).read_bytes(), wheel.read_bytes())

    @unittest.skipUnless(any(map(importlib.util.find_spec, ("pip", "ensurepip"))), "this Python has no pip")
    def test_pip_installs_it_without_an_index(self) -> None:
        with tempfile.TemporaryDirectory() as room:
            bare = importlib.util.find_spec("pip") is None
            venv.create(room, with_pip=bare, system_site_packages=not bare)
            python = pathlib.Path(room) / "bin" / "python"
            for words, wanted in ([], "site-packages"), (["-e"], str(PYTHON)):
                with self.subTest(words):
                    subprocess.run(
                        [python, "-m", "pip", "install", "-q", "--no-index", "--force-reinstall", *words, PYTHON],
                        check=True, capture_output=True,
                    )
                    code = "import modeller, modeller.version as v; print(modeller.__file__, v.version())"
                    done = subprocess.run([python, "-c", code], cwd=room, env={}, capture_output=True, check=True)
                    place, number = done.stdout.decode().split()
                    self.assertIn(wanted, place)
                    self.assertEqual(number, version())


class Package(unittest.TestCase):
    def test_the_archive_has_what_a_part_needs(self) -> None:
        script = (ROOT / "checks" / "package").read_text()
        with tempfile.TemporaryDirectory() as room:
            top = pathlib.Path(room) / "top"
            for it in ("c", "checks", "docs", "examples", "python", "web"):
                shutil.copytree(ROOT / it, top / it)
            for it in ("clauses", "paint", "README.md", "VERSION"):
                shutil.copy(ROOT / it, top / it)
            program = top / "crates" / "modeller" / "out" / "modeller"
            program.parent.mkdir(parents=True)
            shutil.copy(find_program(), program)
            (top / "python" / "modeller" / "__pycache__").mkdir(exist_ok=True)
            self.assertTrue(script.startswith("#!"))
            subprocess.run([top / "checks" / "package", room], check=True, capture_output=True)
            shutil.unpack_archive(pathlib.Path(room) / "modeller.tar.gz", room)
            folder = pathlib.Path(room) / "modeller"
            self.assertEqual(list(folder.rglob("__pycache__")), [])
            code = "from modeller import program, version; print(program.find_program(), version.version())"
            done = subprocess.run(
                [sys.executable, "-c", code],
                env={"PYTHONPATH": str(folder / "python")}, capture_output=True, text=True, check=True,
            )
            self.assertEqual(done.stdout.split(), [str(folder.resolve() / "modeller"), version()])
            done = subprocess.run([folder / "clauses"], input="a = 2\n", capture_output=True, text=True, check=True)
            self.assertEqual(done.stdout, "# a = 2\na const 2\n")


class Completion(unittest.TestCase):
    def test_files_are_offered_behind_a_sign_of_redirection(self) -> None:
        code = f"""
            . {ROOT}/docs/modeller.bash
            offer() {{ COMP_WORDS=(modeller "$@"); COMP_CWORD=$#; _modeller; printf '%s ' "${{COMPREPLY[@]}}"; echo; }}
            offer render '<' examples/disc.v; offer render '<examples/disc.v'; offer render '>' READ; offer render z
        """
        done = subprocess.run(["bash", "-c", code], cwd=ROOT, capture_output=True, text=True, check=True)
        self.assertEqual(done.stdout.split(), ["examples/disc.vm", "examples/disc.vm", "README.md", "z="])
