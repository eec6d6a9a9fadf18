"""The runs of the page: each byte, status and note is the native program's."""
from __future__ import annotations

import json
import subprocess
import unittest

from tests.support import TOP, PageTest, bytes_in_page, example, native

VERBS = (
    "render w=60 h=40", "render z=0.1 w=33 h=33", "height w=40 h=30 d=300", "shade w=40 h=30", "contour n=24",
    "mesh n=12", "mesh nx=9 ny=8 nz=7 x0=-2 x1=2", "count w=64 h=64", "text", "solid", "check", "replay", "render w=0", "mesh q=1",
)
SCRIPTS = ("bars.script", "back.script")


class Runs(PageTest):
    def compare(self, words: str, data: bytes) -> None:
        self.assertEqual(self.page_run(words, data), native(words, data))

    def test_each_example_by_each_verb(self) -> None:
        for path in sorted((TOP / "examples").iterdir()):
            if path.suffix not in (".vm", ".solid", ".ply", ".script"):
                continue
            for words in VERBS:
                with self.subTest(example=path.name, words=words):
                    self.compare(words, path.read_bytes())

    def test_models_of_solids(self) -> None:
        for name in ("angle.solid", "enclosure.solid"):
            model = native("solid", example(name).encode())[1]
            for words in VERBS[:8]:
                with self.subTest(example=name, words=words):
                    self.compare(words, model)

    def test_models_of_formulas(self) -> None:
        """The list has each example of formulas as `clauses` writes it, and it is drawn alike."""
        shown = self.browser.run("Object.fromEntries(modeller.page.examples.map(({ name, text }) => [name, text]))")
        for path in sorted((TOP / "examples").glob("*.formulas")):
            model = subprocess.run([TOP / "clauses"], input=path.read_bytes(), capture_output=True, check=True).stdout
            with self.subTest(example=path.name):
                self.assertEqual(shown[path.name].encode(), model)
            for words in VERBS[:9]:
                with self.subTest(example=path.name, words=words):
                    self.compare(words, model)

    def test_meshes_of_the_page_are_checked(self) -> None:
        ply = self.page_run("mesh n=20", example("bracket.vm").encode())[1]
        self.assertTrue(self.page_run("check", ply)[1].startswith(b"closed manifold "))

    def test_forge_reads_nothing(self) -> None:
        self.compare("forge seed=1 solids=20 w=64 h=64", b"")

    def test_words_and_inputs_that_are_refused(self) -> None:
        for words, text in (
            ("", ""), ("draw", ""), ("render", ""), ("render x0=1 x1=-1", ""), ("render", "a var-x\nb neg c\n"),
            ("solid", "box 1 1\n"), ("replay", "x var-x\n"), ("replay", "x var-x\n%%\npaint\n"), ("check", "ply\n"),
            ("render", "a \u00e9 \u2713\n"),
        ):
            with self.subTest(words=words, text=text):
                self.compare(words, text.encode())

    def test_inputs_of_eight_and_of_nine_mebibytes(self) -> None:
        model = b"x var-x\n# "
        self.compare("render w=3 h=3", model + b"a" * (8 * 2**20 - len(model)))
        self.compare("render w=3 h=3", model + b"a" * (9 * 2**20 - len(model)))


# Runs the words once, and then once for each block of memory that this run asks for, which is refused.
REFUSALS = """
(async () => {
  const whole = await modeller.run(WORDS, INPUT);
  const ended = [];
  for (let refuse = 1; refuse <= whole.blocks; refuse++) {
    const { status, output, note, died } = await modeller.run(WORDS, INPUT, { refuse });
    ended.push([died ?? status, output?.length, output?.every((it, at) => it === whole.output[at]), note]);
  }
  return ended;
})()"""


class Refused(PageTest):
    RUNS = (
        ("render w=40 h=40", "bowl.vm"), ("height w=24 h=24", "bracket.vm"), ("shade w=24 h=24", "bracket.vm"), ("contour n=16", "nut.vm"),
        ("mesh n=6", "bowl.vm"), ("count w=40 h=40", "disc.vm"), ("text", "disc.vm"), ("solid", "angle.solid"), ("replay", "back.script"),
        ("check", "tip.ply"), ("forge seed=1 solids=5 w=24 h=24", "disc.vm"),
    )

    def test_each_allocation_refused_in_turn(self) -> None:
        """The run ends with status 8 and a prefix of the output, or does without that block; and the next run is whole."""
        for words, name in self.RUNS:
            data = example(name).encode()
            whole = native(words, data)
            with self.subTest(words=words):
                script = REFUSALS.replace("WORDS", json.dumps(words.split())).replace("INPUT", bytes_in_page(data))
                ended = self.browser.run(script)
                for status, length, prefix, note in ended:
                    self.assertTrue(prefix)
                    if status == whole[0]:  # a vector that may not grow by as much as it would like grows by less
                        self.assertEqual((length, note), (len(whole[1]), whole[2]))
                    else:
                        self.assertEqual((status, note), (8, "modeller: no memory\n"))
                self.assertIn(8, [it[0] for it in ended])
                self.assertEqual(self.page_run(words, data), whole)


if __name__ == "__main__":
    unittest.main()
