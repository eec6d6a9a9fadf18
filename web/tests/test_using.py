"""The page as a person uses it."""
from __future__ import annotations

import pathlib
import re
import struct
import unittest

from modeller import files
from tests.support import TOP, PageTest, bytes_in_page, example, native


class Writing(PageTest):
    def test_begins_with_a_part_and_its_mesh(self) -> None:
        self.begin("")
        self.assertEqual(self.value("area"), example("enclosure.solid"))
        self.assertRegex(self.said("status"), r"^Mesh: 194,236 vertices, 388,492 faces, .* 60 × 40 × 20$")

    def test_follows_what_is_typed(self) -> None:
        self.look("render")
        self.write("ball 0.5")
        self.assertEqual(self.said("kind"), "a solid")
        self.assertRegex(self.said("status"), r"^Cut: 480 × ")
        self.write("x var-x")
        self.assertEqual(self.said("kind"), "a model")
        self.assertIn("touches the ends x0, y0, y1", self.said("warnings"))

    def test_marks_a_line_that_is_refused(self) -> None:
        self.write("x var-x\na sub x 1")
        self.assertIn("Line 2 is refused: UnknownName.", self.said("refusal"))
        self.assertIn("A number is no argument", self.said("refusal"))
        self.assertEqual(self.browser.run("document.getElementById('mark').hidden"), False)
        self.browser.click("#refusal button")
        self.assertEqual(self.browser.run("getSelection().toString() || document.activeElement.value.slice(document.activeElement.selectionStart, document.activeElement.selectionEnd)"), "a sub x 1")
        self.write("x var-x\none const 1\na sub x one")
        self.assertEqual(self.said("refusal"), "")

    def test_a_refused_solid_has_the_line_of_the_solid(self) -> None:
        self.write("union\n  ball 1\n  sphere 2")
        self.assertIn("Line 3 is refused: UnknownForm.", self.said("refusal"))

    def test_a_setting_that_is_refused_is_marked(self) -> None:
        self.put("x0", "1/3")
        self.assertIn("x0=1/3 is refused: BadValue.", self.said("refusal"))
        self.assertEqual(self.browser.run("document.getElementById('x0').getAttribute('aria-invalid')"), "true")
        self.put("x0", "-1")
        self.assertEqual(self.said("refusal"), "")

    def test_shows_text_of_others_as_text(self) -> None:
        self.write("<img/src=x/onerror=document.title='bad'> const 1\n<b>bad</b> nothing")
        self.assertIn("<b>", self.value("area"))
        self.assertEqual(self.browser.run("document.querySelectorAll('main img, main b').length"), 0)
        self.assertEqual(self.browser.run("document.title"), "modeller")

    def test_nothing_else_may_be_fetched_or_run(self) -> None:
        """Not even by its own script: the policy of the page forbids every other address and every other script."""
        asked = self.browser.run("fetch('https://example.com/').then(() => 'fetched', () => 'refused')")
        self.browser.run("(() => { const it = document.createElement('script'); it.textContent = 'document.title = \\'bad\\''; document.body.append(it); })()")
        self.browser.run("(() => { const it = document.createElement('style'); it.textContent = 'main { display: none }'; document.body.append(it); })()")
        self.assertEqual((asked, self.browser.run("document.title")), ("refused", "modeller"))
        self.assertNotEqual(self.browser.run("getComputedStyle(document.querySelector('main')).display"), "none")
        self.browser.console.clear()  # the browser names each refusal there
        self.browser.fetched.clear()

    def test_an_empty_text_says_how_to_begin(self) -> None:
        self.write("")
        self.assertIn("choose an example", self.said("nothing"))

    def test_formulas_are_left_to_the_command_line(self) -> None:
        self.write("a = x * x")
        self.assertIn("./clauses", self.said("refusal"))


class Sliding(PageTest):
    def test_a_slider_writes_its_number_and_is_taken_back(self) -> None:
        self.choose("bracket.vm")
        before = self.value("area")
        self.browser.run("document.getElementById('slider-0').focus()")
        self.browser.press("ArrowRight")
        self.idle()
        after = self.value("area")
        changed = [(a, b) for a, b in zip(before.split("\n"), after.split("\n")) if a != b]
        self.assertEqual(changed, [("bore_radius const 0.22", "bore_radius const 0.225")])
        self.browser.press("z", control=True)
        self.idle()
        self.assertEqual(self.value("area"), before)
        self.browser.press("z", control=True, shift=True)
        self.idle()
        self.assertEqual(self.value("area"), after)

    def test_a_dragged_slider_is_one_step(self) -> None:
        self.choose("bracket.vm")
        self.look("render")
        before = self.value("area")
        x, y = self.browser.middle("#slider-1")
        self.browser.mouse("mousePressed", x, y)
        for step in range(1, 6):
            self.browser.mouse("mouseMoved", x + 4 * step, y)
            if step == 3:
                self.browser.run("new Promise((done) => setTimeout(done, 1100))")  # a hand that rests goes on with the step
        self.browser.mouse("mouseReleased", x + 20, y)
        self.idle()
        self.assertNotEqual(self.value("area"), before)
        self.assertRegex(self.said("status"), r"480 × 480 pixels")
        self.browser.click("#undo")
        self.idle()
        self.assertEqual(self.value("area"), before)

    def test_sizes_of_a_solid(self) -> None:
        self.write("move 1 2 3 box 4 5 6")
        names = self.browser.run("[...document.querySelectorAll('.slider label')].map((it) => it.textContent)")
        self.assertEqual(names, ["move X", "move Y", "move Z", "box A", "box B", "box C"])


class Viewing(PageTest):
    def test_each_view_draws(self) -> None:
        self.begin("enclosure.solid")
        for view, words in (("shade", "Shaded height map: 480 × 330"), ("height", "Height map: 480 × 330"), ("render", "Cut: 480 × 330"),
                            # five slots and a hole part the wall at half its height into six
                            ("contour", "Contour: 6 closed paths"), ("mesh", "Mesh: 194,236")):
            with self.subTest(view=view):
                self.look(view)
                self.assertIn(words, self.said("status"))

    def test_the_view_is_fitted_to_the_part(self) -> None:
        self.begin("enclosure.solid")
        for name in ("x0", "y0", "z0"):
            self.put(name, "-1")
        for name in ("x1", "y1", "z1"):
            self.put(name, "1")
        self.assertIn("touches the ends", self.said("warnings"))
        self.browser.click("#fit")
        self.idle()
        self.assertEqual([self.value(it) for it in ("x0", "x1", "y0", "y1", "z0", "z1")], ["-32", "32", "-22", "22", "-0.5", "20.5"])
        self.assertEqual(self.said("warnings"), "")

    def test_a_part_that_has_no_end_along_z(self) -> None:
        self.put("x1", "8")
        self.browser.click("#fit")
        self.idle()
        self.assertLess(float(self.value("x1")), 1)
        self.assertEqual((self.value("z0"), self.value("z1")), ("-1", "1"))
        self.assertIn("no end along z", self.said("warnings"))

    def test_an_empty_mesh_is_said(self) -> None:
        self.write("move 100 0 0 ball 1")
        self.look("mesh")
        self.assertIn("The mesh is empty", self.said("warnings"))

    def test_a_mesh_turns_by_keys_and_mouse(self) -> None:
        self.put("cell", "0.1")
        self.look("mesh")
        drawn = "modeller.page.stage.canvasToSave(null).toDataURL()"
        first = self.browser.run(drawn)
        self.browser.run("document.getElementById('mesh').focus()")
        self.browser.press("ArrowLeft")
        second = self.browser.run(drawn)
        x, y = self.browser.middle("#mesh")
        self.browser.mouse("mousePressed", x, y)
        self.browser.mouse("mouseMoved", x + 60, y - 30)
        self.browser.mouse("mouseReleased", x + 60, y - 30)
        third = self.browser.run(drawn)
        self.browser.press("Home")
        self.assertEqual(len({first, second, third}), 3)
        self.assertEqual(self.browser.run(drawn), first)

    def test_a_run_is_stopped_and_the_page_goes_on(self) -> None:
        self.begin("enclosure.solid")
        self.browser.run("document.getElementById('cell').value = '0.13'; document.getElementById('cell').dispatchEvent(new Event('change'))")
        self.browser.wait("!document.getElementById('working').hidden")
        self.browser.click("#stop")
        self.idle()
        self.assertEqual(self.said("status"), "Stopped.")
        self.put("cell", "1")
        self.assertIn("Mesh: ", self.said("status"))

    def test_four_hundred_pixels_are_wide_enough(self) -> None:
        self.browser.size(400, 800)
        self.put("cell", "0.1")
        for view in ("shade", "contour", "mesh"):
            self.look(view)
            self.assertEqual(self.browser.run("document.documentElement.scrollWidth"), 400)


class Files(PageTest):
    def test_files_are_opened(self) -> None:
        self.browser.choose_file("#file", str(TOP / "examples" / "bowl.vm"))
        self.browser.wait("document.getElementById('area').value.includes('bowl')")
        self.idle()
        self.assertEqual(self.value("area"), example("bowl.vm"))

    def test_a_mesh_is_checked(self) -> None:
        self.browser.choose_file("#file", str(TOP / "examples" / "tip.ply"))
        self.browser.wait("document.getElementById('status').textContent.startsWith('tip.ply')")
        self.assertIn("the faces at vertex 0 do not close round it", self.said("status"))
        sound = pathlib.Path(self.folder.name, "sound.ply")
        sound.write_bytes(native("mesh n=16", example("bracket.vm").encode())[1])
        self.browser.choose_file("#file", str(sound))
        self.browser.wait("document.getElementById('status').textContent.startsWith('sound.ply')")
        self.assertIn("the mesh is closed and a manifold", self.said("status"))

    def test_a_file_is_dropped(self) -> None:
        self.browser.run(
            "(() => { const carried = new DataTransfer(); carried.items.add(new File([" + bytes_in_page(b"ball 0.25") + "], 'small.solid'));"
            " for (const kind of ['dragover', 'drop'])"
            " document.body.dispatchEvent(new DragEvent(kind, { dataTransfer: carried, bubbles: true, cancelable: true })); })()"
        )
        self.browser.wait("document.getElementById('area').value === 'ball 0.25'")
        self.idle()
        self.assertEqual((self.said("kind"), self.said("warnings")), ("a solid", ""))
        self.assertTrue(self.browser.run("document.getElementById('drop').hidden"))

    def test_the_longest_file_that_is_read(self) -> None:
        text = "ball 0.25\n" + "# 456789 123456789 123456789 123456789 123456789 123456789 1234567\n" * 123_361
        path = pathlib.Path(self.folder.name, "long.solid")
        path.write_text(text.ljust(8 * 2**20, "#"))
        self.browser.choose_file("#file", str(path))
        self.browser.wait(f"document.getElementById('area').value.length === {8 * 2**20}")
        self.idle()
        self.assertEqual((self.said("refusal"), self.said("warnings")), ("", ""))

    def test_a_file_that_is_too_long_is_refused(self) -> None:
        path = pathlib.Path(self.folder.name, "long.vm")
        path.write_bytes(b"#" * (9 * 2**20))
        self.browser.choose_file("#file", str(path))
        self.browser.wait("document.getElementById('refusal').textContent.includes('too long')")

    def test_what_is_saved(self) -> None:
        self.choose("bracket.vm")
        self.put("cell", "0.05")
        text = example("bracket.vm").encode()
        ends = "x0=-1 x1=1 y0=-1 y1=1 z0=-1 z1=1"
        ply = native(f"mesh {ends} nx=40 ny=40 nz=40", text)[1]
        self.assertEqual(self.saved("ply", "bracket.ply"), ply)
        stl = self.saved("stl", "bracket.stl")
        self.assertEqual(struct.unpack_from("<I", stl, 80)[0], (len(stl) - 84) // 50)
        self.assertEqual(corners(stl), corners(files.stl_of(files.read_ply(ply))))
        self.assertEqual(self.saved("vm", "bracket.vm"), native("text", text)[1])
        self.assertEqual(self.saved("text", "bracket.vm"), text)
        flat = "x0=-1 x1=1 y0=-1 y1=1 z=-0.7"
        self.assertEqual(self.saved("pgm", "bracket.pgm"), native(f"render {flat} w=480 h=480", text)[1])
        self.assertTrue(self.saved("png", "bracket.png").startswith(b"\x89PNG"))
        path = native(f"contour {flat} n=40", text)[1].decode()
        self.assertEqual(self.saved("svg", "bracket.svg").decode(), files.svg_of(path, (-1, 1, -1, 1)))

    def test_the_model_of_a_solid_is_saved(self) -> None:
        self.choose("enclosure.solid")
        self.assertEqual(self.saved("vm", "enclosure.vm"), native("solid", example("enclosure.solid").encode())[1])


def corners(stl: bytes) -> list[tuple[float, ...]]:
    """The corners of the faces of a binary STL file."""
    return [struct.unpack_from("<9f", stl, at + 12) for at in range(84, len(stl), 50)]


class Reaching(PageTest):
    first = "bracket.vm"

    def setUp(self) -> None:
        super().setUp()
        self.put("cell", "0.1")
        self.look("mesh")

    def test_the_keyboard_alone(self) -> None:
        """The key Tab comes by every control, and the arrows go from view to view."""
        seen = set()
        for _ in range(60):
            self.browser.press("Tab")
            seen.add(self.browser.run("document.activeElement.id || document.activeElement.tagName"))
        self.assertLessEqual({"examples", "open", "SUMMARY", "area", "tab-mesh", "mesh", "slider-0", "fit", "x0", "z1", "cell"}, seen)
        self.browser.run("document.getElementById('tab-mesh').focus()")
        self.browser.press("Home")
        self.idle()
        self.assertRegex(self.said("status"), "^Shaded height map")
        self.browser.press("ArrowRight")
        self.idle()
        self.assertRegex(self.said("status"), "^Height map")

    def test_what_a_screen_reader_finds(self) -> None:
        found = self.browser.tree()
        for role, name in (("heading", "modeller"), ("textbox", "Text of a model or a solid"), ("tab", "Mesh"), ("button", "Fit to the part"),
                           ("combobox", "Example"), ("textbox", "x from")):
            self.assertIn((role, name), found)
        nameless = [role for role, name in found if role in ("button", "textbox", "slider", "combobox", "tab", "searchbox") and not name]
        self.assertEqual(nameless, [])
        self.browser.wait("document.getElementById('said').textContent !== ''")
        self.assertEqual(self.said("said"), self.said("status"))
        self.assertTrue(re.match(r"Mesh: ", self.said("said")))


if __name__ == "__main__":
    unittest.main()
