"""Edits and draws that are gathered and played as one script."""
from __future__ import annotations

import inspect
import pathlib
import tempfile
import unittest
import warnings

from modeller import (
    Bounds, ball, box, capsule, circle, cone, cylinder, extrude, gyroid, half_space, polygon, prism, program, rectangle,
    revolve, rod, size, slot, text, thread, torus,
)
from modeller.errors import BadEdit, BadScript
from modeller.faults import EmptyPart, TouchesBorder, WrongNumber, WrongType
from modeller.files import read_ply
from modeller.session import Session
from tests.support import example, stand_in

DISC = "x var-x\ny var-y\na square x\nb square y\ns add a b\nr const 0.5\nf sub s r\n"


def line() -> int:
    """The line that calls this."""
    frame = inspect.currentframe()
    assert frame is not None and frame.f_back is not None
    return frame.f_back.f_lineno


class Plays(unittest.TestCase):
    def test_frames_are_those_of_the_models_then_standing(self) -> None:
        session = Session(DISC)
        first = session.render(w=9, h=9)
        session.set("r", 0.1)
        second = session.render(w=9, h=9)
        session.undo()
        third, text = session.render(w=9, h=9), session.text()
        small = DISC.replace("0.5", "0.1")
        self.assertEqual(first.data, program.run("render", {"w": 9, "h": 9}, DISC))
        self.assertEqual(second.data, program.run("render", {"w": 9, "h": 9}, small))
        self.assertEqual(third.data, first.data)
        self.assertEqual(text.text, program.run("text", {}, DISC).decode())

    def test_each_kind_of_edit(self) -> None:
        session = Session(DISC)
        session.put("f", "r2", 0.25)
        session.set("f", "sub", "s", "r2")
        session.add("g", "neg", "f")
        session.cut("g")
        session.cut("r")
        wanted = DISC.replace("r const 0.5\nf sub s r\n", "r2 const 0.25\nf sub s r2\n")
        self.assertEqual(session.text().text, program.run("text", {}, wanted).decode())

    def test_all_is_played_at_once_and_what_was_drawn_stays(self) -> None:
        script = f'cd "$(dirname "$0")"\ncat > input.$$\nexec "{program.find_program()}" "$@" < input.$$\n'
        with stand_in(script) as folder:
            session = Session(DISC)
            first = session.render(w=3, h=3)
            session.set("r", 0.1)
            second = session.render(w=3, h=3)
            self.assertEqual(list(folder.glob("input.*")), [])
            self.assertNotEqual(first.data, b"")
            self.assertNotEqual(second.data, b"")
            self.assertEqual(len(list(folder.glob("input.*"))), 1)
            third = session.render(w=5, h=3)
            self.assertEqual(third.data, program.run("render", {"w": 5, "h": 3}, DISC.replace("0.5", "0.1")))
            played = [it.read_text() for it in folder.glob("input.*")]
            self.assertIn(DISC + "%%\nset r const 0.1\nrender z=0 w=5 h=3\n", played)

    def test_a_cost_is_that_of_the_pictures_before_it(self) -> None:
        session = Session("x var-x\n")
        picture = session.render(w=8, h=1)
        self.assertEqual(session.cost().cost, (8, 1))
        session.set("x", "var-x")
        self.assertEqual(picture.data, session.render(w=8, h=1).data)
        self.assertEqual(session.cost().cost, (0, 0))

    def test_an_edited_part_is_the_part_made_anew(self) -> None:
        def plate(wall: float) -> object:
            return box(20, 10, size("wall", wall)) - cylinder(3, 10)

        session = Session(plate(2))  # type: ignore[arg-type]
        thin = session.mesh(cell=0.5)
        session.set("wall", 3)
        bounds = plate(3).bounds()  # type: ignore[attr-defined]
        thick = session.mesh(cell=0.5, bounds=bounds)
        self.assertEqual(thin.data, plate(2).mesh(cell=0.5).ply)  # type: ignore[attr-defined]
        self.assertEqual(thick.data, plate(3).mesh(cell=0.5).ply)  # type: ignore[attr-defined]
        self.assertEqual(thick.mesh, read_ply(thick.data))

    def test_a_size_drives_each_solid(self) -> None:
        view = Bounds((-12, -12, -12), (12, 12, 12))
        for make in (
            lambda s: ball(s), lambda s: box(s, 7, 5), lambda s: box(9, 8, 7, radius=s / 4), lambda s: cylinder(5, s),
            lambda s: cylinder(s, 5, bevel=s / 10), lambda s: cone(s, 5, s / 2), lambda s: torus(5, s / 2),
            lambda s: capsule(s / 2, 12), lambda s: rod((0, 0, 0), (3, 4, 5), s / 2), lambda s: prism(6, s, 5),
            lambda s: half_space("z", s) & ball(9), lambda s: extrude(rectangle(s * 2, s, radius=s / 5), s),
            lambda s: extrude(slot(12, s), 3), lambda s: extrude(polygon((0, 0), (s, 0), (s, s), (s / 2, s / 4)), 3),
            lambda s: extrude(text("Ab", s), s / 2), lambda s: revolve(circle(1).move(s)),
            lambda s: thread(s, s / 4, 6),
            lambda s: gyroid(10, s / 4) & ball(6), lambda s: box(10, 10, 4).union(cylinder(2, 12), radius=s / 4),
            lambda s: box(10, 10, 4).cut(cylinder(2, 12), bevel=s / 4), lambda s: ball(8).shell(s / 2).offset(s / 9),
            lambda s: ball(2).move(s, s / 2, -s).mirror("x", at=s / 4), lambda s: box(1, 2, 3).scale(s / 2),
            lambda s: ball(1).row(3, s).around(5, s), lambda s: ball(1).grid(2, 3, s, s / 2).at((s, 0, 0), (0, s / 2)),
            lambda s: box(s, 2, 3).rotate(33, (1, 1, 0), about=(s, 0, 0)),
        ):
            part, anew = make(size("s", 4)), make(size("s", 4.5))
            with self.subTest(repr(part)), warnings.catch_warnings():
                warnings.simplefilter("ignore", TouchesBorder)
                session = Session(part)
                session.set("s", 4.5)
                self.assertEqual(session.mesh(cell=1.5, bounds=view).data, anew.mesh(cell=1.5, bounds=view).ply)

    def test_draws_are_those_of_the_part(self) -> None:
        part = box(40, 20, 10)
        session = Session(part)
        frame = session.render(z=2, size=64)
        self.assertEqual(frame.data, part.render(z=2, size=64).pgm)
        self.assertEqual(session.height(size=64, layers=9).data, part.height(size=64, layers=9).pgm)
        self.assertEqual(session.mesh().data, part.mesh().ply)
        self.assertEqual(frame._repr_png_(), frame.png)

    def test_a_part_that_outgrows_its_view_is_told(self) -> None:
        session = Session(box(20, 10, size("wall", 2)))
        session.set("wall", 4)
        frame = session.mesh(cell=0.5)
        with self.assertWarns(TouchesBorder) as caught:
            frame.data
        self.assertIn("-z, +z", str(caught.warning))

    def test_a_mesh_with_nothing_inside_is_refused(self) -> None:
        session = Session(box(20, 10, size("wall", 2)))
        session.set("wall", -1)
        frame = session.mesh(cell=0.5)
        for _ in range(2):
            with self.assertRaises(EmptyPart):
                frame.data

    def test_files(self) -> None:
        session = Session(example("disc.vm"))
        frames = {"a.ply": session.mesh(n=4), "a.pgm": session.render(w=3, h=3), "a.vm": session.text()}
        with tempfile.TemporaryDirectory() as folder:
            for name, frame in frames.items():
                frame.save(pathlib.Path(folder) / name)
                self.assertEqual((pathlib.Path(folder) / name).read_bytes(), frame.data)
            frames["a.pgm"].save(pathlib.Path(folder) / "a.png")
            frames["a.ply"].save(pathlib.Path(folder) / "a.stl")
            self.assertEqual(len(list(pathlib.Path(folder).iterdir())), 5)
            for name, frame in {"a.stl": frames["a.pgm"], "a.png": frames["a.vm"], "a.txt": frames["a.vm"]}.items():
                with self.assertRaises(WrongNumber):
                    frame.save(pathlib.Path(folder) / name)


class Refuses(unittest.TestCase):
    def test_an_edit_that_can_not_be_made(self) -> None:
        cases = {
            "UnknownName": ("set", "R", 0.25),
            "DoubleName": ("add", "x", 1),
            "NotEarlier": ("set", "a", "square", "f"),
            "InUse": ("cut", "r"),
            "NothingToUndo": ("undo",),
        }
        for reason, (call, *words) in cases.items():
            with self.subTest(reason):
                session = Session(DISC)
                picture = session.render(w=3, h=3)
                getattr(session, call)(*words)
                here = line() - 1
                with self.assertRaises(BadEdit) as caught:
                    picture.data
                error = caught.exception
                self.assertEqual((error.reason, error.line, error.where), (reason, 10, (__file__, here)))
                self.assertIn(f"`{' '.join((call, *words[:1]))}", str(error))
                self.assertEqual(picture.data, program.run("render", {"w": 3, "h": 3}, DISC))

    def test_a_misspelt_size_and_the_nearest(self) -> None:
        session = Session("wall const 2\nf max wall wall\n")
        session.set("wal", 3)
        with self.assertRaises(BadEdit) as caught:
            session.text().text
        self.assertIn("`set wal const 3`: no clause has that name; the nearest is wall", str(caught.exception))

    def test_the_last_clause(self) -> None:
        session = Session("a const 1\n")
        session.cut("a")
        with self.assertRaises(BadEdit) as caught:
            session.text().text
        self.assertEqual(caught.exception.reason, "LastClause")

    def test_a_line_that_is_no_command(self) -> None:
        session = Session(DISC)
        session.set("r", "sine", "x")
        here = line() - 1
        with self.assertRaises(BadScript) as caught:
            session.text().text
        self.assertEqual((caught.exception.reason, caught.exception.where), ("UnknownOperation", (__file__, here)))
        session = Session(DISC)
        frame = session.render(w=5000)
        with self.assertRaises(BadScript) as caught:
            frame.data
        self.assertIn("`render z=0 w=5000`", str(caught.exception))

    def test_words_that_would_be_two(self) -> None:
        for name in ("a b", "", "a\nmesh", "#a", 3):
            with self.subTest(name), self.assertRaises(WrongType):
                Session(DISC).set(name, 1)  # type: ignore[arg-type]
        with self.assertRaises(WrongType):
            Session(DISC).set("a", "max", "x y")
        with self.assertRaises(WrongType):
            Session(DISC).set("a", 3, "x")

    def test_a_frame_of_another_kind(self) -> None:
        with self.assertRaises(WrongType):
            Session(DISC).text().mesh

    def test_a_text_has_no_bounds(self) -> None:
        with self.assertRaises(WrongType):
            Session(DISC).mesh(cell=0.5)
