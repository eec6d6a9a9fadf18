"""A part that is edited and drawn by one script: `replay` reads its whole input before it draws.

    from modeller import Session

    session = Session(part)
    before = session.mesh(cell=0.5)
    session.set("wall", 3)
    after = session.mesh(cell=0.5)
    after.save("thick.stl")          # here the script runs, and both meshes are drawn
"""
from __future__ import annotations

import os
import re
from collections.abc import Mapping
from dataclasses import dataclass
from fractions import Fraction
from pathlib import Path
from typing import TYPE_CHECKING

from . import files, program
from .drawings import PartMesh, look_at
from .errors import BadEdit, Died
from .faults import WrongNumber, WrongType
from .lengths import plain
from .numerals import numeral
from .origin import here
from .reasons import sentence
from .spelling import nearest
from .view import View, depth_settings, picture_settings, view_of

if TYPE_CHECKING:
    from .bounds import Bounds
    from .expressions import Number
    from .solids import Solid

__all__ = ["Frame", "Session"]


@dataclass(frozen=True)
class _Command:
    """A line of the script, and the line of Python that asked for it."""

    text: str
    where: tuple[str, int]
    frame: "Frame | None" = None


class Frame:
    """What a draw of a session gives. It is drawn when it is first asked for, with all that stands before it.

    kind  `mesh`, `render`, `height`, `text` or `cost`
    """

    def __init__(self, session: "Session", kind: str, view: View | None = None, cell: Fraction = Fraction(0)) -> None:
        self.kind = kind
        self._session = session
        self._view, self._cell = view, cell  # of a mesh that was not looked at yet
        self._data: bytes | None = None

    @property
    def data(self) -> bytes:
        """The bytes as the program wrote them: PLY, PGM or text.

        A mesh by a cell is looked at first, as that of `part.mesh`: an empty one is refused, and a warning says where
        the part touches the border of its view.
        """
        if self._data is None:
            self._session.run()
        assert self._data is not None
        if self._view is not None:
            look_at(PartMesh(self._data, self._view), self._cell)
            self._view = None
        return self._data

    @property
    def mesh(self) -> files.Mesh:
        """Of a mesh its vertices and faces."""
        return files.read_ply(self._of("mesh"))

    @property
    def png(self) -> bytes:
        """Of a picture or a height map its PNG file."""
        return files.png_of(self._of("render", "height"))

    @property
    def text(self) -> str:
        """Of a text the model."""
        return self._of("text").decode("utf-8", "surrogateescape")

    @property
    def cost(self) -> tuple[int, int]:
        """Of a cost the points and the spans that the last picture before it took."""
        points, spans = self._of("cost").split()
        return int(points), int(spans)

    def save(self, path: str | os.PathLike[str]) -> None:
        """Writes the frame by the ending of the file: .ply, .stl or .3mf, .png or .pgm, .vm."""
        ending = Path(path).suffix.lower()
        if self.kind == "mesh" and ending in (".stl", ".3mf"):
            files.save(path, files.stl_of(self.mesh) if ending == ".stl" else files.three_mf_of(self.mesh))
        elif self.kind in ("render", "height") and ending == ".png":
            files.save(path, self.png)
        elif ending == {"mesh": ".ply", "render": ".pgm", "height": ".pgm", "text": ".vm"}.get(self.kind):
            files.save(path, self.data)
        else:
            raise WrongNumber(f"a frame of kind {self.kind} is not saved as {Path(path).name!r}")

    def _repr_png_(self) -> bytes | None:
        return self.png if self.kind in ("render", "height") else None

    def _of(self, *kinds: str) -> bytes:
        if self.kind not in kinds:
            raise WrongType(f"this is a frame of kind {self.kind}, and {' or '.join(kinds)} is wanted")
        return self.data


class Session:
    """Edits and draws of a part, gathered until a frame is asked for.

    Edits say what becomes of a clause, as those of a script do; the names of sizes are `part.sizes()`. A draw shows the
    part as the edits before it have made it. Where the program refuses an edit, the frame that was asked for raises a
    `BadEdit`, which names the line; that edit is dropped, and the frame may be asked for again.
    """

    def __init__(self, part: "Solid | str") -> None:
        self._part = None if isinstance(part, str) else part
        self._source = None if isinstance(part, str) else part.clauses()
        model = part if isinstance(part, str) else part.clauses().text
        self._model = model if model.endswith("\n") else model + "\n"
        self._commands: list[_Command] = []

    # Edits

    def set(self, name: str, value: "Number | str", *arguments: str) -> None:
        """Gives a clause a number, or an operation and the names of its arguments: `set("rim", "max", "a", "b")`."""
        self._edit("set", _word(name), *_form(value, arguments))

    def add(self, name: str, value: "Number | str", *arguments: str) -> None:
        """Adds a clause at the end, which is then the part."""
        self._edit("add", _word(name), *_form(value, arguments))

    def put(self, before: str, name: str, value: "Number | str", *arguments: str) -> None:
        """Puts a new clause directly before another."""
        self._edit("put", _word(before), _word(name), *_form(value, arguments))

    def cut(self, name: str) -> None:
        """Takes out a clause that no other has as an argument."""
        self._edit("cut", _word(name))

    def undo(self) -> None:
        """Takes back the last edit that stands."""
        self._edit("undo")

    # Draws

    def mesh(
        self, cell: "Number | None" = None, align: str = "grid", bounds: "Bounds | None" = None, **settings: object
    ) -> Frame:
        """The mesh, by cells of a length, 0.5 where none is told, as `part.mesh` has it.

        It is drawn within the bounds of the part as it was given, or within others: a part that an edit makes larger
        wants larger ones, and a warning says where it was cut off flat. With settings of the program, as `x0=-32,
        nx=128`, and no cell, it is drawn by these alone.
        """
        if cell is None and (settings or self._part is None):
            return self._draw("mesh", settings)
        length = plain(Fraction(1, 2) if cell is None else cell, "the cell of mesh")
        view = view_of(self._bounds(bounds), length, align)
        return self._draw("mesh", {**view.settings(), **settings}, view, length)

    def render(self, z: "Number" = 0, size: int = 640, bounds: "Bounds | None" = None, **settings: object) -> Frame:
        """The picture of a cut at a height, as `part.render` has it; settings of the program go before its own."""
        view = picture_settings(self._bounds(bounds), size) if self._part is not None or bounds else {}
        return self._draw("render", {**view, "z": z, **settings})

    def height(
        self, size: int = 640, layers: int = 255, bounds: "Bounds | None" = None, **settings: object
    ) -> Frame:
        """The height map, as `part.height` has it; settings of the program go before its own."""
        box = self._bounds(bounds) if self._part is not None or bounds else None
        view = {**picture_settings(box, size), **depth_settings(box, layers)} if box else {}
        return self._draw("height", {**view, **settings})

    def text(self) -> Frame:
        """The model then standing."""
        return self._draw("text", {})

    def cost(self) -> Frame:
        """What the last picture before took."""
        return self._draw("cost", {})

    def run(self) -> None:
        """Draws all frames that were not drawn yet. It is called by them, and seldom by hand."""
        pending = [it for it in self._commands if it.frame is None or it.frame._data is None]
        if any(it.frame is not None and it.frame.kind == "cost" for it in pending):
            pending = self._commands  # a cost is that of the pictures before it, so these are drawn again
        script = _Script(self._model, self._source, pending)
        frames, refused = _frames(program.run("replay", {}, script.text, source=script))
        if refused:
            faulty = {number: pending[number - script.first] for number, _ in refused}
            self._commands = [it for it in self._commands if not any(it is one for one in faulty.values())]
            raise self._bad_edit(faulty[refused[0][0]], *refused[0])
        for command, data in zip((it for it in pending if it.frame is not None), frames):
            command.frame._data = data  # type: ignore[union-attr]

    def _edit(self, *words: str) -> None:
        origin = here("edit")
        self._commands.append(_Command(" ".join(words), (origin.file, origin.line)))

    def _draw(
        self, kind: str, settings: Mapping[str, object], view: View | None = None, cell: Fraction = Fraction(0)
    ) -> Frame:
        given = ((name, it) for name, it in settings.items() if it is not None)
        words = [f"{name}={it if isinstance(it, str) else numeral(it)}" for name, it in given]
        origin, frame = here(kind), Frame(self, kind, view, cell)
        self._commands.append(_Command(" ".join((kind, *words)), (origin.file, origin.line), frame))
        return frame

    def _bounds(self, bounds: "Bounds | None") -> "Bounds":
        if bounds is None and self._part is None:
            raise WrongType("a session of a text knows no bounds: give them, or the settings x0 to z1")
        return bounds or self._part.bounds()  # type: ignore[union-attr]

    def _bad_edit(self, command: _Command, number: int, reason: str) -> BadEdit:
        meaning = sentence("edit", reason)
        if reason == "UnknownName":
            known = [it.split(None, 1)[0] for it in self._model.splitlines() if it.split()]
            meaning += next((nearest(it, known) for it in command.text.split()[1:] if it not in known), "")
        return BadEdit("replay", 0, reason, meaning, line=number, subject=f"`{command.text}`", where=command.where)


class _Script:
    """The input of `replay`, of which each line knows where it came from."""

    def __init__(self, model: str, source: "program.Source | None", commands: list[_Command]) -> None:
        self.source, self.commands = source, commands
        self.first = model.count("\n") + 2  # the line of the first command, behind the mark
        self.text = model + "%%\n" + "".join(it.text + "\n" for it in commands)

    def where(self, line: int) -> tuple[str, int] | None:
        """The Python line of a line of the model or of the script."""
        if line >= self.first:
            return self.commands[line - self.first].where
        return self.source.where(line) if self.source is not None else None


def _word(name: object) -> str:
    """A name that is one word, so that it can not be two of the script."""
    if not isinstance(name, str) or not re.fullmatch(r"[^\s#]\S*", name):
        raise WrongType(f"the name of a clause is one word, and {name!r} is none")
    return name


def _form(value: object, arguments: tuple[str, ...]) -> tuple[str, ...]:
    """An operation and its arguments; a number alone is a constant."""
    if isinstance(value, str):
        return (_word(value), *map(_word, arguments))
    if arguments:
        raise WrongType(f"an operation has arguments, and {value!r} is none")
    return "const", numeral(value)


def _frames(output: bytes) -> tuple[list[bytes], list[tuple[int, str]]]:
    """The bytes of each frame, and the line and the reason of each edit that was refused."""
    frames: list[bytes] = []
    refused: list[tuple[int, str]] = []
    place = 0
    while place < len(output):
        end = output.index(b"\n", place)
        mark, kind, *rest = output[place:end].split()
        if mark != b"@" or not rest:
            raise Died("replay: the program wrote something that is no frame", 0)
        place = end + 1
        if kind == b"refused":
            refused.append((int(rest[0]), rest[1].decode()))
        else:
            frames.append(output[place : place + int(rest[0])])
            place += int(rest[0])
    return frames, refused
