"""`python3 -m modeller part.py`: what a part measures, its mesh, and a sheet of its views.

The file is a program of Python and is run as one. The part is its variable `part`, or else the last solid that stands
at its top level.
"""
from __future__ import annotations

import argparse
import math
import os
import runpy
import subprocess
import sys
import time
import traceback
import warnings
from collections.abc import Sequence
from decimal import Decimal, InvalidOperation
from pathlib import Path
from types import TracebackType
from typing import NoReturn

from . import expressions, files
from .errors import ModellerError
from .solids import Solid
from .spelling import nearest
from .version import version

VIEW = 360  # pixels of a view on the sheet
CELLS = 100  # along the longest side, where no cell is told
LOOK_SECONDS = 0.3  # between two looks at a file that is watched


class NoPart(ModellerError):
    """The file has no part, or no size that is to be set."""


def main(words: Sequence[str] | None = None) -> int:
    """Does what the words say, and gives the exit status."""
    options = _options(words)
    try:
        if options.watch:
            _watch(Path(options.file), list(sys.argv[1:] if words is None else words))
        with warnings.catch_warnings():
            warnings.showwarning = lambda message, *_: print(f"modeller: {message}", file=sys.stderr)
            _draw(options)
        sys.stdout.flush()
    except KeyboardInterrupt:
        if not options.watch:
            print("modeller: interrupted", file=sys.stderr)
        return 130
    except ModellerError as error:
        print(f"modeller: {_told(error, options.file)}", file=sys.stderr)
        return 1
    except BrokenPipeError:
        os.dup2(os.open(os.devnull, os.O_WRONLY), sys.stdout.fileno())  # or Python would write there at its end
        return 1
    return 0


def _options(words: Sequence[str] | None) -> argparse.Namespace:
    parser = argparse.ArgumentParser(prog="python3 -m modeller", description="Measures a part, meshes it and shows it.")
    parser.add_argument("file", metavar="PART.py", help="a program of Python, whose variable `part` is the part")
    parser.add_argument("--mesh", metavar="OUT", help="save the mesh as .ply, .stl or .3mf")
    parser.add_argument("--cell", type=_number, metavar="MM", help="the length of a cell; a hundredth of the part")
    parser.add_argument("--align", choices=("grid", "half"), default="grid", help="where cells begin")
    parser.add_argument("--set", action="append", default=[], metavar="NAME=NUMBER", help="another number for a size")
    parser.add_argument("--views", metavar="OUT", help="the sheet of four views; PART-views.png beside the part")
    parser.add_argument("--watch", action="store_true", help="draw anew when the file or one beside it changes")
    parser.add_argument("--version", action="version", version=version())
    return parser.parse_args(words)


def _number(word: str) -> Decimal:
    try:
        value = Decimal(word)
    except InvalidOperation:
        raise argparse.ArgumentTypeError(f"{word!r} is no number") from None
    if not value.is_finite() or value <= 0:
        raise argparse.ArgumentTypeError(f"{word!r} is no length")
    return value


def _draw(options: argparse.Namespace) -> None:
    """Measures, meshes and shows the part, one line of text for each."""
    part = load(options.file, dict(_setting(it) for it in options.set))
    bounds = part.bounds()
    for axis, low, high in zip("xyz", bounds.low, bounds.high):
        print(f"{axis} from {_mm(low)} to {_mm(high)} mm")
    print(f"size {' x '.join(map(_mm, bounds.size))} mm")
    cell = options.cell if options.cell is not None else _nice(max(bounds.size) / CELLS)
    mesh = part.mesh(cell=cell, align=options.align)
    print(f"{len(mesh.faces):,} triangles, by cells of {float(cell):.10g} mm")
    if options.mesh:
        mesh.save(options.mesh)
        print(f"mesh {options.mesh}")
    views = options.views or os.fspath(Path(options.file).with_suffix("")) + "-views.png"
    files.save(views, files.png_of(files.sheet([it.pgm for it in part.views(VIEW).values()])))
    print(f"views {views}")


def load(path: str, sizes: dict[str, str]) -> Solid:
    """The part of a file, which is run with other numbers for some sizes."""
    try:
        open(path, "rb").close()
    except OSError as error:
        raise NoPart(f"{path} can not be read: {error.strerror}") from error
    folder = str(Path(path).resolve().parent)
    sys.path.insert(0, folder)
    expressions.overrides.update(sizes)
    try:
        names = runpy.run_path(path, run_name="__part__")  # its own name could be that of a module that it imports
    except (ModellerError, KeyboardInterrupt, BrokenPipeError):
        raise
    except BaseException as error:
        _show(error, path)
        raise NoPart("the file ended before its part was whole") from None
    finally:
        sys.path.remove(folder)
        for name in sizes:
            expressions.overrides.pop(name, None)
    solids = [it for it in names.values() if isinstance(it, Solid)]
    part = names.get("part", solids[-1] if solids else None)
    if not isinstance(part, Solid):
        raise NoPart(f"{path} has no solid at its top level: give one to the variable part")
    for name in sizes.keys() - part.sizes().keys():
        raise NoPart(f"the part has no size {name}{nearest(name, part.sizes())}")
    return part


def _setting(word: str) -> tuple[str, str]:
    name, mark, value = word.partition("=")
    if not (name and mark and value):
        raise NoPart(f"--set has a name and a number, as wall=3, and {word!r} is none")
    return name, value


def _mm(length: float) -> str:
    """A length to a nanometre, which is more than is known of it."""
    return f"{round(length, 6) + 0.0:.10g}"


def _nice(length: float) -> Decimal:
    """The least of 1, 2 and 5 times a power of ten that is not below a length."""
    power = Decimal(10) ** math.floor(math.log10(length))
    return next(it * power for it in (1, 2, 5, 10) if it * power >= length)


def _told(error: ModellerError, path: str) -> str:
    """The sentence of a refusal, behind the line of the file that ran into it where that is known."""
    line = _line(error.__traceback__, path)
    return f"{path}, line {line}: {error}" if line else str(error)


def _line(trace: TracebackType | None, path: str) -> int | None:
    lines = [line for frame, line in traceback.walk_tb(trace) if frame.f_code.co_filename == path]
    return lines[-1] if lines else None


def _show(error: BaseException, path: str) -> None:
    """Prints what Python says of an error of the file, from that file's own line on."""
    trace = error.__traceback__
    while trace is not None and trace.tb_frame.f_code.co_filename != path:
        trace = trace.tb_next
    traceback.print_exception(type(error), error, trace)


def _watch(file: Path, words: list[str]) -> NoReturn:
    """Draws the part in a process of its own, now and at each change, until it is interrupted."""
    command = [sys.executable, "-m", "modeller", *(it for it in words if it != "--watch")]
    while True:
        seen = _changes(file)
        subprocess.run(command, check=False)
        print(f"watching {file}", flush=True)
        while _changes(file) == seen:
            time.sleep(LOOK_SECONDS)


def _changes(file: Path) -> dict[str, int]:
    """When the file and those of Python beside it were changed last."""
    found: dict[str, int] = {}
    for it in (file, *sorted(file.parent.glob("*.py"))):
        try:
            found[os.fspath(it)] = it.stat().st_mtime_ns
        except OSError:
            continue  # an editor that writes a file anew takes it away for a moment
    return found


if __name__ == "__main__":
    sys.exit(main())
