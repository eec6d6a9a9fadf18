"""Where in the user's source a value or a solid was made, and which variable it was made for."""

from __future__ import annotations

import ast
import functools
import linecache
import sys
from contextlib import contextmanager
from pathlib import Path
from typing import Iterator, NamedTuple

_PACKAGE = str(Path(__file__).resolve().parent)


class Origin(NamedTuple):
    """A line of the user's source, and what was made there: a kind such as `cylinder`, and who repeats it, if any."""

    file: str
    line: int
    kind: str = "value"
    maker: str = ""

    def base(self) -> str:
        """The name that clauses made here begin with: the variable of the statement, or else the kind."""
        return _variable(self.file, self.line) or self.kind

    def told(self) -> str:
        """The place as a sentence names it."""
        return f"line {self.line} of {self.file}"


_current: Origin | None = None


def here(kind: str) -> Origin:
    """The line of the user's source that is running now; within `building`, the origin that was given there."""
    if _current is not None:
        return _current
    frame = sys._getframe(1)
    while frame.f_back is not None and frame.f_code.co_filename.startswith(_PACKAGE):
        frame = frame.f_back
    return Origin(frame.f_code.co_filename, frame.f_lineno, kind)


@contextmanager
def building(origin: Origin) -> Iterator[None]:
    """While this runs, whatever is made has the given origin: a solid's steps are made long after its line ran."""
    global _current
    before, _current = _current, origin
    try:
        yield
    finally:
        _current = before


def _variable(file: str, line: int) -> str | None:
    """The variable that the innermost statement on a line gives a value to, where the source can be read."""
    linecache.checkcache(file)
    return _variables(tuple(linecache.getlines(file))).get(line)


@functools.lru_cache(maxsize=32)
def _variables(lines: tuple[str, ...]) -> dict[int, str]:
    """For each line of a source that lies within an assignment to one variable, that variable."""
    try:
        tree = ast.parse("".join(lines))
    except (SyntaxError, ValueError):
        return {}
    found: dict[int, str] = {}
    for node in ast.walk(tree):  # outer statements come first, so inner ones win
        if isinstance(node, ast.Assign) and len(node.targets) == 1:
            target = node.targets[0]
        elif isinstance(node, (ast.AugAssign, ast.AnnAssign)):
            target = node.target
        else:
            continue
        if isinstance(target, ast.Name):
            for line in range(node.lineno, (node.end_lineno or node.lineno) + 1):
                found[line] = target.id
    return found
