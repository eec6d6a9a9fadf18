"""Finding the program `modeller`, running it, and turning what it refuses into exceptions.

Nothing stands between the caller and the program: the text goes in as it is, and its output comes back as it is.
"""
from __future__ import annotations

import os
import pathlib
import re
import shutil
import subprocess
from collections.abc import Mapping
from typing import BinaryIO, Protocol

from .errors import (
    BadEdit,
    BadModel,
    BadScript,
    BadWords,
    Died,
    ModellerError,
    NoMemory,
    NotFound,
    ReadFault,
    Refused,
    TooLong,
    WriteFault,
)
from .numerals import numeral
from .progress import Progress
from .reasons import FAULTS, sentence

__all__ = [
    "BadEdit", "BadModel", "BadScript", "BadWords", "Died", "ModellerError", "NoMemory", "NotFound", "ReadFault",
    "Refused", "Source", "TooLong", "WriteFault", "find_program", "run",
]

_FAULTS: dict[int, type[Refused]] = {5: TooLong, 6: ReadFault, 7: WriteFault, 8: NoMemory}
_NOTE = re.compile(r"modeller: (word|line|script line) (\d+): (\w+)")
_TICK_SECONDS = 0.25


class Source(Protocol):
    """What knows from which line of Python each line of a text came."""

    def where(self, line: int) -> tuple[str, int] | None:
        """The file and the line that wrote a line of the text, which is counted from 1."""


def find_program() -> pathlib.Path:
    """The program: what `MODELLER` names, else the one beside this package, else `modeller` on the path.

    Beside the package it is the one that was built in the repository, or that of the unpacked archive. The script
    `modeller` of the repository is not taken, since its first call proves and builds for half an hour.
    """
    named = os.environ.get("MODELLER")
    if named:
        found = shutil.which(named)
        if found is None:
            raise NotFound(f"MODELLER names {named}, which is no program")
        return pathlib.Path(found)
    top = pathlib.Path(__file__).resolve().parents[2]
    for beside in (top / "crates" / "modeller" / "out" / "modeller", top / "modeller"):
        if _is_program(beside):
            return beside
    found = shutil.which("modeller")
    if found is None:
        raise NotFound(
            "the program modeller was not found: it is not built beside this package, not on the path, and MODELLER "
            "does not name it"
        )
    return pathlib.Path(found)


def _is_program(path: pathlib.Path) -> bool:
    if not (path.is_file() and os.access(path, os.X_OK)):
        return False
    with path.open("rb") as file:
        return file.read(2) != b"#!"


def run(
    verb: str,
    settings: Mapping[str, object] | None = None,
    text: str | bytes = b"",
    *,
    source: Source | None = None,
    into: BinaryIO | None = None,
) -> bytes:
    """What the program writes on a verb, its settings and an input.

    Numbers among the settings are written as numerals; None leaves a setting out. Of a refused line `source` tells
    the Python line. With `into`, an open file, the output goes straight there, and the answer is empty. Where the
    call is interrupted the program is ended, too.
    """
    words = [f"{name}={_value(value)}" for name, value in (settings or {}).items() if value is not None]
    program = find_program()
    input_bytes = text.encode("utf-8", "surrogateescape") if isinstance(text, str) else text
    if into is not None:
        into.flush()  # what the caller has written stands before what the program writes
    try:
        process = subprocess.Popen(
            [program, verb, *words],
            stdin=subprocess.PIPE,
            stdout=into if into is not None else subprocess.PIPE,
            stderr=subprocess.PIPE,
        )
    except OSError as error:
        raise NotFound(f"the program {program} can not be run: {error.strerror or error}") from error
    output, notes = _talk(process, input_bytes, verb)
    if process.returncode != 0:
        raise _refusal(verb, words, process.returncode, notes, input_bytes, source)
    return output or b""


def _value(value: object) -> str:
    return value if isinstance(value, str) else numeral(value)


def _talk(process: subprocess.Popen[bytes], input_bytes: bytes, doing: str) -> tuple[bytes, bytes]:
    """Writes the input and takes the output, with a line on the terminal where that takes long."""
    left: bytes | None = input_bytes
    with process, Progress(doing) as progress:
        try:
            while True:
                try:
                    return process.communicate(left, timeout=_TICK_SECONDS)
                except subprocess.TimeoutExpired:
                    left = None  # what is not yet written is kept by `communicate`
                    progress.tick()
        except BaseException:
            process.kill()
            process.wait()  # which leaving `with` skips where an interrupt is the reason
            raise


def _refusal(
    verb: str, words: list[str], status: int, notes: bytes, input_bytes: bytes, source: Source | None
) -> ModellerError:
    """The exception for a status above 0, or below 0 where a signal ended the program."""
    note = notes.decode("utf-8", "replace").strip()
    if status in _FAULTS:
        reason, meaning = FAULTS[status]
        return _FAULTS[status](verb, status, reason, meaning)
    found = _NOTE.search(note)
    if status == 2 and found and found[1] == "word":
        number = int(found[2])
        word = ([verb] + words)[number - 1] if number else " ".join(words)
        return BadWords(verb, status, found[3], sentence("word", found[3]), subject=word)
    if status in (3, 4) and found:
        kind = "script" if status == 4 else {"solid": "solid", "check": "mesh"}.get(verb, "model")
        line = int(found[2])
        refused = BadScript if status == 4 else BadModel
        where = source.where(line) if source is not None and line else None
        subject = f"line {line}, `{_line(input_bytes, line)}`" if line else ""
        return refused(verb, status, found[3], sentence(kind, found[3]), line=line, subject=subject, where=where)
    if status < 0:
        return Died(f"{verb}: the program was ended by signal {-status} before its work was done", status)
    return Died(f"{verb}: the program ended with status {status}{': ' + note if note else ''}", status)


def _line(input_bytes: bytes, number: int) -> str:
    """The line of that number, which is counted from 1, cut where it is long."""
    text = input_bytes.split(b"\n", number)[number - 1].decode("utf-8", "replace").strip()
    return text if len(text) <= 60 else text[:57] + "..."
