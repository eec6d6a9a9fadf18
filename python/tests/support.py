"""What the tests share: where things are, and programs that stand in for `modeller` where it has to fail."""
from __future__ import annotations

import contextlib
import os
import pathlib
import stat
import tempfile
from collections.abc import Iterator
from unittest import mock

ROOT = pathlib.Path(__file__).resolve().parents[2]
PYTHON = ROOT / "python"


def example(name: str) -> str:
    """The text of a file of examples/."""
    return (ROOT / "examples" / name).read_text()


@contextlib.contextmanager
def stand_in(script: str) -> Iterator[pathlib.Path]:
    """A shell script that is taken for the program; it may write into its own folder, `$(dirname $0)`."""
    with tempfile.TemporaryDirectory() as folder:
        program = pathlib.Path(folder) / "program"
        program.write_text("#!/bin/sh\n" + script)
        program.chmod(program.stat().st_mode | stat.S_IXUSR)
        with mock.patch.dict(os.environ, {"MODELLER": str(program)}):
            yield pathlib.Path(folder)
