"""The version, which the file VERSION of the repository has, and no other place of it."""
from __future__ import annotations

import pathlib


def version() -> str:
    """The version of the repository that this package stands in, or of the one that it was installed from."""
    file = pathlib.Path(__file__).resolve().parents[2] / "VERSION"
    if (file.parent / "python" / "modeller").is_dir() and file.is_file():
        return file.read_text().strip()
    from importlib import metadata  # here, since it takes as long to load as the rest of the package

    return metadata.version("modeller")
