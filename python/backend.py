"""Builds the package for pip, by the standard library alone (PEP 517 and PEP 660).

The version is that of the file VERSION of the repository, or, in a source archive, of the one beside this file.
"""
from __future__ import annotations

import base64
import hashlib
import io
import pathlib
import tarfile
import zipfile

HERE = pathlib.Path(__file__).resolve().parent
NAME = "modeller"
SUMMARY = "Parts as code, drawn by the program modeller"
PYTHON = ">=3.10"
EPOCH = (1980, 1, 1, 0, 0, 0)  # one time for all files, so that the same files give the same bytes


def build_wheel(wheel_directory: str, config_settings: object = None, metadata_directory: str | None = None) -> str:
    """A wheel of the package; the answer is the name of its file."""
    return _wheel(pathlib.Path(wheel_directory), _package())


def build_editable(wheel_directory: str, config_settings: object = None, metadata_directory: str | None = None) -> str:
    """A wheel that leads to this folder, so that a change of the package is one of what is installed."""
    return _wheel(pathlib.Path(wheel_directory), {f"{NAME}.pth": f"{HERE}\n".encode()})


def build_sdist(sdist_directory: str, config_settings: object = None) -> str:
    """An archive of the sources from which the wheel is built."""
    folder = f"{NAME}-{_version()}"
    held = {**_package(), "VERSION": f"{_version()}\n".encode(), "PKG-INFO": _metadata()}
    held.update((it, (HERE / it).read_bytes()) for it in ("pyproject.toml", "backend.py"))
    with tarfile.open(pathlib.Path(sdist_directory) / f"{folder}.tar.gz", "w:gz") as archive:
        for name, data in sorted(held.items()):
            entry = tarfile.TarInfo(f"{folder}/{name}")
            entry.size = len(data)
            archive.addfile(entry, io.BytesIO(data))
    return f"{folder}.tar.gz"


def _version() -> str:
    beside = HERE / "VERSION"
    return (beside if beside.is_file() else HERE.parent / "VERSION").read_text().strip()


def _package() -> dict[str, bytes]:
    """The files of the package, by their names in a wheel."""
    files = (it for it in (HERE / NAME).rglob("*") if it.is_file() and "__pycache__" not in it.parts)
    return {it.relative_to(HERE).as_posix(): it.read_bytes() for it in sorted(files)}


def _metadata() -> bytes:
    lines = f"Name: {NAME}\nVersion: {_version()}\nSummary: {SUMMARY}\nRequires-Python: {PYTHON}\n"
    return f"Metadata-Version: 2.1\n{lines}".encode()


def _wheel(folder: pathlib.Path, files: dict[str, bytes]) -> str:
    tag = "py3-none-any"
    info = f"{NAME}-{_version()}.dist-info"
    files = {
        **files,
        f"{info}/METADATA": _metadata(),
        f"{info}/WHEEL": f"Wheel-Version: 1.0\nGenerator: {NAME}\nRoot-Is-Purelib: true\nTag: {tag}\n".encode(),
    }
    record = "".join(f"{name},sha256={_digest(data)},{len(data)}\n" for name, data in files.items())
    files[f"{info}/RECORD"] = f"{record}{info}/RECORD,,\n".encode()
    wheel = f"{NAME}-{_version()}-{tag}.whl"
    with zipfile.ZipFile(folder / wheel, "w", zipfile.ZIP_DEFLATED) as archive:
        for name, data in files.items():
            entry = zipfile.ZipInfo(name, EPOCH)
            entry.compress_type = zipfile.ZIP_DEFLATED
            entry.external_attr = 0o644 << 16
            archive.writestr(entry, data)
    return wheel


def _digest(data: bytes) -> str:
    return base64.urlsafe_b64encode(hashlib.sha256(data).digest()).rstrip(b"=").decode()
