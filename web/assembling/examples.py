"""The examples of the page: texts of examples/, each with the view in which examples/README.md draws it first."""
from __future__ import annotations

import pathlib
import re
import subprocess
import sys

Example = dict[str, object]

_ENDS = ("x0", "x1", "y0", "y1", "z0", "z1", "z")
_DRAWS = re.compile(r"\./modeller (render|height|shade|mesh|contour)([^<|>]*)(?:< (\S+))?")


def examples_of(top: pathlib.Path) -> list[Example]:
    """The solids and the models of examples/, and what `clauses` makes of the formulas, by name."""
    draws = _first_draws((top / "examples" / "README.md").read_text(encoding="utf-8"))
    found = []
    for path in sorted((top / "examples").iterdir()):
        if path.suffix not in (".vm", ".solid", ".formulas"):
            continue
        text = path.read_text(encoding="utf-8")
        title = _title(text)
        if path.suffix == ".formulas":
            text = _clauses(top, text)
        verb, words = draws.get(path.stem, ("shade", []))
        found.append({"name": path.name, "title": title, "text": text, "view": verb, "settings": _settings(words)})
    return found


def _title(text: str) -> str:
    """The first sentence of the first comment, as far as it is a title."""
    first = next((line[1:].strip() for line in text.splitlines() if line.startswith("#")), "")
    sentence = re.split(r"[.:;](?:\s|$)|, (?:in millimetres|seen|that)", first)[0]
    return sentence if len(sentence) <= 60 else sentence[:57].rsplit(" ", 1)[0] + " …"


def _first_draws(page: str) -> dict[str, tuple[str, list[str]]]:
    """The verb and the settings of the first command that draws each example, by its name without an ending."""
    found: dict[str, tuple[str, list[str]]] = {}
    commands = [line.strip() for line in page.replace("\\\n", " ").splitlines() if line.startswith("    ")]
    for command in commands:
        source = re.search(r"(?:examples|drawn)/(\w+)\.(?:vm|solid|formulas)", command)
        drawn = _DRAWS.search(command)
        if source and drawn:
            found.setdefault(source[1], (drawn[1], drawn[2].split()))
    return found


def _settings(words: list[str]) -> dict[str, str]:
    """The ends and the length of a cell, of the words of a run."""
    given = dict(word.split("=", 1) for word in words if "=" in word)
    found = {name: given[name] for name in _ENDS if name in given}
    cells = given.get("nx", given.get("n"))
    if cells:
        length = (float(given.get("x1", "1")) - float(given.get("x0", "-1"))) / int(cells)
        found["cell"] = f"{length:.4g}"
    return found


def _clauses(top: pathlib.Path, formulas: str) -> str:
    """The model of formulas, as the script `clauses` writes it."""
    command = [sys.executable, "-B", str(top / "clauses")]
    return subprocess.run(command, input=formulas, capture_output=True, text=True, check=True).stdout
