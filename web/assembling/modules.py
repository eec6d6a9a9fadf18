"""Modules of JavaScript as one script.

The page is one file and fetches nothing, so its modules can not import one another by address. They are written one
after the other instead, each behind those that it imports, without the lines `import` and the words `export`. So names
at the top of a module are unique in the page; the browser refuses a script in which one is declared twice.
"""
from __future__ import annotations

import pathlib
import re

_IMPORT = re.compile(r"^import \{[^}]*\} from '\./([a-z_]+\.js)';\n", re.MULTILINE)
_EXPORT = re.compile(r"^export ", re.MULTILINE)


def joined(entry: pathlib.Path, texts: dict[str, str] | None = None) -> str:
    """The module and all that it imports, as one script.

    `texts` has the text of modules that stand in for those of the folder, by name.
    """
    scripts: dict[str, str] = {}
    _gather(entry, texts or {}, scripts, ())
    return "\n".join(f"// {name}\n{text}" for name, text in scripts.items())


def _gather(path: pathlib.Path, texts: dict[str, str], scripts: dict[str, str], within: tuple[str, ...]) -> None:
    if path.name in scripts:
        return
    if path.name in within:
        raise ValueError(f"{path.name} imports itself, by way of {' and '.join(within)}")
    text = texts.get(path.name) or path.read_text(encoding="utf-8")
    for name in _IMPORT.findall(text):
        _gather(path.with_name(name), texts, scripts, (*within, path.name))
    text = _EXPORT.sub("", _IMPORT.sub("", text))
    left = re.search(r"^(?:import|export)\b.*", text, re.MULTILINE)
    if left:
        raise ValueError(f"{path.name}: `{left[0]}` is no import or export of the forms that the page uses")
    scripts[path.name] = text
