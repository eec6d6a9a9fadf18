"""The page as one HTML file."""
from __future__ import annotations

import base64
import hashlib
import json
import pathlib
import re

from .examples import examples_of
from .modules import joined
from .reasons import reasons_of

_PLACE = re.compile(r"\{\{(\w+)\}\}")


def page_of(top: pathlib.Path, module: bytes, texts: dict[str, str] | None = None, policy: str = "") -> str:
    """The text of modeller.html.

    `top` is the repository, and `module` the WebAssembly module. `texts` has modules of JavaScript that stand in for
    those of web/page/, and `policy` is added to the content security policy: tests of the page alone use both.
    """
    sources = top / "web" / "page"
    style = (sources / "style.css").read_text(encoding="utf-8")
    script = joined(sources / "main.js", texts)
    if re.search(r"</(script|style)|<!--", script + style, re.IGNORECASE):
        raise ValueError("a script or a style of the page has a tag in it that would end it")
    refusals = (top / "docs" / "REFUSALS.md").read_text(encoding="utf-8")
    parts = {
        "style": style,
        "script": script,
        "policy": _policy(style, script) + policy,
        "worker": _data(joined(sources / "worker.js", texts)),
        "module": _data(base64.b64encode(module).decode("ascii")),
        "examples": _data(examples_of(top)),
        "reasons": _data(reasons_of(refusals)),
    }
    template = (sources / "page.html").read_text(encoding="utf-8")
    return _PLACE.sub(lambda place: parts[place[1]], template)


def _policy(style: str, script: str) -> str:
    """What the page may do: run its own script and its own style, its module, and its worker; nothing else at all."""
    return (
        f"default-src 'none'; script-src {_hash(script)} 'wasm-unsafe-eval'; style-src {_hash(style)}; "
        "worker-src blob:; img-src data:; base-uri 'none'; form-action 'none'"
    )


def _hash(text: str) -> str:
    return "'sha256-" + base64.b64encode(hashlib.sha256(text.encode("utf-8")).digest()).decode("ascii") + "'"


def _data(value: object) -> str:
    """A value as JSON that no HTML parser takes for a tag."""
    return json.dumps(value, ensure_ascii=False, separators=(",", ":")).replace("<", "\\u003c")
