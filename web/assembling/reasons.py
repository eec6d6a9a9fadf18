"""The reasons of docs/REFUSALS.md, as the page shows them.

The tables of that page give a line that is refused, the note, and what mends it; its last section names every reason,
some with a few words in brackets. Both go into the page, so that it says what the pages say.
"""
from __future__ import annotations

import re

Sentence = dict[str, str]
Reasons = dict[str, dict[str, list[Sentence]]]

_TABLES = {"Words": "word", "Models": "model", "Solids": "solid"}
_LISTS = {"For a word": "word", "For a line of a model": "model", "For a token of a solid": "solid", "For a line of a mesh": "mesh"}
_ROW = re.compile(r"^\| `(?P<shown>[^|]*)` \| `(?:word|line) \d+: (?P<reason>\w+)` \| (?P<mend>[^|]*) \|$", re.MULTILINE)
_NAMED = re.compile(r"`([A-Z]\w+)`(?: \((.*?)\)(?=[,:.\s]|$))?", re.DOTALL)
_FAULT = re.compile(r"^- `(?P<reason>[a-z ]+)`, status \d+: (?P<text>.*?)(?=^- |^$)", re.MULTILINE | re.DOTALL)


def reasons_of(page: str) -> Reasons:
    """What is said of each reason, by what is refused: a word, a line of a model, of a solid or of a mesh, or a run."""
    sections = dict(re.findall(r"^## ([^\n]*)\n(.*?)(?=^## |\Z)", page, re.MULTILINE | re.DOTALL))
    found: Reasons = {kind: {} for kind in (*_LISTS.values(), "fault")}
    for paragraph in sections["All reasons"].split("\n\n"):
        kind = next((kind for start, kind in _LISTS.items() if paragraph.lstrip().startswith(start)), None)
        if kind is not None:
            for reason, words in _NAMED.findall(paragraph):
                found[kind].setdefault(reason, [{"text": _plain(words)}] if words else [])
    for title, kind in _TABLES.items():
        for row in _ROW.finditer(sections[title]):
            if row["reason"] not in found[kind]:
                raise ValueError(f"docs/REFUSALS.md: {row['reason']} stands in the table {title}, and not among all reasons")
            found[kind][row["reason"]].append({"as": row["shown"].replace("\\|", "|"), "text": _plain(row["mend"])})
    for said in (it for kind in found.values() for it in kind.values()):
        if any("as" in it for it in said):
            said[:] = [it for it in said if "as" in it]  # the rows say more than the words in brackets
    for fault in _FAULT.finditer(sections["Faults"]):
        found["fault"][fault["reason"]] = [{"text": _plain(fault["text"])}]
    return found


def _plain(text: str) -> str:
    """A sentence of the pages without its links, on one line, with a capital and a full stop."""
    plain = " ".join(re.sub(r"\[([^]]*)\]\([^)]*\)", r"\1", text).split())
    start = plain[:1].upper() + plain[1:] if plain.split(" ", 1)[0].isalpha() else plain
    return start if start.endswith(".") else start + "."
