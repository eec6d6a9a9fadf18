"""How a word stands in a message, and the known name that a misspelt one may have meant."""
from __future__ import annotations

import difflib
from collections.abc import Iterable

MOST_COMPARED = 1_000  # names; more would take a second and longer
LONGEST = 40  # characters of a name for which a near one is looked for


def nearest(name: str, known: Iterable[str]) -> str:
    """`; the nearest is NAME`, or nothing where no known name is near."""
    if len(name) > LONGEST:
        return ""
    names = [it for it in dict.fromkeys(known) if abs(len(it) - len(name)) <= 3][:MOST_COMPARED]
    found = difflib.get_close_matches(name, names, 1, 0.6) or [it for it in names if it.lower() == name.lower()][:1]
    return f"; the nearest is {shown(found[0])}" if found else ""


def shown(word: str) -> str:
    """The word as a message shows it: on one line, and cut where it is long."""
    plain = word if word.isprintable() else ascii(word)[1:-1]
    return plain if len(plain) <= 40 else plain[:37] + ".."
