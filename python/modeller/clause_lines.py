"""Lines that are no formulas: clauses, and the commands of a script, refused where the program would refuse them."""
from __future__ import annotations

import re
from collections.abc import Container, Iterable
from itertools import islice
from typing import Protocol

from .formula_trees import COMPARISON, NUMERAL, FormulaError
from .spelling import nearest, shown

ARITIES = {
    "var-x": 0, "var-y": 0, "var-z": 0, "const": 0, "neg": 1, "abs": 1, "floor": 1, "square": 1, "sqrt": 1,
    "add": 2, "sub": 2, "mul": 2, "div": 2, "min": 2, "max": 2,
}  # how many clauses an operation has as arguments
COMMANDS = {
    "set": "a name, an operation and its arguments", "add": "a new name, an operation and its arguments",
    "put": "a name, a new name, an operation and its arguments", "cut": "one name", "undo": "no words",
    "text": "no words", "cost": "no words", "render": "settings", "height": "settings", "mesh": "settings",
}
BLANKS = " \t\r"  # between the words of a line; to Python there are more of them
MOST_TOLD = 16  # words of a line that are looked at; no clause and no command has so many

_DECIMAL_COMMA = re.compile(r"[+-]?\d+,\d+")
_LEAST = {"set": 2, "add": 2, "put": 3, "cut": 1}  # words behind a command


class Names(Container[str], Iterable[str], Protocol):
    """The names of clauses that stand."""


class _Refused(Exception):
    """A sentence on the word of that number of a line; the column is looked for only then."""


def clause_words(line: str, names: Names) -> list[str]:
    """The words of a clause, of which the first is its new name; a line that is none is refused."""
    words = _words(line)
    try:
        if len(words) < 2 or words[1] not in ARITIES:
            raise _no_clause(line, words)
        _check_form(words, 1, names)
        if words[0] in names:
            raise _Refused(f"{shown(words[0])} stands already", 0)
    except _Refused as refused:
        raise _placed(line, *refused.args) from None
    return words


def command_name(line: str, names: Names) -> str | None:
    """The name that a command of a script sets or adds, or None; a line that is no command is refused.

    A name that no line before has ever had is refused, too, since the program would leave such an edit out.
    """
    words = _words(line)
    try:
        return _command_name(words, names)
    except _Refused as refused:
        raise _placed(line, *refused.args) from None


def _words(line: str) -> list[str]:
    """The first words of a line, parted as the program parts them."""
    return re.split(f"[{BLANKS}]+", line.strip(BLANKS), maxsplit=MOST_TOLD)[:MOST_TOLD]


def _placed(line: str, sentence: str, number: int) -> FormulaError:
    places = [it.start() for it in islice(re.finditer(f"[^{BLANKS}]+", line), MOST_TOLD)]
    return FormulaError(sentence, places[number] + 1)


def _command_name(words: list[str], names: Names) -> str | None:
    command = words[0]
    if command not in COMMANDS:
        raise _Refused(f"{shown(command)} is no command of a script{nearest(command, COMMANDS)}", 0)
    least = _LEAST.get(command, 0)
    if len(words) <= least or len(words) > least + 1 and command in ("cut", "undo", "text", "cost"):
        raise _Refused(f"{command} takes {COMMANDS[command]}", 0)
    if command in ("set", "put", "cut"):
        _check_name(words, 1, names, "is no name of a clause")
    if command in ("set", "add", "put"):
        _check_form(words, least, names)
        return words[least - 1]
    _refuse_comment(words)
    for number, setting in enumerate(words):
        if number and "=" not in setting and command != "cut":
            raise _Refused(f"{shown(setting)} is no setting: one is a word name=value", number)
    return None


def _check_form(words: list[str], at: int, names: Names) -> None:
    """Refuses an operation with arguments that it can not have."""
    operation = words[at]
    if operation not in ARITIES:
        raise _Refused(f"{shown(operation)} is no operation{nearest(operation, ARITIES)}", at)
    wanted = 1 if operation == "const" else ARITIES[operation]
    _refuse_comment(words)
    if len(words) != at + 1 + wanted:
        raise _Refused(f"{operation} takes {wanted} argument{'s' * (wanted != 1)}, no less and no more", at)
    if operation == "const":
        _check_numeral(words, at + 1)
        return
    for number in range(at + 1, len(words)):
        _check_name(words, number, names, "is no name of a line before")


def _refuse_comment(words: list[str]) -> None:
    for number, word in enumerate(words):
        if number and word[0] == "#":
            raise _Refused("a comment has a line of its own; behind a formula alone one may stand", number)


def _check_numeral(words: list[str], at: int) -> None:
    word = words[at]
    if not NUMERAL.fullmatch(word):
        mend = f": the decimal comma is a point here, {shown(_pointed(word))}" if _DECIMAL_COMMA.fullmatch(word) else ""
        raise _Refused(f"{shown(word)} is no numeral{mend}", at)


def _check_name(words: list[str], at: int, names: Names, sentence: str) -> None:
    name = words[at]
    if name in names:
        return
    if NUMERAL.fullmatch(name):
        mend = f": a number has a line of its own before, {shown(name)} const {shown(name)}"
    else:
        mend = nearest(name, names)
    raise _Refused(f"{shown(name)} {sentence}{mend}", at)


def _no_clause(line: str, words: list[str]) -> Exception:
    """What to say of a line that is neither a formula nor a clause."""
    name, second = words[0], words[1] if len(words) > 1 else ""
    if name in COMMANDS and (name not in ARITIES or len(words) > 3):
        return _Refused(f"{name} is a command of a script, which stands behind a line %%", 0)
    comparison = re.search(r"[<>]=?|[=!]=", line)
    if comparison:
        return FormulaError(COMPARISON, comparison.start() + 1)
    if "=" in line:
        return _Refused("the name of a formula has letters, digits and _, and no digit first", 0)
    if _DECIMAL_COMMA.fullmatch(name):
        return _Refused(f"{shown(name)} has a decimal comma, and is no line: name = {shown(_pointed(name))}", 0)
    if not second:
        return _Refused(f"{shown(name)} stands alone: a line is name = formula, a clause, or a comment", 0)
    if len(words) == 2 and (NUMERAL.fullmatch(second) or _DECIMAL_COMMA.fullmatch(second)):
        return _Refused(f"the sign = is missing: {shown(name)} = {shown(_pointed(second))}", 1)
    return _Refused(f"{shown(second)} is no operation{nearest(second, ARITIES)}, and without = this is no formula", 1)


def _pointed(number: str) -> str:
    return number.replace(",", ".")
