"""What the program's reasons mean, in plain words: one table for each kind of thing that it reads.

docs/REFUSALS.md shows how each of them comes about.
"""
from __future__ import annotations

_FORMS = {
    "UnknownOperation": "the word after the name is no operation",
    "WrongArity": "the operation does not take that many arguments",
    "BadNumeral": "that is no numeral: digits with a point, an exponent perhaps, no comma, no fraction and no unit",
}

SENTENCES: dict[str, dict[str, str]] = {
    "word": {
        "NoVerb": "the program was called without a verb",
        "UnknownVerb": "the program has no such verb",
        "NotASetting": "a setting is one word, name=value",
        "UnknownSetting": "this verb has no such setting",
        "Twice": "the setting is given twice",
        "BadValue": "the value is no number of the kind that this setting has",
        "OutOfRange": "the count is less or more than this setting may be",
        "EmptySpan": "the lower end of the view is above its upper end",
        "CellTooSmall": "a cell is at least 1/65536 long, so the view wants room along each axis",
        "TooManyCells": "there are more than 16,777,216 cells: take fewer along an axis, or larger ones",
    },
    "model": {
        **_FORMS,
        "NoOperation": "a name stands alone: a clause is a name, an operation and its arguments",
        "UnknownName": "an argument is the name of no clause before",
        "DoubleName": "the name stands already",
        "TooMany": "the model has more than 65,535 clauses",
        "Empty": "the model has no clause",
    },
    "solid": {
        "UnknownForm": "the word is no solid",
        "TooDeep": "more than 256 forms stand within each other",
        "BadNumeral": _FORMS["BadNumeral"],
        "NotPositive": "radii, half sides and scales are above 0",
        "Unended": "the text ends in the middle of a solid",
        "Trailing": "the solid is whole before this word: two of them want `union` before them",
        "TooMany": "the model of the solid has more than 65,535 clauses",
        "Empty": "there is no solid in the text",
    },
    "mesh": {
        "NotPly": "the first line is not `ply`",
        "BadHeader": "the line may not stand there in the header of a mesh",
        "BadVertex": "a vertex has one number for each of its properties",
        "BadFace": "a face is `3` and three whole numbers",
        "BadIndex": "the face has a vertex that is not there",
        "TooShort": "the mesh ends before all of its vertices and faces are told",
        "TooLong": "a line stands after the last face",
    },
    "script": {
        **_FORMS,
        "NoMark": "no line `%%` parts the model from the script",
        "UnknownCommand": "the first word is no command of a script",
        "TooShort": "the command lacks a word",
        "BadName": "a new name may not begin with #",
        "WrongArity": "the command does not take that many words",
        "BadSetting": "a setting of the draw is refused",
    },
    "edit": {
        "UnknownName": "no clause has that name",
        "DoubleName": "a clause of that name stands already",
        "NotEarlier": "an argument does not stand before the clause that is to have it",
        "InUse": "another clause has it as an argument, so it can not be cut",
        "LastClause": "the model has no other clause, so it can not be cut",
        "Full": "65,535 clauses stand already",
        "NothingToUndo": "there is no edit to take back",
    },
}

FAULTS: dict[int, tuple[str, str]] = {
    5: ("input too long", "the input has more than 8,388,608 bytes"),
    6: ("read fault", "the input could not be read"),
    7: ("write fault", "the output could not be written: the disk is full, or who was to take it closed it"),
    8: ("no memory", "there is not enough memory: draw fewer cells, or a smaller image"),
}


def sentence(kind: str, reason: str) -> str:
    """The meaning of a reason of a word, a model, a solid, a mesh, a script or an edit."""
    return SENTENCES[kind].get(reason, "it is refused")
