"""Everything that the package raises on purpose, as subclasses of `ModellerError`."""
from __future__ import annotations


class ModellerError(Exception):
    """What the package or the program refuses. The text of the exception is a sentence for whoever wrote the part."""


class NotFound(ModellerError):
    """The program `modeller` was not found, or what was found can not be run."""


class Died(ModellerError):
    """The program ended in a way of which it says nothing: a signal ended it, or it is another program.

    `status` is the exit status, or the number of the signal with a minus sign, as `subprocess` has it.
    """

    def __init__(self, message: str, status: int) -> None:
        super().__init__(message)
        self.status = status


class CannotSave(ModellerError):
    """A file could not be written, as on a full disk. What stood under its name before still stands."""


class BadFile(ModellerError):
    """A mesh or an image is not in the form that is read here, or can not be written in the form that is wanted."""


class Refused(ModellerError):
    """The program refused what it was given.

    verb      the verb of the call
    status    the exit status, 2 to 8, or 0 for an edit of a script that could not be made
    line      the line of the model's text or of the script, from 1; 0 for the whole text; None where none is told
    reason    the program's own word for it, as `UnknownName`
    sentence  the same in plain words
    where     the Python file and line that wrote the refused line, or None
    """

    def __init__(
        self,
        verb: str,
        status: int,
        reason: str,
        sentence: str,
        *,
        line: int | None = None,
        subject: str = "",
        where: tuple[str, int] | None = None,
    ) -> None:
        self.verb, self.status, self.reason, self.sentence = verb, status, reason, sentence
        self.line, self.where = line, where
        text = f"{verb}: {subject + ': ' if subject else ''}{sentence} ({reason})"
        super().__init__(f'{text}, from "{where[0]}", line {where[1]}' if where else text)


class BadWords(Refused):
    """A setting of the call is refused; nothing was read."""


class BadModel(Refused):
    """A line of the model, of the solid or of the mesh is refused."""


class BadScript(Refused):
    """A line of a script is refused; nothing was drawn."""


class BadEdit(Refused):
    """An edit of a script was read but could not be made; the rest of the script was played without it."""


class TooLong(Refused):
    """The input has more than 8,388,608 bytes."""


class ReadFault(Refused):
    """The program could not read its input."""


class WriteFault(Refused):
    """The program could not write its output, as on a full disk."""


class NoMemory(Refused):
    """The program was refused memory."""
