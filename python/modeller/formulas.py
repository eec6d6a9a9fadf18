"""The reader of formulas: it turns lines `name = formula` into clauses, and lets through what else a file may have.

A formula is data: of its tree only numbers, names, the signs and the calls that are listed here are taken, and nothing
of it is ever run. Its length, its depth and its numbers are bounded, so that each text is read or refused in about the
time that its length takes.
"""
from __future__ import annotations

import ast
import math
import re
import sys
import unicodedata
from collections.abc import Iterator

from . import constants
from .clause_lines import BLANKS, clause_words, command_name
from .formula_trees import Formula, FormulaError
from .spelling import nearest, shown

__all__ = ["FormulaError", "clauses_of", "main"]

LONGEST_TEXT = 8_388_608  # bytes, of what is read and of what is written: more the program does not read
LONGEST_LINE = 20_000  # characters, of what is no comment
MOST_LINES = 250_000
MOST_CLAUSES = 65_535
MOST_WORDS = 40_000  # words and signs of all formulas together

OPERATORS: dict[type, str] = {ast.Add: "add", ast.Sub: "sub", ast.Mult: "mul", ast.Div: "div"}
MANY = ("add", "min", "max")  # calls of two formulas or more
CALLS: dict[str, tuple[int, float]] = {
    **{it: (1, 1) for it in ("neg", "abs", "floor", "square", "sqrt")},
    **{it: (2, 2) for it in ("sub", "mul", "div", "mod")}, "clamp": (3, 3), "mix": (3, 3),
    **{it: (2, math.inf) for it in MANY}, "length": (1, math.inf),
}  # the least and the most formulas that a call has

_FORMULA = re.compile(r"\s*([^\W\d]\w*)\s*=(?!=)")


def clauses_of(text: str) -> str:
    """The clauses of a text of formulas, each formula as a comment before its own; a `FormulaError` refuses it.

    Blank lines, comments and clauses stand as they are, and so do the commands of a script behind a line `%%`.
    """
    return _Reader().read(text)


class _Reader:
    """What is written so far, and what the lines before have named."""

    def __init__(self) -> None:
        self.out: list[str] = []
        self.size = 0  # of what formulas have written, which may be longer than they are
        self.names: dict[str, None] = {}  # of clauses, in their order
        self.steps: dict[tuple[str, ...], str] = {}  # the name of each step that a formula wrote
        self.words = 0  # of the formulas so far
        self.in_script = False
        self.formula: Formula  # that is read, with its nodes that are numbers, and names for its steps
        self.numbers: dict[ast.expr, constants.Number]
        self.fresh: Iterator[str]

    def read(self, text: str) -> str:
        """The whole of what a text becomes."""
        if text.count("\n") > MOST_LINES:
            raise FormulaError(f"the text has more than {MOST_LINES:,} lines")
        for number, line in enumerate(text.removeprefix("\ufeff").split("\n"), 1):
            line = line.rstrip("\r")
            try:
                if line.lstrip(BLANKS)[:1] not in ("", "#"):
                    self._line(line)
                else:
                    self.out.append(line)
            except FormulaError as error:
                error.line = number
                raise
        written = "\n".join(self.out)
        return written if self.out[-1] == "" else written + "\n"

    def _line(self, line: str) -> None:
        if len(line) > LONGEST_LINE:
            raise FormulaError(f"a line has at most {LONGEST_LINE:,} characters, if it is no comment: part it")
        found = _FORMULA.match(line)
        if found and self.in_script:
            raise FormulaError("formulas stand before the line %%, and commands behind it", found.start(1) + 1)
        if found:
            self._formula(line, unicodedata.normalize("NFKC", found[1]), found.start(1) + 1, found.end())
            return
        if self.in_script:
            name = command_name(line, self.names)
            if name is not None:
                self.names[name] = None
        elif line.strip(BLANKS) == "%%":
            self.in_script = True
        else:
            name, *words = clause_words(line, self.names)
            self._name(name)
            if words == ["const", name]:  # named as a formula would name it
                self.steps["const", name] = name
        self.out.append(line)

    def _formula(self, line: str, name: str, column: int, start: int) -> None:
        if name in ("x", "y", "z"):
            raise FormulaError(f"{name} is a coordinate, and no name for a formula", column)
        if name in self.names:
            raise FormulaError(f"{shown(name)} stands already", column)
        self.formula = Formula(line, start)
        self.words += self.formula.count_words()
        if self.words > MOST_WORDS:
            raise FormulaError(f"the formulas have more than {MOST_WORDS:,} words and signs", column)
        body = self.formula.parse()
        self.numbers = constants.values_of(self.formula.levels(body), self.names, self.formula.refusal)
        self._write("# " + line.strip())
        self.fresh = (f"{name}.{count}" for count in range(1, MOST_CLAUSES + 1))
        last = self._last(body)
        self._clause(name, *last)
        if last[0] != "const":
            self.steps.setdefault(last, name)

    def _write(self, line: str) -> None:
        self.size += len(line) + 1
        if self.size > LONGEST_TEXT:
            raise FormulaError(f"the clauses have more than {LONGEST_TEXT:,} bytes, and the program reads no more")
        self.out.append(line)

    def _name(self, name: str) -> str:
        if len(self.names) >= MOST_CLAUSES:
            raise FormulaError(f"the model has more than {MOST_CLAUSES:,} clauses")
        self.names[name] = None
        return name

    def _clause(self, name: str, *words: str) -> str:
        """Writes a clause, and gives its name."""
        self._write(" ".join((self._name(name), *words)))
        return name

    def _step(self, *words: str) -> str:
        """The name of a step: that of an equal one, or else the formula's next name; a number has its own."""
        if words not in self.steps:
            own = words[0] == "const" and words[1] not in self.names
            name = words[1] if own else next(it for it in self.fresh if it not in self.names)
            self.steps[words] = self._clause(name, *words)
        return self.steps[words]

    def _joined(self, word: str, operands: list[str]) -> str:
        """The name of what several operands give, two at a time."""
        name = operands[0]
        for operand in operands[1:]:
            name = self._step(word, name, operand)
        return name

    def _operand(self, node: ast.expr) -> str:
        """The name of a formula's value, whose steps are written."""
        if not isinstance(node, ast.Name) or node in self.numbers:
            return self._step(*self._last(node))
        if node.id not in self.names and node.id in ("x", "y", "z"):
            self._clause(node.id, f"var-{node.id}")
        if node.id not in self.names:
            known = [*self.names, "x", "y", "z", *constants.VALUES]
            raise self.formula.refusal(f"{shown(node.id)} is no name of a line before{nearest(node.id, known)}", node)
        return node.id

    def _last(self, node: ast.expr) -> tuple[str, ...]:
        """The last step of a formula, before which all others of it are written."""
        if node in self.numbers:
            return "const", constants.text_of(self.numbers[node])
        if isinstance(node, ast.UnaryOp) and isinstance(node.op, ast.USub):
            return "neg", self._operand(node.operand)
        if isinstance(node, (ast.Name, ast.UnaryOp)):
            operand = self._operand(node if isinstance(node, ast.Name) else node.operand)
            return "max", operand, operand  # no operation copies, and this one leaves each value as it is
        if isinstance(node, ast.BinOp):
            if type(node.op) not in OPERATORS:
                raise self.formula.refusal(constants.only_of_numbers(node.op), node)
            return OPERATORS[type(node.op)], self._operand(node.left), self._operand(node.right)
        assert isinstance(node, ast.Call) and isinstance(node.func, ast.Name)
        self._check_call(node, node.func.id)
        return self._called(node.func.id, [self._operand(it) for it in node.args])

    def _check_call(self, node: ast.Call, word: str) -> None:
        """Refuses a call that is none, or has too few formulas or too many."""
        refusal, count = self.formula.refusal, len(node.args)
        if word not in CALLS and word in constants.CALLS:
            raise refusal(
                f"{word} is computed here, so it takes numbers alone: docs/COOKBOOK.md has parabolas in place of sines",
                node,
            )
        if word not in CALLS:
            raise refusal(f"{shown(word)} is no call{nearest(word, [*CALLS, *constants.CALLS])}", node)
        least, most = CALLS[word]
        if not least <= count <= most:
            wanted = str(least) if least == most else f"{least} or more"
            pairs = zip(node.args, node.args[1:])
            comma = any(isinstance(a, ast.Constant) and isinstance(b, ast.Constant) for a, b in pairs)
            mend = ", and a decimal comma is a point here" if comma else ""
            raise refusal(f"{word} of {count} is no operation: it takes {wanted}{mend}", node)

    def _called(self, word: str, operands: list[str]) -> tuple[str, ...]:
        if word == "length":
            return "sqrt", self._joined("add", [self._step("square", it) for it in operands])
        if word == "clamp":
            return "min", self._step("max", operands[0], operands[1]), operands[2]
        if word == "mix":
            return "add", operands[0], self._step("mul", operands[2], self._step("sub", operands[1], operands[0]))
        if word == "mod":
            whole = self._step("floor", self._step("div", *operands))
            return "sub", operands[0], self._step("mul", operands[1], whole)
        if word in MANY:
            return word, self._joined(word, operands[:-1]), operands[-1]
        return (word, *operands)


def main() -> int:
    """Reads formulas on standard input and writes their clauses: the script `clauses`."""
    try:
        data = sys.stdin.buffer.read(LONGEST_TEXT + 1)
        if len(data) > LONGEST_TEXT:
            raise FormulaError(f"the text has more than {LONGEST_TEXT:,} bytes")
        written = clauses_of(data.decode("utf-8", "surrogateescape"))
        sys.stdout.buffer.write(written.encode("utf-8", "surrogateescape"))
        sys.stdout.buffer.flush()
    except FormulaError as error:
        print(f"clauses: {error}", file=sys.stderr)
        return 1
    except KeyboardInterrupt:
        return 130
    except OSError as error:
        print(f"clauses: {error.strerror or error}", file=sys.stderr)
        return 1
    return 0
