"""One formula: its words, and its tree, of which only what is listed is taken and nothing is run.

The words are looked at first, so that `ast` never sees a text, a list or brackets without end; then the tree is, whose
numbers, names, signs and calls by name are taken, and of which anything else is refused.
"""
from __future__ import annotations

import ast
import re

from .constants import Level, parts
from .errors import ModellerError
from .spelling import shown

DEEPEST = 200  # formulas within each other
COMPARISON = "a comparison is no formula: a point is inside where the value is below 0, so `a < b` is written `a - b`"
NO_FORMULA = "this is no formula: a sign, a number or a bracket is missing or too much"
TOO_DEEP = f"more than {DEEPEST} formulas stand within each other: part it, or use add, min and max of many"
NUMERAL = re.compile(r"[+-]?(?:\d+\.?\d*|\.\d+)(?:[eE][+-]?\d{1,3})?", re.ASCII)

_WORD = re.compile(r"[^\W\d]\w*|[\d.]+(?:[eE][+-]?\d+)?|\S")


class FormulaError(ModellerError):
    """What is refused of a text: the line and the column, both from 1, and a sentence. Line 0 is the whole text."""

    def __init__(self, sentence: str, column: int = 1, line: int = 0) -> None:
        super().__init__(sentence)
        self.sentence, self.column, self.line = sentence, column, line

    def __str__(self) -> str:
        return f"line {self.line}: column {self.column}: {self.sentence}" if self.line else self.sentence


class Formula:
    """A formula of a line: its text, without a comment behind it, and where it begins there."""

    def __init__(self, line: str, start: int) -> None:
        text = line[start:].partition("#")[0].rstrip()
        self.text = text.lstrip()
        self.start = start + len(text) - len(self.text)
        if not self.text:
            raise FormulaError("the formula is missing behind the =", start + 1)

    def refusal(self, sentence: str, node: ast.AST) -> FormulaError:
        """What is refused at a node, whose place `ast` counts in bytes."""
        before = self.text.encode("utf-8", "surrogatepass")[: getattr(node, "col_offset", 0)]
        return FormulaError(sentence, self.start + len(before.decode("utf-8", "ignore")) + 1)

    def count_words(self) -> int:
        """How many words and signs there are. Foreign ones are refused, so that `ast` never sees a text or a list."""
        count, before, text = 0, "", self.text
        called: list[bool] = []  # of each open bracket, whether it is that of a call
        for found in _WORD.finditer(text):
            word, end = found[0], found.end()
            count += 1
            if word[0].isalpha() or word[0] == "_":
                pass
            elif word == "(":
                called.append(before[:1].isalpha() or before[:1] == "_")
                if len(called) >= DEEPEST:
                    raise FormulaError(f"{DEEPEST} brackets stand within each other", self.start + end)
            elif word == ")":
                if not called:
                    raise FormulaError("a bracket ) was never opened", self.start + end)
                called.pop()
            elif word == "," and not (called and called[-1]):
                raise FormulaError(_comma(before, text[end : end + 20]), self.start + end)
            elif word[0].isdigit() or word[0] == "." and len(word) > 1:
                _check_number(word, text[end : end + 1], self.start + found.start() + 1)
            elif word not in ".,+-*/%":
                raise FormulaError(_foreign(word, text[end : end + 1]), self.start + end)
            before = word
        if called:
            raise FormulaError("a bracket ( is not closed", self.start + len(text))
        return count

    def parse(self) -> ast.expr:
        """The tree of the formula, in which anything may stand that Python has."""
        try:
            return ast.parse(self.text, mode="eval").body
        except SyntaxError as error:
            place = min(max(error.offset or 1, 1), len(self.text)) - 1
            sign = self.text[place]
            sentence = NO_FORMULA if sign.isascii() else f"{shown(sign)} is no sign of a formula"
            raise FormulaError(sentence, self.start + place + 1) from None
        except (MemoryError, RecursionError):
            raise FormulaError(TOO_DEEP, self.start + 1) from None
        except (ValueError, OverflowError):
            raise FormulaError(NO_FORMULA, self.start + 1) from None

    def levels(self, body: ast.expr) -> list[Level]:
        """The nodes of a tree by their depth, each with its parts; what is not known, or too deep, is refused."""
        levels: list[Level] = []
        nodes = [body]
        while nodes:
            if len(levels) == DEEPEST:
                raise self.refusal(TOO_DEEP, nodes[0])
            level = [(node, parts(node, self.refusal)) for node in nodes]
            levels.append(level)
            nodes = [it for _, below in level for it in below]
        return levels


def _comma(before: str, behind: str) -> str:
    digits = re.match(r"\d+", behind)
    if before[-1:].isdigit() and digits:
        return f"{before},{digits[0]} has a decimal comma: it is a point here, {before}.{digits[0]}"
    return "a comma stands between the formulas of a call alone"


def _foreign(sign: str, behind: str) -> str:
    if sign in "<>" or sign in "=!" and behind == "=":
        return COMPARISON
    return {
        "=": "a formula has one = alone, behind its name",
        "^": "^ is no sign of a formula: square(a) is a times a",
    }.get(sign, f"{shown(sign)} is no sign of a formula")


def _check_number(word: str, behind: str, column: int) -> None:
    if not NUMERAL.fullmatch(word) or len(word) > 400:
        raise FormulaError(f"{shown(word)} is no number", column)
    if behind.isalnum() or behind == "_":
        raise FormulaError(f"{shown(word + behind)} is no number, and a * is missing where a product is meant", column)
    if re.match(r"0+[1-9]", word) and word.isdigit():
        raise FormulaError(f"{shown(word)} has a 0 in front", column)
