"""What has no name of a clause in it is computed here, by the numbers and calls that are listed and no others."""
from __future__ import annotations

import ast
import math
import operator
from collections.abc import Callable, Container

Number = int | float
Refusal = Callable[[str, ast.AST], Exception]  # of a sentence and what it is about
Level = list[tuple[ast.expr, list[ast.expr]]]  # the nodes of a tree at one depth, each with its parts

MOST_BITS = 1000
LARGEST = 2**MOST_BITS  # of a number on the way
VALUES: dict[str, float] = {"pi": math.pi, "tau": math.tau, "e": math.e}
CALLS: dict[str, Callable[..., Number]] = {
    **{it: getattr(math, it) for it in (
        "sin cos tan asin acos atan atan2 sinh cosh tanh asinh acosh atanh exp expm1 log log2 log10 log1p sqrt pow "
        "hypot radians degrees floor ceil trunc fabs fmod copysign"
    ).split()},
    "abs": abs, "min": min, "max": max, "square": lambda a: a * a, "length": math.hypot,
    "clamp": lambda a, low, high: min(max(a, low), high), "mix": lambda a, b, t: a + t * (b - a),
    "mod": lambda a, b: a - b * math.floor(a / b),
}


def _power(base: Number, exponent: Number) -> Number:
    """A power that is refused before it is computed where it would be a whole number of too many digits."""
    if isinstance(base, int) and isinstance(exponent, int) and base.bit_length() * exponent > 2 * MOST_BITS:
        raise OverflowError
    return base**exponent  # type: ignore[no-any-return]


SIGNS: dict[type, Callable[[Number, Number], Number]] = {
    ast.Add: operator.add, ast.Sub: operator.sub, ast.Mult: operator.mul, ast.Div: operator.truediv,
    ast.FloorDiv: operator.floordiv, ast.Mod: operator.mod, ast.Pow: _power,
}
_FOREIGN = {
    ast.Attribute: "a point stands within numbers alone",
    ast.Call: "a call is a name, and formulas in brackets",
    ast.Tuple: "a comma stands between the formulas of a call alone",
    ast.IfExp: "a formula has no condition: min and max choose",
    ast.BoolOp: "and, or and not are no signs of a formula: max is what is in both, min what is in one of both",
}


def only_of_numbers(sign: ast.operator) -> str:
    """Why a sign that numbers have is refused between formulas."""
    if isinstance(sign, ast.Pow):
        return "a power has numbers alone: square(a) is a times a, and a product is written out"
    if isinstance(sign, ast.Mod):
        return "% has numbers alone: mod(a, b) is a less b times floor(a / b)"
    return "// has numbers alone: floor(a / b) is the whole part of a quotient"


def parts(node: ast.expr, refusal: Refusal) -> list[ast.expr]:
    """What stands directly within a node that is known; any other is refused."""
    kind = type(node)
    if kind is ast.Name:
        return []
    if kind is ast.Constant and type(node.value) in (int, float):
        if abs(node.value) > LARGEST:
            raise refusal("the number is too large", node)
        return []
    if kind is ast.BinOp and type(node.op) in SIGNS:
        return [node.left, node.right]
    if kind is ast.Call and type(node.func) is ast.Name and not node.keywords:
        return node.args
    if kind is ast.UnaryOp and type(node.op) in (ast.USub, ast.UAdd):
        return [node.operand]
    foreign = "a formula has numbers, names, the signs + - * / and calls, and this is none"
    raise refusal(_FOREIGN.get(kind, foreign), node)


def values_of(levels: list[Level], names: Container[str], refusal: Refusal) -> dict[ast.expr, Number]:
    """The number of each node with no name of a clause in it, nor a coordinate, nor a call that only formulas have.

    The levels of the tree are gone through from the last one on, so that the parts of a node come before it.
    """
    values: dict[ast.expr, Number] = {}
    for node, parts_of_it in (it for level in reversed(levels) for it in level):
        if isinstance(node, ast.Constant):
            values[node] = node.value  # type: ignore[assignment]
        elif isinstance(node, ast.Name):
            if node.id in VALUES and node.id not in names:
                values[node] = VALUES[node.id]
        elif all(it in values for it in parts_of_it) and _call(node) is not None:
            values[node] = _value(node, [values[it] for it in parts_of_it], refusal)
    return values


def text_of(number: Number) -> str:
    """The numeral of a constant, to ten decimals."""
    return repr(round(number, 10))


def _call(node: ast.expr) -> Callable[..., Number] | None:
    """What computes a node from its parts, or None where that is no call of numbers."""
    if isinstance(node, ast.BinOp):
        return SIGNS[type(node.op)]
    if isinstance(node, ast.UnaryOp):
        return operator.neg if isinstance(node.op, ast.USub) else operator.pos
    assert isinstance(node, ast.Call) and isinstance(node.func, ast.Name)
    return CALLS.get(node.func.id)


def _value(node: ast.expr, numbers: list[Number], refusal: Refusal) -> Number:
    call = _call(node)
    assert call is not None
    what = node.func.id if isinstance(node, ast.Call) and isinstance(node.func, ast.Name) else "the formula"
    try:
        value = call(*numbers)
    except ZeroDivisionError:
        raise refusal("a number is divided by 0", node) from None
    except OverflowError:
        raise refusal("the number is too large", node) from None
    except TypeError:
        raise refusal(f"{what} does not take so many numbers; a decimal comma is a point here", node) from None
    except ValueError:
        raise refusal(f"{what} has no value there", node) from None
    if isinstance(value, complex):
        raise refusal("a power of a number below 0 has no value there", node)
    if not abs(value) <= LARGEST:
        raise refusal("the number is too large", node)
    return value
