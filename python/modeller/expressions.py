"""Values: numbers that depend on the place x, y, z and on named sizes, as formulas over them.

A value is what one clause of a model computes. `x`, `y` and `z` are the coordinates of a place, `size` makes a number
with a name, and `+ - * /` and the calls of this module make values of values. Solids are another type: `solid(value)`
makes a solid of a value, which is inside where the value is below 0.
"""

from __future__ import annotations

import builtins
import itertools
import math
import re
from decimal import Decimal, InvalidOperation
from fractions import Fraction
from numbers import Real
from typing import Any, Callable, Union

from .faults import WrongNumber, WrongType
from .origin import Origin, here
from .raw import described, exact

Number = Union[int, float, Fraction, Decimal]
#: What may stand where a length or a factor is wanted.
Operand = Union["Value", Number]

#: Numbers that sizes take in place of those in the source, by name, as `--set wall=3` fills it in.
overrides: dict[str, str] = {}

_NAME = re.compile(r"[^\W\d]\w*")
_serial = itertools.count()


class Value:
    """A formula over x, y, z, numbers and named sizes.

    op       the operation, by its word in a model; `at` stands for the first argument at another place
    args     the values that it is made of
    number   of a constant its number
    name     of a named size its name
    now      the number that a value has with the sizes as they are, or None where it depends on the place
    """

    __slots__ = ("op", "args", "number", "name", "now", "origin", "serial")
    __array_ufunc__ = None  # numpy leaves the operators to this class

    def __init__(self, op: str, args: tuple[Value, ...] = (), number: Fraction | None = None, name: str = "") -> None:
        self.op, self.args, self.number, self.name = op, args, number, name
        self.origin: Origin = here("value")
        self.serial = next(_serial)
        self.now: float | None = float(number) if number is not None else _now(op, args)

    def __add__(self, other: object) -> Value:
        return self if _is_number(other, 0) else _two("add", self, other, "+")

    def __radd__(self, other: object) -> Value:
        return self if _is_number(other, 0) else _two("add", other, self, "+")

    def __sub__(self, other: object) -> Value:
        return self if _is_number(other, 0) else _two("sub", self, other, "-")

    def __rsub__(self, other: object) -> Value:
        return -self if _is_number(other, 0) else _two("sub", other, self, "-")

    def __mul__(self, other: object) -> Value:
        return self if _is_number(other, 1) else _two("mul", self, other, "*")

    def __rmul__(self, other: object) -> Value:
        return self if _is_number(other, 1) else _two("mul", other, self, "*")

    def __truediv__(self, other: object) -> Value:
        return self if _is_number(other, 1) else _two("div", self, other, "/")

    def __rtruediv__(self, other: object) -> Value:
        return _two("div", other, self, "/")

    def __floordiv__(self, other: object) -> Value:
        return floor(_two("div", self, other, "//"))

    def __rfloordiv__(self, other: object) -> Value:
        return floor(_two("div", other, self, "//"))

    def __mod__(self, other: object) -> Value:
        return mod(self, other)

    def __rmod__(self, other: object) -> Value:
        return mod(other, self)

    def __pow__(self, power: object) -> Value:
        if _is_number(power, 2):
            return square(self)
        if _is_number(power, 0.5):
            return sqrt(self)
        raise WrongType("a power of a value is **2 or **0.5; any other is written out, as a * a * a")

    def __neg__(self) -> Value:
        return Value("neg", (self,))

    def __pos__(self) -> Value:
        return self

    def __abs__(self) -> Value:
        return Value("abs", (self,))

    def __floor__(self) -> Value:
        return Value("floor", (self,))

    # What Python wants a number for.

    def _no_number(self, what: str, instead: str = "") -> WrongType:
        who = f"the size {self.name!r}" if self.name else "a value"
        return WrongType(f"{who} is no number of Python, so {what}{'; ' + instead if instead else ''}")

    def _told(self) -> str:
        if self.now is None:
            return "no clause computes a function such as a sine of x, y and z"
        return "compute with a plain number first, and make sizes of the results"

    def __float__(self) -> float:
        raise self._no_number("float() and the functions of math can not take it", self._told())

    def __int__(self) -> int:
        raise self._no_number("int() can not take it", "floor(value) is a value")

    def __index__(self) -> int:
        raise self._no_number("it can not count or be an index", "write the count as a plain number")

    def __complex__(self) -> complex:
        raise self._no_number("complex() can not take it")

    def __round__(self, digits: int | None = None) -> Value:
        raise self._no_number("round() can not take it", "floor(value + 0.5) is a value")

    def __trunc__(self) -> Value:
        raise self._no_number("math.trunc() can not take it", "floor(value) is a value")

    def __ceil__(self) -> Value:
        raise self._no_number("math.ceil() can not take it", "-floor(-value) is a value")

    def __bool__(self) -> bool:
        raise self._no_number("it is neither true nor false", "a condition needs a plain number")

    def _compare(self, other: object) -> bool:
        raise self._no_number("it can not be compared", "min, max and clamp are values, and a condition needs a number")

    __lt__ = __le__ = __gt__ = __ge__ = __eq__ = __ne__ = _compare  # type: ignore[assignment]
    __hash__ = object.__hash__

    def __iter__(self) -> Any:
        raise self._no_number("there is nothing to go through")

    def _join(self, other: object) -> Any:
        raise WrongType("|, & and ^ join solids, and this is a value: of values min(a, b) and max(a, b) are the same")

    __or__ = __ror__ = __and__ = __rand__ = __xor__ = __rxor__ = _join

    def __repr__(self) -> str:
        if self.name:
            return f"size({self.name!r}, {float(self.number or 0):g})"
        if self.number is not None:
            return f"value({float(self.number):g})"
        return f"<value {self.op}, made on {self.origin.told()}>"


def _is_number(it: object, number: float) -> bool:
    return isinstance(it, (Real, Decimal)) and not isinstance(it, bool) and it == number


def _two(op: str, left: object, right: object, sign: str) -> Value:
    """A step of two operands, of which Python's operator was written between."""
    return Value(op, (operand(left, sign), operand(right, sign)))


_PLAIN: dict[str, Callable[..., float]] = {
    "neg": lambda a: -a, "abs": abs, "floor": math.floor, "square": lambda a: a * a,
    "sqrt": lambda a: math.sqrt(a) if a > 0 else 0.0, "add": lambda a, b: a + b, "sub": lambda a, b: a - b,
    "mul": lambda a, b: a * b, "div": lambda a, b: a / b if b else math.copysign(2.0**30, a) if a else 0.0,
    "min": builtins.min, "max": builtins.max,
}


def _now(op: str, args: tuple[Value, ...]) -> float | None:
    numbers = [it.now for it in args]
    if op not in _PLAIN or any(it is None for it in numbers):
        return None
    return float(_PLAIN[op](*numbers))


def operand(it: object, where: str) -> Value:
    """What may stand in a formula, as a value; `where` names the sign or the call in a refusal."""
    if isinstance(it, Value):
        return it
    if hasattr(it, "children"):  # a solid or a shape, whose modules stand above this one
        raise WrongType(
            f"{where} takes values, and {described(it)} is none: solids are joined by |, & and -, grown by .offset(r), "
            "and .value is the formula of one"
        )
    return value(it, f"what stands at {where}")


def value(number: object, what: str = "the number") -> Value:
    """A number as a value, which gets a clause that is named as the number is written."""
    if isinstance(number, Value):
        return number
    return Value("const", (), exact(number, what))


def size(name: str, number: Number) -> Value:
    """A number with a name: a clause `name const number`, which a script sets and `grep` finds.

    It is never merged with another size of the same number. What is made of it by arithmetic follows it. A name is
    like one of Python, and not x, y or z.
    """
    if not isinstance(name, str) or not _NAME.fullmatch(name):
        raise WrongNumber(f"a size has a name like a variable's, and {name!r} is none")
    if name in ("x", "y", "z"):
        raise WrongNumber(f"a size can not be named {name}, which is a coordinate")
    found = exact(number, f"the size {name!r}")
    if name in overrides:
        try:
            found = exact(Decimal(overrides[name]), f"the size {name!r}")
        except InvalidOperation as error:
            raise WrongNumber(f"the size {name!r} is a number, and {overrides[name]!r} is none") from error
    return Value("const", (), found, name)


x: Value = Value("var-x")
y: Value = Value("var-y")
z: Value = Value("var-z")


def _plain(items: tuple[object, ...]) -> bool:
    return all(isinstance(it, (Real, Decimal)) for it in items)


def sqrt(a: Operand) -> Any:
    """The square root; of a value below 0 it is 0. Of a plain number it is a number."""
    return math.sqrt(a) if _plain((a,)) else Value("sqrt", (operand(a, "sqrt"),))


def square(a: Operand) -> Any:
    """a times a. Values beyond 32,768 have a square beyond the greatest value, and then it is the greatest."""
    return a * a if _plain((a,)) else Value("square", (operand(a, "square"),))  # type: ignore[operator]


def floor(a: Operand) -> Any:
    """The greatest whole number that is not above a."""
    return math.floor(a) if _plain((a,)) else Value("floor", (operand(a, "floor"),))  # type: ignore[arg-type]


def neg(a: Operand) -> Any:
    """a with the other sign."""
    return -a if _plain((a,)) else Value("neg", (operand(a, "neg"),))  # type: ignore[operator]


def abs(a: Any) -> Any:  # noqa: A001
    """a without its sign: a value of a value, and Python's own `abs` of anything else."""
    if hasattr(a, "children"):
        return Value("abs", (operand(a, "abs"),))
    return builtins.abs(a)


def min(*items: Any, **options: Any) -> Any:  # noqa: A001
    """The least of several values, as a value; where none of them is a value, Python's own `min`."""
    return _least("min", builtins.min, items, options)


def max(*items: Any, **options: Any) -> Any:  # noqa: A001
    """The greatest of several values, as a value; where none of them is a value, Python's own `max`."""
    return _least("max", builtins.max, items, options)


def _least(op: str, plain: Callable[..., Any], items: tuple[Any, ...], options: dict[str, Any]) -> Any:
    if len(items) == 1 and isinstance(items[0], (list, tuple)) and any(_formula(it) for it in items[0]):
        items = tuple(items[0])
    if options or not any(_formula(it) for it in items):
        return plain(*items, **options)
    return balanced([operand(it, op) for it in items], op)


def _formula(it: object) -> bool:
    return isinstance(it, Value) or hasattr(it, "children")


def balanced(items: list[Value], op: str) -> Value:
    """The items joined by an operation in pairs, and the pairs in pairs, so that no chain is deep.

    The pairs stand at even places, so what is added at the end changes no pair before it.
    """
    while len(items) > 1:
        pairs = [Value(op, (items[it], items[it + 1])) for it in range(0, len(items) - 1, 2)]
        items = pairs + items[len(items) & ~1 :]
    return items[0]


def length(*items: Operand) -> Any:
    """The root of the sum of the squares: how long the way with these parts is."""
    if _plain(items):
        return math.hypot(*items)  # type: ignore[arg-type]
    squares = [square(operand(it, "length")) for it in items]
    total = squares[0]
    for it in squares[1:]:
        total = total + it
    return sqrt(total)


def clamp(a: Operand, low: Operand, high: Operand) -> Any:
    """a, brought between low and high."""
    return min(max(a, low), high)


def mix(a: Operand, b: Operand, share: Operand) -> Any:
    """a where the share is 0, b where it is 1, and evenly between."""
    return a + (b - a) * share  # type: ignore[operator]


def mod(a: Operand, b: Operand) -> Any:
    """a less the whole multiple of b at or below it, from 0 up to b, as Python's % is."""
    if _plain((a, b)):
        return a % b  # type: ignore[operator]
    a, b = operand(a, "mod"), operand(b, "mod")
    return a - floor(a / b) * b
