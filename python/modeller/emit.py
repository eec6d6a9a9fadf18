"""From values to the clauses of a model, and back from a clause to the line of Python that made it."""

from __future__ import annotations

from collections import Counter
from dataclasses import dataclass
from fractions import Fraction
from typing import NamedTuple

from .expressions import Value
from .faults import TooManyClauses, WrongNumber
from .numerals import numeral
from .origin import Origin
from .raw import raw_constant

#: How many clauses a model has at most.
MOST_CLAUSES = 65_535


class Clause(NamedTuple):
    """A step: its name, its operation, the places of its arguments among the clauses, and of a constant its number."""

    name: str
    op: str
    args: tuple[int, ...]
    number: Fraction | None
    origin: Origin

    def raw(self) -> int:
        """The raw number that the program reads for a constant, and 0 for another step."""
        return 0 if self.number is None else raw_constant(self.number)


@dataclass(frozen=True)
class Text:
    """The clauses of a value, whose last one is the value itself, and their text."""

    clauses: tuple[Clause, ...]
    text: str

    def where(self, line: int) -> tuple[str, int] | None:
        """The file and the line of Python that made the clause on a line of the text, which is counted from 1."""
        if not 1 <= line <= len(self.clauses):
            return None
        origin = self.clauses[line - 1].origin
        return origin.file, origin.line

    def sizes(self) -> dict[str, float]:
        """The named sizes, in the order in which they were made, and their numbers."""
        return {it.name: float(it.number) for it in self.clauses if it.number is not None and it.name[0].isidentifier()}


def clauses_of(root: Value) -> Text:
    """The clauses of a value. Equal steps are written once; named sizes are kept apart, and stand first.

    All other steps stand in the order in which the formula has them, each directly before it is needed. A step is
    named after the variable for which its line of Python was run, or after the kind of solid, and numbered within
    that name: so a change of one statement leaves the names of all others. A constant is named as it is written.
    """
    writer = _Writer()
    for it in sorted(_sizes(root), key=lambda it: it.serial):
        writer.size(it)
    last = writer.write(root)
    if last != len(writer.clauses) - 1:
        writer.step("max", (last, last), root.origin)
    lines = []
    for it in writer.clauses:
        if it.number is not None:
            lines.append(f"{it.name} const {numeral(it.number)}\n")
        else:
            lines.append(" ".join((it.name, it.op, *(writer.clauses[arg].name for arg in it.args))) + "\n")
    return Text(tuple(writer.clauses), "".join(lines))


def _sizes(root: Value) -> list[Value]:
    """The named sizes that a value depends on."""
    found, seen, stack = [], {id(root)}, [root]
    while stack:
        node = stack.pop()
        if node.name:
            found.append(node)
        for it in node.args:
            if id(it) not in seen:
                seen.add(id(it))
                stack.append(it)
    return found


class _Writer:
    def __init__(self) -> None:
        self.clauses: list[Clause] = []
        self.equal: dict[tuple[object, ...], int] = {}  # the place of each step that was written
        self.named: dict[str, Value] = {}
        self.numbers: Counter[str] = Counter()
        self.bases: dict[tuple[str, int, str], str] = {}  # what the names of a line's clauses begin with

    def size(self, node: Value) -> None:
        """Writes a named size."""
        if node.name in self.named:
            first = self.named[node.name].origin
            raise WrongNumber(
                f"two sizes are named {node.name}, on {first.told()} and on {node.origin.told()}: make it once, and "
                "use that one in both places"
            )
        self.named[node.name] = node
        self.equal["size", id(node)] = self._append(node.name, "const", (), node.number, node.origin)

    def write(self, root: Value) -> int:
        """Writes the steps of a value that do not stand yet, and gives the place of the last one."""
        done: dict[tuple[int, object], int] = {}
        stack: list[tuple[Value, object, bool]] = [(root, None, False)]
        while stack:
            node, place, ready = stack.pop()
            if (id(node), place) in done:
                continue
            if node.op == "at":
                inner, *coordinates = node.args
                known = [done.get((id(it), place)) for it in coordinates]
                if None in known:
                    stack.append((node, place, False))
                    stack.extend((it, place, False) for it in reversed(coordinates))
                elif (id(inner), tuple(known)) in done:
                    done[id(node), place] = done[id(inner), tuple(known)]
                else:
                    stack.append((node, place, False))
                    stack.append((inner, tuple(known), False))
            elif ready or not node.args:
                args = tuple(done[id(it), place] for it in node.args)
                done[id(node), place] = self._step_of(node, args, place)
            else:
                stack.append((node, place, True))
                stack.extend((it, place, False) for it in reversed(node.args))
        return done[id(root), None]

    def _step_of(self, node: Value, args: tuple[int, ...], place: object) -> int:
        if node.op in _AXES:
            if isinstance(place, tuple):
                return place[_AXES[node.op]]
            return self.step(node.op, (), node.origin, name=node.op[-1])
        if node.name:
            return self.equal["size", id(node)]
        if node.number is not None:
            return self.step("const", (), node.origin, node.number, numeral(node.number))
        return self.step(node.op, args, node.origin)

    def step(
        self, op: str, args: tuple[int, ...], origin: Origin, number: Fraction | None = None, name: str = ""
    ) -> int:
        """The place of a step: that of an equal one, or else a new one."""
        key = (op, args, number)
        if key not in self.equal:
            if not name:
                base = self._base(origin)
                self.numbers[base] += 1
                name = f"{base}.{self.numbers[base]}"
            self.equal[key] = self._append(name, op, args, number, origin)
        return self.equal[key]

    def _base(self, origin: Origin) -> str:
        key = origin[:3]
        if key not in self.bases:
            self.bases[key] = origin.base()
        return self.bases[key]

    def _append(self, name: str, op: str, args: tuple[int, ...], number: Fraction | None, origin: Origin) -> int:
        if len(self.clauses) == MOST_CLAUSES:
            raise too_many(Counter((it.origin.maker or it.origin.kind, it.origin) for it in self.clauses))
        self.clauses.append(Clause(name, op, args, number, origin))
        return len(self.clauses) - 1


_AXES = {"var-x": 0, "var-y": 1, "var-z": 2}


def too_many(made: Counter[tuple[str, Origin]]) -> TooManyClauses:
    """The refusal of a part with too many clauses, which names the operation that made most of its steps."""
    operations: Counter[str] = Counter()
    for (kind, origin), count in made.items():
        operations[origin.maker or f"{kind} on {origin.told()}"] += count
    most, _ = operations.most_common(1)[0]
    return TooManyClauses(
        f"the part has more than {MOST_CLAUSES:,} clauses, and most of them are made by {most}: fewer copies, or a "
        "pattern by mod(x, step), take fewer"
    )
