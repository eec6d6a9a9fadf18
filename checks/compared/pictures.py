"""How much of a picture is otherwise than in the one by this program."""
from __future__ import annotations

from modeller import files

from .drawings import OURS
from .runs import Run


def measure(drawn: list[Run]) -> None:
    """Of each picture by another program, the pixels that are otherwise are counted."""
    for run in drawn:
        if run.by != OURS:
            ours = next(it for it in drawn if (it.what, it.by) == (run.what, OURS))
            run.found["otherwise"] = otherwise(files.read_pgm(ours.out.read_bytes()).samples, run)


def otherwise(ours: bytes, run: Run) -> int:
    """How many samples are otherwise, or of a picture in colours, how many show something where the other is black."""
    data = run.out.read_bytes()
    if data.startswith(b"P6"):
        red = data[-3 * len(ours)::3]
        return sum((left == 0) != (right == 0) for left, right in zip(ours, red))
    return sum(left != right for left, right in zip(ours, files.read_pgm(data).samples))
