"""Parts as code, drawn by the program `modeller`.

    from modeller import *

    wall = size("wall", 2.4)
    plate = box(60, 40, wall, radius=1)
    holes = cylinder(3.2, 20).grid(2, 2, 44, 24)
    part = plate - holes
    part.mesh(cell=0.4).save("part.stl")

Solids are joined by `|`, `&` and `-`, and have methods; values are formulas over `x`, `y`, `z`, numbers and sizes.
`min`, `max` and `abs` take values, and are Python's own for all else. A part is a program, and runs as any other.
"""

from .body import bevel, cut, intersect, union
from .bounds import Bounds
from .drawings import Outline, PartMesh, Picture
from .errors import ModellerError
from .expressions import (
    Value, abs, clamp, floor, length, max, min, mix, mod, neg, size, sqrt, square, value, x, y, z,
)
from .faults import EmptyPart, TooManyCells, TooManyClauses, TouchesBorder, Unbounded, WrongNumber, WrongType
from .plane import Shape, circle, polygon, rectangle, regular, slot, text
from .shapes import (
    ball, box, capsule, cone, cylinder, extrude, gyroid, half_space, prism, revolve, rod, thread, torus,
)
from .session import Session
from .solids import Solid, solid
from .version import version as _version

__all__ = [
    "Bounds", "EmptyPart", "ModellerError", "Outline", "PartMesh", "Picture", "Session", "Shape", "Solid",
    "TooManyCells",
    "TooManyClauses", "TouchesBorder", "Unbounded", "Value", "WrongNumber", "WrongType", "abs", "ball", "bevel", "box",
    "capsule", "circle", "clamp", "cone", "cut", "cylinder", "extrude", "floor", "gyroid", "half_space", "intersect",
    "length", "max", "min", "mix", "mod", "neg", "polygon", "prism", "rectangle", "regular", "revolve", "rod", "size",
    "slot", "solid", "sqrt", "square", "text", "thread", "torus", "union", "value", "x", "y", "z",
]

__version__ = _version()
