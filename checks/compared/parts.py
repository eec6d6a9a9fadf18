"""The parts that are drawn, in millimetres: each by formulas and by OpenSCAD, and what is known of its true surface."""
from __future__ import annotations

import math
from collections.abc import Iterator
from dataclasses import dataclass
from decimal import Decimal

Point = tuple[float, float, float]
Ends = tuple[int, int, int]  # how far a view reaches from the origin along each axis


@dataclass(frozen=True)
class Part:
    """A part, and the ends of its view."""

    name: str
    ends: Ends
    formulas: str
    scad: str

    def cells(self, cell: Decimal) -> list[int]:
        """How many cells of a length the view has along each axis."""
        return [int(2 * end / cell) for end in self.ends]


RADIUS, HEIGHT = 10, 5  # of the cylinder, which reaches so far up and down
SIDES = 15, 10, 5  # half sides of the block
COS, SIN = 0.8, 0.6  # of the angle by which the block is turned, about z and then about x

CYLINDER = Part(
    "cylinder", (12, 12, 7),
    f"f = max(length(x, y) - {RADIUS}, abs(z) - {HEIGHT})",
    f"cylinder(r = {RADIUS}, h = {2 * HEIGHT}, center = true);",
)
BLOCK = Part(
    "block", (20, 20, 16),
    f"""v = {COS} * y + {SIN} * z
w = {COS} * z - {SIN} * y
f = max(abs({COS} * x + {SIN} * v) - {SIDES[0]}, abs({COS} * v - {SIN} * x) - {SIDES[1]}, abs(w) - {SIDES[2]})""",
    f"turn = atan2({SIN}, {COS}); rotate([turn, 0, 0]) rotate([0, 0, turn]) cube([30, 20, 10], center = true);",
)
SIEVE = Part(
    "sieve", (16, 16, 16),
    "f = max(length(x, y, z) - 15, 6 - length(x, y), 6 - length(x, z), 6 - length(y, z))",
    """difference() {
    sphere(r = 15);
    for (turn = [[0, 0, 0], [90, 0, 0], [0, 90, 0]]) rotate(turn) cylinder(r = 6, h = 40, center = true);
}""",
)
PLATE = Part(
    "plate", (32, 22, 5),
    """u = x - 10 * floor(x / 10) - 5
v = y - 10 * floor(y / 10) - 5
f = max(abs(x) - 30, abs(y) - 20, abs(z) - 3, 3 - length(u, v))""",
    """difference() {
    cube([60, 40, 6], center = true);
    for (x = [-25 : 10 : 25], y = [-15 : 10 : 15]) translate([x, y, 0]) cylinder(r = 3, h = 10, center = true);
}""",
)
PARTS = CYLINDER, BLOCK, SIEVE, PLATE


def turned(point: Point) -> Point:
    """A point in the block's own axes, which is brought to where the part has it."""
    x, y, z = point
    x, y = COS * x - SIN * y, SIN * x + COS * y
    return x, COS * y - SIN * z, SIN * y + COS * z


def edges(part: Part) -> list[Point]:
    """Places along the true edges of the cylinder and of the block, each 0.1 mm or less from the next one."""
    if part is CYLINDER:
        return list(_rims())
    return [turned(it) for it in _block_edges()] if part is BLOCK else []


def _rims() -> Iterator[Point]:
    for at in range(1000):
        angle = math.tau * at / 1000
        for z in (-HEIGHT, HEIGHT):
            yield RADIUS * math.cos(angle), RADIUS * math.sin(angle), z


def _block_edges() -> Iterator[Point]:
    for axis, half in enumerate(SIDES):
        others = [side for at, side in enumerate(SIDES) if at != axis]
        for along in range(-10 * half, 10 * half + 1):
            for first in (-1, 1):
                for second in (-1, 1):
                    place = [first * others[0], second * others[1]]
                    place.insert(axis, along / 10)
                    yield tuple(place)


def off_wall(point: Point) -> float:
    """How far a point is from the true wall of the cylinder."""
    return abs(math.hypot(point[0], point[1]) - RADIUS)


def off_flat(point: Point, margin: float) -> float | None:
    """How far a point of the block is from the plane of a side, where it is further than a margin from all others."""
    x, y, z = point
    y, z = COS * y + SIN * z, COS * z - SIN * y
    x, y = COS * x + SIN * y, COS * y - SIN * x
    inside = sorted(abs(side - abs(it)) for side, it in zip(SIDES, (x, y, z)))
    return inside[0] if inside[1] > margin else None
