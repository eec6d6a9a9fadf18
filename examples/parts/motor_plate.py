"""A plate for a motor of 42 mm (NEMA 17), which slides in slots to tighten its belt, and four countersunk screws."""

from modeller import *

thick = size("thick", 6)
bore = size("bore", 23)
travel = size("travel", 8)  # how far the motor slides
screw = size("screw", 3.4)  # how wide the slots of its screws are

plate = extrude(rectangle(84, 56, radius=6), thick, bevel=0.6)
centre = extrude(slot(bore + travel, bore), 2 * thick)
slides = extrude(slot(screw + travel, screw).grid(2, 2, 31, 31), 2 * thick)
sunk = cylinder(2.2, 2 * thick) | cone(2.2, thick / 2, top=2.2 + thick / 2).move(z=thick / 4)

part = plate - centre - slides - sunk.grid(2, 2, 70, 42)
