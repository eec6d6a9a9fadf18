"""A heat sink of nine fins with round tops and filleted feet, which a cross cut makes pins of, on a base with holes."""

from modeller import *

fin = size("fin", 2)
height = size("height", 24)
pitch = size("pitch", 5)
depth = size("depth", 40)

base = rectangle(58, 4).move(0, 2)
fins = slot(height - 2, fin).rotate(90).row(9, pitch).move(0, height / 2 + 1)
profile = base.union(fins, radius=1.2)
body = extrude(profile, depth).rotate(90, "x")
cuts = box(80, 4, height, radius=1).row(2, 13, "y").move(z=height / 2 + 7)
holes = cylinder(1.7, 20).grid(2, 2, 52, 30)

part = body - cuts - holes
