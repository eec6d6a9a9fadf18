"""The lower half of a clamp for a pipe of 32 mm: bolts through its ears, which take their nuts from below, and a set
screw that crosses to the pipe from the side."""

from modeller import *

pipe = size("pipe", 16)  # the radius of the pipe
wall = size("wall", 5)
width = size("width", 24)
bolt = size("bolt", 2.7)  # the radius of a hole for M5

outline = circle(pipe + wall).union(rectangle(80, 16, radius=2), radius=4)
body = extrude(outline, width, bevel=1).rotate(90, "x")
bore = cylinder(pipe, width + 2).rotate(90, "x")
bolts = cylinder(bolt, 80).row(2, 62) | prism(6, 4, 8).row(2, 62).move(z=-8)
screw = rod((0, 0, 0), (-30, 0, -30), 1.65) | rod((0, 0, 0), (30, 0, -30), 1.65)

part = (body & half_space("z", -0.5)) - bore - bolts - screw
