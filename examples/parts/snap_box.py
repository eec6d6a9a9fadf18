"""A box with a lid that snaps in, side by side as they are printed: beads on the rim of the lid go into grooves of the
wall. The text stands on the front, raised by 0.8 mm."""

from modeller import *

wall = size("wall", 2)
gap = size("gap", 0.2)  # between the lid and the wall
bead = size("bead", 0.7)  # the radius of the beads

shell = extrude(rectangle(50, 34, radius=5), 24).move(z=12)
room = extrude(rectangle(50 - 2 * wall, 34 - 2 * wall, radius=5 - wall), 24).move(z=12 + wall)
groove = capsule(bead + gap, 28).rotate(90, "y").move(0, 17 - wall, 21)
label = extrude(text("SCREWS", 7), 1.6).rotate(90, "x").move(0, -17, 12)
case = (shell - room - groove.mirror("y", keep=True)) | label

plate = extrude(rectangle(50, 34, radius=5), wall, bevel=0.5).move(z=wall / 2)
rim = extrude(rectangle(50 - 2 * wall - 2 * gap, 34 - 2 * wall - 2 * gap, radius=5 - wall - gap).shell(1.6), 6)
snap = capsule(bead, 26).rotate(90, "y").move(0, 17 - wall - gap, 3 + wall)
lid = plate | rim.move(z=2 + wall) | snap.mirror("y", keep=True)

part = case | lid.move(0, 44, 0)
