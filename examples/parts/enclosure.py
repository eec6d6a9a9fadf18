"""An enclosure of 60 by 40 by 20 mm that is open above: bosses for screws, slots for air, and holes for a plug and a
cable. All that is round is round in the mesh, too."""

from modeller import *

wall = size("wall", 2)
boss = size("boss", 3.5)  # the radius of the bosses
screw = size("screw", 1.25)  # and of the holes in them
slot_height = size("slot_height", 10)
cable = size("cable", 4)  # the radius of the hole for it

outer = extrude(rectangle(60, 40, radius=4), 20).move(z=10)
inner = extrude(rectangle(60 - 2 * wall, 40 - 2 * wall, radius=4 - wall), 20).move(z=10 + wall)
bosses = cylinder(boss, 7).grid(2, 2, 44, 24).move(z=4.5)
screws = cylinder(screw, 8).grid(2, 2, 44, 24).move(z=4 + wall)
slots = box(2, 8, slot_height).row(5, 5).move(0, -20, 11)
plug = box(8, 12, 7, radius=1).move(30, -4, 12.5)
round_hole = cylinder(cable, 8).rotate(90, "y").move(30, 10, 12)

part = ((outer - inner) | bosses) - screws - slots - plug - round_hole
