"""A thumb screw M10 of 25 mm, which stands on its head: a grip of 24 grooves, a thread, and a bevelled end."""

from modeller import *

radius = size("radius", 5)
pitch = size("pitch", 1.5)
long = size("long", 25)

grip = cylinder(12, 9, bevel=1) - cylinder(1.2, 20).around(24, 12.5)
neck = cylinder(7.5, 4, bevel=1).move(z=4.5)
shank = thread(radius, pitch, long + 4).move(z=2.5 + long / 2)
blunt = cylinder(radius, long + 4, bevel=0.9).move(z=2.5 + long / 2)
hollow = ball(14).move(z=-16.5)

part = grip - hollow | neck | shank & blunt
