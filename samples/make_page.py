#!/usr/bin/env python3
"""Makes page.emf beside this script: rings of polygons on a page that is a hundred times finer than the file's frame of 64 units a side, as programs
for Windows write it. The core profile rounds their points to units, and the print profile to small parts of a unit."""
import colorsys
import math
import pathlib
import sys

sys.path.insert(0, str(pathlib.Path(__file__).resolve().parent.parent / "tests"))

from metafile.drawings import emf_brush, emf_polygon, emf_select
from metafile.pictures import emf_picture
from metafile.scripts import EMF

# The side of the frame, and how many units of the page one of its units has.
SIDE, FINENESS = 64, 100

# The rings, from the outer one, and the corners of each.
RINGS, CORNERS = 15, 12


def corner(radius, turn):
    """A place on the page at a distance from its middle, at this part of a turn."""
    middle = SIDE * FINENESS / 2
    return middle + radius * math.cos(2 * math.pi * turn), middle + radius * math.sin(2 * math.pi * turn)


def ring(nth):
    """A polygon that is turned a little from the one around it, and its brush."""
    radius = (SIDE * FINENESS / 2 - 50) * (RINGS - nth) / RINGS
    places = [corner(radius, (place + nth / RINGS) / CORNERS) for place in range(CORNERS)]
    shade = 1 if nth % 2 else 0.35
    rgb = [round(255 * part) for part in colorsys.hsv_to_rgb(nth / RINGS, 0.55, shade)]
    return [emf_brush(1 + nth, rgb), emf_select(1 + nth), emf_polygon(places)]


def page():
    """The picture."""
    extents = [("map_mode", [8]), ("window_extent", [SIDE * FINENESS] * 2), ("viewport_extent", [SIDE] * 2)]
    records = [EMF.step(name, *numbers) for name, numbers in extents]
    records.append(EMF.step("null_pen", RINGS))
    records.append(emf_select(1 + RINGS))
    for nth in range(RINGS):
        records += ring(nth)
    return emf_picture(SIDE, SIDE, records, handles=RINGS + 2)


FILES = {"page.emf": page}


def main():
    """Writes the file."""
    (pathlib.Path(__file__).parent / "page.emf").write_bytes(page())


if __name__ == "__main__":
    main()
