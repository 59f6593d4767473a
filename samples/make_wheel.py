#!/usr/bin/env python3
"""Makes wheel.wmf beside this script: a placeable WMF whose picture, a wheel of colours, is drawn pixel by pixel."""
import colorsys
import math
import pathlib
import sys

sys.path.insert(0, str(pathlib.Path(__file__).resolve().parent.parent / "tests"))

from metafile.files import wmf_pixel
from metafile.pictures import placeable_picture

SIDE = 64


def colour(x, y):
    """The wheel's colour at a pixel, or none outside the wheel."""
    right, down = x + 0.5 - SIDE / 2, y + 0.5 - SIDE / 2
    distance = math.hypot(right, down) / (SIDE / 2)
    if distance > 1:
        return None
    hue = math.atan2(down, right) / (2 * math.pi) % 1
    return [round(255 * part) for part in colorsys.hsv_to_rgb(hue, distance, 1)]


def wheel():
    """The wheel's pixels."""
    places = [(x, y) for y in range(SIDE) for x in range(SIDE) if colour(x, y)]
    return placeable_picture(SIDE, SIDE, [wmf_pixel(x, y, colour(x, y)) for x, y in places])


FILES = {"wheel.wmf": wheel}


def main():
    """Writes the file."""
    (pathlib.Path(__file__).parent / "wheel.wmf").write_bytes(wheel())


if __name__ == "__main__":
    main()
