#!/usr/bin/env python3
"""Makes the small metafiles beside this script.

small.wmf  a plain WMF whose frame is as large as its window extent: at 4 by 4 it shows a red, a green, a blue and a
           black pixel from corner to corner
small.emf  the same as an EMF
nil.emf    draws nothing: it is white at any size
dot.wmf    a placeable WMF: at 4 by 4 it shows a red pixel in column 2 of row 1
held.wmf   deletes a pen that is selected, and so is refused
"""
import pathlib
import sys

sys.path.insert(0, str(pathlib.Path(__file__).resolve().parent.parent / "tests"))

from metafile.fields import RED
from metafile.files import emf_pixel, window_extent, wmf_pixel
from metafile.pictures import emf_picture, placeable_picture, plain_picture
from metafile.scripts import WMF

PIXELS = [(0, 0, (255, 0, 0)), (1, 1, (0, 255, 0)), (2, 2, (0, 0, 255)), (3, 3, (0, 0, 0))]


def held():
    """Two pens, of which the second is selected, a line with it, and records that delete both."""
    records = WMF.records("solid_pen 0 0xFF0000; solid_pen 1 0x0000FF; select 1; line 4 4; delete 0; delete 1")
    return placeable_picture(4, 4, records, objects=2)


FILES = {
    "small.wmf": lambda: plain_picture([window_extent(4, 4), *(wmf_pixel(*pixel) for pixel in PIXELS)]),
    "small.emf": lambda: emf_picture(4, 4, [emf_pixel(*pixel) for pixel in PIXELS]),
    "nil.emf": lambda: emf_picture(0, 0, []),
    "dot.wmf": lambda: placeable_picture(4, 4, [wmf_pixel(2, 1, RED)]),
    "held.wmf": held,
}


def main():
    """Writes the files."""
    folder = pathlib.Path(__file__).parent
    for name, made in FILES.items():
        (folder / name).write_bytes(made())


if __name__ == "__main__":
    main()
