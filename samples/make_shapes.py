#!/usr/bin/env python3
"""Makes five metafiles beside this script, of what pens and brushes draw. Each is made for a surface of 256 by 256.

lines.wmf       a fan of lines in all directions, with twelve pens, and nets of lines in the corners
polygons.emf    stars, and squares that overlap, filled in ALTERNATE on the left and in WINDING on the right
hatches.wmf     the six hatches, above in TRANSPARENT and below in OPAQUE, over bands of blue
raster_ops.emf  the sixteen binary raster operations, 1 to 4 in the first row: with each a brush and a pen draw
                over an orange and a blue half
paths.emf       paths: stars under discs, and words that are told twice in a path, in ALTERNATE and in WINDING; a spiral
                and waves that stay open; and round them a rim, a line that goes on from record to record
"""
import colorsys
import math
import pathlib
import sys

sys.path.insert(0, str(pathlib.Path(__file__).resolve().parent.parent / "tests"))

from metafile import drawings
from metafile.drawings import (
    ALTERNATE,
    CLOSE_FIGURE,
    NULL_PEN,
    OPAQUE,
    STROKE,
    STROKE_AND_FILL,
    TRANSPARENT,
    WINDING,
    around,
    emf_brush,
    emf_line,
    emf_move,
    emf_pen,
    emf_polygon,
    emf_polygons,
    emf_polyline,
    emf_polyline_to,
    emf_rectangle,
    emf_select,
    wmf_brush,
    wmf_line,
    wmf_pen,
    wmf_rectangle,
    wmf_select,
)
from metafile.fields import BLACK
from metafile.pictures import emf_picture, placeable_picture
from metafile.scripts import EMF, WMF

# The side of each picture, in units of its frame: four of them are a pixel where it is shown at 256 by 256.
SIDE = 1024


def on_circle(centre, radius, turn):
    """The place on a circle at this part of a turn, counted from the top."""
    angle = 2 * math.pi * turn
    return centre[0] + radius * math.sin(angle), centre[1] - radius * math.cos(angle)


def emf_path(painting, records):
    """A path and the record that paints it, whose bounds are the frame's."""
    return drawings.emf_path(painting, records, SIDE)


def square_picture(records, handles):
    """An EMF of a square picture, whose objects have indexes from 1 to before the handles."""
    return emf_picture(SIDE, SIDE, records, handles, (SIDE, SIDE))


# Lines.

FAN_LINES, FAN_PENS = 96, 12

NET_LINES = 14


def fan():
    """Lines outwards from a small circle, with the pens by turns."""
    centre = (SIDE / 2, SIDE / 2)
    for line in range(FAN_LINES):
        turn = line / FAN_LINES
        yield wmf_select(line * FAN_PENS // FAN_LINES)
        yield wmf_line(on_circle(centre, 72, turn), on_circle(centre, 480, turn))


def net(x, y, right, down):
    """Lines from the frame's upright edge to its level one at a corner: where one begins far from the corner it
    ends near to it."""
    for line in range(1, NET_LINES):
        begin, end = 20 * (NET_LINES - line), 20 * line
        yield wmf_line((x, y + down * begin), (x + right * end, y))


def lines():
    """The fan and four nets."""
    hues = [colorsys.hsv_to_rgb(pen / FAN_PENS, 1, 0.85) for pen in range(FAN_PENS)]
    records = [wmf_pen([round(255 * part) for part in hue]) for hue in hues]
    records += [wmf_pen((96, 96, 112)), *fan(), wmf_select(FAN_PENS)]
    last = SIDE - 1
    for corner in [(0, 0, 1, 1), (last, 0, -1, 1), (0, last, 1, -1), (last, last, -1, -1)]:
        records += net(*corner)
    return placeable_picture(SIDE, SIDE, records, objects=FAN_PENS + 1)


# Polygons.


def star(centre, radius, corners, skipped):
    """A star whose corners on a circle are joined over so many others."""
    return [on_circle(centre, radius, corner * skipped / corners % 1) for corner in range(corners)]


def square(x, y, side, clockwise=True):
    """A square from its corner at the left and top, one way round or the other."""
    places = [(x, y), (x + side, y), (x + side, y + side), (x, y + side)]
    return places if clockwise else places[::-1]


def polygons_of(x):
    """Stars, and squares that overlap, about an upright line."""
    yield emf_polygon(star((x, 176), 156, 5, 2))
    yield emf_polygons([square(x - 220, 356, 130), square(x - 160, 416, 130)])
    yield emf_polygons([square(x + 30, 356, 130), square(x + 90, 416, 130, clockwise=False)])
    yield emf_polygon(star((x, 800), 208, 9, 4))


def polygons():
    """The same polygons in both fill modes, on grounds of two colours."""
    pen, brush, left, right = range(1, 5)
    colours = {brush: (255, 184, 28), left: (232, 244, 248), right: (244, 238, 228)}
    records = [emf_pen(pen, (24, 32, 88)), *(emf_brush(index, rgb) for index, rgb in colours.items())]
    records += [emf_select(NULL_PEN), emf_select(left), emf_rectangle(0, 0, 511, SIDE - 1)]
    records += [emf_select(right), emf_rectangle(512, 0, SIDE - 1, SIDE - 1)]
    records += [emf_select(pen), emf_select(brush)]
    records += [EMF.step("fill_mode", ALTERNATE), *polygons_of(256), EMF.step("fill_mode", WINDING), *polygons_of(768)]
    return square_picture(records, handles=5)


# Hatches.

HATCH_COLOURS = [(176, 32, 32), (16, 112, 48), (32, 48, 160), (144, 80, 0), (112, 24, 136), (0, 104, 120)]

COLUMNS = 3


def hatch_boxes(row):
    """The boxes of six hatches in two rows of the picture, from this row on."""
    for hatch in range(len(HATCH_COLOURS)):
        left, top = 28 + 332 * (hatch % COLUMNS), 24 + 248 * (row + hatch // COLUMNS)
        yield hatch, (left, top, left + 304, top + 232)


def band(row):
    """A band through the lower part of a row's boxes."""
    top = 24 + 248 * row
    return wmf_rectangle(0, top + 124, SIDE, top + 192)


def hatches():
    """The hatches in both background modes, over bands."""
    hatched = [wmf_brush(rgb, hatch) for hatch, rgb in enumerate(HATCH_COLOURS)]
    blue, black = len(hatched), len(hatched) + 2
    records = [*hatched, wmf_brush((176, 208, 240)), wmf_pen((176, 208, 240)), wmf_pen(BLACK)]
    records += [wmf_select(blue), wmf_select(blue + 1), *map(band, range(4)), wmf_select(black)]
    records.append(WMF.step("back_colour", 0xFFF4C8))
    for mode, row in [(TRANSPARENT, 0), (OPAQUE, 2)]:
        records.append(WMF.step("back_mode", mode))
        for hatch, box in hatch_boxes(row):
            records += [wmf_select(hatch), wmf_rectangle(*box)]
    return placeable_picture(SIDE, SIDE, records, objects=black + 1)


# Raster operations.

# Where the pieces of a cell stand in it: two halves of ground, a box that the brush fills, and a line of the pen.
HALVES = [(16, 16, 127, 239), (128, 16, 239, 239)]

BOX = (48, 48, 207, 159)

ZIGZAG = [(24, 232), (76, 104), (128, 232), (180, 104), (232, 232)]


def ground(x, y, brushes):
    """The two halves of a cell's ground, each with its brush."""
    for index, (left, top, right, bottom) in zip(brushes, HALVES):
        yield emf_select(index)
        yield emf_rectangle(x + left, y + top, x + right, y + bottom)


def drawn_with(code, x, y):
    """A box and a line with the brush and the pen of the moment, by a raster operation."""
    left, top, right, bottom = BOX
    yield EMF.step("raster", code)
    yield emf_rectangle(x + left, y + top, x + right, y + bottom)
    yield emf_polyline([(x + right, y + down) for right, down in ZIGZAG])


def raster_ops():
    """A cell of ground for each operation, and over all of them what the operations draw."""
    pen, brush, orange, blue = range(1, 5)
    colours = {brush: (64, 176, 112), orange: (255, 168, 32), blue: (40, 72, 184)}
    records = [emf_pen(pen, (208, 16, 96)), *(emf_brush(index, rgb) for index, rgb in colours.items())]
    cells = [(256 * (number % 4), 256 * (number // 4)) for number in range(16)]
    records += [emf_select(NULL_PEN)]
    for x, y in cells:
        records += ground(x, y, (orange, blue))
    records += [emf_select(pen), emf_select(brush)]
    for code, (x, y) in enumerate(cells, 1):
        records += drawn_with(code, x, y)
    return square_picture(records, handles=5)


# Paths.

# The letters of a word in a cell of 200 by 240: what goes round each, and round its hole the other way, if it has one.
LETTERS = {
    "P": (
        [(0, 0), (120, 0), (170, 20), (190, 75), (170, 130), (120, 150), (60, 150), (60, 240), (0, 240)],
        [(60, 50), (60, 100), (110, 100), (130, 75), (110, 50)],
    ),
    "A": (
        [(70, 0), (130, 0), (200, 240), (140, 240), (128, 195), (72, 195), (60, 240), (0, 240)],
        [(100, 46), (68, 156), (132, 156)],
    ),
    "T": ([(0, 0), (190, 0), (190, 55), (125, 55), (125, 240), (65, 240), (65, 55), (0, 55)], []),
    "H": (
        [(0, 0), (60, 0), (60, 90), (130, 90), (130, 0), (190, 0)]
        + [(190, 240), (130, 240), (130, 150), (60, 150), (60, 240), (0, 240)],
        [],
    ),
}

# How far apart letters are, and the second telling of a word from the first, across and down.
ADVANCE, AGAIN = 212, 26

TEETH = 16


def word(letters, x, y):
    """The figures of a word's letters. The window's origin puts each letter in its place."""
    for number, letter in enumerate(letters):
        around, hole = LETTERS[letter]
        yield EMF.step("window_origin", -x - ADVANCE * number, -y)
        yield emf_move(around[0])
        yield emf_polyline_to(around[1:])
        yield CLOSE_FIGURE
        if hole:
            yield emf_polygon(hole)
    yield EMF.step("window_origin", 0, 0)


def word_twice(letters, x, y):
    """A word in one path, and again a little to the right and below."""
    return emf_path(STROKE_AND_FILL, [*word(letters, x, y), *word(letters, x + AGAIN, y + AGAIN)])


def star_and_disc(centre):
    """A star, and a figure of many corners over it that goes round the other way: both are left open."""
    places = star(centre, 150, 7, 3)
    disc = [on_circle(centre, 96, -corner / 24) for corner in range(24)]
    figures = [emf_move(places[0]), emf_polyline_to(places[1:]), emf_move(disc[0]), emf_polyline_to(disc[1:])]
    return emf_path(STROKE_AND_FILL, figures)


def spiral(centre, turns, corners):
    """An open figure of several records, from the middle outwards."""
    places = [on_circle(centre, 140 * corner / corners, turns * corner / corners) for corner in range(corners + 1)]
    yield emf_move(places[0])
    for first in range(1, len(places), 40):
        yield emf_polyline_to(places[first : first + 40])


def waves(top):
    """Three open figures, each of them from the left to the right."""
    for number in range(3):
        places = [(80 + 18 * step, top + 16 * number + 8 * math.sin(step / 3 + number)) for step in range(49)]
        yield emf_polyline(places)


def rim():
    """One figure along all four edges, with teeth: a line, and for each edge a record that goes on with it."""
    first, last, step = 16, SIDE - 17, (SIDE - 33) / TEETH
    edge = [(first + step * half / 2, first + 18 * (half % 2)) for half in range(1, 2 * TEETH + 1)]
    yield emf_move((first, first))
    yield emf_line(edge[0])
    yield emf_polyline_to(edge[1:])
    yield emf_polyline_to([(first + last - y, x) for x, y in edge])
    yield emf_polyline_to([(first + last - x, first + last - y) for x, y in edge])
    yield emf_polyline_to([(y, first + last - x) for x, y in edge[:-1]])
    yield CLOSE_FIGURE


def paths():
    """The rim and what it holds: above the words stars and a spiral, below them waves."""
    pen, blue, cream, red, orange, green, hatched = range(1, 8)
    records = [emf_pen(pen, (24, 32, 88)), emf_pen(blue, (32, 96, 200))]
    solids = {cream: (255, 250, 232), red: (216, 48, 72), orange: (255, 168, 32), green: (48, 152, 96)}
    records += [emf_brush(index, rgb) for index, rgb in solids.items()]
    records += [emf_brush(hatched, (40, 72, 184), 5), EMF.step("back_colour", 0xC4DCFA)]
    records += [emf_select(pen), emf_select(cream), *emf_path(STROKE_AND_FILL, rim())]
    for mode, x, brush in [(ALTERNATE, 216, orange), (WINDING, 808, green)]:
        records += [EMF.step("fill_mode", mode), emf_select(brush), *star_and_disc((x, 204))]
    for mode, y, brush in [(ALTERNATE, 372, red), (WINDING, 656, hatched)]:
        records += [EMF.step("fill_mode", mode), emf_select(brush), *word_twice("PATH", 78, y)]
    records += [emf_select(blue), *emf_path(STROKE, spiral((512, 204), 6, 160)), *emf_path(STROKE, waves(946))]
    return square_picture(records, handles=8)


FILES = {
    "lines.wmf": lines,
    "polygons.emf": polygons,
    "hatches.wmf": hatches,
    "raster_ops.emf": raster_ops,
    "paths.emf": paths,
}


def main():
    """Writes the five files."""
    folder = pathlib.Path(__file__).parent
    for name, picture in FILES.items():
        (folder / name).write_bytes(picture())


if __name__ == "__main__":
    main()
