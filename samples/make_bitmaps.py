#!/usr/bin/env python3
"""Makes two metafiles beside this script, of what bitmaps show. Each is made for a surface of 256 by 256.

bitmaps.wmf     a picture of 24 by 24 in 1, 4, 8, 16, 24 and 32 bits, stretched, and below as it is, mirrored on either
                axis, and on both; on a ground of tiles
bitmaps.emf     on a ground of tiles: a boat behind a mask at three sizes; a plasma copied pixel by pixel, and the same
                beside it with boxes cut out, and turned by a hatch; a star of tiles; tiles where the bits of a picture
                are set; and the picture squeezed
"""
import math
import pathlib
import sys

sys.path.insert(0, str(pathlib.Path(__file__).resolve().parent.parent / "tests"))

from make_shapes import SIDE as SHAPES_SIDE, star
from metafile.bitmaps import WHITE, bitmap
from metafile.blits import (
    IDENTITY,
    MASKED,
    PATINVERT,
    SRCCOPY,
    bit_blt,
    dib_pattern_brush,
    dib_stretch_blt,
    pattern_brush_pt,
    stretch_dib,
    stretch_dibits,
)
from metafile.drawings import (
    NULL_BRUSH,
    NULL_PEN,
    STROKE_AND_FILL,
    TRANSPARENT,
    WINDING,
    emf_brush,
    emf_move,
    emf_path,
    emf_pen,
    emf_polyline_to,
    emf_rectangle,
    emf_select,
    wmf_brush,
    wmf_pen,
    wmf_rectangle,
    wmf_select,
)
from metafile.fields import BLACK, i32, joined, u16, u32
from metafile.files import emf_record, wmf_record
from metafile.pictures import emf_picture, placeable_picture
from metafile.scripts import EMF

# Ternary raster operations that join a source to what is there.
SRCAND, SRCPAINT = 0x008800C6, 0x00EE0086

# The units of the WMF's frame, of which four are a pixel where it is shown at 256 by 256, and those of the EMF's.
WMF_SIDE, EMF_SIDE = 1024, 256


# Bitmaps.


def dib(rows, bits, top_down=False, table=None):
    """A bitmap of rows of colours from the top. A table has a picture's colours in order, if no other is told."""
    if table is None and bits <= 8:
        table = sorted({rgb for row in rows for rgb in row})
    return bitmap(rows, bits, top_down=top_down, table=table, unread=0)


# Pictures, as rows of colours.

PICTURE_SIDE = 24

SKY, SEA = [(70, 130, 220), (230, 240, 255)], [(30, 110, 150), (10, 50, 90)]

HULL, MAST, SAIL, JIB, SUN = (130, 50, 30), (60, 40, 30), (255, 255, 245), (240, 120, 90), (255, 210, 60)


def between(ends, part, of):
    """A colour so far between two, of so many steps."""
    return tuple(first + (last - first) * part // of for first, last in zip(*ends))


def boat_at(x, y):
    """The boat's colour in a picture of 24 by 24, or none."""
    if 17 <= y <= 20 and 3 + (y - 17) <= x <= 17 - (y - 17):
        return HULL
    if x == 9 and 2 <= y <= 16:
        return MAST
    if 3 <= y <= 15 and 10 <= x <= 10 + (y - 3) // 2:
        return SAIL
    if 5 <= y <= 15 and 9 - (y - 4) // 2 <= x <= 8:
        return JIB
    return None


def landscape_at(x, y):
    """A colour of the sea, the sky and the sun behind the boat."""
    if y >= 18:
        return between(SEA, y - 18 + (x + 2 * y) % 3, 8)
    if (x - 19) ** 2 + (y - 5) ** 2 <= 10:
        return SUN
    return between(SKY, y, 17)


def landscape():
    """The boat on the sea."""
    return [[boat_at(x, y) or landscape_at(x, y) for x in range(PICTURE_SIDE)] for y in range(PICTURE_SIDE)]


def nearest(rows, table):
    """A picture in the colours of a table."""

    def distance(rgb, other):
        """How far two colours are apart."""
        return sum((part - far) ** 2 for part, far in zip(rgb, other))

    return [[min(table, key=lambda other: distance(rgb, other)) for rgb in row] for row in rows]


FEW = [between(SKY, part, 4) for part in range(5)] + [between(SEA, part, 3) for part in range(4)]
FEW += [HULL, MAST, SAIL, JIB, SUN, BLACK, WHITE]

INK_AND_PAPER = [(30, 40, 90), (250, 240, 220)]


def weave():
    """A tile of 12 by 12 for a ground: two bands that cross."""
    dark, middle, light = (176, 190, 160), (196, 208, 180), (214, 224, 200)

    def at(x, y):
        """A colour of the tile."""
        if (x // 3 + y // 3) % 2 == 0:
            return middle
        return light if x // 6 == y // 6 else dark

    return [[at(x, y) for x in range(12)] for y in range(12)]


def scales():
    """A tile of 16 by 8 for a ground: scales, every other row of them half a scale aside."""
    edge, inner, outer = (60, 110, 120), (150, 200, 190), (120, 176, 170)

    def at(x, y):
        """A colour of the tile."""
        row, down = divmod(y, 4)
        across = (x + 4 * row) % 8 - 3.5
        far = across * across / 12 + down * down / 9
        return edge if 0.7 < far <= 1.25 else inner if far <= 0.7 else outer

    return [[at(x, y) for x in range(16)] for y in range(8)]


def bricks():
    """A tile of 12 by 8: two rows of bricks."""
    joint, brick, other = (235, 220, 200), (190, 80, 50), (170, 64, 40)

    def at(x, y):
        """A colour of the tile."""
        row, down = divmod(y, 4)
        across = (x + 6 * row) % 12
        return joint if down == 3 or across == 11 else brick if row else other

    return [[at(x, y) for x in range(12)] for y in range(8)]


PLASMA_SIDE, PLASMA_COLOURS = 56, 48


def plasma():
    """A picture of waves that meet, in 48 colours."""
    wheel = [
        tuple(round(128 + 120 * math.sin(2 * math.pi * (step / PLASMA_COLOURS + part / 3))) for part in range(3))
        for step in range(PLASMA_COLOURS)
    ]

    def at(x, y):
        """A step of the wheel."""
        waves = math.sin(x / 7) + math.sin(y / 5) + math.sin((x + y) / 9) + math.sin(math.hypot(x - 20, y - 38) / 4)
        return wheel[round((waves + 4) / 8 * (PLASMA_COLOURS - 1))]

    return [[at(x, y) for x in range(PLASMA_SIDE)] for y in range(PLASMA_SIDE)]


# Records of WMF.


def wmf_tile(picture):
    """META_DIBCREATEPATTERNBRUSH: a brush of tiles, in colours of their own. It gets the lowest free index."""
    style = {"style": u16(5), "usage": u16(0)}
    return wmf_record(0x0142, joined(dib_pattern_brush(picture.packed), style))


def wmf_stretch(picture, box, source, function=0x0B41):
    """META_DIBSTRETCHBLT or META_STRETCHDIB: boxes by x, y, width, height."""
    fields_of = stretch_dib if function == 0x0F43 else dib_stretch_blt
    return wmf_record(function, joined(fields_of(SRCCOPY, *box, *source, packed=picture.packed), {}))


WHOLE = (0, 0, PICTURE_SIDE, PICTURE_SIDE)


def depths():
    """The picture in each depth, three in a row, each in a frame."""
    rows = landscape()
    pictures = [
        dib(nearest(rows, INK_AND_PAPER), 1, table=INK_AND_PAPER),
        dib(nearest(rows, FEW), 4, top_down=True, table=FEW),
        *[dib(rows, bits, top_down=bits == 24) for bits in (8, 16, 24, 32)],
    ]
    for number, picture in enumerate(pictures):
        left, top = 40 + 328 * (number % 3), 32 + 328 * (number // 3)
        yield wmf_rectangle(left - 8, top - 8, left + 296, top + 296)
        yield wmf_stretch(picture, (left, top, 288, 288), WHOLE, 0x0F43 if number % 2 else 0x0B41)


def mirrored():
    """The picture as it is, mirrored across, mirrored down by its source, and both."""
    picture, side, top = dib(nearest(landscape(), FEW), 4, table=FEW), 216, 720
    for number in range(4):
        left = 36 + 246 * number
        box = (left + side, top, -side, side) if number % 2 else (left, top, side, side)
        source = (0, PICTURE_SIDE, PICTURE_SIDE, -PICTURE_SIDE) if number // 2 else WHOLE
        yield wmf_rectangle(left - 8, top - 8, left + side + 8, top + side + 8)
        yield wmf_stretch(picture, box, source)


def wmf_bitmaps():
    """A ground of tiles, and on it the picture, which is framed in white."""
    ground, paper, pen = range(3)
    records = [wmf_tile(dib(weave(), 4)), wmf_brush(WHITE), wmf_pen((96, 96, 80))]
    records += [wmf_select(pen), wmf_select(ground), wmf_rectangle(0, 0, WMF_SIDE, WMF_SIDE)]
    records += [wmf_select(paper), *depths(), *mirrored()]
    return placeable_picture(WMF_SIDE, WMF_SIDE, records, objects=3)


# Records of EMF.

BOUNDS = {"bounds": i32(0, 0, EMF_SIDE - 1, EMF_SIDE - 1)}

# Fields that say nothing where there is no bitmap.
NO_BITMAP = dict.fromkeys(["background", "usage", "info_at", "info_size", "bits_at", "bits_size"], u32(0))


def emf_tile(index, picture):
    """EMR_CREATEDIBPATTERNBRUSHPT: a brush of tiles."""
    return emf_record(94, joined(pattern_brush_pt(index, picture), {}))


def emf_pattern(operation, box):
    """EMR_BITBLT without a bitmap."""
    fields = bit_blt(operation, *box, 0, 0) | NO_BITMAP | {"transform": u32(*IDENTITY)}
    return emf_record(76, joined(fields, BOUNDS))


def emf_copy(operation, box, picture):
    """EMR_BITBLT from a bitmap's corner."""
    return emf_record(76, joined(bit_blt(operation, *box, 0, 0, picture), BOUNDS | {"background": u32(0)}))


def emf_stretch(operation, box, source, picture):
    """EMR_STRETCHDIBITS."""
    return emf_record(81, joined(stretch_dibits(operation, *box, *source, parts=picture), BOUNDS))


SAVE, RESTORE = EMF.step("save"), EMF.step("restore", -1)


def masked_boats():
    """The boat alone at three sizes: what is there is cleared where it will be, and then it is joined to that."""
    rows = [[boat_at(x, y) for x in range(PICTURE_SIDE)] for y in range(PICTURE_SIDE)]
    mask = dib([[BLACK if rgb else WHITE for rgb in row] for row in rows], 1)
    sprite = dib([[rgb or BLACK for rgb in row] for row in rows], 4, top_down=True)
    for left, top, side in [(8, 8, 96), (100, 40, 48), (152, 60, 24)]:
        yield emf_stretch(SRCAND, (left, top, side, side), WHOLE, mask)
        yield emf_stretch(SRCPAINT, (left, top, side, side), WHOLE, sprite)


def cut_plasma(left, top):
    """The plasma with boxes cut out."""
    yield SAVE
    for step in range(7):
        at = 8 * step
        yield EMF.step("cut", left + at, top + (step % 2) * 28, left + at + 4, top + (step % 2) * 28 + 28)
    yield emf_copy(SRCCOPY, (left, top, PLASMA_SIDE, PLASMA_SIDE), dib(plasma(), 8))
    yield RESTORE


def emf_star(centre, radius):
    """A star in a path, whose middle is filled too."""
    places = star(centre, radius, 7, 3)
    return emf_path(STROKE_AND_FILL, [emf_move(places[0]), emf_polyline_to(places[1:])], SHAPES_SIDE)


def silhouette():
    """The picture with all that is dark in it in white, and the rest in black."""
    dark, _ = INK_AND_PAPER
    rows = nearest(landscape(), INK_AND_PAPER)
    return dib([[WHITE if rgb == dark else BLACK for rgb in row] for row in rows], 1)


def squeezed():
    """The picture at its own size, and smaller."""
    left = 132
    for side in (24, 18, 13, 9, 6):
        yield emf_stretch(SRCCOPY, (left, 244 - side, side, side), WHOLE, dib(landscape(), 8))
        left += side + 6


def emf_bitmaps():
    """All of it."""
    ground, wall, hatch, pen = range(1, 5)
    records = [emf_tile(ground, dib(scales(), 8)), emf_tile(wall, dib(bricks(), 4))]
    records += [emf_brush(hatch, (255, 255, 255), 3), emf_pen(pen, (40, 30, 30))]
    records += [emf_select(NULL_PEN), emf_select(ground), emf_rectangle(0, 0, EMF_SIDE - 1, EMF_SIDE - 1)]
    records += masked_boats()
    records += [emf_copy(SRCCOPY, (188, 8, PLASMA_SIDE, PLASMA_SIDE), dib(plasma(), 8)), *cut_plasma(188, 72)]
    records += [EMF.step("back_mode", TRANSPARENT), emf_select(hatch), emf_pattern(PATINVERT, (188, 8, 56, 56))]
    records += [emf_select(pen), emf_select(wall), EMF.step("fill_mode", WINDING), *emf_star((66, 184), 58)]
    records += [emf_stretch(MASKED, (132, 140, 72, 72), WHOLE, silhouette())]
    records += [emf_select(NULL_BRUSH), emf_rectangle(131, 139, 204, 212), *squeezed()]
    return emf_picture(EMF_SIDE, EMF_SIDE, records, 5, (EMF_SIDE, EMF_SIDE))


FILES = {"bitmaps.wmf": wmf_bitmaps, "bitmaps.emf": emf_bitmaps}


def main():
    """Writes the two files."""
    folder = pathlib.Path(__file__).parent
    for name, picture in FILES.items():
        (folder / name).write_bytes(picture())


if __name__ == "__main__":
    main()
