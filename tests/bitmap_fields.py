"""The fields of records that bring bitmaps ([MS-WMF] 2.3.1, 2.3.3.12 and 2.3.4.8, [MS-EMF] 2.3.1
and 2.3.7.4) at several values, and what each leads to: one pixel of a picture of three by three
drawn on a surface of four by four, or others, or a fault."""

from metafile.bitmaps import bitmap
from metafile.blits import (
    BLACKNESS,
    SRCCOPY,
    bit_blt,
    dib_bit_blt,
    dib_pattern_brush,
    dib_stretch_blt,
    pat_blt,
    pattern_brush_pt,
    stretch_blt,
    stretch_dib,
    stretch_dibits,
)
from metafile.fields import BLACK, i16, i32, joined, u16, u32
from records_test import Records

LARGEST = 0xFFFFFFFF

# Nine colours, none of them white or that of the pixels before and behind a record.
NINE = [[(10 * x + 1, 10 * y + 2, 3) for x in range(3)] for y in range(3)]
PARTS = bitmap(NINE, 24)
PACKED = PARTS.packed

# A box of one pixel of the surface, and a source of one pixel of the picture.
BOX = (2, 1, 1, 1)
SOURCE = (2, 1, 1, 1)
AT = (2, 1)

BLACKENED = {AT: BLACK}


def drawn(*places):
    """The pixels of the surface that are drawn, each with the column and row that it reads."""
    return {place: NINE[y][x] for place, (x, y) in places}


DRAWN = drawn((AT, (2, 1)))


def written(number, cases):
    """Changes of fields by their numbers, and what each leads to."""
    return [
        ({name: number(value) for name, value in changes.items()}, outcome)
        for changes, outcome in cases
    ]


def boxes(number, rgb):
    """Changes of the box, which shows one colour wherever it is."""
    cases = [
        ({"x": 3}, [(3, 1)]),
        ({"x": -1}, []),
        ({"x": 4}, []),
        ({"y": 2}, [(2, 2)]),
        ({"y": -1}, []),
        ({"y": 4}, []),
        ({"width": 2}, [(2, 1), (3, 1)]),
        ({"width": 9}, [(2, 1), (3, 1)]),
        ({"width": 0}, []),
        ({"width": -1}, [(1, 1)]),
        ({"width": -2}, [(0, 1), (1, 1)]),
        ({"height": 2}, [(2, 1), (2, 2)]),
        ({"height": 0}, []),
        ({"height": -1}, [(2, 0)]),
        ({"width": 32767}, [(2, 1), (3, 1)]),
        ({"height": -32768}, [(2, 0)]),
    ]
    return written(number, [(changes, dict.fromkeys(places, rgb)) for changes, places in cases])


def own_sides(number):
    """Changes of the box where the source has its sides."""
    outside = [{"width": 2}, {"width": 0}, {"width": -3}, {"height": 3}, {"height": 0}]
    outside += [{"height": -2}, {"source_x": 3}, {"source_x": -1}, {"source_y": 3}]
    outside += [{"source_y": -1}, {"width": -32768}, {"height": 32767}, {"source_x": 32767}]
    inside = [
        ({"x": 3}, drawn(((3, 1), (2, 1)))),
        ({"y": 2}, drawn(((2, 2), (2, 1)))),
        ({"x": -1}, {}),
        ({"width": -1}, drawn(((1, 1), (1, 1)))),
        ({"width": -2}, drawn(((0, 1), (0, 1)), ((1, 1), (1, 1)))),
        ({"height": 2}, drawn(((2, 1), (2, 1)), ((2, 2), (2, 2)))),
        ({"height": -1}, drawn(((2, 0), (2, 0)))),
        ({"source_x": 0}, drawn((AT, (0, 1)))),
        ({"source_y": 0}, drawn((AT, (2, 0)))),
        ({"source_y": 2}, drawn((AT, (2, 2)))),
    ]
    return written(number, inside + [(changes, "SourceOutside") for changes in outside])


def sources(number, from_bottom=False):
    """Changes of the source, whose rows are counted from the picture's top or from its bottom. One
    pixel reads the middle of three columns, and the second of two."""
    first, last, second = (2, 0, 1) if from_bottom else (0, 2, 2)
    outside = [{"source_x": 3}, {"source_x": -1}, {"source_y": 3}, {"source_y": -1}]
    outside += [{"source_width": value} for value in (0, 2, -3, 32767, -32768)]
    outside += [{"source_height": value} for value in (0, 3, -2, 32767, -32768)]
    inside = [
        ({"source_x": 0}, drawn((AT, (0, 1)))),
        ({"source_y": 0}, drawn((AT, (2, first)))),
        ({"source_y": 2}, drawn((AT, (2, last)))),
        ({"source_x": 0, "source_width": 3}, drawn((AT, (1, 1)))),
        ({"source_width": -1}, drawn((AT, (1, 1)))),
        ({"source_width": -2}, drawn((AT, (1, 1)))),
        ({"source_height": -1}, drawn((AT, (2, first)))),
        ({"source_height": 2}, drawn((AT, (2, second)))),
    ]
    return written(number, inside + [(changes, "SourceOutside") for changes in outside])


def operations(outcome, missing):
    """Operations whose table is that of blackness or of copying the source, whatever their other
    bits: what they lead to."""
    cases = [(value, BLACKENED) for value in (0, 0xFFFF, BLACKNESS, 0xCC000000, 0xFF00FFFF)]
    cases += [(value, missing or outcome) for value in (0x00CC0000, 0x00CCFFFF, 0xFFCC0020)]
    return written(u32, [({"operation": value}, told) for value, told in cases])


def unread_sources(number, least, largest):
    """Changes of a source that isn't there."""
    names = ["source_x", "source_y", "source_width", "source_height"]
    return [{name: number(value)} for name in names for value in (0, -1, least, largest)]


USAGES = [0, 1, 2, 3, 0x100, 0xFFFF]


def usages(number, outcome):
    """A bitmap's colours are its own by the usage 0, and by no other."""
    more = [] if number is u16 else [1 << 16, 1 << 31, LARGEST]
    return [
        ({"usage": number(usage)}, outcome if usage == 0 else "PaletteColour")
        for usage in [*USAGES, *more]
    ]


# Each record with a bitmap, as a format, a number, fields, and what they and changes of them lead
# to.
WMF_DRAWN = [
    (0x0940, dib_bit_blt(SRCCOPY, *BOX, *SOURCE[:2], packed=PACKED), own_sides(i16)),
    (
        0x0B41,
        dib_stretch_blt(SRCCOPY, *BOX, *SOURCE, packed=PACKED),
        boxes(i16, NINE[1][2]) + sources(i16),
    ),
    (
        0x0F43,
        stretch_dib(SRCCOPY, *BOX, *SOURCE, packed=PACKED),
        boxes(i16, NINE[1][2]) + sources(i16, from_bottom=True) + usages(u16, DRAWN),
    ),
]

EMF_DRAWN = [
    (76, bit_blt(SRCCOPY, *BOX, *SOURCE[:2], PARTS), own_sides(i32) + usages(u32, DRAWN)),
    (
        77,
        stretch_blt(SRCCOPY, *BOX, *SOURCE, parts=PARTS),
        boxes(i32, NINE[1][2]) + sources(i32) + usages(u32, DRAWN),
    ),
    (
        81,
        stretch_dibits(SRCCOPY, *BOX, *SOURCE, parts=PARTS),
        boxes(i32, NINE[1][2]) + sources(i32, from_bottom=True) + usages(u32, DRAWN),
    ),
]

# Brushes: their usage isn't read where the style is 3, which an EMF's record doesn't have.
WMF_TILE = (0x0142, dib_pattern_brush(PACKED))
EMF_TILE = (94, pattern_brush_pt(1, PARTS))

# Each record without a bitmap.
WMF_BARE = [
    (0x061D, pat_blt(BLACKNESS, *BOX)),
    (0x0940, dib_bit_blt(BLACKNESS, *BOX, 0, 0)),
    (0x0B41, dib_stretch_blt(BLACKNESS, *BOX, 0, 0, 1, 1)),
]

EMF_BARE = [
    (76, bit_blt(BLACKNESS, *BOX, 0, 0)),
    (77, stretch_blt(BLACKNESS, *BOX, 0, 0, 1, 1)),
    (81, stretch_dibits(BLACKNESS, *BOX, 0, 0, 1, 1)),
]


class BitmapRecords(Records):
    """Records of both formats."""

    def check_fields(self, program, form, number, fields, cases):
        """Changes of a record's fields lead to their outcomes."""
        records = [(number, joined(fields, changes), outcome) for changes, outcome in cases]
        self.check(program, form, records)
