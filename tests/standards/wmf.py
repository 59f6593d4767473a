"""The kinds of WMF's records, [MS-WMF] 2.1.1.1, written as data for the tests alone."""

from metafile.fields import RED, colour, i16, u16
from metafile.files import WMF_END, placeable_file, wmf_pixel, wmf_record
from standards.kinds import (
    ACCEPTED,
    COLOURS,
    CORNER,
    ENDS,
    HIDDEN,
    LINE,
    Behind,
    Format,
    Kind,
    background_modes,
    boxes,
    brushes,
    far,
    fill_modes,
    map_modes,
    numbers,
    pens,
    pixels,
    points,
    raster_operations,
)


def extents():
    """Where extents count, as in the WMF files here, none is 0."""
    zero = i16(0)
    return [
        ({"x": i16(4), "y": i16(4)}, ACCEPTED),
        ({"x": i16(-4), "y": i16(4)}, HIDDEN),
        ({"x": i16(4), "y": i16(-4)}, HIDDEN),
        *[(zeros, "ZeroExtent") for zeros in ({"x": zero}, {"y": zero}, {"x": zero, "y": zero})],
    ]


def wmf_points():
    """A count with a sign, and points behind it."""

    def counted(count, there):
        """A count, and so many points."""
        return {"count": u16(count), "points": points(i16, there)}

    return [
        *[(counted(count, count), {}) for count in (1, 3, 0x7FFF)],
        *[(counted(count, count - 1), "BadParams") for count in (1, 4, 0x4000, 0x7FFF)],
        *[(counted(count, 0), "BadParams") for count in (0x4000, 0x7FFF, 0x8000, 0xFFFF)],
        *[(counted(count, count), "BadParams") for count in (0x8000, 0xFFFF)],
    ]


def wmf_point_lists():
    """A count of lists, a count of points for each, all without a sign, and the points."""

    def parted(counts, there, lists=None):
        """A count of lists (or another), their counts, and so many points."""
        told = len(counts) if lists is None else lists
        return {"lists": u16(told), "counts": u16(*counts), "points": points(i16, there)}

    good = [[0], [3], [1, 2], [0, 3, 0], [0xFFFF]]
    wrapping = [0xFFFF] * 0x4000 + [0x4000]
    return [
        *[(parted(counts, sum(counts)), {}) for counts in good],
        (parted([0] * 0xFFFF, 0), {}),
        *[(parted(counts, sum(counts) - 1), "BadParams") for counts in ([3], [1, 2], [0xFFFF])],
        (parted([0xFFFF, 1], 0), "BadParams"),
        (parted(wrapping, 0), "BadParams"),
        *[(parted([], 0, lists), "BadParams") for lists in (1, 0x8000, 0xFFFF)],
        (parted([0], 0, lists=2), "BadParams"),
    ]


POINT = {"y": i16(1), "x": i16(2)}

# The pixel behind, at (3,3) of the page, lands on (2,1) where this is added to it.
BACK = {"y": i16(-2), "x": i16(-1)}

# A box that holds (3,3).
BOX = {"bottom": i16(4), "right": i16(5), "top": i16(2), "left": i16(3)}

WMF_KINDS = [
    Kind(0x0000, "META_EOF", ENDS),
    Kind(0x001E, "META_SAVEDC", ACCEPTED),
    Kind(0x00F7, "META_CREATEPALETTE", ACCEPTED),
    Kind(0x0102, "META_SETBKMODE", ACCEPTED, {"mode": u16(2)}, background_modes(u16)),
    Kind(0x0103, "META_SETMAPMODE", ACCEPTED, {"mode": u16(8)}, map_modes(u16)),
    Kind(0x0104, "META_SETROP2", ACCEPTED, {"operation": u16(13)}, raster_operations(u16)),
    Kind(0x0106, "META_SETPOLYFILLMODE", ACCEPTED, {"mode": u16(1)}, fill_modes(u16)),
    Kind(
        0x0127,
        "META_RESTOREDC",
        "NoSavedState",
        {"saved": i16(-1)},
        numbers("saved", i16, {"NoSavedState": [0, 1, -32768, 32767]}),
    ),
    Kind(
        0x012D,
        "META_SELECTOBJECT",
        "NoSuchHandle",
        {"index": u16(0)},
        numbers("index", u16, {"NoSuchHandle": [1023, 0x8000, 0xFFFF]}),
    ),
    Kind(
        0x0149,
        "META_SETLAYOUT",
        {},
        {"layout": u16(0)},
        numbers("layout", u16, {"Unsupported 329": [1, 8, *far(u16, 0)]}),
    ),
    Kind(0x01F0, "META_DELETEOBJECT", "NoSuchHandle", {"index": u16(0)}),
    Kind(
        0x0201,
        "META_SETBKCOLOR",
        ACCEPTED,
        {"colour": colour()},
        numbers("colour", colour, COLOURS),
    ),
    Kind(0x020B, "META_SETWINDOWORG", Behind((1, 2)), POINT),
    # The extents of window and viewport are those of the box, 4 and 4: 3 times 4/6 is 2, and 3
    # times 4/12 is 1; 3 times 3/4 is 2, and 3 times 2/4 is 1.
    Kind(0x020C, "META_SETWINDOWEXT", Behind((2, 1)), {"y": i16(12), "x": i16(6)}, extents()),
    Kind(0x020D, "META_SETVIEWPORTORG", Behind((2, 1)), BACK),
    Kind(0x020E, "META_SETVIEWPORTEXT", Behind((2, 1)), {"y": i16(2), "x": i16(3)}, extents()),
    Kind(0x020F, "META_OFFSETWINDOWORG", Behind((1, 2)), POINT),
    Kind(0x0211, "META_OFFSETVIEWPORTORG", Behind((2, 1)), BACK),
    Kind(0x0213, "META_LINETO", LINE, POINT),
    Kind(0x0214, "META_MOVETO", ACCEPTED, POINT),
    Kind(0x0234, "META_SELECTPALETTE", "NoSuchHandle", {"index": u16(0)}),
    Kind(
        0x02FA,
        "META_CREATEPENINDIRECT",
        ACCEPTED,
        {"style": u16(0), "width": i16(1), "height": i16(-1), "colour": colour()},
        pens(u16, i16),
    ),
    Kind(0x02FB, "META_CREATEFONTINDIRECT", ACCEPTED),
    Kind(
        0x02FC,
        "META_CREATEBRUSHINDIRECT",
        ACCEPTED,
        {"style": u16(0), "colour": colour(), "hatch": u16(0)},
        brushes(u16),
    ),
    Kind(0x0324, "META_POLYGON", {}, {"count": i16(0), "points": b""}, wmf_points()),
    Kind(0x0325, "META_POLYLINE", {}, {"count": i16(0), "points": b""}, wmf_points()),
    Kind(0x0415, "META_EXCLUDECLIPRECT", HIDDEN, BOX, boxes(i16, HIDDEN, ACCEPTED)),
    Kind(0x0416, "META_INTERSECTCLIPRECT", ACCEPTED, BOX, boxes(i16, ACCEPTED, HIDDEN)),
    Kind(0x041B, "META_RECTANGLE", CORNER, BOX),
    Kind(0x041F, "META_SETPIXEL", {(2, 1): RED}, {"colour": colour()} | POINT, pixels(i16)),
    Kind(
        0x0538,
        "META_POLYPOLYGON",
        {},
        {"lists": u16(0), "counts": b"", "points": b""},
        wmf_point_lists(),
    ),
]

WMF_SKIPPED = {
    0x0035: "META_REALIZEPALETTE",
    0x0037: "META_SETPALENTRIES",
    0x0105: "META_SETRELABS",
    0x0107: "META_SETSTRETCHBLTMODE",
    0x0108: "META_SETTEXTCHAREXTRA",
    0x012E: "META_SETTEXTALIGN",
    0x0139: "META_RESIZEPALETTE",
    0x0209: "META_SETTEXTCOLOR",
    0x020A: "META_SETTEXTJUSTIFICATION",
    0x0231: "META_SETMAPPERFLAGS",
    0x0436: "META_ANIMATEPALETTE",
    0x0626: "META_ESCAPE",
}

WMF_REFUSED = {
    0x012A: "META_INVERTREGION",
    0x012B: "META_PAINTREGION",
    0x012C: "META_SELECTCLIPREGION",
    0x01F9: "META_CREATEPATTERNBRUSH",
    0x0220: "META_OFFSETCLIPRGN",
    0x0228: "META_FILLREGION",
    0x0410: "META_SCALEWINDOWEXT",
    0x0412: "META_SCALEVIEWPORTEXT",
    0x0418: "META_ELLIPSE",
    0x0419: "META_FLOODFILL",
    0x0429: "META_FRAMEREGION",
    0x0521: "META_TEXTOUT",
    0x0548: "META_EXTFLOODFILL",
    0x061C: "META_ROUNDRECT",
    0x06FF: "META_CREATEREGION",
    0x0817: "META_ARC",
    0x081A: "META_PIE",
    0x0830: "META_CHORD",
    0x0922: "META_BITBLT",
    0x0A32: "META_EXTTEXTOUT",
    0x0B23: "META_STRETCHBLT",
    0x0D33: "META_SETDIBTODEV",
}

# These bring bitmaps: `metafile.blits` makes them, and they are tried in tests of their own.
WMF_BITMAPS = {
    0x0142: "META_DIBCREATEPATTERNBRUSH",
    0x061D: "META_PATBLT",
    0x0940: "META_DIBBITBLT",
    0x0B41: "META_DIBSTRETCHBLT",
    0x0F43: "META_STRETCHDIB",
}

WMF = Format(
    name="WMF",
    kinds=WMF_KINDS,
    skipped=WMF_SKIPPED,
    refused=WMF_REFUSED,
    bitmaps=WMF_BITMAPS,
    record=wmf_record,
    pixel=wmf_pixel,
    end=WMF_END,
    unit=2,
    file=placeable_file,
    first=0,
)
