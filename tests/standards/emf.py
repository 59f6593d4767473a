"""The kinds of EMF's records, [MS-EMF] 2.1.1, written as data for the tests alone."""

from metafile.blits import IDENTITY
from metafile.fields import PALETTE, RED, colour, i16, i32, u32
from metafile.files import EMF_END, emf_file, emf_pixel, emf_record
from standards.kinds import (
    ACCEPTED,
    COLOURS,
    CORNER,
    ENDS,
    HIDDEN,
    LINE,
    Behind,
    Format,
    Kind,
    background_modes,
    boxes,
    brushes,
    far,
    fill_modes,
    map_modes,
    numbers,
    pens,
    pixels,
    points,
    raster_operations,
)


def far_pixels():
    """A pixel is off the plane where it lands farther than 2^28 from the corner, and its colour's
    fault comes first."""
    edge = 1 << 28
    beyond = [edge + 1, -edge - 1, 0x7FFFFFFF, -0x80000000]
    return [
        *[({axis: i32(place)}, {}) for axis in "xy" for place in (edge, -edge)],
        *[({axis: i32(place)}, "OffPlane") for axis in "xy" for place in beyond],
        ({"x": i32(edge + 1), "colour": PALETTE}, "PaletteColour"),
    ]


def emf_points(signed, outcome):
    """A count, and points behind it, with what a list that has points leads to. A product of the
    count and a point's size may wrap at 2^32."""

    def counted(count, there):
        """A count, and so many points."""
        return {"count": u32(count), "points": points(signed, there)}

    wrap = (1 << 32) // len(points(signed, 1))
    return [
        *[(counted(count, count), outcome) for count in (1, 3, 70000)],
        *[(counted(count, count - 1), "BadParams") for count in (1, 4, 70000)],
        *[(counted(count, 1), "BadParams") for count in (0x10001, 1 << 31, (1 << 32) - 1)],
        (counted(wrap, 0), "BadParams"),
        (counted(wrap + 1, 1), "BadParams"),
    ]


def emf_point_lists(signed):
    """A count of lists, a total, a count of points for each list, and the points; the counts add up
    to the total. Their sum, and products with a count's and a point's size, may wrap at 2^32."""

    def parted(counts, total, there, lists=None):
        """A count of lists (or another), a total, the lists' counts, and so many points."""
        told = len(counts) if lists is None else lists
        told_points = {"counts": u32(*counts), "points": points(signed, there)}
        return {"lists": u32(told), "total": u32(total)} | told_points

    wrap = (1 << 32) // len(points(signed, 1))
    good = [[0], [3], [1, 2], [0, 3, 0], [0] * 70000, [70000]]
    return [
        *[(parted(counts, sum(counts), sum(counts)), {}) for counts in good],
        *[(parted(counts, 3, 3), "BadParams") for counts in ([], [2], [4], [1, 1], [1, 3])],
        *[(parted([1, 2], total, 4), "BadParams") for total in (2, 4)],
        (parted([1, 2], 3, 2), "BadParams"),
        (parted([(1 << 32) - 1, 2], 1, 1), "BadParams"),
        (parted([1 << 31, 1 << 31], 0, 0), "BadParams"),
        (parted([wrap], wrap, 0), "BadParams"),
        (parted([wrap + 1], wrap + 1, 1), "BadParams"),
        *[(parted([0], 0, 0, lists), "BadParams") for lists in (2, (1 << 30) + 1, (1 << 32) - 1)],
        (parted([], 0, 0, 1 << 30), "BadParams"),
        (parted([], wrap // 2, 0, 1 << 29), "BadParams"),
        (parted([], (1 << 32) - 1, 0, (1 << 32) - 1), "BadParams"),
    ]


# Bounds are never read.
BOUNDS = {"bounds": i32(-1, -1, -1, -1)}

ONE_LIST = BOUNDS | {"count": u32(0), "points": b""}

LISTS = BOUNDS | {"lists": u32(0), "total": u32(0), "counts": b"", "points": b""}

LONG_POINT = {"x": i32(2), "y": i32(1)}

LONG_BACK = {"x": i32(-1), "y": i32(-2)}

LONG_BOX = {"left": i32(3), "top": i32(2), "right": i32(5), "bottom": i32(4)}

INDEX = {"index": u32(1)}


def indexes():
    """The index of a new object is above 0 and below the header's count of handles, here 2."""
    return numbers("index", u32, {"NoSuchHandle": [0, 2, *far(u32, 1)]})


def created(bad, fault):
    """A new object's index, which is looked at once its values are: some are bad."""
    return [*indexes(), (bad | {"index": u32(0)}, fault), (bad | {"index": u32(2)}, fault)]


def selected(stock, wrong):
    """Indexes where no object was made: those of stock objects of the right kind and of the wrong
    one, and others."""
    return [
        *numbers("index", u32, {ACCEPTED: [0x80000000 + number for number in stock]}),
        *numbers("index", u32, {"WrongKind": [0x80000000 + number for number in wrong]}),
        *numbers("index", u32, {"NoSuchHandle": [0, 2, 0x80000009, 0x80000014, 0xFFFFFFFF]}),
    ]


def long_extents():
    """Extents of any numbers."""
    return [({"x": i32(x), "y": i32(y)}, ACCEPTED) for x in (0, -1, 7) for y in (0, -1, 7)]



def transform(place=0, bits=0):
    """The words of the identity, with some bits of the one at a place turned."""
    words = list(IDENTITY)
    words[place] ^= bits
    return u32(*words)


# Transforms that aren't the identity: each word by its first bit, and by its sign.
TRANSFORMS = [transform(place, bits) for place in range(6) for bits in (1, 1 << 31)]


def world_transforms():
    """A transform of the world is the identity, or isn't played."""
    return [({"transform": turned}, "Unsupported 35") for turned in TRANSFORMS]


def world_changes():
    """A change of the world's transform sets it to the identity, whatever stands in the record, or
    multiplies it by the identity, or sets it to one, or isn't played."""
    return [
        *numbers("mode", u32, {"Unsupported 36": [0, 5, *far(u32, 1), *far(u32, 2)]}),
        *[({"mode": u32(mode)}, {}) for mode in (1, 2, 3, 4)],
        *[({"mode": u32(1), "transform": turned}, {}) for turned in TRANSFORMS],
        *[
            ({"mode": u32(mode), "transform": turned}, "Unsupported 36")
            for mode in (0, 2, 3, 4, 5)
            for turned in TRANSFORMS
        ],
    ]


def clip_regions():
    """A record without region data, and with the mode that copies, takes the clip away; no other is
    played."""
    return [
        *numbers("mode", u32, {"Unsupported 75": [0, 1, 2, 3, 4, 6, *far(u32, 5)]}),
        *numbers("size", u32, {"Unsupported 75": [1, 32, *far(u32, 0)]}),
    ]


def long_pens():
    """A pen's style, then its brush's, of which 0 is solid and 1 makes the pen null, then its
    colour, which isn't read where the pen is null by either. Any width is one, whether the style
    has the bit of those that are the page's or not; no other field is read."""
    unread = ["bitmap_at", "bitmap_size", "bits_at", "bits_size", "hatch", "entries"]
    null, null_brush = {"style": u32(5)}, {"brush_style": u32(1)}
    return [
        *[({field: u32(0xFFFFFFFF)}, ACCEPTED) for field in unread],
        *[({"style": u32(style), "width": u32(width)}, ACCEPTED) for style in (0, 0x10000) for width in (0, 2, 1 << 31, 0xFFFFFFFF)],
        *numbers("style", u32, {ACCEPTED: [*range(9), 0x10000, 0xFFFFFFF0, 0xFFFFFFF8]}),
        *numbers("style", u32, {"BadValue": [*range(9, 16), 0x10009, 0xFFFFFFFF]}),
        *numbers("brush_style", u32, {ACCEPTED: [0, 1], "Unsupported 95": [2, 3, *far(u32, 0)]}),
        *numbers("colour", colour, COLOURS),
        (null | {"colour": PALETTE}, ACCEPTED),
        (null_brush | {"colour": PALETTE}, ACCEPTED),
        (null | {"brush_style": u32(2)}, "Unsupported 95"),
        ({"brush_style": u32(2), "colour": PALETTE}, "Unsupported 95"),
        ({"style": u32(9), "brush_style": u32(2), "colour": PALETTE}, "BadValue"),
        (null_brush | {"style": u32(9)}, "BadValue"),
        ({"style": u32(8), "colour": PALETTE}, "PaletteColour"),
    ]


LONG_PEN = INDEX | {
    "bitmap_at": u32(0),
    "bitmap_size": u32(0),
    "bits_at": u32(0),
    "bits_size": u32(0),
    "style": u32(0x10000),
    "width": u32(1),
    "brush_style": u32(0),
    "colour": colour(),
    "hatch": u32(0),
    "entries": u32(0),
}

EMF_KINDS = [
    Kind(3, "EMR_POLYGON", {}, ONE_LIST, emf_points(i32, {})),
    Kind(4, "EMR_POLYLINE", {}, ONE_LIST, emf_points(i32, {})),
    Kind(6, "EMR_POLYLINETO", {}, ONE_LIST, emf_points(i32, LINE)),
    Kind(7, "EMR_POLYPOLYLINE", {}, LISTS, emf_point_lists(i32)),
    Kind(8, "EMR_POLYPOLYGON", {}, LISTS, emf_point_lists(i32)),
    # In the mode that an EMF starts in, extents have no effect.
    Kind(9, "EMR_SETWINDOWEXTEX", ACCEPTED, LONG_POINT, long_extents()),
    Kind(10, "EMR_SETWINDOWORGEX", Behind((1, 2)), LONG_POINT),
    Kind(11, "EMR_SETVIEWPORTEXTEX", ACCEPTED, LONG_POINT, long_extents()),
    Kind(12, "EMR_SETVIEWPORTORGEX", Behind((2, 1)), LONG_BACK),
    Kind(14, "EMR_EOF", ENDS),
    Kind(
        15,
        "EMR_SETPIXELV",
        {(2, 1): RED},
        LONG_POINT | {"colour": colour()},
        [*pixels(i32), *far_pixels()],
    ),
    Kind(17, "EMR_SETMAPMODE", ACCEPTED, {"mode": u32(8)}, map_modes(u32)),
    Kind(18, "EMR_SETBKMODE", ACCEPTED, {"mode": u32(2)}, background_modes(u32)),
    Kind(19, "EMR_SETPOLYFILLMODE", ACCEPTED, {"mode": u32(1)}, fill_modes(u32)),
    Kind(20, "EMR_SETROP2", ACCEPTED, {"operation": u32(13)}, raster_operations(u32)),
    Kind(25, "EMR_SETBKCOLOR", ACCEPTED, {"colour": colour()}, numbers("colour", colour, COLOURS)),
    Kind(27, "EMR_MOVETOEX", ACCEPTED, LONG_POINT),
    Kind(29, "EMR_EXCLUDECLIPRECT", HIDDEN, LONG_BOX, boxes(i32, HIDDEN, ACCEPTED)),
    Kind(30, "EMR_INTERSECTCLIPRECT", ACCEPTED, LONG_BOX, boxes(i32, ACCEPTED, HIDDEN)),
    Kind(33, "EMR_SAVEDC", ACCEPTED),
    Kind(
        34,
        "EMR_RESTOREDC",
        "NoSavedState",
        {"saved": i32(-1)},
        numbers("saved", i32, {"NoSavedState": [0, 1, -0x80000000, 0x7FFFFFFF]}),
    ),
    Kind(35, "EMR_SETWORLDTRANSFORM", {}, {"transform": transform()}, world_transforms()),
    Kind(
        36,
        "EMR_MODIFYWORLDTRANSFORM",
        {},
        {"transform": transform(), "mode": u32(4)},
        world_changes(),
    ),
    Kind(37, "EMR_SELECTOBJECT", "NoSuchHandle", INDEX, selected([0, 8, 0x13], [0xF])),
    Kind(
        38,
        "EMR_CREATEPEN",
        ACCEPTED,
        INDEX | {"style": u32(0), "width": i32(1), "height": i32(-1), "colour": colour()},
        [*pens(u32, i32), *created({"style": u32(9)}, "BadValue")],
    ),
    Kind(
        39,
        "EMR_CREATEBRUSHINDIRECT",
        ACCEPTED,
        INDEX | {"style": u32(0), "colour": colour(), "hatch": u32(0)},
        [*brushes(u32), *created({"colour": PALETTE}, "PaletteColour")],
    ),
    Kind(40, "EMR_DELETEOBJECT", "NoSuchHandle", INDEX, selected([], [])),
    Kind(43, "EMR_RECTANGLE", CORNER, LONG_BOX),
    Kind(48, "EMR_SELECTPALETTE", "NoSuchHandle", INDEX, selected([0xF], [0, 8, 0x13])),
    Kind(49, "EMR_CREATEPALETTE", ACCEPTED, INDEX, indexes()),
    Kind(54, "EMR_LINETO", LINE, LONG_POINT),
    Kind(59, "EMR_BEGINPATH", ACCEPTED),
    Kind(60, "EMR_ENDPATH", "PathState"),
    Kind(61, "EMR_CLOSEFIGURE", "PathState"),
    Kind(62, "EMR_FILLPATH", "PathState"),
    Kind(63, "EMR_STROKEANDFILLPATH", "PathState"),
    Kind(64, "EMR_STROKEPATH", "PathState"),
    Kind(68, "EMR_ABORTPATH", ACCEPTED),
    Kind(75, "EMR_EXTSELECTCLIPRGN", ACCEPTED, {"size": u32(0), "mode": u32(5)}, clip_regions()),
    Kind(82, "EMR_EXTCREATEFONTINDIRECTW", ACCEPTED, INDEX, indexes()),
    Kind(86, "EMR_POLYGON16", {}, ONE_LIST, emf_points(i16, {})),
    Kind(87, "EMR_POLYLINE16", {}, ONE_LIST, emf_points(i16, {})),
    Kind(89, "EMR_POLYLINETO16", {}, ONE_LIST, emf_points(i16, LINE)),
    Kind(90, "EMR_POLYPOLYLINE16", {}, LISTS, emf_point_lists(i16)),
    Kind(91, "EMR_POLYPOLYGON16", {}, LISTS, emf_point_lists(i16)),
    Kind(
        95,
        "EMR_EXTCREATEPEN",
        ACCEPTED,
        LONG_PEN,
        [*long_pens(), *created({"brush_style": u32(2)}, "Unsupported 95")],
    ),
    Kind(
        115,
        "EMR_SETLAYOUT",
        {},
        {"layout": u32(0)},
        numbers("layout", u32, {"Unsupported 115": [1, 8, *far(u32, 0)]}),
    ),
]

EMF_SKIPPED = {
    13: "EMR_SETBRUSHORGEX",
    16: "EMR_SETMAPPERFLAGS",
    21: "EMR_SETSTRETCHBLTMODE",
    22: "EMR_SETTEXTALIGN",
    23: "EMR_SETCOLORADJUSTMENT",
    24: "EMR_SETTEXTCOLOR",
    50: "EMR_SETPALETTEENTRIES",
    51: "EMR_RESIZEPALETTE",
    52: "EMR_REALIZEPALETTE",
    57: "EMR_SETARCDIRECTION",
    58: "EMR_SETMITERLIMIT",
    70: "EMR_COMMENT",
    98: "EMR_SETICMMODE",
    105: "EMR_DRAWESCAPE",
    106: "EMR_EXTESCAPE",
    109: "EMR_FORCEUFIMAPPING",
    110: "EMR_NAMEDESCAPE",
    119: "EMR_SETLINKEDUFIS",
    120: "EMR_SETTEXTJUSTIFICATION",
}

EMF_REFUSED = {
    1: "EMR_HEADER",
    2: "EMR_POLYBEZIER",
    5: "EMR_POLYBEZIERTO",
    26: "EMR_OFFSETCLIPRGN",
    28: "EMR_SETMETARGN",
    31: "EMR_SCALEVIEWPORTEXTEX",
    32: "EMR_SCALEWINDOWEXTEX",
    41: "EMR_ANGLEARC",
    42: "EMR_ELLIPSE",
    44: "EMR_ROUNDRECT",
    45: "EMR_ARC",
    46: "EMR_CHORD",
    47: "EMR_PIE",
    53: "EMR_EXTFLOODFILL",
    55: "EMR_ARCTO",
    56: "EMR_POLYDRAW",
    65: "EMR_FLATTENPATH",
    66: "EMR_WIDENPATH",
    67: "EMR_SELECTCLIPPATH",
    71: "EMR_FILLRGN",
    72: "EMR_FRAMERGN",
    73: "EMR_INVERTRGN",
    74: "EMR_PAINTRGN",
    78: "EMR_MASKBLT",
    79: "EMR_PLGBLT",
    80: "EMR_SETDIBITSTODEVICE",
    83: "EMR_EXTTEXTOUTA",
    84: "EMR_EXTTEXTOUTW",
    85: "EMR_POLYBEZIER16",
    88: "EMR_POLYBEZIERTO16",
    92: "EMR_POLYDRAW16",
    93: "EMR_CREATEMONOBRUSH",
    96: "EMR_POLYTEXTOUTA",
    97: "EMR_POLYTEXTOUTW",
    99: "EMR_CREATECOLORSPACE",
    100: "EMR_SETCOLORSPACE",
    101: "EMR_DELETECOLORSPACE",
    102: "EMR_GLSRECORD",
    103: "EMR_GLSBOUNDEDRECORD",
    104: "EMR_PIXELFORMAT",
    108: "EMR_SMALLTEXTOUT",
    111: "EMR_COLORCORRECTPALETTE",
    112: "EMR_SETICMPROFILEA",
    113: "EMR_SETICMPROFILEW",
    114: "EMR_ALPHABLEND",
    116: "EMR_TRANSPARENTBLT",
    118: "EMR_GRADIENTFILL",
    121: "EMR_COLORMATCHTOTARGETW",
    122: "EMR_CREATECOLORSPACEW",
}

# As in a WMF, these bring bitmaps.
EMF_BITMAPS = {
    76: "EMR_BITBLT",
    77: "EMR_STRETCHBLT",
    81: "EMR_STRETCHDIBITS",
    94: "EMR_CREATEDIBPATTERNBRUSHPT",
}

# Types that stand for no record; above 122 none does.
EMF_ABSENT = [0, 69, 107, 117]

EMF = Format(
    name="EMF",
    kinds=EMF_KINDS,
    skipped=EMF_SKIPPED,
    refused=EMF_REFUSED,
    bitmaps=EMF_BITMAPS,
    record=emf_record,
    pixel=emf_pixel,
    end=EMF_END,
    unit=4,
    file=emf_file,
    first=1,
)
