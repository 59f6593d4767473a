"""What the records of EMF ask for, [MS-EMF] 2.3, as steps of the reference player."""

from reading.fields import GEOMETRIC_PEN, IDENTITY, Step, bitmap_word, brush, fault, lists_step, made, map_mode, nothing, pen, setting
from standards.emf import EMF_REFUSED, EMF_SKIPPED

COMMENT = 70


def numbers(name, count):
    """What reads a step of so many numbers with a sign."""
    return lambda record: Step(name, record.signed(8, count, 4))


def index(name):
    """What reads a step of an object's index."""
    return lambda record: Step(name, [record.need(12).u32(8)])


def mode(name, last):
    """What reads a step of a mode, from 1 on."""
    return lambda record: setting(name, record.need(12).u32(8), range(1, last + 1))


def bare(name):
    """What reads a step without words."""
    return lambda record: Step(name)


def unnamed(kind):
    """What reads a step that makes an object with which nothing is drawn."""
    return lambda record: made(record.need(12).u32(8), kind)


def points(name, length):
    """What reads a step of a list of points, behind bounds."""

    def read(record):
        """A count, and the points."""
        count = record.need(28).u32(24)
        record.need(28 + 2 * length * count)
        return lists_step(name, record, [count], 28, length)

    return read


def lists(name, length):
    """What reads a step of lists of points, behind bounds."""

    def read(record):
        """A count of lists, the total, the counts, the points."""
        count, total = record.need(32).u32(24), record.u32(28)
        record.need(32 + 4 * count)
        counts = [record.u32(32 + 4 * nth) for nth in range(count)]
        if sum(counts) != total:
            raise fault("BadParams")
        record.need(32 + 4 * count + 2 * length * total)
        return lists_step(name, record, counts, 32 + 4 * count, length)

    return read


def pixel(record):
    """EMR_SETPIXELV."""
    colour = record.need(20).colour(16)
    return Step("pixel", [*record.signed(8, 2, 4), colour])


def set_transform(record):
    """EMR_SETWORLDTRANSFORM: to the identity alone."""
    if record.need(32).data[8:32] != IDENTITY:
        raise fault("Unsupported 35")
    return nothing()


def change_transform(record):
    """EMR_MODIFYWORLDTRANSFORM: to the identity, or by it."""
    way = record.need(36).u32(32)
    if way != 1 and (way not in (2, 3, 4) or record.data[8:32] != IDENTITY):
        raise fault("Unsupported 36")
    return nothing()


def clip_region(record):
    """EMR_EXTSELECTCLIPRGN: that takes the clip away."""
    if record.need(16).u32(8) != 0 or record.u32(12) != 5:
        raise fault("Unsupported 75")
    return Step("unclip")


def layout(record):
    """EMR_SETLAYOUT: that from the left alone."""
    if record.need(12).u32(8):
        raise fault("Unsupported 115")
    return nothing()


def create_pen(record):
    """EMR_CREATEPEN."""
    record.need(28)
    return pen(record, record.u32(8), record.u32(12), record.i32(16), 24)


def create_long_pen(record):
    """EMR_EXTCREATEPEN, whose width isn't noted, and counts where the style says that it is the page's."""
    style, width = record.need(52).u32(28), record.u32(32)
    return pen(record, record.u32(8), style, width if style & GEOMETRIC_PEN else 0, 40, record.u32(36), is_noted=False)


def create_brush(record):
    """EMR_CREATEBRUSHINDIRECT."""
    record.need(24)
    return brush(record, record.u32(8), record.u32(12), 16, record.u32(20))


def part(record, at):
    """A part of a bitmap, by its place and its size, which stand here."""
    place, size = record.u32(at), record.u32(at + 4)
    if place + size > len(record.data):
        raise fault("BadParams")
    return record.data[place : place + size]


def bitmap(record, at, usage, transform=None):
    """The script's word of the bitmap whose parts are told at a place."""
    info, bits = part(record, at), part(record, at + 8)
    if transform is not None and record.data[transform : transform + 24] != IDENTITY:
        raise fault(f"Unsupported {record.u32(0)}")
    if record.u32(usage):
        raise fault("PaletteColour")
    return bitmap_word(info, bits)


def blt(name, least, source_count):
    """What reads EMR_BITBLT or EMR_STRETCHBLT, which has no bitmap where the size of its header is 0."""

    def read(record):
        """The operation, the box, what is read."""
        box = [record.need(least).u32(40), *record.signed(24, 4, 4)]
        source = record.signed(44, 2, 4) + record.signed(100, source_count - 2, 4)
        if record.u32(88) == 0:
            return Step(f"bare_{name}", [*box, *source])
        return Step(name, [*box, *source, bitmap(record, 84, 80, 52)])

    return read


def stretch_dib(record):
    """EMR_STRETCHDIBITS."""
    box = [record.need(80).u32(68), *record.signed(24, 2, 4), *record.signed(72, 2, 4)]
    source = record.signed(32, 4, 4)
    if record.u32(52) == 0:
        return Step("bare_stretch_dib", [*box, *source])
    return Step("stretch_dib", [*box, *source, bitmap(record, 48, 64)])


def pattern_brush(record):
    """EMR_CREATEDIBPATTERNBRUSHPT."""
    record.need(32)
    return made(record.u32(8), "brush", "tiled_brush", [bitmap(record, 16, 12)])


READERS = {
    3: points("polygon", 4),
    4: points("polyline", 4),
    6: points("polyline_to", 4),
    7: lists("polylines", 4),
    8: lists("polygons", 4),
    9: numbers("window_extent", 2),
    10: numbers("window_origin", 2),
    11: numbers("viewport_extent", 2),
    12: numbers("viewport_origin", 2),
    14: bare("nothing"),
    15: pixel,
    17: lambda record: map_mode(record.need(12).u32(8)),
    18: mode("back_mode", 2),
    19: mode("fill_mode", 2),
    20: mode("raster", 16),
    25: lambda record: Step("back_colour", [record.need(12).shade(8)]),
    27: numbers("move", 2),
    29: numbers("cut", 4),
    30: numbers("keep", 4),
    33: bare("save"),
    34: numbers("restore", 1),
    35: set_transform,
    36: change_transform,
    37: index("select"),
    38: create_pen,
    39: create_brush,
    40: index("delete"),
    43: numbers("rectangle", 4),
    48: index("select_palette"),
    49: unnamed("palette"),
    54: numbers("line", 2),
    59: bare("begin_path"),
    60: bare("end_path"),
    61: bare("close_figure"),
    62: bare("fill_path"),
    63: bare("stroke_and_fill_path"),
    64: bare("stroke_path"),
    68: bare("abort_path"),
    75: clip_region,
    76: blt("bit_blt", 100, 2),
    77: blt("stretch_blt", 108, 4),
    81: stretch_dib,
    82: unnamed("font"),
    86: points("polygon", 2),
    87: points("polyline", 2),
    89: points("polyline_to", 2),
    90: lists("polylines", 2),
    91: lists("polygons", 2),
    94: pattern_brush,
    95: create_long_pen,
    115: layout,
}


def step_of(kind, record, number):
    """The step of a record. The header is record 0."""
    if number == 0:
        return nothing()
    if kind in READERS:
        return READERS[kind](record)
    if kind in EMF_SKIPPED:
        return nothing("EmfPlus" if kind == COMMENT and record.data[12:16] == b"EMF+" else "Skipped")
    raise fault(f"{'Unsupported' if kind in EMF_REFUSED else 'UnknownRecord'} {kind}")
