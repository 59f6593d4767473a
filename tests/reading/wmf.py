"""What the records of WMF ask for, [MS-WMF] 2.3, as steps of the reference player. Heights stand before widths, and y before x."""

from reading.fields import Step, bitmap_word, brush, fault, lists_step, made, map_mode, nothing, pen, setting
from standards.wmf import WMF_REFUSED, WMF_SKIPPED


def turned(record, at):
    """A point, whose y comes first."""
    return record.need(at + 4).signed(at, 2, 2)[::-1]


def point(name):
    """What reads a step of a point."""
    return lambda record: Step(name, turned(record, 6))


def box(name):
    """What reads a step of a box, which is told from its last edge to its first."""
    return lambda record: Step(name, record.signed(6, 4, 2)[::-1])


def word(name):
    """What reads a step of a number without a sign."""
    return lambda record: Step(name, [record.need(8).u16(6)])


def mode(name, last):
    """What reads a step of a mode, from 1 on."""
    return lambda record: setting(name, record.need(8).u16(6), range(1, last + 1))


def points(name):
    """What reads a step of a list of points."""

    def read(record):
        """A count, and the points."""
        count = record.need(8).i16(6)
        if count < 0:
            raise fault("BadParams")
        return lists_step(name, record, [count], 8, 2)

    return read


def poly_polygon(record):
    """META_POLYPOLYGON: a count of lists, their counts, the points."""
    lists = record.need(8).u16(6)
    counts = [record.u16(8 + 2 * nth) for nth in range(lists)] if len(record.data) >= 8 + 2 * lists else None
    if counts is None:
        raise fault("BadParams")
    return lists_step("polygons", record, counts, 8 + 2 * lists, 2)


def pixel(record):
    """META_SETPIXEL."""
    colour = record.need(14).colour(6)
    return Step("pixel", [*turned(record, 10), colour])


def layout(record):
    """META_SETLAYOUT: that from the left alone."""
    if record.need(8).u16(6):
        raise fault(f"Unsupported {0x0149}")
    return nothing("Skipped")


def packed(record, at):
    """The script's word of a bitmap from a place on."""
    return bitmap_word(record.data[at:], None)


def rgb_usage(record, at):
    """A bitmap's colours are red, green and blue."""
    if record.u16(at):
        raise fault("PaletteColour")


def corner_and_sides(record, at):
    """A corner and the extents behind it, of height, width, y and x."""
    height, width, y, x = record.signed(at, 4, 2)
    return [x, y, width, height]


def pat_blt(record):
    """META_PATBLT."""
    return Step("pat_blt", [record.need(18).u32(6), *corner_and_sides(record, 10)])


def bit_blt(record):
    """META_DIBBITBLT, of which that of 24 bytes has no bitmap."""
    if len(record.data) == 24:
        return Step("bare_bit_blt", [record.u32(6), *corner_and_sides(record, 16)])
    record.need(22)
    return Step("bit_blt", [record.u32(6), *corner_and_sides(record, 14), *turned(record, 10), packed(record, 22)])


def stretch_blt(record):
    """META_DIBSTRETCHBLT, of which that of 28 bytes has no bitmap."""
    if len(record.data) == 28:
        return Step("bare_stretch_blt", [record.u32(6), *corner_and_sides(record, 20)])
    record.need(26)
    return Step("stretch_blt", [record.u32(6), *corner_and_sides(record, 18), *corner_and_sides(record, 10), packed(record, 26)])


def stretch_dib(record):
    """META_STRETCHDIB."""
    record.need(28)
    rgb_usage(record, 10)
    return Step("stretch_dib", [record.u32(6), *corner_and_sides(record, 20), *corner_and_sides(record, 12), packed(record, 28)])


def pattern_brush(record):
    """META_DIBCREATEPATTERNBRUSH: of the style of a pattern the usage isn't read."""
    if record.need(10).u16(6) != 3:
        rgb_usage(record, 8)
    return made(None, "brush", "tiled_brush", [packed(record, 10)])


def create_pen(record):
    """META_CREATEPENINDIRECT."""
    record.need(16)
    return pen(record, None, record.u16(6), record.i16(8), 12)


def create_brush(record):
    """META_CREATEBRUSHINDIRECT."""
    record.need(14)
    return brush(record, None, record.u16(6), 8, record.u16(12))


READERS = {
    0x0000: lambda record: nothing(),
    0x001E: lambda record: Step("save"),
    0x00F7: lambda record: made(None, "palette"),
    0x0102: mode("back_mode", 2),
    0x0103: lambda record: map_mode(record.need(8).u16(6)),
    0x0104: mode("raster", 16),
    0x0106: mode("fill_mode", 2),
    0x0127: lambda record: Step("restore", record.signed(6, 1, 2)),
    0x012D: word("select"),
    0x0142: pattern_brush,
    0x0149: layout,
    0x01F0: word("delete"),
    0x0201: lambda record: Step("back_colour", [record.need(10).shade(6)]),
    0x020B: point("window_origin"),
    0x020C: point("window_extent"),
    0x020D: point("viewport_origin"),
    0x020E: point("viewport_extent"),
    0x020F: point("offset_window"),
    0x0211: point("offset_viewport"),
    0x0213: point("line"),
    0x0214: point("move"),
    0x0234: word("select_palette"),
    0x02FA: create_pen,
    0x02FB: lambda record: made(None, "font"),
    0x02FC: create_brush,
    0x0324: points("polygon"),
    0x0325: points("polyline"),
    0x0415: box("cut"),
    0x0416: box("keep"),
    0x041B: box("rectangle"),
    0x041F: pixel,
    0x0538: poly_polygon,
    0x061D: pat_blt,
    0x0940: bit_blt,
    0x0B41: stretch_blt,
    0x0F43: stretch_dib,
}


def step_of(function, record, number):
    """The step of a record."""
    if function in READERS:
        return READERS[function](record)
    if function in WMF_SKIPPED:
        return nothing("Skipped")
    raise fault(f"{'Unsupported' if function in WMF_REFUSED else 'UnknownRecord'} {function}")
