"""The records of both formats that bring bitmaps ([MS-WMF] 2.3.1, [MS-EMF] 2.3.1), by their fields
and by the names that scripts have for them.

In a script a bitmap is a word, its bytes: `stretch_blt 0xCC0020 0 0 4 4 0 0 2 2 2800..:ffee..`
copies to a box from (0,0) of the sides 4 and 4 what the bitmap has from (0,0) with the sides 2
and 2.
"""

from metafile.bitmaps import UNREAD, bitmap_of
from metafile.fields import i16, i32, joined, u16, u32

# Ternary raster operations ([MS-WMF] 2.1.1.31), each by its table above 16 other bits.
BLACKNESS = 0x00000042
DSTINVERT = 0x00550009
PATINVERT = 0x005A0049
SRCCOPY = 0x00CC0020
PATCOPY = 0x00F00021
WHITENESS = 0x00FF0062

# Of the pattern where the source is 1, and of what is there where it is 0.
MASKED = 0x00E20746

# The transform that leaves all in its place, of six numbers of four bytes.
IDENTITY = (0x3F800000, 0, 0, 0x3F800000, 0, 0)

# The fields of records, in file order.


def swapped(**fields):
    """Numbers of two bytes, by their names in file order."""
    return {name: i16(number) for name, number in fields.items()}


# WMF: y is before x, and the height before the width.


def pat_blt(operation, x, y, width, height):
    """META_PATBLT ([MS-WMF] 2.3.3.12)."""
    return {"operation": u32(operation)} | swapped(height=height, width=width, y=y, x=x)


def dib_bit_blt(operation, x, y, width, height, source_x, source_y, packed=None):
    """META_DIBBITBLT ([MS-WMF] 2.3.1.2), with a bitmap or with a word that isn't read in its
    place."""
    fields = {"operation": u32(operation)} | swapped(source_y=source_y, source_x=source_x)
    fields |= {"reserved": u16(0xFFFF)} if packed is None else {}
    fields |= swapped(height=height, width=width, y=y, x=x)
    return fields | ({} if packed is None else {"bitmap": packed})


def source_sides(x, y, width, height):
    """A source's sides, and its first corner."""
    return swapped(source_height=height, source_width=width, source_y=y, source_x=x)


def dib_stretch_blt(operation, x, y, width, height, *source, packed=None):
    """META_DIBSTRETCHBLT ([MS-WMF] 2.3.1.3), likewise; the source is told by x, y, width,
    height."""
    fields = {"operation": u32(operation)} | source_sides(*source)
    fields |= {"reserved": u16(0xFFFF)} if packed is None else {}
    fields |= swapped(height=height, width=width, y=y, x=x)
    return fields | ({} if packed is None else {"bitmap": packed})


def stretch_dib(operation, x, y, width, height, *source, packed):
    """META_STRETCHDIB ([MS-WMF] 2.3.1.6)."""
    fields = {"operation": u32(operation), "usage": u16(0)} | source_sides(*source)
    return fields | swapped(height=height, width=width, y=y, x=x) | {"bitmap": packed}


def dib_pattern_brush(packed):
    """META_DIBCREATEPATTERNBRUSH ([MS-WMF] 2.3.4.8) of the style that has a bitmap as its pattern,
    by which the usage isn't read."""
    return {"style": u16(3), "usage": u16(0xFFFF), "bitmap": packed}


# EMF: parts of a bitmap lie behind the fields, and are told by their places and lengths.

# The least lengths of records, by their types.
LEAST = {76: 100, 77: 108, 81: 80, 94: 32}

# Four places and lengths where there is no bitmap: they aren't read.
NOWHERE = {"info_at": u32(0xFFFFFFFF), "info_size": u32(0)}
NOWHERE |= {"bits_at": u32(0xFFFFFFFF), "bits_size": u32(0xFFFFFFFF)}


def parts_at(kind, parts):
    """Where the parts of a bitmap lie and how long they are."""
    if parts is None:
        return NOWHERE
    info_end = LEAST[kind] + len(parts.info)
    info = {"info_at": u32(LEAST[kind]), "info_size": u32(len(parts.info))}
    return info | {"bits_at": u32(info_end), "bits_size": u32(len(parts.bits))}


def parts_of(parts):
    """The parts themselves, up to a multiple of four bytes."""
    if parts is None:
        return {}
    spare = -(len(parts.info) + len(parts.bits)) % 4
    return {"info": parts.info, "bits": parts.bits, "spare": bytes([UNREAD] * spare)}


BOUNDS = {"bounds": i32(-1, -1, -1, -1)}


def source_words(parts):
    """A transform, a background colour and a usage, that aren't read where there is no bitmap, but
    the colour never is."""
    if parts is None:
        return {"transform": b"\xff" * 24, "background": b"\xff" * 4, "usage": u32(0xFFFFFFFF)}
    return {"transform": u32(*IDENTITY), "background": b"\xff" * 4, "usage": u32(0)}


def bit_blt(operation, x, y, width, height, source_x, source_y, parts=None, kind=76, more=None):
    """EMR_BITBLT ([MS-EMF] 2.3.1.2), with a bitmap or without one."""
    fields = BOUNDS | {"x": i32(x), "y": i32(y), "width": i32(width), "height": i32(height)}
    fields |= {"operation": u32(operation), "source_x": i32(source_x), "source_y": i32(source_y)}
    return fields | source_words(parts) | parts_at(kind, parts) | (more or {}) | parts_of(parts)


def stretch_blt(operation, x, y, width, height, *source, parts=None):
    """EMR_STRETCHBLT ([MS-EMF] 2.3.1.6), likewise; the source is told by x, y, width, height."""
    source_x, source_y, source_width, source_height = source
    sides = {"source_width": i32(source_width), "source_height": i32(source_height)}
    box = x, y, width, height
    return bit_blt(operation, *box, source_x, source_y, parts, kind=77, more=sides)


def stretch_dibits(operation, x, y, width, height, *source, parts=None):
    """EMR_STRETCHDIBITS ([MS-EMF] 2.3.1.7), likewise."""
    names = ["source_x", "source_y", "source_width", "source_height"]
    fields = BOUNDS | {"x": i32(x), "y": i32(y)} | dict(zip(names, map(i32, source), strict=True))
    fields |= parts_at(81, parts) | {"usage": source_words(parts)["usage"]}
    fields |= {"operation": u32(operation), "width": i32(width), "height": i32(height)}
    return fields | parts_of(parts)


def pattern_brush_pt(index, parts):
    """EMR_CREATEDIBPATTERNBRUSHPT ([MS-EMF] 2.3.7.4)."""
    return {"index": u32(index), "usage": u32(0)} | parts_at(94, parts) | parts_of(parts)


# Records by their names in scripts, which both formats share. A box is told by its first corner and
# its sides, and so is a source, but for `bit_blt`, where the source's sides are the box's. A record
# whose name begins with `bare_` has no bitmap. Of `stretch_dib` the source's rows are counted from
# the row that is stored first.


def bare(fields_of):
    """What turns a script's words into parameters without a bitmap."""
    return lambda *words: joined(fields_of(*words), {})


def with_packed(fields_of):
    """The same with a bitmap, which the last word tells, in one piece."""

    def parameters(*words):
        """The parameters of these words."""
        *numbers, word = words
        return joined(fields_of(*numbers, packed=bitmap_of(word).packed), {})

    return parameters


def with_parts(fields_of):
    """The same with a bitmap in its parts."""

    def parameters(*words):
        """The parameters of these words."""
        *numbers, word = words
        return joined(fields_of(*numbers, parts=bitmap_of(word)), {})

    return parameters


def wmf_tile(index, word):
    """A brush whose pattern is a bitmap: its index is told in scripts alone."""
    return joined(dib_pattern_brush(bitmap_of(word).packed), {})


def emf_tile(index, word):
    """A brush whose pattern is a bitmap; indexes count from 0, though the least is 1."""
    return joined(pattern_brush_pt(1 + index, bitmap_of(word)), {})


def emf_pat_blt(operation, x, y, width, height):
    """EMR_BITBLT without a bitmap, and with a source that isn't looked at."""
    return joined(bit_blt(operation, x, y, width, height, -1, -1), {})


WMF_BLITS = {
    "pat_blt": (0x061D, bare(pat_blt)),
    "bare_bit_blt": (0x0940, bare(dib_bit_blt)),
    "bare_stretch_blt": (0x0B41, bare(dib_stretch_blt)),
    "bit_blt": (0x0940, with_packed(dib_bit_blt)),
    "stretch_blt": (0x0B41, with_packed(dib_stretch_blt)),
    "stretch_dib": (0x0F43, with_packed(stretch_dib)),
    "tiled_brush": (0x0142, wmf_tile),
}

EMF_BLITS = {
    "pat_blt": (76, emf_pat_blt),
    "bare_bit_blt": (76, bare(bit_blt)),
    "bare_stretch_blt": (77, bare(stretch_blt)),
    "bare_stretch_dib": (81, bare(stretch_dibits)),
    "bit_blt": (76, with_parts(bit_blt)),
    "stretch_blt": (77, with_parts(stretch_blt)),
    "stretch_dib": (81, with_parts(stretch_dibits)),
    "tiled_brush": (94, emf_tile),
}
