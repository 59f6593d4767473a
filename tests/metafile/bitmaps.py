"""Device-independent bitmaps ([MS-WMF] 2.2.2.9), made of pictures.

A picture is a list of rows from the top, each a list of colours from the left.
"""

from typing import NamedTuple

from metafile.fields import BLUE, RED, i32, joined, u16, u32

# What stands between a bitmap's header and its rows, in the word for it.
APART = ":"

# Bytes that no reader takes: rows are filled up with ones, and headers with these.
UNREAD = 0xA5

# Entries of a full table that no pixel names.
UNUSED = (1, 2, 3)


class Bitmap(NamedTuple):
    """A bitmap's bytes: its header with its table, and its rows."""

    info: bytes
    bits: bytes

    def __str__(self):
        return self.info.hex() + APART + self.bits.hex()

    @property
    def packed(self):
        """All of it, one behind the other."""
        return self.info + self.bits


def bitmap_of(word):
    """The bitmap that a script's word tells."""
    return Bitmap(*map(bytes.fromhex, word.split(APART)))


def entry(colour):
    """A colour in a table ([MS-WMF] 2.2.2.20): blue, green, red, and a byte of 0."""
    red, green, blue = colour
    return bytes((blue, green, red, 0))


def header(width, height, depth, /, size=40, used=0, **changes):
    """A header ([MS-WMF] 2.2.2.3, and the longer ones of 2.2.2.4 and 2.2.2.5), some of its fields
    changed. A negative height is that of rows which are stored from the top."""
    fields = {
        "header_size": u32(size),
        "width": i32(width),
        "height": i32(height),
        "planes": u16(1),
        "bit_count": u16(depth),
        "compression": u32(0),
        "image_size": u32(0),
        "resolutions": i32(0, 0),
        "colours_used": u32(used),
        "important": u32(0),
        "longer": bytes([UNREAD] * (size - 40)),
    }
    return joined(fields, changes)


def pixel_bits(value, depth, table, unread):
    """The bits of a pixel, in the order in which a row has them: of a colour, or of a number that
    stands in the row as it is."""
    if depth <= 8:
        return f"{value if isinstance(value, int) else table.index(value):0{depth}b}"
    if depth == 16 and not isinstance(value, int):
        red, green, blue = (part >> 3 for part in value)
        value = red << 10 | green << 5 | blue
    stored = u16(value) if depth == 16 else entry(value)[:3] + bytes([unread] * (depth == 32))
    return "".join(f"{byte:08b}" for byte in stored)


def row_bytes(row, depth, table, unread):
    """A row: its pixels' bits, filled up to a multiple of four bytes."""
    bits = "".join(pixel_bits(value, depth, table, unread) for value in row)
    bits += ("1" if unread else "0") * (-len(bits) % 32)
    return bytes(int(bits[at : at + 8], 2) for at in range(0, len(bits), 8))


def bitmap(
    rows, depth, /, top_down=False, table=None, full=False, size=40, unread=UNREAD, **changes
):
    """The bitmap of a picture, some fields of its header changed. Without a table up to 8 bits have
    the picture's colours in theirs, in the order in which they come; a full one has as many as
    there are numbers for, and its header counts none. Bytes that aren't read may be told as 0."""
    if table is None:
        colours = [value for row in rows for value in row if not isinstance(value, int)]
        table = list(dict.fromkeys(colours)) if depth <= 8 else []
    entries = [*table, *[UNUSED] * ((1 << depth) - len(table))] if full else table
    height = -len(rows) if top_down else len(rows)
    used = 0 if full else len(entries)
    info = header(len(rows[0]), height, depth, size, used, **changes)
    stored = [row_bytes(row, depth, table, unread) for row in (rows if top_down else rows[::-1])]
    return Bitmap(info + b"".join(map(entry, entries)), b"".join(stored))


WHITE, GREEN = (255, 255, 255), (0, 255, 0)

# Blue and white above red and green, in 24 bits, the lower row first, written out by hand.
QUAD = Bitmap(
    bytes.fromhex(
        "28000000 02000000 02000000 0100 1800 00000000"
        "00000000 00000000 00000000 00000000 00000000"
    ),
    bytes.fromhex("0000ff 00ff00 0000 ff0000 ffffff 0000"),
)

QUAD_ROWS = [[BLUE, WHITE], [RED, GREEN]]
