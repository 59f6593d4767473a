"""Bitmaps, and what blits read of them and make of what is there, for the reference player: the
colour of each pixel of a picture by itself, the pixel of a picture that each pixel of a box reads,
and ternary raster operations bit by bit.

Bitmaps are those of [MS-WMF] 2.2.2.9, and the operations those of 2.1.1.31. Which pixel a blit
reads is this project's own rule.
"""

from typing import NamedTuple

from metafile.bitmaps import bitmap_of
from metafile.fields import BLACK
from reference.pixels import Refused

# The headers and the depths that are read, and how long a side may be.
HEADERS = (40, 108, 124)
DEPTHS = (1, 4, 8, 16, 24, 32)
LONGEST_SIDE = 32768


class BadDib(Refused):
    """A header of another kind, or a depth, a side or a count of colours that no bitmap has."""


class CompressedDib(Refused):
    """A bitmap's rows are compressed, or their bits have fields of their own."""


class ShortDib(Refused):
    """A bitmap's header, table or rows aren't there to their end."""


class SourceMissing(Refused):
    """An operation depends on a source that isn't there."""


class SourceOutside(Refused):
    """A source that an operation depends on has no pixel, or isn't all within its picture."""


def unsigned(data, at, length):
    """A number without a sign, its least byte first."""
    return int.from_bytes(data[at : at + length], "little")


def signed(data, at, length):
    """A number with a sign."""
    return int.from_bytes(data[at : at + length], "little", signed=True)


class Picture(NamedTuple):
    """A bitmap: its sides, the bits of a pixel, which row is stored first, its table of colours,
    and the bytes of its rows."""

    width: int
    height: int
    depth: int
    bottom_up: bool
    table: list
    stored: bytes

    def row(self, y):
        """The bytes of a row, counted from the top: each row is filled up to four bytes."""
        length = (self.width * self.depth + 31) // 32 * 4
        place = self.height - 1 - y if self.bottom_up else y
        return self.stored[place * length : (place + 1) * length]

    def colour(self, x, y):
        """A pixel's colour, counted from the left and the top."""
        row = self.row(y)
        if self.depth <= 8:
            bits = "".join(f"{byte:08b}" for byte in row)
            index = int(bits[x * self.depth : (x + 1) * self.depth], 2)
            return self.table[index] if index < len(self.table) else BLACK
        if self.depth == 16:
            value = unsigned(row, 2 * x, 2)
            parts = value // 1024 % 32, value // 32 % 32, value % 32
            return tuple(part * 8 + part // 4 for part in parts)
        blue, green, red = row[x * self.depth // 8 :][:3]
        return red, green, blue


def picture_of(info, bits):
    """The picture of a header with its table, and of the rows, or the first of a bitmap's
    faults."""
    if len(info) >= 4 and unsigned(info, 0, 4) not in HEADERS:
        raise BadDib
    if len(info) < 40 or len(info) < unsigned(info, 0, 4):
        raise ShortDib
    if unsigned(info, 16, 4) != 0:
        raise CompressedDib
    size, depth, used = unsigned(info, 0, 4), unsigned(info, 14, 2), unsigned(info, 32, 4)
    width, height = signed(info, 4, 4), signed(info, 8, 4)
    if depth not in DEPTHS:
        raise BadDib
    if not 1 <= width <= LONGEST_SIDE or not 1 <= abs(height) <= LONGEST_SIDE:
        raise BadDib
    if depth <= 8 and used > 1 << depth:
        raise BadDib
    entries = 1 << depth if depth <= 8 and used == 0 else used
    if len(info) < size + 4 * entries:
        raise ShortDib
    table = [info[size + 4 * nth :][:3][::-1] for nth in range(entries if depth <= 8 else 0)]
    # In one piece the rows are behind the table.
    rows = info[size + 4 * entries :] if bits is None else bits
    if len(rows) < abs(height) * ((width * depth + 31) // 32 * 4):
        raise ShortDib
    return Picture(width, abs(height), depth, height > 0, list(map(tuple, table)), rows)


def picture_in(word, is_packed):
    """The picture that a script's word tells, whose bytes are in one piece or in two parts."""
    told = bitmap_of(word)
    return picture_of(told.packed, None) if is_packed else picture_of(told.info, told.bits)


def read_place(number, near, far, least, extent):
    """Which column or row of its picture a pixel reads, of a box between two placed corners and of
    what is read of the picture, by its least number: the one in which the pixel's middle lies, from
    the other end where either of the two runs backwards, but not both."""
    count, nth = abs(far - near), number - min(near, far)
    if (far < near) != (extent < 0):
        nth = count - 1 - nth
    return least + (2 * nth + 1) * abs(extent) // (2 * count)


class Source(NamedTuple):
    """What a blit reads: a picture, a corner of the part that is read, and its extents, which may
    be negative. Rows are counted from the picture's bottom, or from its top."""

    picture: Picture
    corner: tuple[int, int]
    extents: tuple[int, int]
    from_bottom: bool = False

    def least(self):
        """The first column that is read, and the first row, counted from the top."""
        (x, y), (width, height) = self.corner, self.extents
        left, end = min(x, x + width), min(y, y + height)
        return left, self.picture.height - end - abs(height) if self.from_bottom else end

    def check(self):
        """The part that is read has pixels, and lies within the picture."""
        sides = self.picture.width, self.picture.height
        for least, extent, side in zip(self.least(), self.extents, sides, strict=True):
            if extent == 0 or least < 0 or least + abs(extent) > side:
                raise SourceOutside

    def colour(self, pixel, corners):
        """The colour that a pixel of a box between two placed corners reads."""
        axes = zip(pixel, *corners, self.least(), self.extents, strict=True)
        return self.picture.colour(*(read_place(*axis) for axis in axes))


def table_bit(operation, p, s, d):
    """An operation's result for a bit of the pattern, of the source and of what is there."""
    return operation >> 16 >> (4 * p + 2 * s + d) & 1


BITS = (0, 1)


def depends_on_source(operation):
    """With some other bits, the two bits of the source have different results."""
    pairs = [(p, d) for p in BITS for d in BITS]
    return any(table_bit(operation, p, 0, d) != table_bit(operation, p, 1, d) for p, d in pairs)


def depends_on_pattern(operation):
    """The same of the pattern."""
    pairs = [(s, d) for s in BITS for d in BITS]
    return any(table_bit(operation, 0, s, d) != table_bit(operation, 1, s, d) for s, d in pairs)


def joined_by(operation, pattern, source, old):
    """What an operation makes of three colours, bit by bit."""

    def channel(p, s, d):
        """Eight bits."""
        return sum(
            table_bit(operation, p >> bit & 1, s >> bit & 1, d >> bit & 1) << bit
            for bit in range(8)
        )

    return tuple(map(channel, pattern, source, old))
