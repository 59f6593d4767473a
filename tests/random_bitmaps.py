"""Bitmaps, blits and tiles made at random, for the random files of `reference_test`: mostly such
that they are played, and a few with a fault."""

from metafile.bitmaps import Bitmap, bitmap
from metafile.blits import BLACKNESS, DSTINVERT, MASKED, PATCOPY, PATINVERT, SRCCOPY
from metafile.fields import i32, u16, u32

# Operations that are known by a name are more often among those of any table.
NAMED = [SRCCOPY] * 4 + [PATCOPY, PATINVERT, MASKED, DSTINVERT] * 2 + [BLACKNESS]

# Of these tables one half of each is made of two equal pairs of bits: no source is read.
SOURCELESS = [0x00, 0x05, 0x0A, 0x0F, 0x50, 0x55, 0x5A, 0x5F]
SOURCELESS += [0xA0, 0xA5, 0xAA, 0xAF, 0xF0, 0xF5, 0xFA, 0xFF]

# The ways to have no bitmap, and to have one.
BARE = {"pat_blt": 0, "bare_bit_blt": 2, "bare_stretch_blt": 4, "bare_stretch_dib": 4}
WHOLE = ["bit_blt", "stretch_blt", "stretch_dib"]

# How often a bitmap has a fault, a source lies anywhere, or an operation lacks its source.
FAULTY, ANYWHERE, LACKING = 0.01, 0.015, 0.02

# Numbers at the ends of what they may be, and beyond, for fields of headers.
WRONG = {
    "header_size": [u32(number) for number in (0, 12, 39, 41, 64, 107, 109, 125, 1 << 31)],
    "width": [i32(number) for number in (0, -1, 32768, 32769, 0x7FFFFFFF, -0x80000000)],
    "height": [i32(number) for number in (0, 32769, -32768, -32769, 0x7FFFFFFF, -0x80000000)],
    "bit_count": [u16(number) for number in (0, 2, 8, 12, 24, 33, 0xFFFF)],
    "compression": [u32(number) for number in (1, 2, 3, 1 << 31)],
    "colours_used": [u32(number) for number in (3, 17, 257, 1 << 30, (1 << 32) - 10, 1 << 31)],
}


class RandomBitmaps:
    """Makes bitmaps and blits by numbers at random."""

    def __init__(self, random):
        self.random = random

    def colour(self):
        """A colour, often one of the plain ones."""
        if self.random.random() < 0.5:
            return tuple(self.random.choice([0, 255]) for _ in range(3))
        return tuple(self.random.randrange(256) for _ in range(3))

    def values(self, width, height, depth, table):
        """Rows of what stands for pixels: indexes, some of them past the table, or colours, in 16
        bits as numbers."""
        if depth <= 8:
            last = (1 << depth) - 1
            most = last if self.random.random() < 0.3 else min(last, len(table))
            return [[self.random.randint(0, most) for _ in range(width)] for _ in range(height)]
        if depth == 16:
            return [[self.random.randrange(1 << 16) for _ in range(width)] for _ in range(height)]
        return [[self.colour() for _ in range(width)] for _ in range(height)]

    def entries(self, depth):
        """A table: of some entries, or of all that a depth has numbers for; without a table, there
        may be entries that no pixel names."""
        if depth > 8:
            return [self.colour() for _ in range(self.random.choice([0, 0, 0, 1, 5]))]
        count = 1 << depth
        some = self.random.randint(1, min(count, 12))
        return [self.colour() for _ in range(self.random.choice([some, some, count]))]

    def sides(self):
        """How wide and how high a picture is: mostly small, at times past a word of its bits."""
        most = self.random.choice([2, 4, 4, 7, 7, 12, 40])
        return self.random.randint(1, most), self.random.randint(1, 7)

    def wrong(self):
        """A field of a header, changed."""
        field = self.random.choice(list(WRONG))
        return {field: self.random.choice(WRONG[field])}

    def picture(self, width, height):
        """A bitmap of these sides, whose header, table or rows have a fault at times."""
        chance = self.random.random()
        depth = self.random.choice([1, 4, 8, 16, 24, 32])
        table = self.entries(depth)
        how = {"top_down": self.random.random() < 0.4}
        how |= {"size": self.random.choice([40, 40, 40, 108, 124])}
        how |= {"full": depth <= 8 and self.random.random() < 0.3}
        changes = self.wrong() if chance < FAULTY else {}
        values = self.values(width, height, depth, table)
        made = bitmap(values, depth, table=table, **how, **changes)
        return self.cut(made) if FAULTY <= chance < 2 * FAULTY else made

    def cut(self, made):
        """A bitmap some of whose last bytes of rows, or of table and rows, aren't there."""
        if self.random.random() < 0.5:
            return Bitmap(made.info, made.bits[: -2 * self.random.randint(1, 9)])
        return Bitmap(made.info[: -4 * self.random.randint(1, 9)], b"")

    def part(self, length):
        """A first number and an extent, forwards or backwards, of a part of so many columns or
        rows, or at times of any numbers."""
        if self.random.random() < ANYWHERE:
            return self.random.randint(-3, length + 3), self.random.randint(-length - 2, length + 2)
        extent = self.random.randint(1, length)
        first = self.random.randint(0, length - extent)
        return (first + extent, -extent) if self.random.random() < 0.25 else (first, extent)

    def operation(self, tables):
        """An operation of one of some tables, or a known one, with any bits below it."""
        known = [operation for operation in NAMED if operation >> 16 & 0xFF in tables]
        if self.random.random() < 0.5:
            return self.random.choice(known)
        return self.random.choice(tables) << 16 | self.random.randrange(1 << 16)

    def tile(self):
        """The bitmap of a brush."""
        return str(self.picture(*self.sides()))

    def bare(self, names, box):
        """A blit to a box without a bitmap."""
        name = self.random.choice(names)
        lacks = self.random.random() < LACKING
        operation = self.operation(range(256) if lacks else SOURCELESS)
        source = [self.random.randint(-9, 9) for _ in range(BARE[name])]
        return (name, [operation, *box, *source])

    def blit(self, corner, extents):
        """A blit from a bitmap to a box from a corner, with these extents where it has its own."""
        name, sides = self.random.choice(WHOLE), self.sides()
        picture = self.picture(*sides)
        (x, width), (y, height) = map(self.part, sides)
        operation = self.operation(range(256))
        if name == "bit_blt":
            return (name, [operation, *corner, width, height, x, y, str(picture)])
        return (name, [operation, *corner, *extents, x, y, width, height, str(picture)])
