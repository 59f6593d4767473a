"""The 256 ternary raster operations ([MS-WMF] 2.1.1.31) in the built programs, on all eight triples
of bits of a pattern, a source and what is there: bit 4P+2S+D of an operation's table is the
result."""

import unittest

from answers import refused
from bitmap_pictures import BitmapTest, answer_with, told
from built import for_each_program
from metafile.bitmaps import bitmap
from metafile.blits import PATCOPY
from metafile.scripts import FORMS

# In red the bit k of these three is that of the number k: 4P+2S+D is k, and what an operation makes
# of them is its own table. In green the bits stand the other way round, and in blue three places
# farther: so a part that is taken for another one is told from it.
PATTERN = (0b11110000, 0b00001111, 0b10000111)
SOURCE = (0b11001100, 0b00110011, 0b01100110)
THERE = (0b10101010, 0b01010101, 0b01010101)

# The tables of operations that are known by names or letters ([MS-WMF] 2.1.1.31).
NAMED = {
    0x00: lambda p, s, d: 0,
    0x05: lambda p, s, d: ~(p | d),
    0x11: lambda p, s, d: ~(s | d),
    0x22: lambda p, s, d: d & ~s,
    0x33: lambda p, s, d: ~s,
    0x44: lambda p, s, d: s & ~d,
    0x55: lambda p, s, d: ~d,
    0x5A: lambda p, s, d: p ^ d,
    0x66: lambda p, s, d: s ^ d,
    0x69: lambda p, s, d: ~(p ^ s ^ d),
    0x88: lambda p, s, d: s & d,
    0x96: lambda p, s, d: p ^ s ^ d,
    0xA0: lambda p, s, d: p & d,
    0xAA: lambda p, s, d: d,
    0xB8: lambda p, s, d: p & ~s | d & s,
    0xBB: lambda p, s, d: ~s | d,
    0xC0: lambda p, s, d: p & s,
    0xCA: lambda p, s, d: p & s | ~p & d,
    0xCC: lambda p, s, d: s,
    0xE2: lambda p, s, d: p & s | ~s & d,
    0xEE: lambda p, s, d: s | d,
    0xF0: lambda p, s, d: p,
    0xFA: lambda p, s, d: p | d,
    0xFB: lambda p, s, d: p | ~s | d,
    0xFF: lambda p, s, d: -1,
}

# Operations that don't depend on the source, or on the pattern. Of the first, each half of the
# table is two equal pairs of bits; of the second, the two halves are equal.
WITHOUT_SOURCE = [0x00, 0x05, 0x0A, 0x0F, 0x50, 0x55, 0x5A, 0x5F]
WITHOUT_SOURCE += [0xA0, 0xA5, 0xAA, 0xAF, 0xF0, 0xF5, 0xFA, 0xFF]
WITHOUT_PATTERN = [0x00, 0x11, 0x22, 0x33, 0x44, 0x55, 0x66, 0x77]
WITHOUT_PATTERN += [0x88, 0x99, 0xAA, 0xBB, 0xCC, 0xDD, 0xEE, 0xFF]


def number(rgb):
    """A colour as 0xRRGGBB."""
    return int.from_bytes(bytes(rgb), "big")


def operation_of(table, low=0):
    """An operation by its table, above 16 bits that aren't read."""
    return table << 16 | low


def turned(table):
    """A table with its bits the other way round."""
    return int(f"{table:08b}"[::-1], 2)


def result(table):
    """What an operation makes of the three colours."""
    bits = [table >> k & 1 for k in range(8)]
    blue = sum(bits[triple] << k for k, triple in enumerate(BLUE_TRIPLES))
    return table, turned(table), blue


# Of each bit of blue, from the lowest, the number 4P+2S+D.
BLUE_TRIPLES = [5, 6, 7, 0, 1, 2, 3, 4]

def everywhere(table):
    """The row of a box in which all is written."""
    return [result(table)] * WIDE


def without_pattern(table):
    """What a pixel becomes for which the brush gives nothing."""
    return result(table) if table in WITHOUT_PATTERN else THERE


# On a surface of one colour a brush of another is selected.
FRONT = f"solid_brush 0 {number(THERE)}; select 0; pat_blt {PATCOPY} 0 0 16 128"
BRUSH = f"solid_brush 1 {number(PATTERN)}; select 1"

# The picture of all operations: two boxes of 8 by 1 in each of its rows.
WIDE, SIDES = 8, (16, 128)


class Operations(BitmapTest):
    """All operations by their tables."""

    def check_one(self, program, script, table, wanted):
        """Behind records, a blit by one operation, to 2 by 2 pixels, has an answer."""
        for form in FORMS:
            answer = refused(wanted, form.first + 5) if isinstance(wanted, str) else wanted
            given = f"{FRONT}; {BRUSH}; {script.format(operation_of(table, 0xFFFF))}"
            self.check(program, form, given, answer, frame=2, surface=(2, 2))

    def check_all(self, program, front, blit, row_of):
        """Behind records, blits by all operations, each to a box of its own, show rows of
        colours."""
        blits, rows = [], [[] for _ in range(SIDES[1])]
        for table in range(256):
            box = f"{WIDE * (table % 2)} {table // 2} {WIDE} 1"
            blits.append(blit.format(operation_of(table, table * 257), box))
            rows[table // 2] += row_of(table)
        script = "; ".join([FRONT, front, *blits])
        for form in FORMS:
            self.check(program, form, script, answer_with(rows), frame=SIDES, surface=SIDES)

    def test_the_three_colours_have_all_triples_of_bits(self):
        for part, triples in enumerate([range(8), range(7, -1, -1), BLUE_TRIPLES]):
            p, s, d = PATTERN[part], SOURCE[part], THERE[part]
            found = [4 * (p >> k & 1) + 2 * (s >> k & 1) + (d >> k & 1) for k in range(8)]
            self.assertEqual(found, list(triples))

    def test_the_results_are_those_of_the_named_operations(self):
        for table, named in NAMED.items():
            parts = zip(PATTERN, SOURCE, THERE, strict=True)
            self.assertEqual(result(table), tuple(named(*part) & 0xFF for part in parts), table)

    @for_each_program
    def test_each_operation_in_a_picture_of_its_own(self, program):
        source = bitmap([[SOURCE] * 2] * 2, 24)
        for table in range(256):
            wanted = answer_with([[result(table)] * 2] * 2)
            self.check_one(program, f"bit_blt {{}} 0 0 2 2 0 0 {source}", table, wanted)

    @for_each_program
    def test_sources_of_several_depths(self, program):
        for depth in (1, 8, 24, 32):
            source = bitmap([[SOURCE] * WIDE], depth)
            blits = ["bit_blt {} {} 0 0", "stretch_dib {} {} 0 0 8 1", "stretch_blt {} {} 5 0 1 1"]
            for blit in blits:
                self.check_all(program, BRUSH, f"{blit} {source}", everywhere)

    @for_each_program
    def test_a_tile_as_the_pattern(self, program):
        source = bitmap([[SOURCE]], 8)
        front = f"tiled_brush 1 {bitmap([[PATTERN] * 3], 32)}; select 1"
        self.check_all(program, front, f"stretch_blt {{}} {{}} 0 0 1 1 {source}", everywhere)

    @for_each_program
    def test_a_hatch_as_the_pattern(self, program):
        # Of eight columns the first has the hatch's cells, and the others have the background.
        source = bitmap([[SOURCE]], 8)
        front = f"hatched_brush 1 1 {number(PATTERN)}; select 1; back_colour {number(PATTERN)}"
        blit = f"stretch_blt {{}} {{}} 0 0 1 1 {source}"
        self.check_all(program, front, blit, everywhere)
        self.check_all(
            program,
            f"{front}; back_mode 1",
            blit,
            lambda table: [result(table), *[without_pattern(table)] * (WIDE - 1)],
        )

    @for_each_program
    def test_a_null_brush(self, program):
        blit = f"stretch_dib {{}} {{}} 0 0 1 1 {bitmap([[SOURCE]], 24)}"
        front = "null_brush 1; select 1"
        self.check_all(program, front, blit, lambda table: [without_pattern(table)] * WIDE)

    @for_each_program
    def test_without_a_bitmap_or_a_part_of_one(self, program):
        source = bitmap([[SOURCE]], 24)
        for table in range(256):
            shown = answer_with([[result(table)] * 2] * 2) if table in WITHOUT_SOURCE else None
            missing = "pat_blt {} 0 0 2 2"
            self.check_one(program, missing, table, shown or "SourceMissing")
            outside = f"stretch_dib {{}} 0 0 2 2 0 0 0 1 {source}"
            self.check_one(program, outside, table, shown or "SourceOutside")


# Eight colours of black and white bits: the triples of 4P+2S+D from 0 on, each a column.
PATTERN_ROW, SOURCE_ROW, THERE_ROW = "####....", "##..##..", "#.#.#.#."


class Triples(BitmapTest):
    """All operations on black and white, side by side."""

    @for_each_program
    def test_each_triple_is_a_column(self, program):
        tile, source, there = told(PATTERN_ROW, 1), told(SOURCE_ROW, 4), told(THERE_ROW, 8)
        for table in range(256):
            # From the right the columns are the table's bits from the highest on.
            row = "".join(".#"[bit == "0"] for bit in f"{table:08b}"[::-1])
            script = (
                f"bit_blt 0xCC0020 0 0 8 1 0 0 {there}; tiled_brush 0 {tile}; select 0; "
                f"bit_blt {operation_of(table, 0x1234)} 0 0 8 1 0 0 {source}"
            )
            self.check_images(program, {script: row})


if __name__ == "__main__":
    unittest.main()
