"""Bitmaps ([MS-WMF] 2.2.2.9) in the built programs: each depth, both orders of rows, how rows are
filled up, tables of all lengths, and headers of all sizes, shown by copying them."""

import unittest

from bitmap_pictures import INKS, BitmapTest, colours, copied, told
from built import for_each_program
from metafile.bitmaps import QUAD, QUAD_ROWS, UNUSED, Bitmap, bitmap, header
from metafile.blits import PATCOPY, SRCCOPY
from metafile.fields import BLACK, i32, u16, u32

DEPTHS = [1, 4, 8, 16, 24, 32]

# Those that have a table.
INDEXED = [1, 4, 8]

# The same four pixels in all depths: a table in hexadecimal digits, and the bottom row and the top
# one, each filled up to four bytes. With one bit there are only two colours.
FOUR_PIXELS = {
    1: ("ff000000 ffffff00", "80000000", "40000000"),
    4: ("ff000000 ffffff00 0000ff00 00ff0000", "23000000", "01000000"),
    8: ("ff000000 ffffff00 0000ff00 00ff0000", "02030000", "00010000"),
    16: ("", "007ce003", "1f00ff7f"),
    24: ("", "0000ff00ff000000", "ff0000ffffff0000"),
    32: ("", "0000ff0000ff0000", "ff000000ffffff00"),
}

# What they show.
SHOWN = dict.fromkeys(DEPTHS, "b. rg") | {1: "b. .b"}


class Pixels(BitmapTest):
    """Four pixels, copied to as many of the surface."""

    @for_each_program
    def test_four_pixels_written_by_hand(self, program):
        for depth, (table, bottom, top) in FOUR_PIXELS.items():
            table = bytes.fromhex(table)
            for height, stored in [(2, bottom + top), (-2, top + bottom)]:
                info = header(2, height, depth, used=len(table) // 4) + table
                picture = Bitmap(info, bytes.fromhex(stored))
                self.check_images(program, {copied(picture, 2, 2): SHOWN[depth]})

    @for_each_program
    def test_headers_tables_and_orders_of_rows(self, program):
        for depth in DEPTHS:
            for size in (40, 108, 124):
                for top_down in (False, True):
                    for full in {depth in INDEXED, False}:
                        how = {"size": size, "top_down": top_down, "full": full}
                        picture = told(SHOWN[depth], depth, **how)
                        self.check_images(program, {copied(picture, 2, 2): SHOWN[depth]})

    @for_each_program
    def test_the_file_of_the_rows(self, program):
        self.assertEqual(len(QUAD.packed), 56)
        self.check_copy(program, QUAD, QUAD_ROWS)

    @for_each_program
    def test_fields_that_are_not_read(self, program):
        for depth in DEPTHS:
            for changes in [
                {"planes": u16(0)},
                {"planes": u16(0xFFFF)},
                {"image_size": u32(1)},
                {"image_size": u32(0xFFFFFFFF)},
                {"resolutions": i32(-1, -1)},
                {"important": u32(0xFFFFFFFF)},
            ]:
                picture = told(SHOWN[depth], depth, **changes)
                self.check_images(program, {copied(picture, 2, 2): SHOWN[depth]})

    @for_each_program
    def test_more_bytes_than_rows_have(self, program):
        for depth in DEPTHS:
            info, bits = told(SHOWN[depth], depth)
            picture = Bitmap(info, bits + b"\xff" * 12)
            self.check_images(program, {copied(picture, 2, 2): SHOWN[depth]})


# The bytes of a row by how many pixels it has, from 1 to 9.
ROW_BYTES = {
    1: [4, 4, 4, 4, 4, 4, 4, 4, 4],
    4: [4, 4, 4, 4, 4, 4, 4, 4, 8],
    8: [4, 4, 4, 4, 8, 8, 8, 8, 12],
    16: [4, 4, 8, 8, 12, 12, 16, 16, 20],
    24: [4, 8, 12, 12, 16, 20, 24, 24, 28],
    32: [4, 8, 12, 16, 20, 24, 28, 32, 36],
}

# Colours that 16 bits have too, and two of them for one bit.
UPPER = {False: "rgb.#ymcr", True: "#.##...#."}
LOWER = {False: "mcy#rb.gg", True: "...#.#.##"}


class Rows(BitmapTest):
    """How rows are filled up, and the order of their pixels."""

    @for_each_program
    def test_rows_of_1_to_9_pixels(self, program):
        for depth, lengths in ROW_BYTES.items():
            for width, length in enumerate(lengths, 1):
                two = depth == 1
                rows = f"{UPPER[two][:width]} {LOWER[two][:width]}"
                table = colours("#.")[0] if two else None
                picture = told(rows, depth, table=table)
                self.assertEqual(len(picture.bits), 2 * length)
                self.check_images(program, {copied(picture, width, 2): rows})

    @for_each_program
    def test_one_bit_33_wide(self, program):
        # A row of 33 bits has eight bytes, with the last pixel in the fifth one's highest bit.
        stored = bytes.fromhex("8000000180ffffff 0000000100000000")
        info = header(33, 2, 1, used=2) + bytes.fromhex("0000ff00 ff000000")
        rows = "r" * 31 + "br " + "b" + "r" * 30 + "bb"
        self.assertEqual(len(stored), 16)
        self.check_images(program, {copied(Bitmap(info, stored), 33, 2): rows})

    @for_each_program
    def test_one_bit_round_whole_words(self, program):
        for width in (31, 32, 63, 64, 65):
            rows = "#." * (width // 2) + "#" * (width % 2)
            picture = told(rows, 1, table=colours("#.")[0])
            self.assertEqual(len(picture.bits), {31: 4, 32: 4, 63: 8, 64: 8, 65: 12}[width])
            self.check_images(program, {copied(picture, width, 1): rows})

    @for_each_program
    def test_the_longest_sides(self, program):
        # Of 32,768 pixels in a row, or in as many rows, the last two are blue and red.
        longest = 32768
        row = bytes(longest // 8 - 1) + b"\x02"
        table = bytes.fromhex("0000ff00 ff000000")
        across = Bitmap(header(longest, 1, 1, used=2) + table, row)
        rows = bytes(4 * (longest - 2)) + bytes.fromhex("80000000 00000000")
        down = Bitmap(header(1, -longest, 1, used=2) + table, rows)
        up = Bitmap(header(1, longest, 1, used=2) + table, rows)
        for name in ("stretch_blt", "stretch_dib"):
            source = f"{longest - 3} 0 3 1"
            self.check_images(program, {f"{name} {SRCCOPY} 0 0 3 1 {source} {across}": "rbr"})
            source = f"0 {longest - 3} 1 3"
            self.check_images(program, {f"{name} {SRCCOPY} 0 0 1 3 {source} {down}": "r b r"})
        self.check_images(program, {f"stretch_blt {SRCCOPY} 0 0 1 3 0 0 1 3 {up}": "r b r"})
        source = f"0 {longest - 3} 1 3"
        self.check_images(program, {f"stretch_dib {SRCCOPY} 0 0 1 3 {source} {up}": "r b r"})


# What the 32 numbers of five bits become: eight times the number and a quarter of it.
EIGHT_BITS = [
    *(0, 8, 16, 24, 33, 41, 49, 57, 66, 74, 82, 90, 99, 107, 115, 123),
    *(132, 140, 148, 156, 165, 173, 181, 189, 198, 206, 214, 222, 231, 239, 247, 255),
]

# What stands for an index past a table that has so many entries, and the last one within it.
PAST_TABLE = {1: [1], 4: [1, 3, 15], 8: [1, 2, 17, 200, 255]}


class Colours(BitmapTest):
    """How bits become colours."""

    @for_each_program
    def test_sixteen_bits_have_five_for_each_part(self, program):
        for spare in (0, 1 << 15):
            values = [[spare | v << 10, spare | v << 5, spare | v] for v in range(32)]
            parts = [[(v, 0, 0), (0, v, 0), (0, 0, v)] for v in EIGHT_BITS]
            self.check_copy(program, bitmap(values, 16), parts)

    @for_each_program
    def test_sixteen_bits_mix_their_parts(self, program):
        # 0, 1, 15, 16 and 31 in each part are 0, 8, 123, 132 and 255.
        five = {0: 0, 1: 8, 15: 123, 16: 132, 31: 255}
        values = [[r << 10 | g << 5 | b for g in five for b in five] for r in five]
        mixed = [
            [(red, green, blue) for green in five.values() for blue in five.values()]
            for red in five.values()
        ]
        self.check_copy(program, bitmap(values, 16), mixed)

    @for_each_program
    def test_24_and_32_bits_are_blue_green_red(self, program):
        row = [(1, 2, 3), (255, 128, 127), (0, 254, 16), (33, 66, 99)]
        rows = [row, row[::-1]]
        for depth in (24, 32):
            for top_down in (False, True):
                self.check_copy(program, bitmap(rows, depth, top_down), rows)

    @for_each_program
    def test_each_index_of_a_full_table(self, program):
        for depth in INDEXED:
            count = 1 << depth
            table = [(nth, 255 - nth, nth * 7 % 256) for nth in range(count)]
            for full in (False, True):
                picture = bitmap([list(range(count))], depth, table=table, full=full)
                self.check_copy(program, picture, [table])

    @for_each_program
    def test_an_index_past_the_table_is_black(self, program):
        for depth, counts in PAST_TABLE.items():
            for count in counts:
                table = [(255, 255 - nth, nth) for nth in range(count)]
                for top_down in (False, True):
                    row = list(range(1 << depth))
                    picture = bitmap([row], depth, top_down, table=table)
                    wanted = table + [BLACK] * (len(row) - count)
                    self.check_copy(program, picture, [wanted])

    @for_each_program
    def test_a_table_of_one_entry_and_one_bit(self, program):
        picture = bitmap([[0, 1], [1, 0]], 1, table=[INKS["r"]])
        self.check_images(program, {copied(picture, 2, 2): "r# #r"})

    @for_each_program
    def test_a_table_that_is_not_looked_at_is_skipped(self, program):
        for depth in (16, 24, 32):
            for count in (1, 2, 3, 255, 300):
                picture = told("b. rg", depth, table=[UNUSED] * count)
                self.assertEqual(len(picture.info), 40 + 4 * count)
                self.check_images(program, {copied(picture, 2, 2): "b. rg"})

    @for_each_program
    def test_the_fourth_byte_of_an_entry_is_not_read(self, program):
        info = header(2, 1, 4, used=2) + bytes.fromhex("0000ffff ff0000a5")
        self.check_images(program, {copied(Bitmap(info, b"\x01\0\0\0"), 2, 1): "rb"})

    @for_each_program
    def test_tiles_have_the_same_colours(self, program):
        for depth in DEPTHS:
            for top_down in (False, True):
                for size in (40, 124):
                    picture = told(SHOWN[depth], depth, top_down=top_down, size=size)
                    script = f"tiled_brush 0 {picture}; select 0; pat_blt {PATCOPY} 0 0 2 2"
                    self.check_images(program, {script: SHOWN[depth]})


if __name__ == "__main__":
    unittest.main()
