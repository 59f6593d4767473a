"""Drawings that go on over edges of bands, with the pictures and the writes worked by hand."""

import unittest

from metafile.bitmaps import WHITE, bitmap
from metafile.blits import BLACKNESS, PATCOPY
from metafile.fields import BLACK, BLUE, u16
from metafile.files import wmf_record
from metafile.scripts import WMF
from request_program import COUNT, PLAY_COMMAND, PREPARE, PROGRAMS, Command, Ended, asked, ended, replies
from shape_pictures import drawing

SIDES = (8, 8)

# How many rows a band has.
BANDS = [1, 3, 4, 8, 8192]


class DrawnBands(unittest.TestCase):
    """Files whose box is as large as the surface."""

    def check(self, records, writes, picture):
        """A file of these records draws a picture on white in bands of any height, and writes so many pixels."""
        given = WMF.file(records, 8, 0)
        for program in PROGRAMS:
            [(_, text)] = replies(program, [asked(PREPARE, SIDES, given)])
            self.assertEqual(replies(program, [asked(COUNT, SIDES, given, text)]), [(f"wrote {writes}", b"")])
            found = ended(program, [Command(PLAY_COMMAND, given, text, SIDES, rows) for rows in BANDS])
            self.assertEqual(found, [Ended(0, drawing(picture).out)] * len(BANDS))

    def test_lines_go_on_over_edges_of_bands(self):
        lines = WMF.records("move 0 1; line 4 1; line 4 6")
        self.check(lines, 9, "........ #####... ....#... ....#... ....#... ....#... ........ ........")

    def test_a_raster_operation_turns_what_is_there(self):
        # The same two lines, and one down column 2: a pixel that is written twice is white again.
        lines = WMF.records("raster 6; move 0 1; line 4 1; line 4 6; move 2 0; line 2 8")
        self.check(lines, 17, "..#..... ##.##... ..#.#... ..#.#... ..#.#... ..#.#... ..#..... ..#.....")

    def test_a_tile_goes_on_where_the_band_above_ends(self):
        # The rows of the tile are counted from the top of the surface.
        tile = bitmap([[BLACK, WHITE], [WHITE, BLACK], [BLUE, WHITE]], 24)
        brush = wmf_record(0x0142, u16(5, 0) + tile.packed)
        records = [brush, *WMF.records(f"select 0; pat_blt {PATCOPY} 1 1 6 6")]
        self.check(records, 36, "........ .#.#.#.. ..b.b.b. ..#.#.#. .#.#.#.. ..b.b.b. ..#.#.#. ........")

    def test_a_clip_goes_on_over_edges_of_bands(self):
        # Rows and columns 1 to 6 are kept, and columns 3 and 4 of rows 2 to 5 are cut out.
        records = WMF.records(f"keep 1 1 7 7; cut 3 2 5 6; pat_blt {BLACKNESS} 0 0 8 8")
        self.check(records, 28, "........ .######. .##..##. .##..##. .##..##. .##..##. .######. ........")

    def test_drawings_beside_an_edge_stay_on_their_side(self):
        # With bands of three rows, row 2 is the last of the first band, rows 3 and 5 are the ends of the second, and row 6 begins the third.
        lines = "move 0 2; line 2 2; move 0 3; line 3 3; move 0 5; line 4 5; move 0 6; line 5 6"
        records = WMF.records(f"{lines}; blue 7 2; blue 7 3; blue 7 5; blue 7 6; rectangle 5 3 7 6")
        self.check(records, 30, "........ ........ ##.....b ###..##b .....##. ####.##b #####..b ........")

    def test_each_band_begins_at_the_start(self):
        # A line by the pen that is there down column 0, and then a blue one along row 6.
        records = WMF.records("line 0 8; styled_pen 0 0 0 0x0000FF; select 0; move 1 6; line 7 6")
        self.check(records, 14, "#....... #....... #....... #....... #....... #....... #bbbbbb. #.......")


if __name__ == "__main__":
    unittest.main()
