"""Blits ([MS-WMF] 2.3.1, [MS-EMF] 2.3.1) in the built programs: which pixel of a picture each pixel
of a box reads, which part of a picture may be read, and where the box lies.

A box is half-open between its placed corners. Of its n columns the one at place i reads the column
of the picture in which the middle of the place lies, floor((2i+1)*w/2n) of w columns. The picture
is mirrored where either the box or the source runs backwards, but not both.
"""

import unittest

from answers import refused
from bitmap_pictures import BitmapTest, told
from built import for_each_program
from metafile.bitmaps import QUAD, Bitmap, header
from metafile.blits import BLACKNESS, DSTINVERT, SRCCOPY
from metafile.scripts import EMF, FORMS

# A picture of twelve colours, whose rows and columns are all different.
TWELVE = told("rgby cmop ld#.")

# A row and a column of three colours.
ACROSS, DOWN = told("rgb"), told("r g b")

# The ways to copy with a source of its own: rows are counted from the top in the first, and in the
# second from the row that is stored first.
STRETCHES = ["stretch_blt", "stretch_dib"]


def stretched(picture, box, source, name="stretch_blt", operation=SRCCOPY):
    """A script that copies a source, told by x, y, width, height, to a box told alike."""
    return f"{name} {operation} {box} {source} {picture}"


class Worked(BitmapTest):
    """Blue and white above red and green, copied to all of the surface."""

    @for_each_program
    def test_from_the_row_that_is_stored_first(self, program):
        images = {
            stretched(QUAD, "0 0 4 4", "0 0 2 2", "stretch_dib"): "bb.. bb.. rrgg rrgg",
            stretched(QUAD, "4 0 -4 4", "0 0 2 2", "stretch_dib"): "..bb ..bb ggrr ggrr",
            stretched(QUAD, "0 0 4 4", "0 0 2 1", "stretch_dib"): "rrgg rrgg rrgg rrgg",
            stretched(QUAD, "0 0 4 4", "0 1 2 1", "stretch_dib"): "bb.. bb.. bb.. bb..",
            stretched(QUAD, "0 0 4 4", "0 0 2 1", "stretch_blt"): "bb.. bb.. bb.. bb..",
            stretched(QUAD, "0 0 4 4", "0 1 2 1", "stretch_blt"): "rrgg rrgg rrgg rrgg",
        }
        self.check_images(program, images)
        # Where the upper row is stored first, it is the first for both.
        first = told("b. rg", top_down=True)
        for name in STRETCHES:
            images = {
                stretched(first, "0 0 4 4", "0 0 2 1", name): "bb.. bb.. bb.. bb..",
                stretched(first, "0 0 4 4", "0 1 2 1", name): "rrgg rrgg rrgg rrgg",
            }
            self.check_images(program, images)

    @for_each_program
    def test_a_source_that_is_not_inside(self, program):
        for form in FORMS:
            for source in ("0 0 3 2", "0 0 0 2"):
                script = stretched(QUAD, "0 0 4 4", source, "stretch_dib")
                self.check(program, form, script, refused("SourceOutside", form.first))

    @for_each_program
    def test_a_box_of_no_pixel(self, program):
        script = stretched(QUAD, "1 1 1 1", "0 0 2 2", "stretch_dib")
        self.check_images(program, {script: "."}, frame=4)

    @for_each_program
    def test_a_white_pattern_inverts(self, program):
        # White is the pattern where no brush is selected; black inverted by it is white again.
        for script in ["pat_blt 0x5A0049 0 0 4 4", "bare_bit_blt 0x5A0049 0 0 4 4 7 7"]:
            self.check_images(program, {script: "#### " * 4, f"{script}; {script}": ".... " * 4})
        for form in FORMS:
            script = "bare_bit_blt 0xCC0020 0 0 4 4 0 0"
            self.check(program, form, script, refused("SourceMissing", form.first))

    @for_each_program
    def test_a_clip_and_a_box_that_is_inverted(self, program):
        inverted = f"pat_blt {DSTINVERT} 0 0 4 4"
        images = {
            f"keep 1 1 3 3; {inverted}": ".... .##. .##. ....",
            f"keep 1 1 3 3; {inverted}; cut 1 1 2 2; {inverted}": ".... .#.. .... ....",
        }
        self.check_images(program, images)


# The columns that are read, by how many a source has and how many places the box.
READ = {
    (1, 1): "r",
    (1, 4): "rrrr",
    (2, 1): "g",
    (2, 2): "rg",
    (2, 3): "rgg",
    (2, 4): "rrgg",
    (2, 5): "rrggg",
    (2, 7): "rrrgggg",
    (3, 1): "g",
    (3, 2): "rb",
    (3, 4): "rggb",
    (3, 5): "rrgbb",
    (3, 6): "rrggbb",
    (3, 7): "rrgggbb",
    (3, 8): "rrrggbbb",
    (4, 1): "b",
    (4, 2): "gy",
    (4, 3): "rby",
    (5, 2): "gy",
    (5, 3): "rbc",
    (7, 3): "gym",
    (8, 3): "gco",
    (8, 5): "rbcmd",
}

# As many colours as the sources above have columns.
EIGHT = "rgbycmod"


def turned(rows):
    """Columns as rows and rows as columns."""
    return " ".join(map("".join, zip(*rows.split(), strict=True)))


class Scaled(BitmapTest):
    """Sources stretched and squeezed, on each axis by itself."""

    @for_each_program
    def test_columns_and_rows(self, program):
        for (count, places), columns in READ.items():
            picture, upright = told(EIGHT), told(turned(EIGHT))
            for name in STRETCHES:
                start = len(EIGHT) - count if name == "stretch_dib" else 0
                images = {
                    stretched(picture, f"0 0 {places} 1", f"0 0 {count} 1", name): columns,
                    stretched(
                        upright, f"0 0 1 {places}", f"0 {start} 1 {count}", name
                    ): turned(columns),
                }
                self.check_images(program, images)

    @for_each_program
    def test_mirrored(self, program):
        for (count, places), columns in READ.items():
            picture, upright = told(EIGHT), told(turned(EIGHT), top_down=True)
            backwards = columns[::-1]
            for name in STRETCHES:
                across = {
                    (f"{places} 0 {-places} 1", f"0 0 {count} 1"): backwards,
                    (f"0 0 {places} 1", f"{count} 0 {-count} 1"): backwards,
                    (f"{places} 0 {-places} 1", f"{count} 0 {-count} 1"): columns,
                }
                down = {
                    (f"0 {places} 1 {-places}", f"0 0 1 {count}"): backwards,
                    (f"0 0 1 {places}", f"0 {count} 1 {-count}"): backwards,
                    (f"0 {places} 1 {-places}", f"0 {count} 1 {-count}"): columns,
                }
                for boxes, row in across.items():
                    self.check_images(program, {stretched(picture, *boxes, name): row})
                for boxes, row in down.items():
                    self.check_images(program, {stretched(upright, *boxes, name): turned(row)})

    @for_each_program
    def test_both_axes_at_once(self, program):
        # 4 columns to 3 are the first, the third and the last; 3 rows to 4 the middle one twice.
        images = {
            ("0 0 3 4", "0 0 4 3"): "rby cop cop l#.",
            ("3 0 -3 4", "0 0 4 3"): "ybr poc poc .#l",
            ("0 4 3 -4", "0 0 4 3"): "l#. cop cop rby",
            ("3 4 -3 -4", "0 0 4 3"): ".#l poc poc ybr",
            ("3 4 -3 -4", "4 3 -4 -3"): "rby cop cop l#.",
            ("3 4 -3 -4", "0 3 4 -3"): "ybr poc poc .#l",
        }
        for name in STRETCHES:
            told_as = {stretched(TWELVE, *told, name): rows for told, rows in images.items()}
            self.check_images(program, told_as)

    @for_each_program
    def test_boxes_far_larger_than_the_surface(self, program):
        # Of 32,768 columns, or rows, the first half is black and the other one blue.
        table = bytes.fromhex("00000000 ff000000")
        across = Bitmap(header(32768, 1, 1, used=2) + table, bytes(2048) + b"\xff" * 2048)
        rows = bytes(4 * 16384) + b"\x80\0\0\0" * 16384
        down = Bitmap(header(1, -32768, 1, used=2) + table, rows)
        # Each is 8,192 pixels wide, and the half ends behind the surface's second pixel; or each is
        # 16,384 wide, and it ends before the first, or behind it where the picture is mirrored.
        wide, wider = 1 << 28, 1 << 29
        ends = {
            (2 - wide // 2, wide): "##bb",
            (-wider // 2, wider): "bbbb",
            (wider // 2, -wider): "####",
        }
        for (start, side), row in ends.items():
            images = {
                stretched(across, f"{start} 0 {side} 1", "0 0 32768 1"): row,
                stretched(down, f"0 {start} 1 {side}", "0 0 1 32768"): turned(row),
            }
            self.check_images(program, images, forms=[EMF])


class Turned(BitmapTest):
    """Pictures that the page turns: the box runs backwards where its placed corners do."""

    # The page runs from right to left, from bottom to top, or both.
    LEFTWARDS = "map_mode 8; window_extent 4 4; viewport_extent -4 4; viewport_origin 4 0"
    UPWARDS = "map_mode 8; window_extent 4 4; viewport_extent 4 -4; viewport_origin 0 4"
    BOTH = "map_mode 8; window_extent -4 -4; viewport_extent 4 4; viewport_origin 4 4"

    @for_each_program
    def test_a_page_that_runs_backwards(self, program):
        picture = told("rgb yc. m#o")
        for name, source in [("bit_blt", "0 0"), ("stretch_blt", "0 0 3 3")]:
            script = f"{name} {SRCCOPY} 0 0 3 3 {source} {picture}"
            images = {
                f"{script}": "rgb. yc.. m#o. ....",
                f"{self.LEFTWARDS}; {script}": ".bgr ..cy .o#m ....",
                f"{self.UPWARDS}; {script}": ".... m#o. yc.. rgb.",
                f"{self.BOTH}; {script}": ".... .o#m ..cy .bgr",
            }
            self.check_images(program, images)

    @for_each_program
    def test_both_run_backwards(self, program):
        picture = told("rgb yc. m#o")
        # A box that runs backwards on a page that does runs forwards.
        stretch = f"stretch_blt {SRCCOPY} 3 3 -3 -3 0 0 3 3 {picture}"
        images = {
            stretch: "o#m. .cy. bgr. ....",
            f"{self.LEFTWARDS}; {stretch}": ".m#o .yc. .rgb ....",
            f"{self.BOTH}; {stretch}": ".... .rgb .yc. .m#o",
        }
        self.check_images(program, images)
        # A blit whose source has the box's own extents reads backwards with them.
        blit = f"bit_blt {SRCCOPY} 3 3 -3 -3 3 3 {picture}"
        images = {
            blit: "rgb. yc.. m#o. ....",
            f"{self.LEFTWARDS}; {blit}": ".bgr ..cy .o#m ....",
            f"{self.BOTH}; {blit}": ".... .o#m ..cy .bgr",
        }
        self.check_images(program, images)

    @for_each_program
    def test_the_source_of_a_blit_is_not_scaled_by_the_page(self, program):
        # Two by two page units are four by four pixels, and two by two of the picture.
        picture = told("rgb yc. m#o")
        doubled = "map_mode 8; window_extent 1 1; viewport_extent 2 2"
        images = {
            f"{doubled}; bit_blt {SRCCOPY} 0 0 2 2 1 1 {picture}": "cc.. cc.. ##oo ##oo",
            f"{doubled}; bit_blt {SRCCOPY} 0 0 2 2 0 0 {picture}": "rrgg rrgg yycc yycc",
        }
        self.check_images(program, images)
        # The other way round, four by four of the picture are two by two pixels.
        halved = "map_mode 8; window_extent 2 2; viewport_extent 1 1"
        picture = told("rgby cmop ld#. rgby")
        script = f"{halved}; bit_blt {SRCCOPY} 0 0 4 4 0 0 {picture}"
        self.check_images(program, {script: "mp gy"})


class Places(BitmapTest):
    """Where boxes lie on the surface."""

    @for_each_program
    def test_boxes_on_and_beside_the_surface(self, program):
        images = {
            "0 0 4 3": "rgby cmop ld#. ....",
            "1 1 4 3": ".... .rgb .cmo .ld#",
            "-1 0 4 3": "gby. mop. d#.. ....",
            "0 -2 4 3": "ld#. .... .... ....",
            "3 2 4 3": ".... .... ...r ...c",
            "-2 -1 4 3": "op.. #... .... ....",
        }
        images |= dict.fromkeys(["4 0 4 3", "0 4 4 3", "-4 0 4 3", "0 -3 4 3"], ".... " * 4)
        for box, rows in images.items():
            told_as = {f"bit_blt {SRCCOPY} {box} 0 0 {TWELVE}": rows}
            told_as |= {stretched(TWELVE, box, "0 0 4 3", name): rows for name in STRETCHES}
            self.check_images(program, told_as)
        # Each column and row is three pixels wide, and the middle ones meet the surface.
        images = {stretched(TWELVE, "-4 -3 12 9", "0 0 4 3"): "mmoo mmoo mmoo dd##"}
        self.check_images(program, images)

    @for_each_program
    def test_boxes_of_no_pixel(self, program):
        for box in ("1 1 0 2", "1 1 2 0", "1 1 0 0", "2 2 0 -1"):
            told_as = {f"pat_blt {BLACKNESS} {box}": ".... " * 4}
            told_as |= {stretched(TWELVE, box, "0 0 4 3", name): ".... " * 4 for name in STRETCHES}
            self.check_images(program, told_as)
        # On half as many pixels as the page has units a box may lie between two of them. The middle
        # of four columns is in the third, and of three rows in the second.
        images = {
            stretched(TWELVE, "0 0 1 1", "0 0 4 3"): ".. ..",
            stretched(TWELVE, "2 1 1 2", "0 0 4 3"): ".. ..",
            stretched(TWELVE, "1 1 1 1", "0 0 4 3"): "o. ..",
            stretched(TWELVE, "3 3 1 1", "0 0 4 3"): ".. .o",
            stretched(TWELVE, "1 1 4 4", "0 0 4 3"): "gy d.",
        }
        self.check_images(program, images, frame=4)

    @for_each_program
    def test_boxes_on_surfaces_of_other_sizes(self, program):
        script = stretched(QUAD, "1 1 2 2", "0 0 2 2")
        rows = "........ ........ ..bb.... ..bb.... ..rrgg.. ..rrgg.. ........ ........"
        self.check_images(program, {script: rows}, frame=4)
        # Corners are placed, and not sides: (1,1) and (3,3) of 4 lie at 0 and 2 of 3.
        self.check_images(program, {script: "b.. rg. ..."}, frame=4)

    @for_each_program
    def test_ends_past_two_bytes(self, program):
        # Neither end is taken for one that lies 65,536 nearer.
        images = {
            f"pat_blt {BLACKNESS} 32767 0 32767 4": ".... " * 4,
            f"pat_blt {BLACKNESS} 1 0 32767 4": ".### " * 4,
            f"pat_blt {BLACKNESS} 0 1 4 32767": ".... #### #### ####",
            f"pat_blt {BLACKNESS} -2 -2 -32767 -32767": ".... " * 4,
            f"pat_blt {BLACKNESS} 3 3 -32768 -32768": "###. ###. ###. ....",
        }
        self.check_images(program, images)


if __name__ == "__main__":
    unittest.main()
