"""Brushes whose pattern is a bitmap ([MS-WMF] 2.3.4.8, [MS-EMF] 2.3.7.4) in the built programs:
tiles from the surface's corner on, in fills and in blits, with all raster operations, and as
objects that are selected, saved and held."""

import unittest

from answers import refused
from bitmap_pictures import INKS, BitmapTest, answer_with, colours, told
from built import for_each_program
from metafile.bitmaps import QUAD, bitmap
from metafile.blits import DSTINVERT, PATCOPY, PATINVERT, SRCCOPY
from metafile.scripts import EMF, FORMS, WMF
from metafile.shapes import rgb_of
from paints_test import OPERATIONS, PAINT, THERE, joined

# A tile of three columns and two rows, and eight by eight pixels of it.
SIX = told("rgb ymc")
EIGHT = "rgbrgbrg ymcymcym " * 4

# What fills all of a frame of 8 by 8 without a stroke.
NO_PEN = "null_pen 0; select 0"
TILED = f"{NO_PEN}; tiled_brush 1 {SIX}; select 1"
POLYGON = "polygon 0 0 8 0 8 8 0 8"
BLIT = f"pat_blt {PATCOPY} 0 0 8 8"


def within(rows, left, top, right, bottom):
    """A picture of what is within a box, its last edges left out, and white beside it."""
    return " ".join(
        "".join(
            mark if left <= x < right and top <= y < bottom else "." for x, mark in enumerate(row)
        )
        for y, row in enumerate(rows.split())
    )


def rectangle(form, left, top, right, bottom):
    """A rectangle of the same pixels in both formats: an EMF's has its last edges too."""
    if form is EMF:
        return f"rectangle {left} {top} {right - 1} {bottom - 1}"
    return f"rectangle {left} {top} {right} {bottom}"


class Tiles(BitmapTest):
    """Where the pixels of a tile are."""

    @for_each_program
    def test_three_columns_and_two_rows(self, program):
        self.assertEqual(EIGHT.split()[:2], ["rgbrgbrg", "ymcymcym"])
        for shape in (POLYGON, BLIT):
            self.check_images(program, {f"{TILED}; {shape}": EIGHT})
        for form in FORMS:
            script = f"{TILED}; {rectangle(form, 0, 0, 8, 8)}"
            self.check_images(program, {script: EIGHT}, [form])

    @for_each_program
    def test_the_file_of_the_rows(self, program):
        script = f"tiled_brush 0 {QUAD}; select 0; pat_blt {PATCOPY} 0 0 4 4"
        self.check_images(program, {script: "b.b. rgrg b.b. rgrg"})

    @for_each_program
    def test_rows_that_are_stored_from_either_end(self, program):
        for top_down in (False, True):
            picture = told("rgb ymc", top_down=top_down)
            script = f"tiled_brush 0 {picture}; select 0; {BLIT}"
            self.check_images(program, {script: EIGHT})

    @for_each_program
    def test_tiles_stand_on_the_surface_whatever_is_filled(self, program):
        rows = "........ ........ ..brg... ..cym... ..brg... ........ ........ ........"
        self.assertEqual(within(EIGHT, 2, 2, 5, 5).split(), rows.split())
        for form in FORMS:
            # The page and the clip have no part in it.
            scripts = [
                rectangle(form, 2, 2, 5, 5),
                f"viewport_origin 2 1; {rectangle(form, 0, 1, 3, 4)}",
                f"keep 2 2 5 5; {POLYGON}",
                f"window_origin -1 -1; polygon 1 1 4 1 4 4 1 4",
                f"pat_blt {PATCOPY} 5 5 -3 -3",
            ]
            images = {f"{TILED}; {script}": rows for script in scripts}
            self.check_images(program, images, [form])

    @for_each_program
    def test_tiles_do_not_grow_with_the_surface(self, program):
        # Two units of the page are eight pixels.
        self.check_images(program, {f"{TILED}; pat_blt {PATCOPY} 0 0 2 2": EIGHT}, frame=2)
        # Nor are they turned where the page runs backwards.
        backwards = "map_mode 8; window_extent 8 8; viewport_extent -8 -8; viewport_origin 8 8"
        self.check_images(program, {f"{TILED}; {backwards}; {BLIT}": EIGHT})

    @for_each_program
    def test_tiles_of_other_sides(self, program):
        tiles = {
            "r": "rrrr rrrr rrrr",
            "rg": "rgrg rgrg rgrg",
            "r g": "rrrr gggg rrrr",
            "rgby": "rgby rgby rgby",
            "rgbymcop": "rgby rgby rgby",
            "r g b y m": "rrrr gggg bbbb",
            "rgbym .#cop yyyyy dlbgr": "rgby .#co yyyy",
        }
        for tile, rows in tiles.items():
            for depth in (4, 8, 24, 32):
                script = f"tiled_brush 0 {told(tile, depth)}; select 0; pat_blt {PATCOPY} 0 0 4 4"
                self.check_images(program, {script: rows})

    @for_each_program
    def test_a_tile_that_a_row_of_the_surface_has_many_times(self, program):
        row = "rgbymco" * 20
        script = f"tiled_brush 0 {told('rgbymco')}; select 0; pat_blt {PATCOPY} 3 0 130 1"
        self.check_images(program, {script: "..." + row[3:133] + "." * 7})
        script = f"tiled_brush 0 {told('r g b')}; select 0; pat_blt {PATCOPY} 0 1 1 70"
        self.check_images(program, {script: " ".join("." + "gbr" * 23 + "g" + "..")})

    @for_each_program
    def test_a_tile_wider_than_any_surface(self, program):
        # Of 32,768 columns of one bit those from the eighth on are set in turns.
        info, _ = bitmap([[0] * 32768], 1, table=colours("rb")[0])
        script = f"tiled_brush 0 {info.hex()}:{'00' + 'aa' * 4095}; select 0; pat_blt {PATCOPY}"
        self.check_images(program, {f"{script} 0 0 12 1": "rrrrrrrrbrbr"})

    @for_each_program
    def test_the_background_has_no_part_in_it(self, program):
        for mode in ("back_mode 1", "back_mode 2", "back_colour 0x808080"):
            self.check_images(program, {f"{TILED}; {mode}; {POLYGON}": EIGHT})

    @for_each_program
    def test_strokes_are_the_pen_s(self, program):
        front = f"tiled_brush 0 {SIX}; select 0"
        for form in FORMS:
            script = f"{front}; {rectangle(form, 1, 1, 6, 5)}"
            rows = "........ .#####.. .#brg#.. .#cym#.. .#####.. ........ ........ ........"
            self.check_images(program, {script: rows}, [form])


class Shapes(BitmapTest):
    """What tiles fill."""

    @for_each_program
    def test_polygons_in_both_fill_modes(self, program):
        # A square of eight by eight, and one of four by four within it.
        both = "polygons 0 0 8 0 8 8 0 8 | 2 2 6 2 6 6 2 6"
        hole = "rgbrgbrg ymcymcym rg....rg ym....ym rg....rg ym....ym rgbrgbrg ymcymcym"
        triangle = "rgbrgbr. ymcymc.. rgbrg... ymcy.... rgb..... ym...... r....... ........"
        images = {
            f"{TILED}; fill_mode 1; {both}": hole,
            f"{TILED}; fill_mode 2; {both}": EIGHT,
            f"{TILED}; polygon 0 0 8 0 0 8": triangle,
        }
        self.check_images(program, images)

    @for_each_program
    def test_paths(self, program):
        figures = "polygon 0 0 8 0 8 8 0 8; polygon 2 2 6 2 6 6 2 6"
        hole = "rgbrgbrg ymcymcym rg....rg ym....ym rg....rg ym....ym rgbrgbrg ymcymcym"
        images = {
            f"{TILED}; begin_path; {figures}; end_path; fill_path": hole,
            f"{TILED}; begin_path; {figures}; end_path; stroke_and_fill_path": hole,
            f"{TILED}; begin_path; {figures}; end_path; stroke_path": "........ " * 8,
            f"{TILED}; fill_mode 2; begin_path; {figures}; end_path; fill_path": EIGHT,
        }
        self.check_images(program, images, [EMF])

    def check_operation(self, program, form, shape, number):
        """By one of the binary operations a shape of the left four columns joins two colours by
        turns with a third."""
        operation, there = OPERATIONS[number - 1], rgb_of(THERE)
        other = tuple(operation(p, d) & 0xFF for p, d in zip(rgb_of(OTHER), there, strict=True))
        rows = [[*[joined(operation), other] * 2, *[there] * 4]] * 8
        back = f"{NO_PEN}; solid_brush 1 {THERE}; select 1; {POLYGON}"
        tile = f"tiled_brush 2 {bitmap([[rgb_of(PAINT), rgb_of(OTHER)]], 24)}; select 2"
        script = f"{back}; {tile}; raster {number}; {shape}"
        self.check(program, form, script, answer_with(rows), frame=8, surface=(8, 8))

    @for_each_program
    def test_binary_operations(self, program):
        polygon = "polygon 0 0 4 0 4 8 0 8"
        for number in range(1, 17):
            for form in FORMS:
                for shape in (polygon, rectangle(form, 0, 0, 4, 8), f"keep 0 0 4 9; {POLYGON}"):
                    self.check_operation(program, form, shape, number)
            for painting in ("fill_path", "stroke_and_fill_path"):
                shape = f"begin_path; {polygon}; end_path; {painting}"
                self.check_operation(program, EMF, shape, number)

    @for_each_program
    def test_ternary_operations(self, program):
        # White there is turned by the tile's colours, and all of it where the tile has no say.
        turned = "cmycmycm bgrbgrbg " * 4
        images = {
            f"{TILED}; pat_blt {PATINVERT} 0 0 8 8": turned,
            f"{TILED}; pat_blt {DSTINVERT} 0 0 8 8": "######## " * 8,
            f"{TILED}; {BLIT}; pat_blt {PATINVERT} 0 0 8 8": "######## " * 8,
        }
        copied = f"{TILED}; bit_blt {SRCCOPY} 0 0 2 2 0 0 {QUAD}"
        images[copied] = "b....... rg...... " + "........ " * 6
        self.check_images(program, images)


# Of another colour of a tile each channel has all pairs of bits with what is there.
OTHER = 0xC3695A


# A tile, a tile of other colours, and no pen.
FIRST, SECOND = f"tiled_brush 1 {SIX}; select 1", f"tiled_brush 2 {told('#.')}; select 2"
STRIPES = "#.#.#.#. " * 8


class Objects(BitmapTest):
    """Tiles as objects."""

    @for_each_program
    def test_the_tile_of_the_moment(self, program):
        front = f"{NO_PEN}; {FIRST}"
        images = {
            f"{front}; {POLYGON}; {SECOND}": EIGHT,
            f"{front}; {SECOND}; {POLYGON}": STRIPES,
            f"{front}; {SECOND}; select 1; {POLYGON}": EIGHT,
            f"{front}; solid_brush 2 0xFF0000; select 2; {POLYGON}": "rrrrrrrr " * 8,
            f"{front}; null_brush 2; select 2; {POLYGON}": "........ " * 8,
            f"{front}; solid_pen 2 0xFF0000; select 2; select 0; {POLYGON}": EIGHT,
        }
        self.check_images(program, images)

    @for_each_program
    def test_a_saved_state_holds_a_tile(self, program):
        front = f"{NO_PEN}; {FIRST}; save; {SECOND}"
        images = {
            f"{front}; {POLYGON}": STRIPES,
            f"{front}; restore -1; {POLYGON}": EIGHT,
            f"{front}; restore -1; delete 2; {BLIT}": EIGHT,
            f"{front}; save; select 1; {BLIT}; restore -1; {POLYGON}": STRIPES,
            f"{front}; restore 1; select 2; delete 1; {POLYGON}": STRIPES,
        }
        self.check_images(program, images)
        # Seven records, and then the one that is refused.
        for form in FORMS:
            for script, before in [
                (f"{NO_PEN}; {FIRST}; delete 1", 4),
                (f"{front}; delete 1", 7),
                (f"{front}; delete 2", 7),
                (f"{front}; restore -1; delete 1", 8),
            ]:
                self.check(program, form, script, refused("HeldObject", form.first + before))

    @for_each_program
    def test_an_index_that_is_free_again(self, program):
        # The second tile takes the index of the first, and a deleted tile isn't there.
        again = SECOND.replace("2", "1", 1).replace("select 2", "select 1")
        front = f"{NO_PEN}; tiled_brush 1 {SIX}; delete 1"
        self.check_images(program, {f"{front}; {again}; {POLYGON}": STRIPES})
        for form in FORMS:
            script = f"{front}; select 1"
            self.check(program, form, script, refused("NoSuchHandle", form.first + 4))

    @for_each_program
    def test_a_tile_is_a_brush(self, program):
        for form in FORMS:
            script = f"tiled_brush 0 {SIX}; select_palette 0"
            self.check(program, form, script, refused("WrongKind", form.first + 1))

    @for_each_program
    def test_indexes_of_an_emf(self, program):
        cases = {
            f"tiled_brush -1 {SIX}": ("NoSuchHandle", 1),
            f"tiled_brush 15 {SIX}": ("NoSuchHandle", 1),
            f"tiled_brush 3 {SIX}; tiled_brush 3 {SIX}": ("HandleTaken", 2),
            f"brush 3; tiled_brush 3 {SIX}": ("HandleTaken", 2),
            f"tiled_brush 3 {SIX}; pen 3": ("HandleTaken", 2),
            f"tiled_brush 14 {SIX}; select 13": ("NoSuchHandle", 2),
        }
        for script, (fault, record) in cases.items():
            self.check(program, EMF, script, refused(fault, record))
        script = f"{NO_PEN}; tiled_brush 14 {SIX}; select 14; {BLIT}"
        self.check_images(program, {script: EIGHT}, [EMF])

    @for_each_program
    def test_a_full_table_of_a_wmf(self, program):
        tile = f"tiled_brush 0 {told('r')}"
        script = f"1023x {tile}; tiled_brush 0 {SIX}; select 1023; {BLIT}"
        self.check_images(program, {script: EIGHT}, [WMF])
        self.check(program, WMF, f"1024x {tile}; {tile}", refused("TableFull", 1024))


class Long(BitmapTest):
    """Tiles that are used often."""

    @for_each_program
    def test_many_tiles_one_after_the_other(self, program):
        # Each is made, selected, used for one pixel, and deleted.
        inks = [ink for ink in INKS if ink != "."]
        steps = []
        for place in range(64):
            tile = told(inks[place % len(inks)] * 2)
            box = f"{place % 8} {place // 8} 1 1"
            steps.append(f"save; tiled_brush 0 {tile}; select 0; pat_blt {PATCOPY} {box}")
            steps.append("restore -1; delete 0")
        marks = "".join(inks[place % len(inks)] for place in range(64))
        rows = " ".join(marks[at : at + 8] for at in range(0, 64, 8))
        self.check_images(program, {"; ".join(steps): rows})


if __name__ == "__main__":
    unittest.main()
