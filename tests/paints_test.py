"""What brushes paint, and how paint joins what is there ([MS-WMF] 2.1.1.2, 2.1.1.12 and 2.1.1.20),
in the built programs.

A hatch has its cells on the surface, whatever it fills: they come again every eight pixels from the
surface's corner. Between them is the background's colour, or nothing.
"""

import itertools
import unittest

from answers import shown
from built import for_each_program
from metafile.fields import RED
from metafile.scripts import FORMS
from metafile.shapes import rgb_of
from shape_pictures import INVERT, ShapeTest, marked, side_by_side

# The hatches by their numbers: horizontal, vertical, two slanted ones, and a cross of each pair.
# `o` marks their cells, and `b` what is between them.
HATCHES = [
    *side_by_side("""
        oooooooo  obbbbbbb  obbbbbbb
        bbbbbbbb  obbbbbbb  bobbbbbb
        bbbbbbbb  obbbbbbb  bbobbbbb
        bbbbbbbb  obbbbbbb  bbbobbbb
        bbbbbbbb  obbbbbbb  bbbbobbb
        bbbbbbbb  obbbbbbb  bbbbbobb
        bbbbbbbb  obbbbbbb  bbbbbbob
        bbbbbbbb  obbbbbbb  bbbbbbbo
    """),
    *side_by_side("""
        bbbbbbbo  oooooooo  obbbbbbo
        bbbbbbob  obbbbbbb  bobbbbob
        bbbbbobb  obbbbbbb  bbobbobb
        bbbbobbb  obbbbbbb  bbboobbb
        bbbobbbb  obbbbbbb  bbboobbb
        bbobbbbb  obbbbbbb  bbobbobb
        bobbbbbb  obbbbbbb  bobbbbob
        obbbbbbb  obbbbbbb  obbbbbbo
    """),
]

# How many cells each has.
CELLS = [8, 8, 8, 8, 15, 16]

TRANSPARENT, OPAQUE = "back_mode 1", "back_mode 2"

BLUE_BACK = "back_colour 0x0000FF"

WHOLE = "polygon 0 0 64 0 64 64 0 64"


def hatch_fill(hatch):
    """A red hatch and no pen."""
    return f"null_pen 0; select 0; hatched_brush 1 {hatch} 0xFF0000; select 1"


def cells(rows):
    """A picture of its cells alone."""
    return rows.replace("b", ".")


class Hatches(ShapeTest):
    """The six hatches in both background modes."""

    @for_each_program
    def test_each_hatch_in_both_modes(self, program):
        for hatch, (rows, count) in enumerate(zip(HATCHES, CELLS, strict=True)):
            self.assertEqual((rows.count("o"), rows.count("b")), (count, 64 - count))
            front = f"{hatch_fill(hatch)}; {BLUE_BACK}"
            self.check_drawings(
                program,
                {
                    f"{front}; {OPAQUE}; {WHOLE}": rows,
                    f"{front}; {TRANSPARENT}; {WHOLE}": cells(rows),
                    # The modes of its moment, of which the first is opaque and the colour white.
                    f"{front}; {WHOLE}; {TRANSPARENT}": rows,
                    f"{hatch_fill(hatch)}; {WHOLE}; {BLUE_BACK}": cells(rows),
                },
            )

    @for_each_program
    def test_what_is_between_the_cells_is_written_or_stays(self, program):
        for hatch, rows in enumerate(HATCHES):
            before = f"{INVERT}; {WHOLE}; raster 13"
            stays, written = rows.replace("b", "#"), rows
            front = f"null_pen 0; select 0; {before}; hatched_brush 1 {hatch} 0xFF0000; select 1"
            self.check_drawings(
                program,
                {
                    f"{front}; {TRANSPARENT}; {WHOLE}": stays,
                    f"{front}; {OPAQUE}; {BLUE_BACK}; {WHOLE}": written,
                },
            )

    @for_each_program
    def test_an_inverted_hatch_turns_what_it_writes_alone(self, program):
        for hatch, rows in enumerate(HATCHES):
            front = f"{INVERT}; {hatch_fill(hatch)}"
            self.check_drawings(
                program,
                {
                    f"{front}; {TRANSPARENT}; {WHOLE}": marked(rows, "o"),
                    f"{front}; {OPAQUE}; {WHOLE}": marked(rows, "ob"),
                },
            )

    @for_each_program
    def test_cells_stand_on_the_surface_whatever_is_filled(self, program):
        # A box of 11 by 9 from (1,2), by a polygon, and the page moved below it.
        crossed = """
            ............ ............ .bbbbbbbobbb .bbbbbbbobbb .bbbbbbbobbb .bbbbbbbobbb
            .bbbbbbbobbb .bbbbbbbobbb .ooooooooooo .bbbbbbbobbb .bbbbbbbobbb ............
        """
        slanted = """
            ............ ............ .bobbobbbbob .bboobbbbbbo .bboobbbbbbo .bobbobbbbob
            .obbbbobbobb .bbbbbboobbb .bbbbbboobbb .obbbbobbobb .bobbobbbbob ............
        """
        box = "polygon 1 2 12 2 12 11 1 11"
        moved = "viewport_origin -3 -3; polygon 4 5 15 5 15 14 4 14"
        for hatch, rows in [(4, crossed), (5, slanted)]:
            for script in (box, moved):
                front = f"{hatch_fill(hatch)}; {BLUE_BACK}"
                self.check_drawings(
                    program,
                    {
                        f"{front}; {script}": rows,
                        f"{front}; {TRANSPARENT}; {script}": cells(rows),
                    },
                )

    @for_each_program
    def test_boxes_of_each_width_from_each_column(self, program):
        # Eight columns of a hatch are written at a time, and the eight rows of a hatch are made once for a drawing that has so many.
        for high, hatch, mode in itertools.product((3, 9), (1, 3, 5), (OPAQUE, TRANSPARENT)):
            script, picture = [f"{hatch_fill(hatch)}; {BLUE_BACK}; {mode}"], [["."] * 650 for _ in range(650)]
            for width, left in itertools.product(range(1, 66), range(0, 640, 81)):
                top, right = 10 * width - 10, left + width
                script.append(f"polygon {left} {top} {right} {top} {right} {top + high} {left} {top + high}")
                for x, y in itertools.product(range(left, right), range(top, top + high)):
                    picture[y][x] = HATCHES[hatch].split()[y % 8][x % 8]
            rows = " ".join(map("".join, picture))
            self.check_drawings(program, {"; ".join(script): cells(rows) if mode == TRANSPARENT else rows}, forms=FORMS[:1])

    @for_each_program
    def test_the_background_counts_for_hatches_alone(self, program):
        for mode in (TRANSPARENT, OPAQUE):
            front = f"{mode}; {BLUE_BACK}; solid_brush 0 0xFF0000; select 0"
            self.check_drawings(program, {f"{front}; polygon 0 0 4 0 0 4": "#### #o.# #.#. ##.."})


# The raster operations by their numbers, as bits of paint and bits of what is there.
OPERATIONS = [
    lambda p, d: 0,
    lambda p, d: ~(p | d),
    lambda p, d: ~p & d,
    lambda p, d: ~p,
    lambda p, d: p & ~d,
    lambda p, d: ~d,
    lambda p, d: p ^ d,
    lambda p, d: ~(p & d),
    lambda p, d: p & d,
    lambda p, d: ~(p ^ d),
    lambda p, d: d,
    lambda p, d: ~p | d,
    lambda p, d: p,
    lambda p, d: p | ~d,
    lambda p, d: p | d,
    lambda p, d: -1,
]

# Of these two colours each channel has all four pairs of bits.
PAINT, THERE = 0x33CC0F, 0x55A63C

PAIRS = {(0, 0), (0, 1), (1, 0), (1, 1)}

# The sides of surfaces: rows of many pixels, and of few.
SIDES = [(37, 2), (3, 2)]


def joined(operation):
    """The colour that an operation makes of the two."""
    pairs = zip(rgb_of(PAINT), rgb_of(THERE), strict=True)
    return tuple(operation(p, d) & 0xFF for p, d in pairs)


class RasterOperations(ShapeTest):
    """The sixteen raster operations on all pairs of bits."""

    def check_first_row(self, program, script, colour_of):
        """On a surface of one colour, records draw the first row by each operation."""
        back = f"null_pen 0; select 0; solid_brush 1 {THERE}; select 1; {WHOLE}"
        for number, operation in enumerate(OPERATIONS, 1):
            for width, height in SIDES:
                drawn = {(x, y): rgb_of(THERE) for x in range(width) for y in range(height)}
                drawn |= {(x, 0): colour_of(operation) for x in range(width)}
                wanted = shown(drawn, width, height)
                for form in FORMS:
                    file = {"frame": 64, "surface": (width, height)}
                    given = f"{back}; raster {number}; {script}"
                    self.check(program, form, given, wanted, **file)

    def test_each_channel_has_all_pairs_of_bits(self):
        for p, d in zip(rgb_of(PAINT), rgb_of(THERE), strict=True):
            self.assertEqual({(p >> bit & 1, d >> bit & 1) for bit in range(8)}, PAIRS)

    @for_each_program
    def test_of_a_brush(self, program):
        # The frame has 64 units, and the first row ends below 32 of them.
        script = f"solid_brush 2 {PAINT}; select 2; polygon 0 0 64 0 64 32 0 32"
        self.check_first_row(program, script, joined)

    @for_each_program
    def test_of_a_pen(self, program):
        script = f"solid_pen 2 {PAINT}; select 2; polyline 0 0 64 0"
        self.check_first_row(program, script, joined)

    @for_each_program
    def test_of_a_stroke_of_several_lines(self, program):
        tools = f"null_brush 2; solid_pen 3 {PAINT}; select 2; select 3"
        script = f"{tools}; polyline 0 0 64 0 0 0 64 0"
        # The second line begins beside the surface.
        self.check_first_row(program, script, joined)

    @for_each_program
    def test_a_pixel_has_none(self, program):
        for form in FORMS:
            for number in range(1, 17):
                script = f"raster {number}; pixel 1 1"
                wanted = shown({(1, 1): RED}, 4, 4)
                self.check(program, form, script, wanted, frame=4, surface=(4, 4))

    @for_each_program
    def test_the_operation_is_that_of_the_moment(self, program):
        script = f"{INVERT}; polyline 0 0 3 0; raster 16; polyline 0 0 2 0; raster 11"
        self.check_drawings(program, {f"{script}; polyline 0 1 9 1": "..#. .... .... ...."})

    @for_each_program
    def test_pen_and_brush_each_by_its_colour(self, program):
        # Exclusive or: white turns what is there, and black changes nothing.
        front = "raster 7; solid_brush 0 0xFFFFFF; select 0"
        self.check_drawings(program, {f"{front}; polygon 0 0 4 0 0 4": "###. ##.. #... ...."})
        front = "raster 7; solid_pen 0 0xFFFFFF; solid_brush 1 0x000000; select 0; select 1"
        self.check_drawings(program, {f"{front}; polygon 0 0 4 0 0 4": "#### #..# #.#. ##.."})


if __name__ == "__main__":
    unittest.main()
