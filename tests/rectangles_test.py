"""Rectangles of both formats ([MS-WMF] 2.3.3.17, [MS-EMF] 2.3.5.34) in the built programs.

Their corners are placed and put in order. A WMF's has its first edges and not its last, an EMF's
has its last edges too, so it is never empty. Its rim is the stroke, but a rectangle of one pixel has
no stroke.
"""

import unittest

from built import for_each_program
from metafile.scripts import EMF, FORMS, WMF
from shape_pictures import BLACK_FILL, BLACK_STROKE, BOTH, INVERT, RED_FILL, ShapeTest, marked

NOTHING = "..... ..... ..... ..... ....."

# By their sides across and down, from (1,1).
SIDES = {
    (1, 1): "..... .o... ..... ..... .....",
    (2, 1): "..... .##.. ..... ..... .....",
    (3, 1): "..... .###. ..... ..... .....",
    (1, 2): "..... .#... .#... ..... .....",
    (1, 3): "..... .#... .#... .#... .....",
    (2, 2): "..... .##.. .##.. ..... .....",
    (3, 2): "..... .###. .###. ..... .....",
    (2, 3): "..... .##.. .##.. .##.. .....",
    (3, 3): "..... .###. .#o#. .###. .....",
    (4, 3): "..... .#### .#oo# .#### .....",
    (3, 4): "..... .###. .#o#. .#o#. .###.",
    (4, 4): "..... .#### .#oo# .#oo# .####",
}


def told(form, left, top, across, down):
    """The corners of a rectangle by its sides: the last edges of an EMF are within it."""
    inclusive = 1 if form is EMF else 0
    return left, top, left + across - inclusive, top + down - inclusive


def first_rows(front, pictures):
    """Pictures of rectangles behind records, told by their first rows of 4."""
    return {
        f"{front}; rectangle {box}": f"{row} .... .... ...." for box, row in pictures.items()
    }


class Rectangles(ShapeTest):
    """Rectangles where a page unit is a pixel."""

    @for_each_program
    def test_sides_and_corners_in_any_order(self, program):
        for (across, down), rows in SIDES.items():
            for form in FORMS:
                left, top, right, bottom = told(form, 1, 1, across, down)
                for box in {
                    (left, top, right, bottom),
                    (right, top, left, bottom),
                    (left, bottom, right, top),
                    (right, bottom, left, top),
                }:
                    script = "rectangle {} {} {} {}".format(*box)
                    self.check_drawings(program, {f"{BOTH}; {script}": rows}, forms=[form])

    @for_each_program
    def test_each_layer_alone(self, program):
        for sides in [(1, 1), (3, 1), (2, 2), (4, 3)]:
            rows = SIDES[sides]
            for form in FORMS:
                script = "rectangle {} {} {} {}".format(*told(form, 1, 1, *sides))
                filled = marked(rows, "#o")
                pictures = {
                    f"{BLACK_FILL}; {script}": filled,
                    f"{RED_FILL}; {script}": filled.replace("#", "o"),
                    f"{BLACK_STROKE}; {script}": marked(rows, "#"),
                    f"{BLACK_STROKE}; null_pen 1; select 1; {script}": NOTHING,
                    # The fill turns all pixels, and the stroke those of the rim back, each once.
                    f"{INVERT}; {script}": marked(rows, "o"),
                    f"{INVERT}; {BLACK_STROKE}; {script}": marked(rows, "#"),
                }
                self.check_drawings(program, pictures, forms=[form])

    @for_each_program
    def test_a_wmf_s_without_a_side_has_no_pixel(self, program):
        for box in ("1 1 1 1", "1 1 1 4", "1 1 4 1", "4 4 4 1", "-9 2 9 2", "2 -9 2 9"):
            self.check_drawings(program, {f"{BOTH}; rectangle {box}": NOTHING}, forms=[WMF])

    @for_each_program
    def test_an_emf_s_has_its_last_edges(self, program):
        self.check_drawings(
            program,
            {
                f"{BOTH}; rectangle 0 0 3 3": "#### #oo# #oo# ####",
                f"{BOTH}; rectangle 1 2 1 2": ".... .... .o.. ....",
                f"{BOTH}; rectangle 0 2 3 2": ".... .... #### ....",
                f"{BOTH}; rectangle 2 3 2 0": "..#. ..#. ..#. ..#.",
            },
            forms=[EMF],
        )

    @for_each_program
    def test_the_fill_mode_does_not_count(self, program):
        for mode in (1, 2):
            for form in FORMS:
                script = "rectangle {} {} {} {}".format(*told(form, 1, 1, 4, 3))
                rows = SIDES[4, 3]
                self.check_drawings(program, {f"fill_mode {mode}; {BOTH}; {script}": rows}, [form])


class Beside(ShapeTest):
    """Rectangles that reach beyond the surface, or lie beside it."""

    @for_each_program
    def test_partly_off_each_side(self, program):
        for (left, top, across, down), rows in {
            (-2, -2, 4, 4): "o#.. ##.. .... ....",
            (2, -2, 4, 4): "..#o ..## .... ....",
            (-2, 2, 4, 4): ".... .... ##.. o#..",
            (2, 2, 4, 4): ".... .... ..## ..#o",
            (-2, 1, 9, 2): ".... #### #### ....",
            (-2, 1, 9, 3): ".... #### oooo ####",
            (1, -2, 3, 9): ".#o# .#o# .#o# .#o#",
            (-1, -1, 6, 6): "oooo oooo oooo oooo",
            (0, 0, 4, 4): "#### #oo# #oo# ####",
            (-1, -1, 1, 1): ".... .... .... ....",
            (-1, 0, 1, 4): ".... .... .... ....",
            (4, 0, 2, 4): ".... .... .... ....",
            (0, -3, 4, 3): ".... .... .... ....",
            (0, 4, 4, 3): ".... .... .... ....",
            (-9, -9, 3, 3): ".... .... .... ....",
        }.items():
            for form in FORMS:
                script = "rectangle {} {} {} {}".format(*told(form, left, top, across, down))
                self.check_drawings(program, {f"{BOTH}; {script}": rows}, forms=[form])

    @for_each_program
    def test_corners_at_the_ends_of_their_numbers(self, program):
        pictures = {
            "rectangle -32768 -32768 32767 32767": "oooo oooo oooo oooo",
            "rectangle 32767 32767 -32768 -32768": "oooo oooo oooo oooo",
            "rectangle 1 -32768 32767 32767": ".#oo .#oo .#oo .#oo",
            "rectangle -32768 2 32767 32767": ".... .... #### oooo",
        }
        self.check_drawings(program, {f"{BOTH}; {step}": rows for step, rows in pictures.items()})
        end = 1 << 28
        pictures = {
            f"rectangle {-end} {-end} {end} {end}": "oooo oooo oooo oooo",
            f"rectangle 1 2 {end} {end}": ".... .... .### .#oo",
            f"rectangle {-end} {-end} 1 2": "o#.. o#.. ##.. ....",
        }
        pictures = {f"{BOTH}; {step}": rows for step, rows in pictures.items()}
        self.check_drawings(program, pictures, forms=[EMF])

    @for_each_program
    def test_corners_off_the_plane(self, program):
        # They are looked at before the last edges are made part of the rectangle.
        end = 1 << 28
        # A clip without a pixel hides what is accepted.
        hidden = "cut 0 0 16 16"
        cases = [(f"{hidden}; rectangle 0 0 {end} {end}", None)]
        cases += [(f"{hidden}; rectangle {-end} {-end} 0 0", None)]
        unseen = "null_pen 0; null_brush 1; select 0; select 1"
        for box in ("{} 0 0 0", "0 {} 0 0", "0 0 {} 0", "0 0 0 {}"):
            for far in (end + 1, -end - 1, -0x80000000):
                cases += [(f"{hidden}; rectangle {box.format(far)}", "OffPlane")]
            cases += [(f"{unseen}; rectangle {box.format(end + 1)}", "OffPlane")]
        self.check_cases(program, EMF, cases)
        far = "map_mode 8; window_extent 1 1; viewport_extent 16384 16384; cut 0 0 1 1"
        for form in FORMS:
            self.check_cases(program, form, [(f"{far}; rectangle 0 0 16385 1", "OffPlane")])
            self.check_cases(program, form, [(f"{far}; rectangle 1 -16385 0 0", "OffPlane")])
            self.check_cases(program, form, [(f"{far}; rectangle 0 0 16384 -16384", None)])


class Mapped(ShapeTest):
    """Rectangles where a page unit isn't a pixel: their corners are placed before all else."""

    @for_each_program
    def test_a_surface_smaller_than_the_frame(self, program):
        # Corners land on one pixel, or on neighbours.
        for form, pictures in [
            (WMF, {"1 1 2 2": ".", "0 0 3 3": ".", "0 0 4 4": "o", "-1 -1 4 4": "#"}),
            (EMF, {"1 1 2 2": "o", "0 0 3 3": "o", "3 3 4 4": "#", "-1 -1 4 4": "o"}),
            (WMF, {"1 1 3 3": "o. ..", "0 0 2 4": "#. #.", "0 0 1 4": ".. ..", "0 0 4 4": "## ##"}),
            (EMF, {"1 1 3 3": "## ##", "0 0 1 3": "#. #.", "2 2 3 3": ".. .o", "0 0 4 4": "## #o"}),
        ]:
            boxes = {f"{BOTH}; rectangle {box}": rows for box, rows in pictures.items()}
            self.check_drawings(program, boxes, forms=[form], frame=4)

    @for_each_program
    def test_a_surface_larger_than_the_frame(self, program):
        whole = "###... #o#... ###... ...... ...... ......"
        raised = "####.. #oo#.. #oo#.. ####.. ...... ......"
        script = f"{BOTH}; rectangle 0 0 1 1"
        self.check_drawings(program, {script: whole}, forms=[WMF], frame=2)
        self.check_drawings(program, {script: raised}, forms=[EMF], frame=2)

    @for_each_program
    def test_mirrored_page_maps(self, program):
        # A WMF of a frame of 4 begins with extents of 4. Its x lands on 4 - x, an EMF's on 3 - x.
        across = "window_extent -4 4; window_origin 4 0"
        down = "viewport_extent 4 -4; viewport_origin 0 4"
        both = "window_extent -4 -4; window_origin 4 4"
        pictures = {
            f"{across}; {BOTH}; rectangle 0 0 3 2": ".### .### .... ....",
            f"{across}; {BOTH}; rectangle 3 2 0 0": ".### .### .... ....",
            f"{down}; {BOTH}; rectangle 0 0 2 3": ".... ##.. ##.. ##..",
            f"{both}; {BOTH}; rectangle 0 1 3 4": ".### .#o# .### ....",
        }
        self.check_drawings(program, pictures, forms=[WMF])
        across = "map_mode 8; window_extent -1 1; window_origin 3 0"
        down = "map_mode 8; viewport_extent 1 -1; viewport_origin 0 3"
        both = "map_mode 8; window_extent -1 -1; window_origin 3 3"
        pictures = {
            f"{across}; {BOTH}; rectangle 0 0 2 1": ".### .### .... ....",
            f"{across}; {BOTH}; rectangle 2 1 0 0": ".### .### .... ....",
            f"{down}; {BOTH}; rectangle 0 0 1 2": ".... ##.. ##.. ##..",
            f"{both}; {BOTH}; rectangle 0 1 2 3": ".### .#o# .### ....",
        }
        self.check_drawings(program, pictures, forms=[EMF])

    @for_each_program
    def test_corners_are_rounded_down(self, program):
        # Half a pixel for a page unit: -1 and 1 land on -1 and 0, and so on.
        front = f"map_mode 8; window_extent 2 2; viewport_extent 1 1; {BOTH}"
        pictures = {"-1 -1 1 1": "....", "0 0 3 1": "....", "1 1 3 3": "o...", "-1 1 9 3": "####"}
        pictures = first_rows(front, pictures)
        self.check_drawings(program, pictures, forms=[WMF])
        pictures = {"-1 -1 1 1": "#...", "0 0 1 1": "o...", "1 1 3 1": "##..", "-1 1 9 1": "####"}
        pictures = first_rows(front, pictures)
        self.check_drawings(program, pictures, forms=[EMF])


if __name__ == "__main__":
    unittest.main()
