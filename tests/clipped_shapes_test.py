"""Shapes under a clip in the built programs: a pixel of a fill or a stroke is drawn where it lies in
each kept box and in no cut one, and is the same pixel as without the clip."""

import unittest

from built import for_each_program
from metafile.scripts import EMF, FORMS
from shape_pictures import BLACK_FILL, BLACK_STROKE, BOTH, INVERT, ShapeTest

# The whole surface of 8 by 8, by a polygon.
WHOLE = f"{BLACK_FILL}; polygon 0 0 8 0 8 8 0 8"

# Clips, and what they leave of the surface.
CLIPS = {
    "keep 1 1 7 7; cut 3 2 5 4": """
        ........ .######. .##..##. .##..##. .######. .######. .######. ........
    """,
    "cut 3 2 5 4; keep 1 1 7 7": """
        ........ .######. .##..##. .##..##. .######. .######. .######. ........
    """,
    # Three cuts on one row, two that meet, and two that overlap.
    "cut 1 0 2 8; cut 4 0 5 8; cut 6 3 7 5": """
        #.##.### #.##.### #.##.### #.##.#.# #.##.#.# #.##.### #.##.### #.##.###
    """,
    "cut 2 1 4 7; cut 4 1 6 7": """
        ######## ##....## ##....## ##....## ##....## ##....## ##....## ########
    """,
    "cut 1 1 5 5; cut 3 3 7 7": """
        ######## #....### #....### #......# #......# ###....# ###....# ########
    """,
    # At the edges, of a whole row and a whole column, and of all but one pixel.
    "cut 0 0 1 8; cut 7 0 8 8; cut 0 0 8 1; cut 0 7 8 8": """
        ........ .######. .######. .######. .######. .######. .######. ........
    """,
    "cut 0 3 8 4; cut 5 -9 6 99": """
        #####.## #####.## #####.## ........ #####.## #####.## #####.## #####.##
    """,
    "keep 6 5 7 6": """
        ........ ........ ........ ........ ........ ......#. ........ ........
    """,
    "keep 0 0 5 5; keep 3 2 8 8": """
        ........ ........ ...##... ...##... ...##... ........ ........ ........
    """,
    "keep 0 0 3 8; keep 3 0 8 8": " ........" * 8,
    "cut 2 2 2 6; cut 9 9 12 12": " ########" * 8,
    # Told before a narrower one, the wider cut isn't lost, nor is the last.
    "cut 0 0 4 4; cut 1 1 2 2; cut 7 7 8 8": """
        ....#### ....#### ....#### ....#### ######## ######## ######## #######.
    """,
}

# All sixteen cuts, in four columns and four pairs of rows.
CUTS = [f"cut {x} {y} {x + 1} {y + 2}" for y in range(0, 8, 2) for x in range(1, 8, 2)]


class Fills(ShapeTest):
    """Fills of polygons and rectangles."""

    @for_each_program
    def test_a_clip_lets_parts_of_rows_through(self, program):
        self.check_drawings(program, {f"{clip}; {WHOLE}": rows for clip, rows in CLIPS.items()})
        whole = f"{BLACK_FILL}; rectangle -1 -1 9 9"
        self.check_drawings(program, {f"{clip}; {whole}": rows for clip, rows in CLIPS.items()})

    @for_each_program
    def test_each_pixel_that_is_let_through_is_written_once(self, program):
        turned = {f"{clip}; {INVERT}; {WHOLE}": rows for clip, rows in CLIPS.items()}
        self.check_drawings(program, turned)

    @for_each_program
    def test_sixteen_cuts(self, program):
        self.assertEqual(len(CUTS), 16)
        for cuts in ("; ".join(CUTS), "; ".join(reversed(CUTS))):
            self.check_drawings(program, {f"{cuts}; {WHOLE}": " #.#.#.#." * 8})
        # Without the last one its two pixels are there.
        some = "; ".join(CUTS[:-1])
        rows = " #.#.#.#." * 6 + " #.#.#.##" * 2
        self.check_drawings(program, {f"{some}; {WHOLE}": rows})

    @for_each_program
    def test_a_star_with_a_cut_core(self, program):
        # 32 pixels, of which the cut takes the core's and the kept box the points' ends.
        star = f"fill_mode 2; {BLACK_FILL}; polygon 5 0 8 10 0 4 10 4 2 10"
        script = f"keep 2 1 8 9; cut 4 4 6 8; {star}"
        rows = """
            .......... .......... ....##.... ....##.... ..##..##..
            ..##..##.. ...#..#... ...#..#... ..##..##.. ..........
        """
        self.check_drawings(program, {script: rows})

    @for_each_program
    def test_a_hatch_is_cut_too(self, program):
        hatch = "null_pen 0; select 0; hatched_brush 1 0 0x000000; select 1; back_mode 1"
        script = f"cut 2 0 4 8; cut 6 0 7 8; {hatch}; polygon 0 0 8 0 8 8 0 8"
        self.check_drawings(program, {script: "##..##.#" + " ........" * 7})

    @for_each_program
    def test_the_clip_is_that_of_the_moment(self, program):
        script = f"save; keep 1 1 3 3; restore -1; {WHOLE}"
        self.check_drawings(program, {script: " ########" * 8})
        script = f"save; keep 1 1 3 3; {WHOLE}; restore -1"
        rows = "........ .##..... .##....." + " ........" * 5
        self.check_drawings(program, {script: rows})
        script = f"{WHOLE}; keep 1 1 3 3"
        self.check_drawings(program, {script: " ########" * 8})
        script = f"keep 1 1 3 3; cut 1 1 2 2; unclip; {WHOLE}"
        self.check_drawings(program, {script: " ########" * 8}, forms=[EMF])


class Strokes(ShapeTest):
    """Lines, and strokes of several."""

    @for_each_program
    def test_a_line_keeps_its_pixels(self, program):
        self.check_drawings(
            program,
            {
                "keep 2 0 6 8; cut 3 3 4 4; line 8 8": """
                    ........ ........ ..#..... ........ ....#... .....#.. ........ ........
                """,
                "cut 0 0 3 8; move 8 8; line 0 0": """
                    ........ ........ ........ ...#.... ....#... .....#.. ......#. .......#
                """,
                "cut 2 2 3 3; cut 4 2 6 3; move 0 2; line 8 2": """
                    ........ ........ ##.#..## ........ ........ ........ ........ ........
                """,
                "cut 2 2 3 3; cut 2 4 3 6; move 2 0; line 2 8": """
                    ..#..... ..#..... ........ ..#..... ........ ........ ..#..... ..#.....
                """,
                # Each second step goes down, the first one included, also where it isn't seen.
                "keep 2 0 7 8; cut 4 0 5 8; line 8 4": """
                    ........ ..#..... ...#.... .....##. ........ ........ ........ ........
                """,
            },
        )

    @for_each_program
    def test_lines_that_miss_the_clip(self, program):
        nothing = " ........" * 8
        for clip in ("keep 0 4 8 8", "keep 5 5 5 9", "cut 0 0 8 1", "keep 0 0 8 1; keep 0 1 8 8"):
            self.check_drawings(program, {f"{clip}; line 8 0": nothing})

    @for_each_program
    def test_the_stroke_of_a_polygon(self, program):
        script = f"cut 0 3 8 5; {BLACK_STROKE}; polygon 1 0 6 0 6 7 1 7"
        rows = """
            .######. .#....#. .#....#. ........ ........ .#....#. .#....#. .######.
        """
        self.check_drawings(program, {script: rows, f"{INVERT}; {script}": rows})

    @for_each_program
    def test_fill_and_stroke_are_cut_alike(self, program):
        # A rectangle of 6 by 6, and a polygon with the same rim and fill but for its last edges.
        rows = """
            ........ .##..##. .#o..o#. ........ ........ .#o..o#. .##..##. ........
        """
        clip = "cut 3 0 5 8; cut 0 3 8 5"
        for form in FORMS:
            last = 6 if form is EMF else 7
            script = f"{clip}; {BOTH}; rectangle 1 1 {last} {last}"
            self.check_drawings(program, {script: rows}, forms=[form])
        self.check_drawings(program, {f"{clip}; {BOTH}; polygon 1 1 6 1 6 6 1 6": rows})

    @for_each_program
    def test_lists_of_lines_are_turned_once_where_the_clip_is_cut(self, program):
        # There and back, and across.
        script = f"cut 3 0 4 8; {INVERT}; polyline 0 2 7 2 0 2 0 0 6 7"
        rows = """
            #....... ##...... ###.#### ........ ........ ....#... .....#.. ........
        """
        self.check_drawings(program, {script: rows})


class Placed(ShapeTest):
    """Clips on a surface of another size than the frame's: corners of clip and shape are placed,
    and then compared."""

    @for_each_program
    def test_a_surface_smaller_than_the_frame(self, program):
        # Of 16 units a side, two are a pixel.
        front = "keep 3 3 13 13; cut 6 7 9 11"
        rows = "........ .#####.. .#####.. .##.##.. .##.##.. .#####.. ........ ........"
        script = f"{front}; {BLACK_FILL}; polygon 0 0 16 0 16 16 0 16"
        self.check_drawings(program, {script: rows}, frame=16)

    @for_each_program
    def test_a_surface_larger_than_the_frame(self, program):
        # Of 4 units a side, each is two pixels.
        front = "keep 1 0 4 4; cut 2 1 3 2"
        rows = "..###### ..###### ..##..## ..##..##" + " ..######" * 4
        script = f"{front}; {BLACK_FILL}; polygon 0 0 4 0 4 4 0 4"
        self.check_drawings(program, {script: rows}, frame=4)


if __name__ == "__main__":
    unittest.main()
