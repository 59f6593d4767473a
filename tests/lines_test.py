"""Lines ([MS-WMF] 2.3.3.10 and 2.3.3.14, [MS-EMF] 2.3.5) in the built programs.

A line has one pixel for each step along its longer axis, its first point's and not its last one's.
On the other axis it is the pixel nearest to the line, and of two as near the one farther down, or
to the right.
"""

import unittest

from answers import shown
from built import for_each_program
from metafile.fields import BLACK
from metafile.scripts import EMF, FORMS
from shape_pictures import INVERT, ShapeTest, marked, side_by_side

NOTHING = ".... .... .... ...."

# From the middle to sixteen points round it, clockwise from the right: `f` marks the pixel of the
# line to the point alone, `r` that of the line back alone, and `#` those of both.
ENDS = [(8, 4), (8, 6), (8, 8), (6, 8), (4, 8), (2, 8), (0, 8), (0, 6)]
ENDS += [(0, 4), (0, 2), (0, 0), (2, 0), (4, 0), (6, 0), (8, 0), (8, 2)]

DIRECTIONS = [
    *side_by_side("""
        .........  .........  .........  .........
        .........  .........  .........  .........
        .........  .........  .........  .........
        .........  .........  .........  .........
        ....f###r  ....f....  ....f....  ....f....
        .........  .....##..  .....#...  .....#...
        .........  .......#r  ......#..  .....#...
        .........  .........  .......#.  ......#..
        .........  .........  ........r  ......r..
    """),
    *side_by_side("""
        .........  .........  .........  .........
        .........  .........  .........  .........
        .........  .........  .........  .........
        .........  .........  .........  .........
        ....f....  ....f....  ....f....  ....f....
        ....#....  ....#....  ...#.....  ..##.....
        ....#....  ...#.....  ..#......  r#.......
        ....#....  ...#.....  .#.......  .........
        ....r....  ..r......  r........  .........
    """),
    *side_by_side("""
        .........  .........  r........  ..r......
        .........  .........  .#.......  ...#.....
        .........  r........  ..#......  ...#.....
        .........  .##......  ...#.....  ....#....
        r###f....  ...#f....  ....f....  ....f....
        .........  .........  .........  .........
        .........  .........  .........  .........
        .........  .........  .........  .........
        .........  .........  .........  .........
    """),
    *side_by_side("""
        ....r....  ......r..  ........r  .........
        ....#....  ......#..  .......#.  .........
        ....#....  .....#...  ......#..  ........r
        ....#....  .....#...  .....#...  ......##.
        ....f....  ....f....  ....f....  ....f#...
        .........  .........  .........  .........
        .........  .........  .........  .........
        .........  .........  .........  .........
        .........  .........  .........  .........
    """),
]


class Directions(ShapeTest):
    """Lines of all directions, there and back."""

    @for_each_program
    def test_sixteen_directions_and_each_reversed(self, program):
        for (x, y), rows in zip(ENDS, DIRECTIONS, strict=True):
            there, back = marked(rows, "f#"), marked(rows, "#r")
            self.check_drawings(
                program,
                {
                    f"move 4 4; line {x} {y}": there,
                    f"move {x} {y}; line 4 4": back,
                    f"polyline 4 4 {x} {y}": there,
                    f"polyline {x} {y} 4 4": back,
                },
            )

    @for_each_program
    def test_lengths_of_0_1_and_2(self, program):
        for start, end, rows in [
            ("1 1", "1 1", NOTHING),
            ("1 1", "2 1", ".... .#.. .... ...."),
            ("1 1", "3 1", ".... .##. .... ...."),
            ("2 1", "1 1", ".... ..#. .... ...."),
            ("3 1", "1 1", ".... ..## .... ...."),
            ("1 1", "1 2", ".... .#.. .... ...."),
            ("1 1", "1 3", ".... .#.. .#.. ...."),
            ("1 2", "1 1", ".... .... .#.. ...."),
            ("1 3", "1 1", ".... .... .#.. .#.."),
            ("1 1", "2 2", ".... .#.. .... ...."),
            ("2 2", "1 1", ".... .... ..#. ...."),
            ("1 2", "2 1", ".... .... .#.. ...."),
            ("2 1", "1 2", ".... ..#. .... ...."),
        ]:
            script = f"move {start}; line {end}"
            self.check_drawings(program, {script: rows, f"polyline {start} {end}": rows})


class Positions(ShapeTest):
    """Lines from the position, and what sets it."""

    @for_each_program
    def test_each_line_begins_where_the_last_one_ended(self, program):
        ring = "#### #..# #..# ####"
        self.check_drawings(
            program,
            {
                "move 0 0; line 3 0; line 3 3": "#### ...# ...# ....",
                "move 0 0; line 3 0; line 3 3; line 0 3; line 0 0": ring,
                "line 0 3; line 3 3; line 3 0; line 0 0": ring,
                "line 3 0; move 0 2; line 3 2": "###. .... ###. ....",
                "line 3 0; line 3 0; line 3 1": "#### .... .... ....",
            },
        )

    @for_each_program
    def test_a_null_pen_moves_the_position(self, program):
        tools = "null_pen 0; solid_pen 1 0x000000"
        script = f"{tools}; select 0; line 3 0; select 1; line 3 3"
        self.check_drawings(program, {script: "...# ...# ...# ...."})

    @for_each_program
    def test_other_drawings_leave_the_position(self, program):
        # A line from (1,1) has its first pixel there.
        red = "solid_pen 0 0xFF0000; select 0"
        for drawing in ("polyline 0 0 3 0", "polygon 0 0 3 0", "polygons 0 0 3 0 | 3 3"):
            first = "###." if drawing.startswith("polyline") else "####"
            script = f"move 1 1; {drawing}; {red}; line 3 1"
            self.check_drawings(program, {script: f"{first} .oo. .... ...."})
        script = f"move 1 1; pixel 0 0; {red}; line 3 1"
        self.check_drawings(program, {script: "o... .oo. .... ...."})
        script = "move 1 1; null_brush 0; select 0; rectangle -9 -9 9 9; line 3 1"
        self.check_drawings(program, {script: ".... .##. .... ...."})

    @for_each_program
    def test_the_position_is_saved_and_restored(self, program):
        script = "move 1 1; save; line 3 1; restore -1; line 1 3"
        self.check_drawings(program, {script: ".... .##. .#.. ...."})

    @for_each_program
    def test_the_position_is_a_page_point(self, program):
        # It is placed by the page map of the line's moment, as the line's end is.
        script = "move 1 1; viewport_origin 2 0; line 2 1"
        self.check_drawings(program, {script: "..... ...#. ..... ..... ....."})


class Lists(ShapeTest):
    """Lines by lists of points."""

    @for_each_program
    def test_lists_have_a_line_between_neighbours(self, program):
        self.check_drawings(
            program,
            {
                "polyline": NOTHING,
                "polyline 1 1": NOTHING,
                "polyline 0 0 3 0": "###. .... .... ....",
                "polyline 0 0 3 0 3 3": "#### ...# ...# ....",
                "polyline 0 0 3 0 3 0 3 3": "#### ...# ...# ....",
                "polyline 0 0 3 0 3 3 0 3": "#### ...# ...# .###",
            },
        )

    @for_each_program
    def test_lists_of_emf(self, program):
        for short in ("", "short_"):
            pictures = {
                f"{short}polyline 0 0 3 0 3 3": "#### ...# ...# ....",
                f"{short}polylines": NOTHING,
                f"{short}polylines 0 0 3 0 | 0 2 3 2": "###. .... ###. ....",
                f"{short}polylines | 0 0 3 0 | 1 1 | 0 2 3 2 |": "###. .... ###. ....",
                f"move 1 1; {short}polylines 0 0 3 0 | 0 2; line 3 1": "###. .##. .... ....",
                f"move 0 1; {short}polyline_to 3 1 3 3": ".... #### ...# ....",
                f"move 0 1; {short}polyline_to 3 1; line 3 3": ".... #### ...# ....",
                f"move 0 1; {short}polyline_to 3 1 3 3; line 0 3": ".... #### ...# .###",
                f"move 0 1; {short}polyline_to; line 3 1": ".... ###. .... ....",
                f"move 0 1; {short}polyline_to 0 1; line 3 1": ".... ###. .... ....",
            }
            self.check_drawings(program, pictures, forms=[EMF])

    @for_each_program
    def test_a_pixel_of_several_lines_is_turned_once(self, program):
        # The second line runs back over the first, and has its end besides.
        row = "........ ........ ........ ........ ........ ........ ........"
        pictures = {
            "polyline 0 0 4 0 0 0": f"#####... {row}",
            # Records are apart: all but the ends are turned twice.
            "line 4 0; line 0 0": f"#...#... {row}",
            "polyline 0 0 4 0; polyline 0 0 4 0": f"........ {row}",
            "polyline 0 0 4 0 0 0; polyline 0 0 4 0 0 0": f"........ {row}",
        }
        turned = {f"{INVERT}; {script}": rows for script, rows in pictures.items()}
        self.check_drawings(program, turned)
        turned = {
            f"{INVERT}; polyline_to 4 0 0 0": f"#####... {row}",
            f"{INVERT}; polylines 0 0 4 0 | 0 0 4 0": f"####.... {row}",
            f"{INVERT}; polylines 0 0 4 0 | 4 0 0 0 | 2 0 2 1": f"#####... {row}",
        }
        self.check_drawings(program, turned, forms=[EMF])

    @for_each_program
    def test_lines_that_cross_turn_their_common_pixel_once(self, program):
        rows = "#...# .#.## ..#.# .#.## ....#"
        self.check_drawings(program, {f"{INVERT}; polyline 0 0 4 4 4 0 0 4": rows})


class Marks(ShapeTest):
    """Strokes whose pixels are marked as they are written, where their lines aren't flat."""

    @for_each_program
    def test_a_pixel_of_several_lines_is_turned_once_in_a_large_box(self, program):
        side = 1025
        file = {"frame": side, "surface": (side, side)}
        for right, bottom in (1023, 1023), (1024, 1023), (1023, 1024):
            sides = f"0 0 {right} 0 {right} {bottom} 0 {bottom} 0 0"
            turned = {(x, y) for x in range(right + 1) for y in range(bottom + 1) if x in (0, right) or y in (0, bottom)}
            # The line across begins on the others, and ends before its last point, which the corner has where it is one.
            turned |= {(at, at) for at in range(1023)}
            for form in FORMS:
                self.check(program, form, f"{INVERT}; polyline {sides} 1023 1023", shown(dict.fromkeys(turned, BLACK), side, side), **file)

    @for_each_program
    def test_a_pixel_of_several_flat_lines_is_turned_once(self, program):
        rows = "######## ........ ######## ........ ........ ........ ........ ........"
        self.check_drawings(program, {f"{INVERT}; polyline 0 0 7 0 0 0; polyline 0 2 7 2 1 2 6 2": rows})

    @for_each_program
    def test_marks_of_the_stroke_before_are_gone(self, program):
        rows = "#....... #....... #....... ........ ........ ........ ........ ........"
        self.check_drawings(program, {f"{INVERT}; polyline 0 0 4 0 0 0; polyline 1 0 4 0 5 0; polyline 0 1 0 2 0 1": rows})


class FarLines(ShapeTest):
    """Lines that begin or end beside the surface, or far from it."""

    @for_each_program
    def test_lines_beside_the_surface(self, program):
        for points in ("-1 -9 -1 9", "4 -9 4 9", "-9 -1 9 -1", "-9 4 9 4", "-9 2 3 -9", "5 9 9 5"):
            self.check_drawings(program, {f"polyline {points}": NOTHING})

    @for_each_program
    def test_the_steps_are_those_of_the_whole_line(self, program):
        # Each second step goes down, or to the right, the first one included.
        pictures = {
            "move -3 -1; line 5 3": "...... ##.... ..##.. ....#. ...... ......",
            "move -1 -3; line 4 7": ".#.... .#.... ..#... ..#... ...#.. ...#..",
            "move -9 -9; line 9 9": "#... .#.. ..#. ...#",
            "move 9 -6; line -9 12": "...# ..#. .#.. #...",
        }
        self.check_drawings(program, pictures)

    @for_each_program
    def test_lines_from_end_to_end_of_two_bytes(self, program):
        # Over 60,000 steps the line goes down by one, in their middle, at 3.
        across = "###..... ...##### ........ ........ ........ ........ ........ ........"
        down = "#....... #....... #....... .#...... .#...... .#...... .#...... .#......"
        self.check_drawings(
            program,
            {
                "polyline -29997 0 30003 1": across,
                "polyline 30003 1 -29997 0": across,
                "polyline 0 -29997 1 30003": down,
                "polyline 1 30003 0 -29997": down,
                "polyline -32768 -32768 32767 32767": "#... .#.. ..#. ...#",
                "polyline -32768 2 32767 2": ".... .... #### ....",
                "polyline 1 32767 1 -32768": ".#.. .#.. .#.. .#..",
                "polyline -32768 2 0 2": NOTHING,
                "polyline 0 2 -32768 2": ".... .... #... ....",
            },
        )

    @for_each_program
    def test_lines_from_end_to_end_of_the_surface_s_coordinates(self, program):
        low, high = -(1 << 28), 1 << 28
        # Over 2^29 - 6 steps, with their middle at 3.
        across = "###..... ...##### ........ ........ ........ ........ ........ ........"
        down = "#....... #....... #....... .#...... .#...... .#...... .#...... .#......"
        self.check_drawings(
            program,
            {
                f"move {low + 6} 0; line {high} 1": across,
                f"move {high} 1; line {low + 6} 0": across,
                f"move 0 {low + 6}; line 1 {high}": down,
                f"move 1 {high}; line 0 {low + 6}": down,
                f"move {low} {low}; line {high} {high}": "#... .#.. ..#. ...#",
                f"move {high} {low}; line {low} {high}": "#... .... .... ....",
                f"polyline {low} 1 {high} 1": ".... #### .... ....",
            },
            forms=[EMF],
        )

    @for_each_program
    def test_ends_off_the_plane(self, program):
        high = (1 << 28) + 1
        for script in (
            f"line {high} 0",
            f"line 0 {-high}",
            f"move {high} 0; line 0 0",
            f"move 0 {-high}; line 0 0",
            f"move 0 {-high}; null_pen 0; select 0; line 0 0",
            f"polyline {high} 0",
            f"polyline 0 0 1 1 {-high} 0",
            f"polylines 0 0 | 1 1 0 {high} | 2 2",
            f"polyline_to 1 1 0 {high}",
            f"move {high} 0; polyline_to 1 1",
        ):
            self.check_cases(program, EMF, [(script, "OffPlane")])
        # Without a point the position isn't looked at.
        for script in (f"move {high} 0; polyline_to", f"move {high} 0; polyline 0 0"):
            self.check_cases(program, EMF, [(script, None)])
        far = "map_mode 8; window_extent 1 1; viewport_extent 16384 16384"
        for form in FORMS:
            self.check_cases(program, form, [(f"{far}; line 16385 0", "OffPlane")])
            self.check_cases(program, form, [(f"{far}; polyline 0 -1 0 -16384", None)])


if __name__ == "__main__":
    unittest.main()
