"""Polygons ([MS-WMF] 2.3.3.15 and 2.3.3.16, [MS-EMF] 2.3.5) in the built programs: which pixels
their fills and strokes have; also where they reach beyond the surface, and to the ends of the
plane and of their numbers.

A pixel is filled where the ray from its middle to the left crosses the polygon's edges: an odd
number of them, or a number of downward ones other than that of upward ones. A pixel whose middle
lies on an edge counts as right of it, and an edge has its upper end's row and not its lower end's.
"""

import unittest

from answers import refused
from built import for_each_program
from metafile.scripts import EMF, FORMS, WMF
from shape_pictures import (
    ALTERNATE,
    BLACK_FILL,
    BLACK_STROKE,
    BOTH,
    INVERT,
    WINDING,
    ShapeTest,
    drawing,
    empty,
    marked,
)

TRIANGLE = "0 0 4 0 0 4"

# The fill has 3, 2, 1 and 0 pixels in rows 0 to 3, of which the stroke leaves one.
TRIANGLE_DRAWN = "#### #o.# #.#. ##.."

# Two squares of 4 by 4 that share one of 2 by 2. The second one goes round as the first does, or the
# other way.
SQUARE = "0 0 4 0 4 4 0 4"
SECOND = "2 2 6 2 6 6 2 6"
SECOND_BACK = "2 2 2 6 6 6 6 2"

# A star of five corners; its core lies inside twice.
STAR = "5 0 8 10 0 4 10 4 2 10"

NOTHING = ".... .... .... ...."


class Triangles(ShapeTest):
    """A triangle, its layers, and how its corners are told."""

    @for_each_program
    def test_the_stroke_is_drawn_above_the_fill(self, program):
        self.check_drawings(
            program,
            {
                f"{BOTH}; polygon {TRIANGLE}": TRIANGLE_DRAWN,
                f"polygon {TRIANGLE}": marked(TRIANGLE_DRAWN, "#"),
            },
        )
        # A larger surface shows the corners at (4,0) and (0,4).
        self.check_drawings(
            program, {f"{BOTH}; polygon {TRIANGLE}": "##### #o.#. #.#.. ##... #...."}
        )

    @for_each_program
    def test_a_null_pen_has_no_stroke_and_a_null_brush_no_fill(self, program):
        self.check_drawings(
            program,
            {
                f"{BLACK_FILL}; polygon {TRIANGLE}": "###. ##.. #... ....",
                f"{BLACK_STROKE}; polygon {TRIANGLE}": "#### #..# #.#. ##..",
                f"{BLACK_STROKE}; null_pen 1; select 1; polygon {TRIANGLE}": NOTHING,
            },
        )
        stock = {
            "select_at 0x80000008; select_at 0x80000004": "###. ##.. #... ....",
            "select_at 0x80000005": "#### #..# #.#. ##..",
            "select_at 0x80000005; select_at 0x80000008": NOTHING,
        }
        stock = {f"{front}; polygon {TRIANGLE}": rows for front, rows in stock.items()}
        self.check_drawings(program, stock, forms=[EMF])

    @for_each_program
    def test_pen_and_brush_have_their_own_colours(self, program):
        tools = "solid_pen 0 0x0000FF; solid_brush 1 0xFF0000; select 0; select 1"
        self.check_drawings(program, {f"{tools}; polygon {TRIANGLE}": "bbbb bo.b b.b. bb.."})

    @for_each_program
    def test_fill_and_stroke_each_turn_what_is_there(self, program):
        # The fill is rows of 3, 2 and 1, and the stroke turns its pixels of them back.
        rows = "...# .#.# ..#. ##.."
        self.check_drawings(program, {f"{INVERT}; polygon {TRIANGLE}": rows})

    @for_each_program
    def test_corners_in_any_order_have_the_same_fill(self, program):
        for corners in ("0 0 4 0 0 4", "4 0 0 4 0 0", "0 4 0 0 4 0", "0 4 4 0 0 0", "0 0 0 4 4 0"):
            for mode in (ALTERNATE, WINDING):
                script = f"{mode}; {BLACK_FILL}; polygon {corners}"
                self.check_drawings(program, {script: "###. ##.. #... ...."})

    @for_each_program
    def test_a_list_is_closed_and_may_be_told_closed(self, program):
        stroke = "#### #..# #.#. ##.."
        for points in (TRIANGLE, f"{TRIANGLE} 0 0", f"0 0 0 0 {TRIANGLE} 0 4 0 4"):
            pictures = {
                f"{BLACK_STROKE}; polygon {points}": stroke,
                f"{BLACK_FILL}; polygon {points}": "###. ##.. #... ....",
            }
            self.check_drawings(program, pictures)
        # A line along the same points isn't closed, and has its last pixel left out.
        self.check_drawings(program, {f"polyline {TRIANGLE}": "#### ...# ..#. .#.."})
        self.check_drawings(program, {f"polyline {TRIANGLE} 0 0": stroke})

    @for_each_program
    def test_short_numbers_of_emf(self, program):
        pictures = {
            f"{BOTH}; short_polygon {TRIANGLE}": TRIANGLE_DRAWN,
            f"{BOTH}; short_polygons {TRIANGLE}": TRIANGLE_DRAWN,
            f"{BOTH}; short_polygons -1 -1 0 -1 -1 0 | {TRIANGLE}": TRIANGLE_DRAWN,
        }
        self.check_drawings(program, pictures, forms=[EMF])


STAR_FILL = """
    .......... .......... ....##.... ....##.... .###..###.
    ..#....#.. .......... ...####... ..##..##.. ..#....#..
"""

STAR_WHOLE = """
    .......... .......... ....##.... ....##.... .########.
    ..######.. ...####... ...####... ..##..##.. ..#....#..
"""


class Modes(ShapeTest):
    """The two fill modes, which count edges or add up their ways."""

    @for_each_program
    def test_a_star(self, program):
        self.assertEqual((STAR_FILL.count("#"), STAR_WHOLE.count("#")), (22, 32))
        pictures = {
            f"{ALTERNATE}; {BLACK_FILL}; polygon {STAR}": STAR_FILL,
            f"{WINDING}; {BLACK_FILL}; polygon {STAR}": STAR_WHOLE,
            # An EMF and a WMF begin with the first.
            f"{BLACK_FILL}; polygon {STAR}": STAR_FILL,
            # The fill has the mode of its moment.
            f"{WINDING}; {BLACK_FILL}; polygon {STAR}; {ALTERNATE}": STAR_WHOLE,
        }
        self.check_drawings(program, pictures)

    @for_each_program
    def test_lists_that_overlap(self, program):
        apart = "####.. ####.. ##..## ##..## ..#### ..####"
        joined = "####.. ####.. ###### ###### ..#### ..####"
        for mode, second, rows in [
            (ALTERNATE, SECOND, apart),
            (ALTERNATE, SECOND_BACK, apart),
            (WINDING, SECOND, joined),
            (WINDING, SECOND_BACK, apart),
        ]:
            front = f"{mode}; {BLACK_FILL}"
            self.check_drawings(
                program,
                {
                    f"{front}; polygons {SQUARE} | {second}": rows,
                    f"{front}; polygons {second} | {SQUARE}": rows,
                    # Each by its own record.
                    f"{front}; polygon {SQUARE}; polygon {second}": joined,
                },
            )

    @for_each_program
    def test_a_list_twice(self, program):
        square = "####.. ####.. ####.. ####.. ...... ......"
        for mode, rows in [(ALTERNATE, empty(square)), (WINDING, square)]:
            front = f"{mode}; {BLACK_FILL}"
            self.check_drawings(
                program,
                {
                    f"{front}; polygons {SQUARE} | {SQUARE}": rows,
                    f"{front}; polygon {SQUARE} {SQUARE}": rows,
                    f"{front}; polygons {SQUARE} | 0 4 4 4 4 0 0 0": empty(square),
                    f"{front}; polygons {SQUARE} | {SQUARE} | 0 4 4 4 4 0 0 0": square,
                },
            )

    @for_each_program
    def test_the_stroke_of_several_lists_is_one_layer(self, program):
        rows = "#####.. #...#.. #.##### #.#.#.# #####.# ..#...# ..#####"
        script = f"polygons {SQUARE} | {SECOND}"
        for mode in (ALTERNATE, WINDING):
            pictures = {
                f"{mode}; {BLACK_STROKE}; {script}": rows,
                # Where strokes meet, a pixel is turned once.
                f"{mode}; {BLACK_STROKE}; {INVERT}; {script}": rows,
            }
            self.check_drawings(program, pictures)


class FewPoints(ShapeTest):
    """Lists of no point, one and two, and no lists."""

    @for_each_program
    def test_lists_without_a_pixel(self, program):
        pictures = {"polygon": NOTHING, "polygon 1 1": NOTHING, "polygon 1 1 1 1 1 1": NOTHING}
        pictures |= {"polygons": NOTHING, "polygons |": NOTHING, "polygons 1 1 | 2 2": NOTHING}
        self.check_drawings(
            program, {f"{BOTH}; {script}": rows for script, rows in pictures.items()}
        )

    @for_each_program
    def test_two_points_have_a_line_there_and_back(self, program):
        for mode in (ALTERNATE, WINDING):
            self.check_drawings(
                program,
                {
                    f"{mode}; {BOTH}; polygon 0 1 3 1": ".... #### .... ....",
                    f"{mode}; {BOTH}; polygon 3 1 0 1": ".... #### .... ....",
                    f"{mode}; {BOTH}; polygon 1 3 1 1": ".... .#.. .#.. .#..",
                    f"{mode}; {BOTH}; polygon 3 3 1 1": ".... .#.. ..#. ...#",
                    f"{mode}; {BLACK_FILL}; polygon 3 3 1 1": NOTHING,
                    f"{mode}; {INVERT}; polygon 3 1 0 1": ".... #### .... ....",
                },
            )

    @for_each_program
    def test_empty_lists_among_others_add_nothing(self, program):
        for lists in (f"| {TRIANGLE}", f"{TRIANGLE} |", f"| | {TRIANGLE} | 3 3 |"):
            self.check_drawings(program, {f"{BOTH}; polygons {lists}": TRIANGLE_DRAWN})
        # More counts of 0 than are looked at together: of two bytes in WMF, of four in EMF.
        for count in range(3, 19):
            empty_lists = "| " * count
            for lists in (f"{empty_lists}{TRIANGLE}", f"3 3 | {empty_lists}{TRIANGLE} | {empty_lists}"):
                self.check_drawings(program, {f"{BOTH}; polygons {lists}": TRIANGLE_DRAWN})
        # The lists aren't one: there is no line between them.
        pictures = {f"{BOTH}; polygons 0 0 3 0 | 0 2 3 2": "#### .... #### ...."}
        self.check_drawings(program, pictures)


def upright(column, top, bottom, is_down):
    """A rectangle whose left side is a line down or up on the left of a column, and whose right side is beyond the surface."""
    left, right = [(column, top), (column, bottom)], [(100, bottom), (100, top)]
    corners = left + right if is_down else left[::-1] + right[::-1]
    return " ".join(f"{x} {y}" for x, y in corners)


# Columns 5, 2, 7, 0, 4, 1, 6 and 3 each have a line through rows 0 to 11: downwards on the even columns, upwards on the others. Column 3 has 91
# more downwards in rows 0 to 3, and column 5 has 91 more upwards in rows 8 to 11.
MANY = " | ".join(
    [
        *[upright(3, 0, 4, True)] * 91,
        *[upright(column, 0, 12, column % 2 == 0) for column in (5, 2, 7, 0)],
        *[upright(5, 8, 12, False)] * 91,
        *[upright(column, 0, 12, column % 2 == 0) for column in (4, 1, 6, 3)],
    ]
)

# Rows 0 to 3, 4 to 7 and 8 to 11 by each rule. By the first, a pixel is inside if an odd number of lines is to its left. By the second, if the
# number of lines to its left that run downwards differs from the number of those that run upwards.
MANY_DRAWN = {
    ALTERNATE: ("#.##.#.#####", "#.#.#.#.....", "#.#.##.#####"),
    WINDING: ("#.##########", "#.#.#.#.....", "#.#.########"),
}


class ManyEdges(ShapeTest):
    """Rows with many more edges than columns, then rows with few, and then rows with many again."""

    @for_each_program
    def test_rows_of_many_edges_and_of_few_follow_each_other(self, program):
        for mode, parts in MANY_DRAWN.items():
            rows = " ".join(part for part in parts for _ in range(4))
            self.check_drawings(program, {f"{mode}; {BLACK_FILL}; polygons {MANY}": rows})
            inside = " ".join("..%s......" % part[2:6] for part in parts for _ in range(4))
            self.check_drawings(program, {f"{mode}; {BLACK_FILL}; keep 2 0 6 12; polygons {MANY}": inside})


# The farthest that the surface's coordinates go, and those of the plane.
END = 1 << 28
PLANE_END = 1 << 30


class Beside(ShapeTest):
    """Polygons that reach beyond the surface, or lie beside it."""

    @for_each_program
    def test_partly_off_each_side(self, program):
        pictures = {
            "-2 -2 2 -2 2 2 -2 2": "oo#. oo#. ###. ....",
            "2 -2 6 -2 6 2 2 2": "..#o ..#o ..## ....",
            "-2 2 2 2 2 6 -2 6": ".... .... ###. oo#.",
            "2 2 6 2 6 6 2 6": ".... .... ..## ..#o",
            "-5 -5 9 -5 9 9 -5 9": "oooo oooo oooo oooo",
            # Slanted edges: of the rim of the first, (0,0) alone is on the surface.
            "2 -2 6 2 2 6 -2 2": "#ooo oooo oooo oooo",
            "-3 1 1 -3 1 1": "o#.. ##.. .... ....",
        }
        pictures = {f"{BOTH}; polygon {it}": rows for it, rows in pictures.items()}
        self.check_drawings(program, pictures)

    @for_each_program
    def test_wholly_off_each_side(self, program):
        for x, y in [(-5, 0), (4, 0), (0, -5), (0, 4), (-5, -5), (4, -5), (-5, 4), (4, 4)]:
            corners = [(x, y), (x + 4, y), (x + 4, y + 4), (x, y + 4)]
            script = "polygon " + " ".join(f"{x} {y}" for x, y in corners)
            self.check_drawings(program, {f"{BOTH}; {script}": NOTHING})

    @for_each_program
    def test_corners_at_the_ends_of_two_bytes(self, program):
        low, high = -32768, 32767
        pictures = {
            f"polygon {low} {low} {high} {low} {high} {high} {low} {high}": "oooo oooo oooo oooo",
            f"polygon {low} {low} {high} {high} {low} {high}": "#... o#.. oo#. ooo#",
            f"polygon {high} {high} {low} {low} {high} {low}": "#ooo .#oo ..#o ...#",
        }
        self.check_drawings(program, {f"{BOTH}; {it}": rows for it, rows in pictures.items()})
        # The whole page on the frame.
        script = f"window_extent {high} {high}; {BOTH}; polygon 0 0 {high} 0 0 {high}"
        self.check_drawings(program, {script: TRIANGLE_DRAWN}, forms=[WMF])

    @for_each_program
    def test_corners_at_the_ends_of_the_surface_s_coordinates(self, program):
        square = f"{-END} {-END} {END} {-END} {END} {END} {-END} {END}"
        pictures = {
            f"polygon {square}": "oooo oooo oooo oooo",
            f"polygon {-END} {-END} {END} {END} {-END} {END}": "#... o#.. oo#. ooo#",
            f"polygon {END} {END} {-END} {-END} {END} {-END}": "#ooo .#oo ..#o ...#",
            # In the first mode the inner square is no part of the fill.
            f"{WINDING}; polygons {square} | 1 1 3 1 3 3 1 3": "oooo o### o#o# o###",
            f"{ALTERNATE}; polygons {square} | 1 1 3 1 3 3 1 3": "oooo o### o#.# o###",
        }
        pictures = {f"{BOTH}; {it}": rows for it, rows in pictures.items()}
        self.check_drawings(program, pictures, forms=[EMF])

    @for_each_program
    def test_corners_at_the_ends_of_four_bytes(self, program):
        # The largest number lands on 4, and the least on -5.
        low, high = -(1 << 31), (1 << 31) - 1
        front = f"map_mode 8; window_extent {high} {high}; viewport_extent 4 4; {BOTH}"
        square = f"{low} {low} {high} {low} {high} {high} {low} {high}"
        pictures = {
            f"{front}; polygon 0 0 {high} 0 0 {high}": TRIANGLE_DRAWN,
            f"{front}; polygon {square}": "oooo# oooo# oooo# oooo# #####",
        }
        self.check_drawings(program, pictures, forms=[EMF])

    @for_each_program
    def test_corners_off_the_plane(self, program):
        unseen = "null_pen 0; null_brush 1; select 0; select 1"
        for front in ("", unseen):
            for far in (END + 1, -END - 1, (1 << 31) - 1, -(1 << 31)):
                for points in (f"{far} 0 1 1", f"0 0 1 {far} 2 2", f"0 0 1 1 {far} 3", f"0 {far}"):
                    for lists in (f"polygon {points}", f"polygons | 0 0 1 1 | {points} | 3 3"):
                        self.check_cases(program, EMF, [(f"{front}; {lists}", "OffPlane")])
        far = "map_mode 8; window_extent 1 1; viewport_extent 16384 16384"
        for form in FORMS:
            for points in ("16385 0", "0 0 1 -16385"):
                self.check_cases(program, form, [(f"{far}; polygon {points}", "OffPlane")])

    @for_each_program
    def test_corners_as_far_as_the_plane_goes(self, program):
        # A surface of one pixel, of which a frame of 16 units is the side.
        for far, wanted in [
            (PLANE_END, drawing("#")),
            (-PLANE_END, drawing("#")),
            (PLANE_END + 1, refused("OffPlane", 1)),
            (-PLANE_END - 1, refused("OffPlane", 1)),
        ]:
            script = f"polygon 0 0 {far} 0"
            self.check(program, EMF, script, wanted, surface=(1, 1))


if __name__ == "__main__":
    unittest.main()
