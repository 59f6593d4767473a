"""Paths of EMF ([MS-EMF] 2.3.10) in the built programs: the figures that lines, polygons and
rectangles add to an open path, and what is painted of them.

Pictures have a red fill and a black stroke. A line has its first pixel and not its last, so a
figure of one line shows whether it is closed: only then it has that pixel too, on the way back.
"""

import unittest

from built import for_each_program
from metafile.scripts import EMF
from shape_pictures import ALTERNATE, BOTH, INVERT, WINDING, ShapeTest, empty

NOTHING = ".... .... .... ...."

# The lines of a triangle of (0,0), (4,0) and (0,4). Its fill has 3, 2, 1 and 0 pixels in rows 0 to
# 3; closed, its stroke has 4 pixels in row 0 and 2 in each of the rows below, and so 10.
TRIANGLE = "move 0 0; line 4 0; line 0 4"
FILLED = "ooo. oo.. o... ...."
STROKED = "#### #..# #.#. ##.."
BOTH_DRAWN = "#### #o.# #.#. ##.."

# Without the line back from (0,4) it has 4 in row 0 and 1 in each row below.
LEFT_OPEN = "#### ...# ..#. .#.."

# Lines along the upper and the right side, left open, and closed by a diagonal from (3,3) to (0,0).
ANGLE = "line 3 0; line 3 3"
ANGLE_OPEN = "#### ...# ...# ...."
ANGLE_CLOSED = "#### .#.# ..## ...#"


def path(records):
    """A path of what records add to it, that isn't painted yet."""
    return f"begin_path; {records}; end_path"


def filled(records):
    """The path, filled."""
    return f"{path(records)}; fill_path"


def stroked(records):
    """The path, stroked."""
    return f"{path(records)}; stroke_path"


def painted(records):
    """The path, filled and then stroked."""
    return f"{path(records)}; stroke_and_fill_path"


class PathTest(ShapeTest):
    """What a program draws with a black pen and a red brush, as pictures."""

    def check_paths(self, program, pictures, **file):
        """Each script draws its picture."""
        with_tools = {f"{BOTH}; {script}": rows for script, rows in pictures.items()}
        self.check_drawings(program, with_tools, forms=[EMF], **file)


class Triangles(PathTest):
    """A triangle, closed and left open."""

    @for_each_program
    def test_a_closed_one_filled_and_stroked(self, program):
        closed = f"{TRIANGLE}; close_figure"
        pictures = {painted(closed): BOTH_DRAWN, filled(closed): FILLED, stroked(closed): STROKED}
        self.check_paths(program, pictures)
        # Each of the fill's 6 pixels and then each of the stroke's 10 is turned once.
        inverted = {f"{INVERT}; {painted(closed)}": "...# .#.# ..#. ##.."}
        self.check_paths(program, inverted)

    @for_each_program
    def test_without_closing_a_stroke_stays_open(self, program):
        self.check_paths(program, {stroked(TRIANGLE): LEFT_OPEN})
        self.check_paths(program, {f"{INVERT}; {stroked(TRIANGLE)}": LEFT_OPEN})

    @for_each_program
    def test_filling_closes_open_figures(self, program):
        self.check_paths(program, {filled(TRIANGLE): FILLED, painted(TRIANGLE): BOTH_DRAWN})
        # Also those that were ended: the same triangle again, four columns to the right. Here the
        # corners at (0,4) and (4,4) are seen, where the lines back begin.
        both = f"{TRIANGLE}; move 4 0; line 8 0; line 4 4"
        pictures = {
            filled(both): ["ooo.ooo.", "oo..oo..", "o...o...", "........", "........"],
            painted(both): ["########", "#o.##o.#", "#.#.#.#.", "##..##..", "#...#..."],
            stroked(both): ["########", "...#...#", "..#...#.", ".#...#..", "........"],
        }
        for script, rows in pictures.items():
            self.check_paths(program, {script: " ".join(rows + ["........"] * 3)})

    @for_each_program
    def test_each_record_that_adds_its_corners(self, program):
        for size in ("", "short_"):
            lists = [f"{size}polygon", f"{size}polygons", f"{size}polyline", f"{size}polylines"]
            for name in lists:
                figure = f"{name} 0 0 4 0 0 4"
                self.check_paths(program, {painted(figure): BOTH_DRAWN, filled(figure): FILLED})
                # Polygons are closed and polylines aren't.
                rows = STROKED if "polygon" in name else LEFT_OPEN
                self.check_paths(program, {stroked(figure): rows})
                self.check_paths(program, {stroked(f"{figure}; close_figure"): STROKED})
            to = f"{size}polyline_to 4 0 0 4"
            self.check_paths(program, {painted(to): BOTH_DRAWN, stroked(to): LEFT_OPEN})

    @for_each_program
    def test_a_surface_smaller_than_the_frame(self, program):
        # The corners are placed at (2,0) and (0,2), and the stroke has all four pixels. Left open
        # it has (0,0) and (1,0), and on the way from (2,0) to (0,2) also (1,1).
        self.check_paths(program, {painted(TRIANGLE): "## ##"}, frame=4)
        self.check_paths(program, {stroked(TRIANGLE): "## .#"}, frame=4)


class GoingOn(PathTest):
    """Lines that go on with an open figure, or begin one at the position."""

    @for_each_program
    def test_from_its_own_last_point(self, program):
        # The position is at (0,0), or elsewhere, and isn't looked at behind a polyline.
        for front in ("", "move 1 3; ", "move 268435457 0; "):
            pictures = {
                stroked(f"{front}polyline 0 0 3 0; line 3 3"): ANGLE_OPEN,
                stroked(f"{front}polyline 0 0 3 0; polyline_to 3 3 0 3"): "#### ...# ...# .###",
                stroked(f"{front}polyline 0 0; polyline_to 3 0; line 3 3"): ANGLE_OPEN,
                stroked(f"{front}short_polyline 0 0 3 0; short_polyline_to 3 3"): ANGLE_OPEN,
            }
            self.check_paths(program, pictures)
        pictures = {stroked("polyline_to 3 0 3 3; line 0 3"): "#### ...# ...# .###"}
        self.check_paths(program, pictures)

    @for_each_program
    def test_a_polyline_s_end_closed(self, program):
        pictures = {
            stroked("polyline 0 0 3 0 3 3; close_figure"): ANGLE_CLOSED,
            stroked("polyline 0 0 3 0; line 3 3; close_figure"): ANGLE_CLOSED,
            stroked("polyline 0 0 3 0; close_figure"): "#### .... .... ....",
            stroked("polyline 0 0 3 0"): "###. .... .... ....",
        }
        self.check_paths(program, pictures)

    @for_each_program
    def test_of_several_polylines_the_last_goes_on(self, program):
        # The last one is the last with a point. Closed behind (2,3) it goes back to (0,2) over
        # (1,3), which is as near as (1,2).
        pictures = {
            "polylines 0 0 2 0 | 0 2 2 2; line 2 3": "##.. .... ###. ....",
            "polylines 0 0 2 0 | 0 2 2 2 |; line 2 3": "##.. .... ###. ....",
            "short_polylines | 0 0 2 0 | | 3 3; line 0 3": "##.. .... .... .###",
            # Only the last is closed, there and back.
            "polylines 0 0 2 0 | 0 2 2 2; close_figure": "##.. .... ###. ....",
            "polylines 0 0 2 0 | 0 2 2 2; line 2 3; close_figure": "##.. .... ###. .##.",
        }
        self.check_paths(program, {stroked(records): rows for records, rows in pictures.items()})

    @for_each_program
    def test_behind_a_closed_figure_one_begins_at_the_position(self, program):
        # A polyline leaves the position where it was, and lines move it along.
        pictures = {
            "polyline 0 0 3 0 3 3; close_figure; line 0 3": "#### ##.# #.## ...#",
            f"{ANGLE}; close_figure; line 0 3": "#### .#.# ..## .###",
            "polygon 0 0 3 0 3 3; line 0 3": "#### ##.# #.## ...#",
            "rectangle 0 0 3 3; line 2 2": "#### ##.# #..# ####",
            "move 1 1; polygons 0 0 3 0 3 3 0 3; polyline_to 3 1": "#### #### #..# ####",
        }
        self.check_paths(program, {stroked(records): rows for records, rows in pictures.items()})

    @for_each_program
    def test_what_sets_the_position(self, program):
        # Behind the path a line begins where lines came to, or a move; other shapes set nothing.
        for records, rows in {
            "line 3 0; line 3 2": "#### ...# ...# ...#",
            "polyline_to 3 0 3 2": "#### ...# ...# ...#",
            "polyline 0 0 3 0 3 2; line 3 2": "#### ...# ...# ...#",
            "line 3 0; move 3 3": "###. .... .... ...#",
        }.items():
            self.check_paths(program, {f"{stroked(records)}; line 3 4": rows})
        for records, rows in {
            "polyline 0 0 3 0": "###. #... #... ....",
            "polygon 0 0 3 0": "#### #... #... ....",
            "rectangle 2 0 3 1": "#.## #.## #... ....",
        }.items():
            self.check_paths(program, {f"{stroked(records)}; line 0 3": rows})

    @for_each_program
    def test_lists_without_a_point_change_nothing(self, program):
        lists = ["polyline", "polygon", "polyline_to", "polylines", "polygons", "polylines | |"]
        lists += ["polygons |", "short_polyline", "short_polygon", "short_polyline_to"]
        lists += ["short_polylines |", "short_polygons | |"]
        for none in lists:
            # The figure isn't ended by it, and stays the one that is closed.
            records = f"line 3 0; {none}; line 3 3; {none}; close_figure"
            self.check_paths(program, {stroked(records): ANGLE_CLOSED})
            self.check_paths(program, {painted(none): NOTHING})
        # Nor do empty lists among others add anything.
        figure = "polygons | 0 0 4 0 0 4 | |"
        self.check_paths(program, {painted(figure): BOTH_DRAWN})


class Ended(PathTest):
    """What ends and closes figures."""

    @for_each_program
    def test_a_move_in_the_middle(self, program):
        pictures = {
            "line 3 0; move 0 2; line 3 2": "###. .... ###. ....",
            # Two sides apart, of which the second alone is closed.
            "line 3 0; move 3 0; line 3 3; close_figure": "#### ...# ...# ...#",
            # What a move ended isn't closed any more, and neither is what was closed.
            f"{ANGLE}; move 0 0; close_figure": ANGLE_OPEN,
            f"{ANGLE}; close_figure; close_figure": ANGLE_CLOSED,
            f"close_figure; {ANGLE}": ANGLE_OPEN,
            "move 1 1; move 2 2": NOTHING,
        }
        self.check_paths(program, {stroked(records): rows for records, rows in pictures.items()})
        # Filled, each is closed by itself: a triangle, and two sides of one that lies beyond.
        records = f"{TRIANGLE}; move 9 9; line 12 9; line 9 12"
        self.check_paths(program, {filled(records): FILLED})

    @for_each_program
    def test_figures_of_their_own_end_the_open_one(self, program):
        # The line isn't closed: (3,0) is left out.
        pictures = {
            "line 3 0; rectangle 1 1 2 2; close_figure": "###. .##. .##. ....",
            "line 3 0; polygon 1 1 2 1 2 2 1 2; close_figure": "###. .##. .##. ....",
            "line 3 0; polygons 1 1 2 1 | 1 2 2 2; close_figure": "###. .##. .##. ....",
            "line 3 0; polyline 1 1 2 1; close_figure": "###. .##. .... ....",
            # What goes on goes on with the newest figure, if that is open.
            "line 3 0; polyline 1 1 2 1; line 2 3": "###. .##. ..#. ....",
            "line 3 0; polylines 1 1 2 1 | 0 2 1 2; line 1 3": "###. .#.. ##.. ....",
            "line 3 0; rectangle 1 1 2 2; line 3 3": "#### .### .### ....",
        }
        self.check_paths(program, {stroked(records): rows for records, rows in pictures.items()})

    @for_each_program
    def test_two_points_are_closed_there_and_back(self, program):
        pictures = {
            "line 3 0": "###. .... .... ....",
            "line 3 0; close_figure": "#### .... .... ....",
            "polygon 0 0 3 0": "#### .... .... ....",
            "polygon 1 1": NOTHING,
            "polyline 1 1; close_figure": NOTHING,
        }
        self.check_paths(program, {stroked(records): rows for records, rows in pictures.items()})
        self.check_paths(program, {painted("line 3 0"): "#### .... .... ...."})

    @for_each_program
    def test_an_empty_path_paints_nothing(self, program):
        for records in ("", "close_figure", "move 1 1; move 3 2", "polyline"):
            for paint in (filled, stroked, painted):
                self.check_paths(program, {paint(records): NOTHING})
        # And is gone then, so that the triangle is drawn.
        pictures = {f"{painted('')}; polygon 0 0 4 0 0 4": BOTH_DRAWN}
        self.check_paths(program, pictures)


# Two squares of 4 by 4 that share one of 2 by 2. The second one goes round as the first does, or
# the other way.
FIRST = "move 0 0; polyline_to 4 0 4 4 0 4"
SECOND = "move 2 2; polyline_to 6 2 6 6 2 6"
SECOND_BACK = "move 2 2; polyline_to 2 6 6 6 6 2"

APART = "oooo.. oooo.. oo..oo oo..oo ..oooo ..oooo"
JOINED = "oooo.. oooo.. oooooo oooooo ..oooo ..oooo"


class Overlaps(PathTest):
    """Figures of one path are filled and stroked together."""

    @for_each_program
    def test_two_squares_in_both_modes(self, program):
        for mode, second, rows in [
            (ALTERNATE, SECOND, APART),
            (ALTERNATE, SECOND_BACK, APART),
            (WINDING, SECOND, JOINED),
            (WINDING, SECOND_BACK, APART),
        ]:
            pictures = {
                f"{mode}; {filled(f'{FIRST}; {second}')}": rows,
                f"{mode}; {filled(f'{second}; close_figure; {FIRST}')}": rows,
                # Each by its own path.
                f"{mode}; {filled(FIRST)}; {filled(second)}": JOINED,
            }
            self.check_paths(program, pictures)

    @for_each_program
    def test_a_square_twice(self, program):
        square = "oooo.. oooo.. oooo.. oooo.. ...... ......"
        twice = filled(f"{FIRST}; {FIRST}")
        pictures = {f"{ALTERNATE}; {twice}": empty(square), f"{WINDING}; {twice}": square}
        self.check_paths(program, pictures)

    @for_each_program
    def test_a_rectangle_and_a_polygon(self, program):
        # A rectangle is not a pixel larger here, and goes round as the first square does, however
        # its corners are told.
        for box in ("0 0 4 4", "4 4 0 0", "4 0 0 4", "0 4 4 0"):
            for polygon, rows in [("2 2 6 2 6 6 2 6", JOINED), ("2 2 2 6 6 6 6 2", APART)]:
                records = f"rectangle {box}; polygon {polygon}"
                pictures = {f"{WINDING}; {filled(records)}": rows}
                pictures |= {f"{ALTERNATE}; {filled(records)}": APART}
                self.check_paths(program, pictures)
        # In ALTERNATE: rows 2 and 3 have two pixels of either square. The strokes are the squares'
        # sides, with (6,6) at the lower right.
        rows = "#####.. #ooo#.. #o##### #o#.#o# #####o# ..#ooo# ..#####"
        self.check_paths(program, {painted("rectangle 0 0 4 4; polygon 2 2 6 2 6 6 2 6"): rows})

    @for_each_program
    def test_a_rectangle_alone(self, program):
        # Drawn by itself it has its last edges' pixels in its fill; in a path its corners are those
        # of any figure.
        pictures = {
            filled("rectangle 0 0 3 3"): "ooo. ooo. ooo. ....",
            stroked("rectangle 0 0 3 3"): "#### #..# #..# ####",
            painted("rectangle 3 3 0 0"): "#### #oo# #oo# ####",
            painted("rectangle 1 2 1 2"): NOTHING,
            f"null_pen 1; select 1; {painted('rectangle 0 0 3 3')}": "ooo. ooo. ooo. ....",
            f"null_pen 1; select 1; {filled('rectangle 1 2 1 2')}": NOTHING,
            "null_pen 1; select 1; rectangle 0 0 3 3": "oooo oooo oooo oooo",
        }
        self.check_paths(program, pictures)

    @for_each_program
    def test_strokes_are_one_layer(self, program):
        # There and back, and two figures that cross in (1,1): each pixel is turned once.
        pictures = {
            stroked("line 3 0; move 3 0; line 0 0"): "#### .... .... ....",
            stroked("polylines 0 1 3 1 | 1 0 1 3"): ".#.. ###. .#.. ....",
        }
        pictures = {f"{INVERT}; {script}": rows for script, rows in pictures.items()}
        self.check_paths(program, pictures)


class PageMaps(PathTest):
    """Points are mapped when they are added."""

    @for_each_program
    def test_a_map_changed_between_two_points(self, program):
        # The second point of a figure, (3,1) of the page, lands on (3,3); the first ones stay.
        moved = "line 3 0; window_origin 0 -2; line 3 1"
        # The second, (1,1), lands on (3,3): (1,0) to (3,3) steps down by (1,0), (2,1) and (2,2).
        grown = "line 1 0; viewport_extent 3 3; line 1 1"
        pictures = {
            stroked(moved): ANGLE_OPEN,
            stroked(f"{moved}; close_figure"): ANGLE_CLOSED,
            stroked(grown): "##.. ..#. ..#. ....",
            stroked(f"{grown}; close_figure"): "##.. .##. ..#. ...#",
            # The map goes on behind the path.
            f"{stroked(moved)}; polyline 0 1 3 1": "#### ...# ...# ###.",
            # The map of the painting doesn't matter.
            f"{path(ANGLE)}; window_origin 5 5; stroke_path": ANGLE_OPEN,
            f"{path(ANGLE)}; viewport_extent 9 9; stroke_path": ANGLE_OPEN,
        }
        pictures = {f"map_mode 8; {script}": rows for script, rows in pictures.items()}
        self.check_paths(program, pictures)

    @for_each_program
    def test_the_position_is_mapped_when_it_begins_a_figure(self, program):
        pictures = {
            stroked("move 0 1; window_origin 0 -1; line 3 1"): ".... .... ###. ....",
            f"move 0 1; window_origin 0 -1; {stroked('line 3 1')}": ".... .... ###. ....",
            # From (0,0), and then from (3,0) of the page, which is (3,1) then, to (0,2), which is
            # (0,3): two rows down by three columns, over (2,2) and (1,2).
            stroked("line 3 0; close_figure; window_origin 0 -1; line 0 2"): "#### ...# .##. ....",
        }
        self.check_paths(program, pictures)

    @for_each_program
    def test_corners_of_a_rectangle_are_put_in_order_on_the_plane(self, program):
        # x lands on 3 - x: the corners are (3,0) and (1,1).
        mirrored = "map_mode 8; window_extent -1 1; window_origin 3 0"
        pictures = {
            f"{mirrored}; {stroked('rectangle 0 0 2 1')}": ".### .### .... ....",
            f"{mirrored}; {filled('rectangle 0 0 2 1')}": ".oo. .... .... ....",
        }
        self.check_paths(program, pictures)
        # Mirrored by 4 a rectangle still goes round as the second square does, and the first square
        # goes round the other way.
        mirrored = "map_mode 8; window_extent -1 1; window_origin 4 0"
        plain = "window_extent 1 1; window_origin 0 0"
        for first, rows in [("rectangle 0 0 4 4", JOINED), (FIRST, APART)]:
            records = f"{mirrored}; {first}; {plain}; {SECOND}"
            self.check_paths(program, {f"{WINDING}; {filled(records)}": rows})


class Moments(PathTest):
    """What is drawn at once, and with what a path is painted."""

    @for_each_program
    def test_pixels_are_drawn_at_once(self, program):
        # In an open path a red pixel; beneath the stroke, which comes later, it isn't seen.
        pictures = {
            stroked("line 3 0; pixel 1 1; line 3 3"): "#### .o.# ...# ....",
            stroked("line 3 0; pixel 1 0; line 3 3"): ANGLE_OPEN,
            "begin_path; line 3 0; pixel 1 0; abort_path": ".o.. .... .... ....",
            "begin_path; line 3 0; pixel 1 0": ".o.. .... .... ....",
            f"{path('line 3 0')}; pixel 1 0": ".o.. .... .... ....",
            f"{stroked('line 3 0')}; pixel 1 0": "#o#. .... .... ....",
        }
        self.check_paths(program, pictures)

    @for_each_program
    def test_shapes_are_drawn_by_the_painting_alone(self, program):
        shapes = "line 3 0; polyline 0 0 3 3; polygon 0 0 3 0 3 3; rectangle 0 0 3 3"
        for script in (f"begin_path; {shapes}", path(shapes), f"begin_path; {shapes}; abort_path"):
            self.check_paths(program, {script: NOTHING})
        # Beside a finished path they are drawn at once, and not added to it: a triangle below the
        # diagonal, above which the path's line comes later, in blue.
        tools = "solid_pen 1 0x0000FF; select 1"
        script = f"{path('line 3 0')}; polygon 0 0 4 4 0 4; {tools}; stroke_path"
        self.check_paths(program, {script: "bbb. ##.. #o#. #oo#"})

    @for_each_program
    def test_paths_that_are_dropped_are_not_painted(self, program):
        below = "move 0 2; line 3 2"
        for dropped in ("begin_path; line 3 0; abort_path", path("line 3 0")):
            self.check_paths(program, {f"{dropped}; {stroked(below)}": ".... .... ###. ...."})
        # The position is where the lines came to.
        pictures = {"begin_path; line 3 0; abort_path; line 3 3": "...# ...# ...# ...."}
        self.check_paths(program, pictures)

    @for_each_program
    def test_tools_and_modes_of_the_painting(self, program):
        both = f"{FIRST}; {SECOND}"
        blue = "solid_pen 1 0x0000FF; solid_brush 2 0x000000; select 1; select 2"
        pictures = {
            f"{path(TRIANGLE)}; {blue}; stroke_and_fill_path": "bbbb b#.b b.b. bb..",
            f"{path(TRIANGLE)}; {blue}; fill_path": "###. ##.. #... ....",
            f"{path(TRIANGLE)}; {blue}; stroke_path": "bbbb ...b ..b. .b..",
            f"begin_path; {blue}; {TRIANGLE}; select 0; end_path; fill_path": FILLED,
            f"null_pen 1; select 1; {painted(TRIANGLE)}": FILLED,
            f"null_brush 1; select 1; {painted(TRIANGLE)}": STROKED,
            f"null_pen 1; select 1; {stroked(TRIANGLE)}": NOTHING,
            f"null_brush 1; select 1; {filled(TRIANGLE)}": NOTHING,
            f"{ALTERNATE}; {path(both)}; {WINDING}; fill_path": JOINED,
            f"{WINDING}; {path(both)}; {ALTERNATE}; fill_path": APART,
            f"{path(TRIANGLE)}; {INVERT}; stroke_and_fill_path": "...# .#.# ..#. ##..",
            f"{path(TRIANGLE)}; keep 1 0 3 2; stroke_and_fill_path": ".##. .o.. .... ....",
            f"keep 1 0 3 2; {path(TRIANGLE)}; unclip; stroke_and_fill_path": BOTH_DRAWN,
        }
        self.check_paths(program, pictures)

    @for_each_program
    def test_saving_and_restoring_leave_the_path_alone(self, program):
        # The position comes back to (3,0), and the line goes on from (3,3).
        records = "line 3 0; save; line 3 3; restore -1; line 0 3"
        self.check_paths(program, {stroked(records): "#### ...# ...# .###"})
        # It comes back to (0,1), where a line begins a figure behind a move, by three columns and
        # two rows: over (1,2) and (2,2).
        records = "move 0 1; save; line 3 1; move 0 3; restore -1; line 3 3"
        self.check_paths(program, {stroked(records): ".... ###. .##. ...."})
        # Tools come back, and the path stays.
        blue = "solid_pen 1 0x0000FF; select 1"
        pictures = {
            f"save; {path(ANGLE)}; {blue}; restore -1; stroke_path": ANGLE_OPEN,
            f"begin_path; save; {blue}; {ANGLE}; restore -1; end_path; stroke_path": ANGLE_OPEN,
        }
        self.check_paths(program, pictures)


if __name__ == "__main__":
    unittest.main()
