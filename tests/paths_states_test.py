"""The states of a path ([MS-EMF] 2.3.10) in the built programs: which records may stand where, how
many pieces a path may have and how many points its painting, and which points it refuses."""

import itertools
import unittest

from answers import refused, shown
from built import answer, for_each_program
from metafile.fields import i16, u32
from metafile.files import EMF_END, emf_file, emf_record
from metafile.scripts import EMF, SIDE
from metafile.shapes import BOUNDS
from script_answers import StateTest, pixels

PAINTINGS = ["fill_path", "stroke_path", "stroke_and_fill_path"]

RECORDS = ["begin_path", "end_path", "close_figure", "abort_path", *PAINTINGS]

# Which state each record leaves of a path; it is refused in any other.
NONE = {"begin_path": "open", "abort_path": "none"}
OPEN = {"end_path": "finished", "close_figure": "open", "abort_path": "none"}
FINISHED = NONE | dict.fromkeys(PAINTINGS, "none")
AFTER = {"none": NONE, "open": OPEN, "finished": FINISHED}

# A clip without a pixel, so that nothing is seen of what is painted.
HIDDEN = "cut 0 0 16 16"

LINES = "line 3 0; line 3 3"

# Records that lead to each state.
WAYS = {
    "none": [
        HIDDEN,
        f"{HIDDEN}; begin_path; {LINES}; abort_path",
        f"{HIDDEN}; begin_path; {LINES}; end_path; abort_path",
        *[f"{HIDDEN}; begin_path; {LINES}; end_path; {painting}" for painting in PAINTINGS],
    ],
    "open": [
        f"{HIDDEN}; begin_path",
        f"{HIDDEN}; begin_path; {LINES}",
        f"{HIDDEN}; begin_path; {LINES}; close_figure",
        f"{HIDDEN}; begin_path; move 3 0; rectangle 0 0 3 3",
        f"{HIDDEN}; begin_path; {LINES}; end_path; begin_path",
    ],
    "finished": [
        f"{HIDDEN}; begin_path; end_path",
        f"{HIDDEN}; begin_path; {LINES}; end_path",
        f"{HIDDEN}; begin_path; {LINES}; end_path; {LINES}; polygon 0 0 4 0 0 4; move 1 1",
    ],
}


class States(StateTest):
    """Paths that are begun, ended, painted and dropped."""

    def check_records(self, program, way, state):
        """Behind records that lead to a state, each record of paths is accepted or refused."""
        for record in RECORDS:
            fault = None if record in AFTER[state] else "PathState"
            self.check_cases(program, EMF, [(f"{way}; {record}", fault)])

    @for_each_program
    def test_each_record_in_each_state(self, program):
        for state, ways in WAYS.items():
            for way in ways:
                self.check_records(program, way, state)

    @for_each_program
    def test_the_state_that_each_record_leaves(self, program):
        # Shown by what each other record leads to behind it.
        for state, ways in WAYS.items():
            for record, left in AFTER[state].items():
                self.check_records(program, f"{ways[-1]}; {record}", left)

    @for_each_program
    def test_the_first_records_of_a_file(self, program):
        cases = [("end_path", "PathState"), ("close_figure", "PathState")]
        cases += [(painting, "PathState") for painting in PAINTINGS]
        for script, fault in cases:
            self.check(program, EMF, script, refused(fault, 1))
        for script in ("begin_path; begin_path", "begin_path; fill_path"):
            self.check(program, EMF, script, refused("PathState", 2))
        for script in ("begin_path; close_figure; end_path; fill_path", "abort_path; abort_path"):
            self.check(program, EMF, script, pixels([]))
        self.check(program, EMF, "begin_path; abort_path; abort_path", pixels([]))
        # A file may end within a path.
        self.check(program, EMF, "begin_path", pixels([]))
        self.check(program, EMF, "begin_path; end_path", pixels([]))

    @for_each_program
    def test_saving_and_restoring_bring_no_path_back(self, program):
        cases = [
            ("begin_path; save; restore -1; end_path; fill_path", None),
            ("begin_path; save; restore -1; begin_path", "PathState"),
            ("begin_path; save; end_path; restore -1; fill_path", None),
            ("begin_path; save; end_path; restore -1; end_path", "PathState"),
            ("begin_path; save; abort_path; restore -1; end_path", "PathState"),
            ("begin_path; save; abort_path; restore -1; begin_path", None),
            ("begin_path; end_path; save; fill_path; restore -1; fill_path", "PathState"),
            ("begin_path; end_path; save; begin_path; restore -1; fill_path", "PathState"),
            ("save; begin_path; restore -1; end_path; fill_path", None),
            ("save; begin_path; restore -1; begin_path", "PathState"),
            ("save; begin_path; end_path; restore 1; stroke_path", None),
            ("2x save; begin_path; restore 1; close_figure", None),
        ]
        self.check_cases(program, EMF, cases)


# No path is gathered from more pieces.
MOST = 1 << 16

# A piece each are a polyline and a line that goes on with a figure; a line behind a move begins one
# and is two.
FIRST = "polyline 1 1"
ON = "line 1 1"
ANEW = "move 1 1; line 1 1"

# Records that add a piece each, whatever is open.
OTHERS = ["polyline 1 1", "polygon 1 1 2 2", "rectangle 0 0 3 3", "short_polygon 1 1"]
OTHERS += ["polylines 1 1 | 2 2 | | 3 3", "short_polylines 1 1", "polygons | 1 1 2 2 | 3 3 4 4"]

# Records that add none.
FREE = ["move 1 1", "close_figure", "pixel -1 -1", "polyline", "polygon", "polyline_to"]
FREE += ["short_polyline", "polylines | |", "polygons", "short_polygons |", "save; restore -1"]


class Pieces(StateTest):
    """A path has at most 65,536 pieces: one for each record that adds a point, and another where it
    begins a figure at the position."""

    def check_full(self, program, script, more):
        """A path of records that make it full; each other record is one too many then."""
        self.check_cases(program, EMF, [(f"{HIDDEN}; begin_path; {script}; end_path", None)])
        for record in more:
            cases = [(f"{HIDDEN}; begin_path; {script}; {record}", "TooManyPieces")]
            self.check_cases(program, EMF, cases)

    @for_each_program
    def test_lines(self, program):
        # The first of them begins a figure.
        self.check_full(program, f"{MOST - 1}x {ON}", [ON])
        script = f"begin_path; {MOST}x {ON}"
        self.check(program, EMF, script, refused("TooManyPieces", 65537))
        # With a figure to go on with there may be as many lines as pieces are left.
        self.check_full(program, f"{FIRST}; {MOST - 1}x {ON}", [ON])
        self.check_full(program, f"{FIRST}; {MOST - 1}x polyline_to 1 1 2 2", ["polyline_to 3 3"])

    @for_each_program
    def test_figures(self, program):
        for record in OTHERS:
            self.check_full(program, f"{MOST}x {record}", [record])
        self.check_full(program, f"{MOST}x rectangle 0 0 3 3", [ON, *OTHERS])

    @for_each_program
    def test_figures_begun_at_the_position_count_two(self, program):
        begin, first, on, anew, end = map(
            EMF.records, ("begin_path", FIRST, ON, ANEW, "end_path")
        )
        half = MOST // 2
        for records, is_accepted in [
            (anew * half, True),
            (anew * half + on, False),
            # Of 65,535 pieces one more goes on with a figure, and two would begin one.
            (first + anew * (half - 1) + on, True),
            (first + anew * (half - 1) + anew, False),
        ]:
            records = begin + records + (end if is_accepted else [])
            wanted = pixels([]) if is_accepted else refused("TooManyPieces", len(records))
            given = EMF.file(records, SIDE, 16)
            self.assertEqual(answer(program, ["show", "stdin", "16", "16"], given), wanted)

    @for_each_program
    def test_records_without_a_point_count_none(self, program):
        free = "; ".join(FREE)
        script = f"{HIDDEN}; begin_path; {free}; {MOST}x polygon 1 1; {free}"
        cases = [(f"{script}; end_path; fill_path", None)]
        cases += [(f"{script}; {record}", "TooManyPieces") for record in (ON, *OTHERS)]
        self.check_cases(program, EMF, cases)

    @for_each_program
    def test_each_path_has_its_own(self, program):
        full = f"{FIRST}; {MOST - 1}x {ON}"
        for between in (
            "abort_path; begin_path",
            "end_path; begin_path",
            "end_path; abort_path; begin_path",
            "end_path; stroke_path; begin_path",
            "end_path; fill_path; begin_path",
        ):
            script = f"{HIDDEN}; begin_path; {full}; {between}; {full}"
            cases = [(f"{script}; end_path; stroke_and_fill_path", None)]
            cases += [(f"{script}; {ON}", "TooManyPieces")]
            self.check_cases(program, EMF, cases)

    @for_each_program
    def test_too_many_come_before_one_off_the_plane(self, program):
        full = f"{HIDDEN}; begin_path; {FIRST}; {MOST - 1}x {ON}"
        for far in ("line 268435457 0", "rectangle 0 0 0 268435457", "polygon 268435457 0"):
            self.check_cases(program, EMF, [(f"{full}; {far}", "TooManyPieces")])


# No painting has more points.
MOST_POINTS = 1 << 20

# Types of EMF's records: one list of points of two bytes a number.
POLYGON, POLYLINE, POLYLINE_TO = 86, 87, 89


def one_list(kind, count):
    """A record of so many points, each of them (1,1)."""
    return emf_record(kind, BOUNDS + u32(count) + i16(1, 1) * count)


class Points(StateTest):
    """A painting has at most 1,048,576 points. How many a path has doesn't count before it."""

    def check_records(self, program, records, fault):
        """The last of some records has this fault; where it has none, they paint nothing."""
        wanted = refused(fault, len(records)) if fault else shown({})
        given = emf_file([*records, EMF_END])
        self.assertEqual(answer(program, ["show", "stdin", "4", "4"], given), wanted)

    def check_paintings(self, program, gathered, fault, paintings=PAINTINGS):
        """What paintings of a path of records lead to."""
        for painting in paintings:
            with self.subTest(painting=painting, records=len(gathered)):
                ends = EMF.records(f"end_path; {painting}")
                records = [*EMF.records("begin_path"), *gathered, *ends]
                self.check_records(program, records, fault)

    @for_each_program
    def test_one_list(self, program):
        for kind, most in [(POLYGON, MOST_POINTS), (POLYLINE, MOST_POINTS)]:
            self.check_paintings(program, [one_list(kind, most)], None)
            self.check_paintings(program, [one_list(kind, most + 1)], "TooManyEdges")

    @for_each_program
    def test_all_points_of_a_path_count(self, program):
        # A figure begun at the position has that as a point, and a rectangle has four.
        paintings = itertools.cycle(PAINTINGS)
        for records, points in [
            ("line 1 1", 2),
            ("polyline 1 1; line 1 1", 2),
            ("polyline 1 1; polyline_to 1 1 1 1; line 1 1", 4),
            ("polyline_to 1 1 1 1", 3),
            ("rectangle 1 1 1 1", 4),
            ("polygons 1 1 | | 1 1 1 1", 3),
            ("polylines 1 1 | 1 1", 2),
            ("polyline; close_figure; move 1 1; polygons |", 0),
        ]:
            more = EMF.records(f"move 1 1; {records}")
            for surplus, fault in [(0, None), (1, "TooManyEdges")]:
                gathered = [one_list(POLYGON, MOST_POINTS - points + surplus), *more]
                self.check_paintings(program, gathered, fault, [next(paintings)])

    @for_each_program
    def test_more_may_be_gathered_and_dropped(self, program):
        many = [one_list(POLYLINE, MOST_POINTS), one_list(POLYLINE_TO, MOST_POINTS + 1)]
        for ends in ("end_path", "abort_path", "end_path; begin_path; end_path; fill_path"):
            records = [*EMF.records("begin_path"), *many, *EMF.records(ends)]
            self.check_records(program, records, None)
        # A painting needs a finished path before all else.
        records = [*EMF.records("begin_path"), *many, *EMF.records("fill_path")]
        self.check_records(program, records, "PathState")

    @for_each_program
    def test_pens_and_brushes_do_not_count(self, program):
        tools = EMF.records("select_at 0x80000005; select_at 0x80000008; begin_path")
        for painting in PAINTINGS:
            ends = EMF.records(f"end_path; {painting}")
            records = [*tools, one_list(POLYGON, MOST_POINTS + 1), *ends]
            self.check_records(program, records, "TooManyEdges")

    @for_each_program
    def test_a_path_of_most_pieces_and_most_points_is_painted(self, program):
        # Sixteen points a piece, all of them one.
        pieces = [one_list(POLYLINE, 16), *[one_list(POLYLINE_TO, 16)] * (MOST - 1)]
        self.check_paintings(program, pieces, None)


# The farthest coordinate that is placed where it is, and the next one.
END = 1 << 28
FAR = END + 1


class OffPlane(StateTest):
    """Points are looked at when they are added to a path."""

    @for_each_program
    def test_each_record_that_adds_points(self, program):
        for record in (
            "line {} {}",
            "polyline_to 0 0 {} {}",
            "polyline {} {}",
            "polylines 0 0 | {} {} 1 1",
            "polygon 1 1 {} {}",
            "polygons 0 0 | 1 1 | {} {}",
            "rectangle {} {} 0 0",
            "rectangle 0 0 {} {}",
        ):
            cases = []
            for near in ((END, 0), (0, END), (-END, -END)):
                script = f"{HIDDEN}; begin_path; {record.format(*near)}"
                cases.append((f"{script}; end_path; stroke_and_fill_path", None))
            for far in ((FAR, 0), (0, FAR), (-FAR, 0), (0, -FAR), (0x7FFFFFFF, -0x80000000)):
                for front in ("begin_path", "begin_path; line 1 1"):
                    cases.append((f"{front}; {record.format(*far)}", "OffPlane"))
            self.check_cases(program, EMF, cases)

    @for_each_program
    def test_the_position_where_a_figure_is_begun(self, program):
        far = f"begin_path; move {FAR} 0"
        cases = [
            # A move looks at nothing, and neither do figures of their own.
            (f"{far}; end_path; stroke_path", None),
            (f"{HIDDEN}; {far}; rectangle 0 0 1 1; end_path; fill_path", None),
            (f"{far}; polyline_to; end_path", None),
            (f"{far}; line 1 1", "OffPlane"),
            (f"{far}; polyline_to 1 1 2 2", "OffPlane"),
            (f"move {FAR} 0; begin_path; line 1 1", "OffPlane"),
            # Where a figure is gone on with the position isn't looked at.
            (f"{HIDDEN}; {far}; polyline 1 1; line 2 2; end_path; stroke_path", None),
            (f"{far}; polyline 1 1; close_figure; line 2 2", "OffPlane"),
            (f"{far}; polygon 1 1; line 2 2", "OffPlane"),
        ]
        self.check_cases(program, EMF, cases)

    @for_each_program
    def test_by_the_page_map_of_the_moment(self, program):
        large = "map_mode 8; viewport_extent 16384 16384"
        plain = "viewport_extent 1 1"
        cases = [
            (f"{HIDDEN}; {large}; begin_path; line 16384 -16384; end_path; stroke_path", None),
            (f"{large}; begin_path; line 16385 0", "OffPlane"),
            (f"{large}; begin_path; rectangle 0 0 1 16385", "OffPlane"),
            # What was added before the map grew stays where it is.
            (f"{HIDDEN}; begin_path; line {END} 0; {large}; end_path; stroke_path", None),
            (f"{HIDDEN}; begin_path; line {END} 0; {large}; line 16384 1; end_path", None),
            (f"{large}; begin_path; {plain}; line 16385 0; {large}; close_figure", None),
            # The position is mapped when it begins a figure.
            (f"begin_path; move 16385 0; {large}; line 1 1", "OffPlane"),
            (f"{large}; begin_path; move 16385 0; {plain}; line 1 1; end_path", None),
        ]
        self.check_cases(program, EMF, cases)

    @for_each_program
    def test_the_plane_s_own_end(self, program):
        # On a surface of one pixel the plane ends before the surface's coordinates do.
        end = 1 << 30
        for x, wanted in [(end, shown({}, 1, 1)), (end + 1, refused("OffPlane", 2))]:
            self.check(program, EMF, f"begin_path; line {x} 0", wanted, surface=(1, 1))


# No file has more records, the header and the end included.
RECORD_LIMIT = 1 << 20


class Dropped(StateTest):
    """Paths that are begun and dropped as often as the records of a file allow."""

    @for_each_program
    def test_many_paths_leave_nothing(self, program):
        for script in (
            "begin_path; abort_path",
            "begin_path; line 1 1; abort_path",
            "begin_path; line 1 1; end_path; abort_path",
            "begin_path; end_path; fill_path",
            "begin_path; line 1 1; end_path",
        ):
            once = EMF.records(script)
            last = EMF.records("abort_path; begin_path; move 1 2; line 3 2; end_path; stroke_path")
            times = (RECORD_LIMIT - 2 - len(last)) // len(once)
            with self.subTest(script=script, times=times):
                given = emf_file([b"".join(once) * times, *last, EMF_END])
                wanted = shown(dict.fromkeys([(1, 2), (2, 2)], (0, 0, 0)))
                self.assertEqual(answer(program, ["show", "stdin", "4", "4"], given), wanted)

    @for_each_program
    def test_a_fault_behind_many_paths(self, program):
        many = b"".join(EMF.records("begin_path; line 1 1; abort_path")) * 300_000
        for script, fault in [("end_path", "PathState"), (f"begin_path; line {FAR} 0", "OffPlane")]:
            records = EMF.records(script)
            given = emf_file([many, *records, EMF_END])
            wanted = refused(fault, 900_000 + len(records))
            self.assertEqual(answer(program, ["show", "stdin", "4", "4"], given), wanted)

    @for_each_program
    def test_small_paths_behind_a_tall_one_take_no_longer(self, program):
        # Only the rows of each path are looked at: in those of the first they would take more than a minute.
        tall = EMF.records("begin_path; line 0 4; abort_path")
        small = EMF.records("begin_path; move 0 0; line 1 0; end_path; stroke_path")
        given = emf_file([*tall, b"".join(small) * 150_000, EMF_END])
        wanted = shown({(0, 0): (0, 0, 0)}, 4, 8192)
        self.assertEqual(answer(program, ["show", "stdin", "4", "8192"], given), wanted)


if __name__ == "__main__":
    unittest.main()
