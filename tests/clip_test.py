"""The clip in the built programs, shown by which pixels of a whole surface are drawn, and the
corners of its boxes: where they land, and how far they may."""

import unittest

from answers import refused, shown
from built import for_each_program
from metafile.fields import BLUE, RED
from metafile.scripts import EMF, FORMS, WMF
from script_answers import PictureTest, StateTest, pixels

# No pixel, and all.
NONE = "...... ...... ...... ...... ...... ......"
ALL = "###### ###### ###### ###### ###### ######"


class Boxes(PictureTest):
    """Boxes that are kept, and boxes that are cut out."""

    @for_each_program
    def test_without_a_box_all_pixels_are_drawn(self, program):
        self.check_pictures(program, FORMS, {"": ALL})

    @for_each_program
    def test_a_pixel_that_is_cut_out_later_stays(self, program):
        script = "keep 1 1 3 3; pixel 2 2; pixel 3 3; cut 2 2 3 3; blue 2 2"
        for form in FORMS:
            self.check(program, form, script, pixels([(2, 2)]))

    @for_each_program
    def test_a_box_has_its_first_edges_and_not_its_last(self, program):
        self.check_pictures(
            program,
            FORMS,
            {
                "keep 1 2 4 5": "...... ...... .###.. .###.. .###.. ......",
                "cut 1 2 4 5": "###### ###### #...## #...## #...## ######",
                "keep 2 3 3 4": "...... ...... ...... ..#... ...... ......",
                "keep 0 0 6 6": ALL,
                "cut 0 0 6 6": NONE,
            },
        )

    @for_each_program
    def test_corners_may_come_in_any_order(self, program):
        kept = "...... ...... .###.. .###.. .###.. ......"
        cut = "###### ###### #...## #...## #...## ######"
        for box in ("1 2 4 5", "4 2 1 5", "1 5 4 2", "4 5 1 2"):
            self.check_pictures(program, FORMS, {f"keep {box}": kept, f"cut {box}": cut})

    @for_each_program
    def test_a_box_without_a_side_holds_no_pixel(self, program):
        for box in ("2 1 2 5", "1 2 5 2", "2 2 2 2"):
            self.check_pictures(program, FORMS, {f"keep {box}": NONE, f"cut {box}": ALL})

    @for_each_program
    def test_boxes_may_reach_beyond_the_surface(self, program):
        self.check_pictures(
            program,
            FORMS,
            {
                "keep -32768 -32768 32767 32767": ALL,
                "keep -3 -3 2 1": "##.... ...... ...... ...... ...... ......",
                "keep 4 5 9 9": "...... ...... ...... ...... ...... ....##",
                "keep 6 0 9 6": NONE,
                "keep -3 0 0 6": NONE,
                "cut -32768 -32768 32767 32767": NONE,
                "cut -3 -3 2 1": "..#### ###### ###### ###### ###### ######",
                "cut 4 5 9 9": "###### ###### ###### ###### ###### ####..",
                "cut 6 0 9 6; cut -3 0 0 6": ALL,
            },
        )

    @for_each_program
    def test_of_kept_boxes_their_common_part_is_left(self, program):
        common = "...... ..##.. ..##.. ..##.. ...... ......"
        self.check_pictures(
            program,
            FORMS,
            {
                "keep 0 0 4 4; keep 2 1 6 6": common,
                "keep 2 1 6 6; keep 0 0 4 4": common,
                "keep 0 0 6 4; keep 2 0 6 6; keep 0 1 6 6; keep 0 0 4 6": common,
                "keep 2 1 4 4; keep 0 0 6 6": common,
                "keep 0 0 3 6; keep 3 0 6 6": NONE,
                "keep 0 0 2 6; keep 4 0 6 6": NONE,
                # Once nothing is left, nothing comes back.
                "keep 0 0 2 6; keep 4 0 6 6; keep 0 0 6 6": NONE,
                "keep 4 0 6 6; keep 0 0 2 6; keep 2 0 4 6": NONE,
                "keep 0 4 6 6; keep 0 0 6 2; keep 0 2 6 4": NONE,
                "keep 2 2 2 2; keep 0 0 6 6": NONE,
            },
        )

    @for_each_program
    def test_of_cut_boxes_each_is_left_out(self, program):
        both = "..#### ..#### ###### ###### ####.. ####.."
        self.check_pictures(
            program,
            FORMS,
            {
                "cut 0 0 2 2; cut 4 4 6 6": both,
                "cut 4 4 6 6; cut 0 0 2 2": both,
                "cut 0 0 4 3; cut 2 1 6 4": "....## ...... ...... ##.... ###### ######",
                "cut 1 1 5 5; cut 2 2 3 3": "###### #....# #....# #....# #....# ######",
                "2x cut 1 1 5 5": "###### #....# #....# #....# #....# ######",
            },
        )

    @for_each_program
    def test_a_pixel_is_in_each_kept_box_and_in_no_cut_one(self, program):
        ring = "...... .####. .#..#. .#..#. .####. ......"
        self.check_pictures(
            program,
            FORMS,
            {
                "keep 1 1 5 5; cut 2 2 4 4": ring,
                "cut 2 2 4 4; keep 1 1 5 5": ring,
                "cut 2 2 4 4; keep 1 1 5 5; keep 0 0 6 6": ring,
                "cut 2 2 4 4; keep 2 2 4 4": NONE,
                "keep 0 0 6 2; cut 0 0 3 6; keep 1 1 6 6": (
                    "...... ...### ...... ...... ...... ......"
                ),
            },
        )

    @for_each_program
    def test_a_pixel_outside_the_clip_leaves_what_is_there(self, program):
        red, blue = "pixel 0 0; pixel 1 1; pixel 2 2", "blue 0 0; blue 1 1; blue 2 2"
        wanted = shown({(0, 0): RED, (1, 1): BLUE, (2, 2): RED}, 6, 6)
        for form in FORMS:
            script = f"{red}; keep 1 1 3 3; cut 2 2 3 3; {blue}"
            self.check(program, form, script, wanted, frame=6, surface=(6, 6))

    @for_each_program
    def test_an_emf_takes_the_clip_away(self, program):
        self.check_pictures(
            program,
            [EMF],
            {
                "unclip": ALL,
                "keep 1 2 4 5; unclip": ALL,
                "cut 1 2 4 5; unclip": ALL,
                "keep 0 0 2 6; keep 4 0 6 6; unclip": ALL,
                "keep 0 0 2 2; unclip; keep 4 4 6 6": "...... ...... ...... ...... ....## ....##",
                "cut 0 0 6 4; unclip; cut 0 2 6 6": "###### ###### ...... ...... ...... ......",
            },
        )


class Cuts(PictureTest):
    """At most sixteen cuts at a time."""

    @for_each_program
    def test_a_restore_gives_sixteen_cuts_again(self, program):
        self.check(program, WMF, "save; 17x cut 1 1 2 2", refused("TooManyCuts", 17))
        self.check(program, WMF, "save; 16x cut 1 1 2 2; restore -1; cut 1 1 2 2", pixels([]))

    @for_each_program
    def test_sixteen_cuts_are_each_left_out(self, program):
        cuts = "; ".join(f"cut {x} {y} {x + 1} {y + 1}" for x in range(1, 5) for y in range(1, 5))
        rim = "###### #....# #....# #....# #....# ######"
        self.check_pictures(program, FORMS, {cuts: rim})
        for form in FORMS:
            self.check_cases(program, form, [(cuts, None), (f"{cuts}; cut 0 0 1 1", "TooManyCuts")])

    @for_each_program
    def test_a_seventeenth_cut_is_refused_whatever_its_box(self, program):
        # One pixel, no pixel, off the surface, and all.
        for box in ("1 1 2 2", "1 1 1 1", "90 90 99 99", "0 0 16 16"):
            cases = [
                (f"16x cut {box}", None),
                (f"17x cut {box}", "TooManyCuts"),
                (f"16x cut 1 1 2 2; cut {box}", "TooManyCuts"),
                (f"16x cut {box}; cut 1 1 2 2", "TooManyCuts"),
                (f"16x cut {box}; keep 5 5 5 5; cut {box}", "TooManyCuts"),
            ]
            for form in FORMS:
                self.check_cases(program, form, cases)

    @for_each_program
    def test_kept_boxes_do_not_count(self, program):
        cases = [
            ("300x keep 0 0 5 5", None),
            ("16x cut 1 1 2 2; 17x keep 0 0 5 5", None),
            ("17x keep 0 0 5 5; 16x cut 1 1 2 2", None),
            ("17x keep 0 0 5 5; 17x cut 1 1 2 2", "TooManyCuts"),
        ]
        for form in FORMS:
            self.check_cases(program, form, cases)

    @for_each_program
    def test_cuts_are_saved_and_restored(self, program):
        cut = "cut 1 1 2 2"
        cases = [
            (f"save; 17x {cut}", "TooManyCuts"),
            (f"save; 16x {cut}; restore -1; {cut}", None),
            (f"save; 16x {cut}; restore -1; 16x {cut}", None),
            (f"save; 16x {cut}; restore -1; 17x {cut}", "TooManyCuts"),
            (f"16x {cut}; save; {cut}", "TooManyCuts"),
            (f"16x {cut}; save; restore -1; {cut}", "TooManyCuts"),
            (f"10x {cut}; save; 6x {cut}; restore -1; 6x {cut}", None),
            (f"10x {cut}; save; 6x {cut}; restore -1; 7x {cut}", "TooManyCuts"),
            (f"10x {cut}; save; 6x {cut}; save; restore 1; 7x {cut}", "TooManyCuts"),
        ]
        for form in FORMS:
            self.check_cases(program, form, cases)

    @for_each_program
    def test_an_emf_has_sixteen_again_once_the_clip_is_taken_away(self, program):
        cut = "cut 1 1 2 2"
        cases = [
            (f"16x {cut}; unclip; 16x {cut}", None),
            (f"16x {cut}; unclip; 17x {cut}", "TooManyCuts"),
            (f"16x cut 1 1 1 1; unclip; 16x {cut}", None),
            (f"16x {cut}; save; unclip; 16x {cut}", None),
            (f"16x {cut}; save; unclip; restore -1; {cut}", "TooManyCuts"),
        ]
        self.check_cases(program, EMF, cases)


# A page unit is 16,384 pixels, of which 16,384 are 2^28: a corner 16,385 is off the plane.
FAR = "map_mode 8; window_extent 1 1; viewport_extent 16384 16384"


class OffPlane(StateTest):
    """Corners have the limits that pixels have."""

    @for_each_program
    def test_short_corners(self, program):
        near = ["16384 0 1 1", "0 16384 1 1", "0 0 16384 1", "0 0 1 16384", "-16384 -16384 0 0"]
        far = ["16385 0 1 1", "0 16385 1 1", "0 0 16385 1", "0 0 1 16385"]
        far += ["-16385 0 1 1", "0 -16385 1 1", "0 0 -16385 1", "0 0 1 -16385"]
        # A box without a pixel has corners all the same.
        far += ["16385 0 16385 1", "16385 0 1 0"]
        for record in ("keep", "cut"):
            cases = [(f"{FAR}; {record} {box}", None) for box in near]
            cases += [(f"{FAR}; {record} {box}", "OffPlane") for box in far]
            for form in FORMS:
                self.check_cases(program, form, cases)

    @for_each_program
    def test_long_corners(self, program):
        # The surface has its limit at 2^28 where it is as large as the frame, and at 2^27 of the
        # frame where it is twice as large; at a quarter of the frame the plane's is 2^30.
        for frame, edge in [(16, 1 << 28), (8, 1 << 27), (64, 1 << 30)]:
            for record in ("keep", "cut"):
                for place in range(4):
                    for far, fault in [(edge, None), (edge + 1, "OffPlane")]:
                        for corner in (far, -far):
                            box = ["0"] * 4
                            box[place] = str(corner)
                            cases = [(f"{record} {' '.join(box)}", fault)]
                            self.check_cases(program, EMF, cases, frame=frame)
                for corner in (0x7FFFFFFF, -0x80000000):
                    cases = [(f"{record} 0 0 1 {corner}", "OffPlane")]
                    self.check_cases(program, EMF, cases, frame=frame)

    @for_each_program
    def test_too_many_cuts_come_before_a_corner_off_the_plane(self, program):
        cases = [
            (f"{FAR}; 15x cut 0 0 1 1; cut 0 0 16385 1", "OffPlane"),
            (f"{FAR}; 16x cut 0 0 1 1; cut 0 0 16385 1", "TooManyCuts"),
            (f"{FAR}; 16x cut 0 0 0 0; cut 16385 0 16385 0", "TooManyCuts"),
            (f"{FAR}; 16x cut 0 0 1 1; keep 0 0 16385 1", "OffPlane"),
        ]
        for form in FORMS:
            self.check_cases(program, form, cases)


class Mapped(PictureTest):
    """Corners are mapped once, when their record is played."""

    @for_each_program
    def test_corners_are_mapped_as_points_are(self, program):
        # In these pictures the map is put back before the pixels are drawn.
        back = "window_origin 0 0; window_extent 1 1; viewport_origin 0 0; viewport_extent 1 1"
        box = "...... ...... ..##.. ..##.. ...... ......"
        wide = "...... ...... .###.. .###.. .###.. ......"
        for records, rows in {
            "viewport_origin 1 1; keep 1 1 3 3": box,
            "window_origin -1 -1; keep 1 1 3 3": box,
            "viewport_extent 2 2; keep 1 1 2 2": box,
            "window_extent 3 3; viewport_extent 4 4; keep 2 2 3 3": box,
            # Rounded down: 5/2 and 9/2.
            "window_extent 2 2; keep 5 5 9 9": box,
            # Turned: the corners 4 and 2 are put in order where they land, not on the page.
            "window_extent -1 -1; keep -4 -4 -2 -2": box,
            "window_extent -1 -1; keep -2 -2 -4 -4": box,
            "viewport_extent -1 -1; viewport_origin 5 5; keep 1 1 3 3": box,
            # Turned and rounded down: -5/2 and -9/2 are -3 and -5.
            "window_extent -2 -2; viewport_origin 7 7; keep 5 5 9 9": box,
            # The two axes by themselves.
            "window_extent 2 1; keep 2 2 8 5": wide,
            "viewport_extent 1 3; viewport_origin 0 -1; keep 1 1 4 2": wide,
        }.items():
            script = f"map_mode 8; window_extent 1 1; viewport_extent 1 1; {records}; {back}"
            self.check_pictures(program, FORMS, {script: rows})

    @for_each_program
    def test_boxes_keep_their_place_when_the_map_changes(self, program):
        kept = "...... .##... .##... ...... ...... ......"
        cut = "###### #..### #..### ###### ###### ######"
        for change in (
            "viewport_origin 2 2",
            "viewport_origin -3 1",
            "window_origin 2 2",
            "window_origin -3 1",
            "map_mode 1; viewport_origin 1 1",
            "save; viewport_origin 2 2; restore -1",
            "save; viewport_origin 2 2; save; restore -2; viewport_origin 1 1",
        ):
            pictures = {f"keep 1 1 3 3; {change}": kept, f"cut 1 1 3 3; {change}": cut}
            self.check_pictures(program, FORMS, pictures)

    @for_each_program
    def test_boxes_of_several_maps_meet_where_they_landed(self, program):
        self.check_pictures(
            program,
            FORMS,
            {
                "keep 0 0 4 4; viewport_origin 2 1; keep 0 0 4 4": (
                    "...... ..##.. ..##.. ..##.. ...... ......"
                ),
                "cut 0 0 2 2; viewport_origin 4 4; cut 0 0 2 2": (
                    "..#### ..#### ###### ###### ####.. ####.."
                ),
            },
        )


class Surfaces(PictureTest):
    """On a surface of another size than the frame, corners are rounded down as pixels are."""

    @for_each_program
    def test_a_surface_twice_as_large(self, program):
        # Points of the plane are pixels in even columns and rows.
        self.check_pictures(
            program,
            FORMS,
            {
                "keep 1 1 3 3": """
                    ........
                    ........
                    ..#.#...
                    ........
                    ..#.#...
                    ........
                    ........
                    ........
                """,
                "cut 1 1 3 3": """
                    #.#.#.#.
                    ........
                    #.....#.
                    ........
                    #.....#.
                    ........
                    #.#.#.#.
                    ........
                """,
            },
            frame=4,
            surface=(8, 8),
        )

    @for_each_program
    def test_a_surface_half_as_large(self, program):
        self.check_pictures(
            program,
            FORMS,
            {
                "": "## ##",
                "keep 1 1 3 3": "#. ..",
                "keep 1 1 2 2": "#. ..",
                "keep 0 0 1 1": ".. ..",
                "keep 2 2 3 3": ".. ..",
                "keep 3 3 4 4": ".. .#",
                "keep 1 0 4 4": "## ##",
                "keep 0 0 3 3": "#. ..",
                "cut 0 0 1 1": "## ##",
                "cut 1 1 3 3": ".# ##",
                "cut 3 3 4 4": "## #.",
                "keep -1 -1 2 2": "#. ..",
                "keep -3 -3 -1 -1": ".. ..",
                "cut -1 -1 1 1": "## ##",
                "cut -1 -1 2 2": ".# ##",
                "cut -3 -3 -1 -1": "## ##",
            },
            frame=4,
            surface=(2, 2),
        )

    @for_each_program
    def test_a_surface_of_three_halves(self, program):
        # The frame's 0, 1, 2, 3 and 4 land on 0, 1, 3, 4 and 6.
        self.check_pictures(
            program,
            FORMS,
            {
                "keep 1 1 3 3": "...... .#.#.. ...... .#.#.. ...... ......",
                "cut 1 1 3 3": "##.##. #...#. ...... #...#. ##.##. ......",
                "cut 1 2 2 3": "##.##. ##.##. ...... #..##. ##.##. ......",
            },
            frame=4,
            surface=(6, 6),
        )

    @for_each_program
    def test_the_axes_are_apart(self, program):
        pictures = {"keep 1 1 3 3": "..#.#... ........", "cut 1 1 3 3": "#.....#. #.#.#.#."}
        self.check_pictures(program, FORMS, pictures, frame=4, surface=(8, 2))


if __name__ == "__main__":
    unittest.main()
