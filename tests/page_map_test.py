"""The page map in the built programs, shown by where pixels land; where the plane and the surface
end, how a frame lies on a surface of another size, and the page maps that files begin with."""

import unittest

from answers import refused, shown
from built import answer, for_each_program
from metafile.fields import RED, i16, i32
from metafile.files import EMF_END, WMF_END, emf_file, placeable_file, plain_file
from metafile.scripts import EMF, FORMS, SIDE, WMF
from script_answers import StateTest, pixels

# The least and the largest number of two bytes, and of four.
LEAST, LARGEST = -32768, 32767
LONG_LEAST, LONG_LARGEST = -0x80000000, 0x7FFFFFFF

# An axis on which page and surface are one.
UNCHANGED = {"window_origin": 0, "window_extent": 1, "viewport_origin": 0, "viewport_extent": 1}

# What is set of one axis, and where coordinates land on it: their distance from the window's
# origin, times the viewport's extent over the window's, rounded down, and the viewport's origin.
AXES = [
    ({}, {0: 0, 3: 3, 15: 15, 16: None, -1: None}),
    # Rounded down on both sides of the origin.
    ({"window_extent": 3, "viewport_extent": 10}, {0: 0, 1: 3, 2: 6, 3: 10, 4: 13, -1: None}),
    (
        {"window_extent": 3, "viewport_extent": 10, "viewport_origin": 4},
        {-1: 0, 0: 4, 1: 7, 2: 10},
    ),
    # Turned by the window, by the viewport, and by both.
    (
        {"window_extent": -3, "viewport_extent": 10, "window_origin": 3},
        {3: 0, 2: 3, 1: 6, 0: 10, -1: 13},
    ),
    (
        {"window_extent": -3, "viewport_extent": 10, "window_origin": 3, "viewport_origin": 4},
        {4: 0, 3: 4, 2: 7, 1: 10},
    ),
    (
        {"window_extent": 3, "viewport_extent": -10, "viewport_origin": 15},
        {0: 15, 1: 11, 2: 8, 3: 5, 4: 1},
    ),
    ({"window_extent": -3, "viewport_extent": -10}, {0: 0, 1: 3, 2: 6, 3: 10}),
    ({"window_extent": -3, "viewport_extent": -10, "viewport_origin": 4}, {-1: 0, 0: 4, 1: 7}),
    # Made smaller.
    ({"window_extent": 7, "viewport_extent": 2}, {0: 0, 3: 0, 4: 1, 6: 1, 7: 2, 13: 3, 14: 4}),
    (
        {"window_extent": 7, "viewport_extent": 2, "viewport_origin": 1},
        {0: 1, -1: 0, -3: 0, -4: None},
    ),
    # Moved.
    ({"window_origin": 5}, {4: None, 5: 0, 6: 1, 20: 15}),
    ({"window_origin": -5}, {-5: 0, 0: 5, 10: 15}),
    ({"viewport_origin": 5}, {-5: 0, 0: 5, 10: 15}),
    ({"viewport_origin": -5}, {4: None, 5: 0, 20: 15}),
    (
        {"window_origin": 2, "window_extent": 2, "viewport_origin": 3, "viewport_extent": 3},
        {1: 1, 2: 3, 3: 4, 4: 6},
    ),
    # The ends of two bytes.
    ({"window_extent": LARGEST, "viewport_extent": 10}, {3276: 0, 3277: 1, 32766: 9, LARGEST: 10}),
    ({"window_extent": LEAST, "viewport_extent": 7}, {LEAST: 7, -32767: 6, 0: 0}),
    ({"window_extent": LARGEST, "viewport_extent": LARGEST}, {9: 9, -1: None}),
    ({"window_origin": LARGEST, "viewport_origin": 8}, {LARGEST: 8, 32760: 1}),
    ({"window_origin": LEAST, "viewport_origin": LEAST}, {0: 0, 15: 15}),
    ({"window_origin": LEAST, "window_extent": LARGEST, "viewport_extent": 5}, {LARGEST: 10}),
]

# The ends of four bytes.
LONG_AXES = [
    ({"window_extent": LONG_LARGEST, "viewport_extent": 10}, {0x7FFFFFFE: 9, LONG_LARGEST: 10}),
    ({"window_extent": LONG_LEAST, "viewport_extent": 7}, {LONG_LEAST: 7, -0x7FFFFFFF: 6}),
    ({"window_extent": LONG_LARGEST, "viewport_extent": LONG_LARGEST}, {15: 15, -1: None}),
    (
        {
            "window_extent": LONG_LARGEST,
            "viewport_extent": LONG_LEAST,
            "viewport_origin": 5,
        },
        {0: 5, 1: 3, 2: 2, 4: 0, 5: None},
    ),
    ({"window_origin": LONG_LARGEST}, {LONG_LARGEST: 0, 0x7FFFFFFE: None}),
    ({"window_origin": LONG_LEAST}, {LONG_LEAST: 0, LONG_LEAST + 15: 15}),
    ({"viewport_origin": LONG_LARGEST}, {-0x7FFFFFFF: 0, -0x7FFFFFF0: 15, LONG_LEAST: None}),
    ({"viewport_origin": LONG_LEAST}, {LONG_LARGEST: None}),
    ({"window_origin": LONG_LEAST, "viewport_origin": LONG_LEAST}, {0: 0, 15: 15}),
    (
        {
            "window_origin": LONG_LEAST,
            "window_extent": LONG_LARGEST,
            "viewport_extent": 5,
        },
        {LONG_LARGEST: 10},
    ),
]


def axis_script(settings, axis):
    """The records that set one axis of the page map, while the other stays unchanged."""
    steps = ["map_mode 8"]
    for name, unchanged in UNCHANGED.items():
        number = settings.get(name, unchanged)
        pair = (number, unchanged) if axis == "x" else (unchanged, number)
        steps.append("{} {} {}".format(name, *pair))
    return "; ".join(steps)


class Axes(StateTest):
    """One axis, and both."""

    def check_axes(self, program, form, axes):
        """Coordinates land as the table says, on either axis."""
        for settings, places in axes:
            for coordinate, place in places.items():
                seen = [] if place is None else [(place, 2)]
                script = f"{axis_script(settings, 'x')}; pixel {coordinate} 2"
                self.check(program, form, script, pixels(seen))
                seen = [] if place is None else [(2, place)]
                script = f"{axis_script(settings, 'y')}; pixel 2 {coordinate}"
                self.check(program, form, script, pixels(seen))

    @for_each_program
    def test_coordinates_land_where_the_axis_says(self, program):
        for form in FORMS:
            self.check_axes(program, form, AXES)

    @for_each_program
    def test_coordinates_of_four_bytes_land_where_the_axis_says(self, program):
        self.check_axes(program, EMF, LONG_AXES)

    @for_each_program
    def test_the_axes_are_apart(self, program):
        extents = "map_mode 8; window_extent 3 7; viewport_extent 10 2"
        origins = "window_origin 1 2; viewport_origin 3 4"
        for form in FORMS:
            script = f"{extents}; {origins}; pixel 3 9"
            self.check(program, form, script, pixels([(9, 6)]))

    @for_each_program
    def test_a_pixel_is_mapped_by_the_map_of_its_moment(self, program):
        script = "pixel 1 1; viewport_origin 3 3; pixel 1 1; window_origin 1 0; pixel 1 1"
        for form in FORMS:
            self.check(program, form, script, pixels([(1, 1), (4, 4), (3, 4)]))


# Extents by which the page's (2,1) lands on (6,3).
SCALED = "window_extent 3 3; viewport_extent 10 10"


class Modes(StateTest):
    """Mode 1, in which a page unit is a pixel, and modes 7 and 8, in which extents count."""

    def check_places(self, program, forms, places):
        """Behind these records the page's (2,1) lands here."""
        for form in forms:
            for records, place in places.items():
                self.check(program, form, f"{records}; pixel 2 1", pixels([place]))

    @for_each_program
    def test_a_wmf_starts_where_extents_count_and_an_emf_where_they_do_not(self, program):
        extents = {"window_extent 8 8": (4, 2), "viewport_extent 8 8": (1, 0)}
        self.check_places(program, [WMF], extents)
        self.check_places(program, [EMF], dict.fromkeys(extents, (2, 1)))

    @for_each_program
    def test_modes_7_and_8_keep_the_extents(self, program):
        self.check_places(
            program,
            FORMS,
            {
                f"map_mode 8; {SCALED}": (6, 3),
                f"map_mode 7; {SCALED}": (6, 3),
                f"map_mode 8; {SCALED}; map_mode 8": (6, 3),
                f"map_mode 8; {SCALED}; map_mode 7": (6, 3),
                f"map_mode 7; {SCALED}; map_mode 8": (6, 3),
            },
        )

    @for_each_program
    def test_mode_1_sets_the_extents_to_1(self, program):
        front = f"map_mode 8; {SCALED}; map_mode 1"
        self.check_places(
            program,
            FORMS,
            {
                front: (2, 1),
                f"{front}; map_mode 8": (2, 1),
                f"{front}; map_mode 7": (2, 1),
                f"{front}; map_mode 8; viewport_extent 3 4": (6, 4),
                f"{front}; map_mode 8; window_extent 2 1": (1, 1),
                f"{front}; map_mode 7; {SCALED}": (6, 3),
            },
        )

    @for_each_program
    def test_extent_records_have_no_effect_in_mode_1(self, program):
        zeros = "window_extent 0 0; viewport_extent 0 0"
        self.check_places(
            program,
            FORMS,
            {
                f"map_mode 1; {SCALED}": (2, 1),
                f"map_mode 1; {SCALED}; map_mode 8": (2, 1),
                f"map_mode 1; {zeros}": (2, 1),
                f"map_mode 1; {zeros}; map_mode 8": (2, 1),
            },
        )

    @for_each_program
    def test_origins_count_in_each_mode(self, program):
        front = f"map_mode 8; {SCALED}; window_origin 1 1; viewport_origin 4 5"
        self.check_places(
            program,
            FORMS,
            {
                front: (7, 5),
                f"{front}; map_mode 1": (5, 5),
                f"{front}; map_mode 1; window_origin 0 0": (6, 6),
                f"{front}; map_mode 1; viewport_origin 0 0": (1, 0),
            },
        )

    @for_each_program
    def test_an_extent_of_0_on_one_axis(self, program):
        self.check(program, WMF, "window_extent 0 4", refused("ZeroExtent", 0))
        self.check(program, WMF, "map_mode 1; window_extent 0 4", pixels([]))

    @for_each_program
    def test_an_extent_of_0_is_refused_where_extents_count(self, program):
        for record in ("window_extent", "viewport_extent"):
            for extent in ("0 4", "4 0", "0 0", "0 -4", "-4 0"):
                cases = [
                    (f"map_mode 8; {record} {extent}", "ZeroExtent"),
                    (f"map_mode 7; {record} {extent}", "ZeroExtent"),
                    (f"map_mode 1; map_mode 8; {record} {extent}", "ZeroExtent"),
                    (f"map_mode 8; map_mode 1; {record} {extent}", None),
                ]
                for form in FORMS:
                    self.check_cases(program, form, cases)
                self.check_cases(program, WMF, [(f"{record} {extent}", "ZeroExtent")])
                self.check_cases(program, EMF, [(f"{record} {extent}", None)])


class Offsets(StateTest):
    """Records of WMF that move an origin."""

    @for_each_program
    def test_offsets_add_up(self, program):
        for records, place in {
            "offset_window 2 1; offset_window 3 1": (1, 2),
            "offset_window -2 -3": (8, 7),
            "window_origin 1 1; offset_window 2 3": (3, 0),
            "offset_window 2 3; window_origin 1 1": (5, 3),
            "offset_viewport 2 1; offset_viewport 3 1": (11, 6),
            "offset_viewport -2 -3": (4, 1),
            "viewport_origin 1 1; offset_viewport 2 3": (9, 8),
            "offset_viewport 2 3; viewport_origin 1 1": (7, 5),
            "offset_window 2 3; offset_viewport 2 3": (6, 4),
            "map_mode 1; offset_window 2 1": (4, 3),
            # The window moves in page units, the viewport in pixels.
            "window_extent 8 8; offset_window 2 1": (8, 6),
            "window_extent 8 8; offset_viewport 2 1": (14, 9),
            # Past the ends of two bytes.
            "2x offset_window 32767 32767; 2x offset_viewport 32767 32767": (6, 4),
            "2x offset_window -32768 -32768; 2x offset_viewport -32768 -32768": (6, 4),
        }.items():
            self.check(program, WMF, f"{records}; pixel 6 4", pixels([place]))

    # 65,538 times 32,767 and 1 is 2,147,483,647, and 65,536 times 32,768 is one more: the ends of
    # four bytes.

    def largest(self, record):
        """The records that move an origin from 0 as far as it goes to the right and down."""
        return f"65538x {record} 32767 32767; {record} 1 1"

    def least(self, record):
        """The records that move an origin from 0 as far as it goes to the left and up."""
        return f"65536x {record} -32768 -32768"

    @for_each_program
    def test_an_origin_stays_within_four_bytes(self, program):
        for record in ("offset_window", "offset_viewport"):
            front = self.largest(record)
            for offset in ("1 0", "0 1", "32767 32767", "1 -1"):
                self.check_cases(program, WMF, [(f"{front}; {record} {offset}", "OffPlane")])
            for offset in ("0 0", "-1 -1"):
                self.check_cases(program, WMF, [(f"{front}; {record} {offset}", None)])
            front = self.least(record)
            for offset in ("-1 0", "0 -1", "-32768 -32768", "1 -1"):
                self.check_cases(program, WMF, [(f"{front}; {record} {offset}", "OffPlane")])
            for offset in ("0 0", "1 1"):
                self.check_cases(program, WMF, [(f"{front}; {record} {offset}", None)])

    @for_each_program
    def test_pixels_between_the_farthest_origins(self, program):
        for farthest in (self.largest, self.least):
            both = f"{farthest('offset_window')}; {farthest('offset_viewport')}"
            self.check(program, WMF, f"{both}; pixel 6 4", pixels([(6, 4)]))
            alone = f"{farthest('offset_window')}; pixel 6 4"
            self.check_cases(program, WMF, [(alone, "OffPlane")])


# A page unit is 16,384 pixels, of which 16,384 are 2^28.
FAR = "map_mode 8; window_extent 1 1; viewport_extent 16384 16384"


class OffPlane(StateTest):
    """Coordinates have limits: 2^30 on the plane, and 2^28 on the surface."""

    @for_each_program
    def test_the_limit_on_the_surface(self, program):
        for form in FORMS:
            for pixel in ("16384 0", "-16384 0", "0 16384", "0 -16384", "16384 -16384"):
                self.check_cases(program, form, [(f"{FAR}; pixel {pixel}", None)])
            for pixel in ("16385 0", "-16385 0", "0 16385", "0 -16385", "32767 32767"):
                self.check_cases(program, form, [(f"{FAR}; pixel {pixel}", "OffPlane")])
            for origin, pixel, fault in [
                ("1 0", "16384 0", "OffPlane"),
                ("0 1", "0 16384", "OffPlane"),
                ("-1 0", "-16384 0", "OffPlane"),
                ("0 -1", "0 -16384", "OffPlane"),
                ("-1 -1", "16384 16384", None),
                ("1 1", "-16384 -16384", None),
            ]:
                script = f"{FAR}; viewport_origin {origin}; pixel {pixel}"
                self.check_cases(program, form, [(script, fault)])

    @for_each_program
    def test_the_limit_on_the_plane(self, program):
        # A surface much smaller than the frame, so that only the plane has this limit.
        # 32,768 times 32,768 is 2^30, and 32,769 times 32,767 one less.
        high = "map_mode 8; window_extent 1 1; viewport_extent -32768 -32768"
        low = "map_mode 8; window_extent 1 1; viewport_extent 32767 32767; window_origin 1 1"
        for form in FORMS:
            cases = [
                (f"{high}; pixel -32768 0", None),
                (f"{high}; viewport_origin -1 0; pixel -32768 0", None),
                (f"{high}; viewport_origin 1 0; pixel -32768 0", "OffPlane"),
                (f"{high}; viewport_origin 0 1; pixel 0 -32768", "OffPlane"),
                (f"{low}; viewport_origin -1 -1; pixel -32768 1", None),
                (f"{low}; viewport_origin -2 -1; pixel -32768 1", "OffPlane"),
                (f"{low}; viewport_origin -1 -2; pixel 1 -32768", "OffPlane"),
            ]
            self.check_cases(program, form, cases, frame=32767)

    @for_each_program
    def test_a_position_has_no_limit(self, program):
        self.check(program, WMF, f"{FAR}; move 32767 -32768; pixel 0 0", pixels([(0, 0)]))
        self.check(program, EMF, f"{FAR}; move 32767 -32768; pixel 0 0", pixels([(0, 0)]))
        self.check(program, EMF, "move 2147483647 -2147483648; pixel 1 2", pixels([(1, 2)]))

    def far_cornered(self, corner, records):
        """An EMF with its bounds' corner far from the origin."""
        ends = {"left": i32(corner), "top": i32(corner)}
        ends |= {"right": i32(corner + SIDE - 1), "bottom": i32(corner + SIDE - 1)}
        return emf_file([*EMF.records(records), EMF_END], **ends)

    @for_each_program
    def test_only_what_comes_out_at_last_is_limited(self, program):
        # Coordinate, window origin and extent, viewport origin and extent, the frame's corner, and
        # where it comes out. Between them come numbers near 2^63.
        low, high = -0x80000000, 0x7FFFFFFF
        for x, window, viewport, corner, place in [
            (high, (low, low), (low, low), high - 15, 15),
            (low, (high, low), (high, low), low, 0),
            (low, (high, -1), (low, low), high - 15, None),
            (high, (low, -1), (high, low), low, None),
            (low, (high, 1), (low, high), high - 15, None),
        ]:
            map_script = (
                f"map_mode 8; window_origin {window[0]} {window[0]}; "
                f"window_extent {window[1]} {window[1]}; "
                f"viewport_origin {viewport[0]} {viewport[0]}; "
                f"viewport_extent {viewport[1]} {viewport[1]}"
            )
            given = self.far_cornered(corner, f"{map_script}; pixel {x} {x}")
            wanted = refused("OffPlane", 6) if place is None else pixels([(place, place)])
            with self.subTest(x=x, window=window, viewport=viewport, corner=corner):
                shown_by = answer(program, ["show", "stdin", str(SIDE), str(SIDE)], given)
                self.assertEqual(shown_by, wanted)


class Surfaces(StateTest):
    """A frame on a surface of another size: what comes out on the plane is scaled, and rounded down
    once more."""

    @for_each_program
    def test_coordinates_land_where_the_surface_says(self, program):
        for frame, side, places in [
            (4, 2, {-1: None, 0: 0, 1: 0, 2: 1, 3: 1, 4: None}),
            (4, 6, {-1: None, 0: 0, 1: 1, 2: 3, 3: 4, 4: None}),
            (3, 2, {-1: None, 0: 0, 1: 0, 2: 1, 3: None}),
            (3, 16, {-1: None, 0: 0, 1: 5, 2: 10, 3: None}),
            (16, 1, {-1: None, 0: 0, 15: 0, 16: None}),
        ]:
            for coordinate, place in places.items():
                file = {"frame": frame, "surface": (side, side)}
                for form in FORMS:
                    seen = {} if place is None else {(place, 0): RED}
                    wanted = shown(seen, side, side)
                    self.check(program, form, f"pixel {coordinate} 0", wanted, **file)
                    seen = {} if place is None else {(0, place): RED}
                    wanted = shown(seen, side, side)
                    self.check(program, form, f"pixel 0 {coordinate}", wanted, **file)

    @for_each_program
    def test_the_axes_are_apart(self, program):
        for form in FORMS:
            wanted = shown({(1, 3): RED}, 2, 6)
            self.check(program, form, "pixel 3 2", wanted, frame=4, surface=(2, 6))

    @for_each_program
    def test_it_is_rounded_down_on_the_plane_first(self, program):
        # 10/3 is 3 on the plane, and that is 4 on the surface; 10/3 of 6/4 would be 5.
        script = "map_mode 8; window_extent 3 3; viewport_extent 10 10; pixel 1 0"
        for form in FORMS:
            wanted = shown({(4, 0): RED}, 6, 6)
            self.check(program, form, script, wanted, frame=4, surface=(6, 6))


class Starts(StateTest):
    """The maps that files begin with."""

    def check_file(self, program, given, places, side):
        """The answer to a file shows red pixels."""
        shown_by = answer(program, ["show", "stdin", str(side), str(side)], given)
        self.assertEqual(shown_by, shown(dict.fromkeys(places, RED), side, side))

    @for_each_program
    def test_a_plain_wmf(self, program):
        # Its first extent is the frame, the viewport's, and the window's until another is set.
        for script, places, side in [
            ("pixel 2 1; window_extent 10 10", [(2, 1)], 10),
            ("window_extent 10 10; window_extent 3 3; pixel 2 1", [(6, 3)], 10),
            ("window_extent -4 4; pixel -1 1", [(1, 1)], 4),
            ("window_extent -4 4; window_extent 4 4; pixel 1 1", [(1, 1)], 4),
            ("viewport_extent 2 2; window_extent 4 4; pixel 2 2", [(1, 1)], 4),
            ("map_mode 1; window_extent 8 8; pixel 2 1", [(2, 1)], 8),
            ("window_extent 8 8; map_mode 1; window_extent 2 2; pixel 2 1", [(2, 1)], 8),
        ]:
            with self.subTest(script=script):
                given = plain_file([*WMF.records(script), WMF_END])
                self.check_file(program, given, places, side)

    @for_each_program
    def test_a_placeable_wmf_has_its_window_s_origin_in_the_box_s_corner(self, program):
        box = {"left": i16(2), "top": i16(3), "right": i16(18), "bottom": i16(19)}
        for script, places in [
            ("pixel 5 5", [(3, 2)]),
            ("offset_window 1 1; pixel 5 5", [(2, 1)]),
            ("window_origin 0 0; pixel 5 5", [(5, 5)]),
            ("viewport_origin 1 1; pixel 5 5", [(4, 3)]),
            ("map_mode 1; pixel 5 5", [(3, 2)]),
        ]:
            with self.subTest(script=script):
                given = placeable_file([*WMF.records(script), WMF_END], **box)
                self.check_file(program, given, places, SIDE)

    @for_each_program
    def test_an_emf_has_its_frame_s_corner_taken_off(self, program):
        bounds = {"left": i32(3), "top": i32(5), "right": i32(18), "bottom": i32(20)}
        for script, places in [
            ("pixel 3 5", [(0, 0)]),
            ("viewport_origin 3 5; pixel 1 2", [(1, 2)]),
            ("window_origin 1 1; pixel 5 7", [(1, 1)]),
            ("map_mode 8; window_extent 3 3; viewport_extent 10 10; pixel 2 3", [(3, 5)]),
        ]:
            with self.subTest(script=script):
                given = emf_file([*EMF.records(script), EMF_END], **bounds)
                self.check_file(program, given, places, SIDE)


if __name__ == "__main__":
    unittest.main()
