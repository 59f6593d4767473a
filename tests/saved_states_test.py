"""Saved states in the built programs: how many there are, which one a restore brings back, and what
of it."""

import unittest

from answers import refused, shown
from built import for_each_program
from metafile.fields import BLUE, RED
from metafile.scripts import EMF, FORMS, SIDE, WMF
from script_answers import StateTest, pixels


class Depth(StateTest):
    """At most 256 states are saved at a time."""

    @for_each_program
    def test_256_states_are_saved_and_not_one_more(self, program):
        self.check(program, WMF, "256x save", pixels([]))
        self.check(program, WMF, "257x save", refused("DepthLimit", 256))
        self.check(program, EMF, "256x save", pixels([]))
        self.check(program, EMF, "257x save", refused("DepthLimit", 257))

    @for_each_program
    def test_a_restore_makes_room(self, program):
        cases = [
            ("256x save; restore -1; save", None),
            ("256x save; restore -1; 2x save", "DepthLimit"),
            ("256x save; restore 256; save", None),
            ("256x save; restore 256; 2x save", "DepthLimit"),
            ("256x save; restore 1; 256x save", None),
            ("256x save; restore 1; 257x save", "DepthLimit"),
            ("256x save; restore -256; 257x save", "DepthLimit"),
            ("200x save; restore -100; 156x save", None),
            ("200x save; restore -100; 157x save", "DepthLimit"),
            ("256x save; 256x restore -1; 257x save", "DepthLimit"),
        ]
        for form in FORMS:
            self.check_cases(program, form, cases)


class NoSavedState(StateTest):
    """A restore names a state that is saved: counted from 1 from the oldest, or from -1 from the
    newest."""

    @for_each_program
    def test_nothing_saved_and_the_number_0(self, program):
        self.check(program, WMF, "restore -1", refused("NoSavedState", 0))
        self.check(program, WMF, "save; restore 0", refused("NoSavedState", 1))

    @for_each_program
    def test_the_numbers_of_states(self, program):
        for saved, good, bad in [
            (0, [], [0, 1, -1, 2, -2]),
            (1, [1, -1], [0, 2, -2, 3, -3]),
            (2, [1, 2, -1, -2], [0, 3, -3]),
            (255, [1, 255, -1, -255], [0, 256, -256]),
            (256, [1, 255, 256, -1, -255, -256], [0, 257, -257]),
        ]:
            cases = [(f"{saved}x save; restore {n}", None) for n in good]
            cases += [(f"{saved}x save; restore {n}", "NoSavedState") for n in bad]
            for form in FORMS:
                self.check_cases(program, form, cases)

    @for_each_program
    def test_a_number_is_told_by_all_its_bytes_and_its_sign(self, program):
        # Of some the low byte or half alone would be 1 or -1.
        halves = [0x7FFF, -0x8000, 0x101, -0xFF, 0xFF, -0x101]
        words = [0x7FFFFFFF, -0x80000000, 0x10001, -0xFFFF, 0xFFFF, -0x10001]
        for form, numbers in [(WMF, halves), (EMF, [*halves, *words])]:
            for saved in (0, 1, 2):
                cases = [(f"{saved}x save; restore {n}", "NoSavedState") for n in numbers]
                self.check_cases(program, form, cases)

    @for_each_program
    def test_a_state_is_brought_back_once_and_those_above_are_gone(self, program):
        cases = [
            ("save; restore -1; restore -1", "NoSavedState"),
            ("save; restore 1; restore 1", "NoSavedState"),
            ("2x save; restore 1; restore -1", "NoSavedState"),
            ("2x save; restore 2; restore 2", "NoSavedState"),
            ("2x save; restore 2; restore 1", None),
            ("2x save; 2x restore -1", None),
            ("2x save; 3x restore -1", "NoSavedState"),
            ("5x save; restore -3; restore 2", None),
            ("5x save; restore -3; restore 3", "NoSavedState"),
            ("5x save; restore -3; restore -2", None),
            ("5x save; restore -3; restore -3", "NoSavedState"),
            ("256x save; 256x restore -1", None),
            ("256x save; 257x restore -1", "NoSavedState"),
        ]
        for form in FORMS:
            self.check_cases(program, form, cases)


# Four states are saved, of which the n-th draws the page's origin in column and row n; the state
# that goes on draws it in column and row 9.
FOUR = "; ".join(f"viewport_origin {n} {n}; save" for n in (1, 2, 3, 4)) + "; viewport_origin 9 9"


class WhichState(StateTest):
    """The state that comes back, shown by where it draws a pixel."""

    def check_places(self, program, places):
        """Behind the four saved states, records lead to a state that draws here."""
        for records, place in places.items():
            script = f"{FOUR}; {records}; pixel 0 0"
            for form in FORMS:
                self.check(program, form, script, pixels([(place, place)]))

    @for_each_program
    def test_each_of_four_comes_back(self, program):
        places = {1: 1, 2: 2, 3: 3, 4: 4, -1: 4, -2: 3, -3: 2, -4: 1}
        self.check_places(program, {f"restore {n}": place for n, place in places.items()})

    @for_each_program
    def test_those_below_stay_in_order(self, program):
        self.check_places(
            program,
            {
                "restore 3; restore 1": 1,
                "restore 3; restore 2": 2,
                "restore 3; restore -1": 2,
                "restore 3; restore -2": 1,
                "restore -3; restore -1": 1,
                "4x restore -1": 1,
                "3x restore -1": 2,
            },
        )

    @for_each_program
    def test_a_new_one_stands_behind_those_that_stay(self, program):
        again = "restore 3; viewport_origin 7 7; save; viewport_origin 8 8"
        self.check_places(
            program,
            {
                again: 8,
                f"{again}; restore 3": 7,
                f"{again}; restore -1": 7,
                f"{again}; restore -2": 2,
                f"{again}; restore 2": 2,
                f"{again}; restore 1": 1,
                f"{again}; restore -1; restore -1": 2,
            },
        )

    @for_each_program
    def test_saving_changes_nothing(self, program):
        self.check_places(program, {"save": 9, "252x save": 9, "save; restore -1": 9})

    @for_each_program
    def test_the_oldest_and_the_newest_of_256_come_back(self, program):
        newest = "252x save; restore"
        places = {f"{newest} 256": 9, f"{newest} -1": 9, f"{newest} 1": 1, f"{newest} -256": 1}
        self.check_places(program, places | {f"{newest} 5": 9, f"{newest} -253": 4})


# A map that doubles, where two extents were set: the page's (4,2) lands on (8,4).
DOUBLED = "map_mode 8; window_extent 1 1; viewport_extent 2 2"

# What changes that map, and where the page's (4,2) lands then.
MAP_CHANGES = {
    "map_mode 1": (4, 2),
    "map_mode 7; window_extent 2 1": (4, 4),
    "window_origin 1 1": (6, 2),
    "window_extent 2 2": (4, 2),
    "viewport_origin 3 5": (11, 9),
    "viewport_extent 3 3": (12, 6),
}

# Records of WMF alone.
OFFSETS = {"offset_window 1 1": (6, 2), "offset_viewport 3 5": (11, 9)}


class WhatComesBack(StateTest):
    """Each part of a state, as far as pixels and refusals show it."""

    # Background mode and colour, raster operation, fill mode, position, and the colours of pen and
    # brush act on drawings that aren't played yet: nothing shows today that they come back.

    @for_each_program
    def test_the_page_map(self, program):
        for form in FORMS:
            changes = MAP_CHANGES | OFFSETS if form is WMF else MAP_CHANGES
            for change, place in changes.items():
                changed = f"{DOUBLED}; save; {change}"
                self.check(program, form, f"{changed}; pixel 4 2", pixels([place]))
                restored = f"{changed}; restore -1; pixel 4 2"
                self.check(program, form, restored, pixels([(8, 4)]))
                saved = f"{DOUBLED}; {change}; save; {DOUBLED}; restore -1; pixel 4 2"
                self.check(program, form, saved, pixels([place]))

    @for_each_program
    def test_the_map_mode(self, program):
        extents = "window_extent 2 2; pixel 4 2"
        scaled = f"{DOUBLED}; save; map_mode 1; restore -1; {extents}"
        text = f"map_mode 1; save; map_mode 8; restore -1; {extents}"
        for form in FORMS:
            self.check(program, form, scaled, pixels([(4, 2)]))
            self.check(program, form, text, pixels([(4, 2)]))
            cases = [
                ("map_mode 1; save; map_mode 8; restore -1; window_extent 0 0", None),
                ("map_mode 8; save; map_mode 1; restore -1; window_extent 0 0", "ZeroExtent"),
            ]
            self.check_cases(program, form, cases)

    @for_each_program
    def test_the_clip(self, program):
        points = "pixel 1 1; pixel 2 2; pixel 3 3"
        for records, places in {
            "keep 1 1 3 3; save; keep 2 2 4 4": [(2, 2)],
            "keep 1 1 3 3; save; keep 2 2 4 4; restore -1": [(1, 1), (2, 2)],
            "keep 1 1 3 3; save; cut 1 1 2 2": [(2, 2)],
            "keep 1 1 3 3; save; cut 1 1 2 2; restore -1": [(1, 1), (2, 2)],
            "cut 1 1 2 2; save; cut 2 2 3 3": [(3, 3)],
            "cut 1 1 2 2; save; cut 2 2 3 3; restore -1": [(2, 2), (3, 3)],
            "save; keep 9 9 9 9; restore -1": [(1, 1), (2, 2), (3, 3)],
            "keep 2 2 3 3; save; save; keep 9 9 9 9; restore 1": [(2, 2)],
        }.items():
            for form in FORMS:
                self.check(program, form, f"{records}; {points}", pixels(places))

    @for_each_program
    def test_the_clip_that_was_taken_away(self, program):
        points = "pixel 1 1; pixel 2 2; pixel 3 3"
        clip = "keep 1 1 3 3; cut 2 2 3 3"
        for records, places in {
            f"{clip}; save; unclip": [(1, 1), (2, 2), (3, 3)],
            f"{clip}; save; unclip; restore -1": [(1, 1)],
            f"save; {clip}; restore -1": [(1, 1), (2, 2), (3, 3)],
            f"{clip}; unclip; save; {clip}; restore -1": [(1, 1), (2, 2), (3, 3)],
        }.items():
            self.check(program, EMF, f"{records}; {points}", pixels(places))

    @for_each_program
    def test_the_number_of_cuts(self, program):
        cut = "cut 1 1 2 2"
        cases = [
            (f"10x {cut}; save; 6x {cut}; restore -1; 6x {cut}", None),
            (f"10x {cut}; save; 6x {cut}; restore -1; 7x {cut}", "TooManyCuts"),
            (f"16x {cut}; save; restore -1; {cut}", "TooManyCuts"),
        ]
        for form in FORMS:
            self.check_cases(program, form, cases)

    @for_each_program
    def test_objects_stand_beside_the_state(self, program):
        cases = [
            ("save; pen 0; restore -1; select 0", None),
            ("save; pen 0; restore -1; delete 0", None),
            ("pen 0; save; delete 0; restore -1; select 0", "NoSuchHandle"),
            ("pen 0; save; delete 0; palette 0; restore -1; select 0", "WrongKind"),
        ]
        for form in FORMS:
            self.check_cases(program, form, cases)

    @for_each_program
    def test_pixels_stand_beside_the_state(self, program):
        script = "pixel 1 1; save; pixel 2 2; blue 1 1; restore -1"
        for form in FORMS:
            self.check(program, form, script, shown({(1, 1): BLUE, (2, 2): RED}, SIDE, SIDE))


if __name__ == "__main__":
    unittest.main()
