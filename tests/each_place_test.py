"""Saved states and objects at each of their places: what is restored, is held, and is free again."""

import unittest

from metafile.scripts import EMF, WMF
from request_program import PREPARE, asked
from whole_runs import FIRST, all_replies

# The most saved states, and the most objects of a WMF file.
STATES, OBJECTS = 256, 1024

# The indexes of an EMF file with as many as its header can count. Index 0 is not used, and scripts count from 1 on as from 0.
INDEXES = range(65_534)

SAVE = WMF.records("save")
FONT = WMF.records("font 0")


def restore(place):
    """A restore."""
    return WMF.records(f"restore {place}")


class EachPlace(unittest.TestCase):
    """Files whose last record is rejected."""

    def check(self, cases):
        """Of pairs of records and a fault, all records are played but the last, which has the fault."""
        cases = list(cases)
        requests = [asked(PREPARE, (2, 2), WMF.file(records, 4, 0)) for records, _ in cases]
        told = [f"{fault} at record {len(records) - 1}" for records, fault in cases]
        self.assertEqual([line for line, _ in all_replies(FIRST[0], requests)], told)

    def test_a_restore_to_each_place_is_possible_once(self):
        for sign in (1, -1):
            places = [sign * place for place in range(1, STATES + 1)]
            gone = {place: place if place > 0 else -STATES for place in places}
            self.check((SAVE * STATES + restore(place) + restore(gone[place]), "NoSavedState") for place in places)

    def test_after_a_restore_to_each_place_the_rest_is_saved_again(self):
        self.check((SAVE * STATES + restore(place) + SAVE * (STATES - place + 2), "DepthLimit") for place in range(1, STATES + 1))
        self.check((SAVE * STATES + restore(-place) + SAVE * (place + 1), "DepthLimit") for place in range(1, STATES + 1))

    def test_all_states_are_restored_from_each_depth(self):
        self.check((SAVE * depth + restore(-1) * (depth + 1), "NoSavedState") for depth in range(STATES + 1))

    def test_an_object_at_each_index_is_held_until_it_is_released(self):
        for index in range(0, OBJECTS, 3):
            held = FONT * index + SAVE + FONT + WMF.records(f"select {index}") + WMF.records(f"delete {index}")
            self.check([(held, "HeldObject")])
            free = held[:-1] + restore(-1) + held[-1:]
            self.check([(free + WMF.records(f"delete {index}"), "NoSuchHandle")])

    def test_all_objects_are_deleted_and_made_again(self):
        all_deleted = [record for index in range(OBJECTS) for record in WMF.records(f"delete {index}")]
        self.check([(FONT * (OBJECTS + 1), "TableFull"), (FONT * OBJECTS + all_deleted + FONT * (OBJECTS + 1), "TableFull")])

    def test_an_emf_file_names_each_index(self):
        records = [record for index in INDEXES for record in (EMF.step("styled_pen", index, 0, 0, 0), EMF.step("delete", index))]
        given = EMF.file(records, 4, 65_535)
        self.assertTrue(next(all_replies(FIRST[0], [asked(PREPARE, (2, 2), given)]))[0].startswith("prepared"))


if __name__ == "__main__":
    unittest.main()
