"""The instructions that the built program takes on files under both profiles, beside those on record in bench/."""

import sys
import unittest

from built import PROGRAMS, ROOT

sys.path.append(str(ROOT / "bench"))

from instruction_counts import FILES, count_all, is_within, most_of, on_record  # noqa: E402
from print_files import named_print  # noqa: E402

# Files whose page map scales, and how many times its instructions under the core profile such a file may take under the print profile.
SCALED = ["100,000 points on a map that scales, 64 by 64", "20 strokes beside a narrow surface, 16 by 64", "1,000 lists of 50 points from the position"]
MOST_PRINT = 1.15

# How many times as on record the count under print may be beside the one under core. Both change alike with a compiler.
MOST_CHANGED = 1.05


class Instructions(unittest.TestCase):
    """No file takes more than 1.02 times the instructions on record, and none by chance more than 1.005 times. The record is of the program
    as LLVM builds it."""

    @classmethod
    def setUpClass(cls):
        cls.taken = count_all(PROGRAMS[0])

    def test_a_record_stands_for_each_file(self):
        recorded = on_record()
        self.assertEqual([name for name in FILES if name not in recorded], [], "these files have no record; bench/instructions --record counts them")
        self.assertEqual([name for name in recorded if name not in FILES], [], "these records have no file")
        self.assertEqual(len(FILES), 1_368)

    def test_the_limit_is_1_02_times_the_record(self):
        self.assertTrue(is_within(1020, 1000))
        self.assertFalse(is_within(1021, 1000))
        self.assertTrue(is_within(1005, 1000, 1.005))
        self.assertFalse(is_within(1006, 1000, 1.005))

    def test_each_file_is_within_the_limit(self):
        recorded = on_record()
        for name, taken in ((name, taken) for name, taken in self.taken.items() if name in recorded):
            with self.subTest(file=name):
                told = f"{taken:,} instructions, {taken / recorded[name]:.2f} times the {recorded[name]:,} on record"
                self.assertTrue(is_within(taken, recorded[name], most_of(name)), told)

    def test_print_takes_little_more_beside_core_than_on_record(self):
        recorded = on_record()
        for name in (it for it in recorded if named_print(it) in recorded):
            fine = named_print(name)
            ratio, before = self.taken[fine] / self.taken[name], recorded[fine] / recorded[name]
            self.assertLess(ratio, MOST_CHANGED * before, f"{name}: {ratio:.3f} times as many under print as under core, {before:.3f} on record")

    def test_a_map_that_scales_takes_little_more_under_the_print_profile(self):
        for name in SCALED:
            core, fine = self.taken[name], self.taken[named_print(name)]
            self.assertTrue(is_within(fine, core, MOST_PRINT), f"{name}: {fine:,} under print, {fine / core:.3f} times the {core:,} under core")


if __name__ == "__main__":
    unittest.main()
