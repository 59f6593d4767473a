"""Files with each count of saved states, of objects, of pieces of a path and of cuts, played whole and in bands."""

import unittest

from metafile.blits import BLACKNESS
from metafile.fields import BLACK, RED
from metafile.scripts import EMF, WMF
from reference.certificates import Certificate, Entry
from request_program import PROGRAMS
from whole_runs import Run, RunsTest

# Counts beside powers of two, above those that are tried one by one.
GREAT_COUNTS = [511, 512, 513, 1023, 1024, 1025, 4095, 4096, 4097, 16_384, 32_767, 32_768, 32_769, 65_533, 65_534]

SQUARE = (4, 4)

# A red pixel in column 2 of row 1.
PIXEL = WMF.step("pixel", 2, 1)


def dot_run(before, after, number, depth, slots):
    """The run of a file that draws the pixel as this record, between others, with a certificate of these needs."""
    certificate = Certificate(*SQUARE, 1, depth, slots, 0, 0, (Entry(number, 2, 1, 2, 1),))
    return Run(WMF.file([*before, PIXEL, *after], 4, 0), SQUARE, 3, 1, {(2, 1): RED}, certificate.text())


def states_run(count):
    """The run of the pixel in so many saved states, which are restored one by one."""
    return dot_run(WMF.records("save") * count, WMF.records("restore -1") * count, count, count, 0)


def objects_run(count):
    """The run of the pixel after so many objects are made."""
    return dot_run(WMF.records("font 0") * count, [], count, 0, count)


def row_run(given, width, writes):
    """The run of a file that writes so many pixels in a row, from column 0 on, whose first is black where there is one."""
    return Run(given, (width, 1), 1, writes, {(0, 0): BLACK} if writes else {})


def pens_run(count):
    """The run of an EMF with so many pens at indexes from 1 on, which draws a line of four pixels by the last. The index 0 counts, too."""
    pens = [EMF.step("styled_pen", index, 0, 0, 0) for index in range(count)]
    return row_run(EMF.file([*pens, *EMF.records(f"select_at {count}; line 4 0")], (4, 1), count + 1), 4, 4)


def path_run(lines):
    """The run of a path of so many lines along a row, which begin again after column 4,095, and are stroked."""
    ends = [EMF.step("line", line % 4096, 0) for line in range(1, lines + 1)]
    records = [EMF.step("begin_path"), *ends, EMF.step("end_path"), EMF.step("stroke_path")]
    return row_run(EMF.file(records, (4096, 1), 4), 4096, min(lines, 4096))


def cuts_run(cuts):
    """The run of so many cuts, each of a column from the right on, which leave the other pixels of a row of 32 to a blit."""
    cut = "; ".join(f"cut {31 - nth} 0 {32 - nth} 1" for nth in range(cuts))
    return row_run(WMF.file(WMF.records(f"{cut}; pat_blt {BLACKNESS} 0 0 32 1"), (32, 1), 0), 32, 32 - cuts)


class Needs(RunsTest):
    """Files with needs of each size."""

    def test_each_depth_of_saved_states(self):
        self.check_runs(map(states_run, range(257)))

    def test_each_count_of_objects(self):
        self.check_runs(map(objects_run, range(1025)))

    def test_each_count_of_indexes(self):
        self.check_runs(map(pens_run, [*range(1, 301), *GREAT_COUNTS]))

    def test_a_path_of_each_count_of_lines(self):
        self.check_runs(map(path_run, [*range(301), *GREAT_COUNTS]))

    def test_each_count_of_cuts(self):
        self.check_runs(map(cuts_run, range(17)), PROGRAMS)


if __name__ == "__main__":
    unittest.main()
