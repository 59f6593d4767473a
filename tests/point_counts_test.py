"""Lines and polygons of each count of points, and drawings of each count of lists: the writes by hand."""

import unittest

from large_lists_test import BOUNDS, POLYGON, POLYGONS, POLYLINE, POLYLINES
from metafile.fields import BLACK, i16, u32
from metafile.files import emf_record
from metafile.scripts import EMF
from whole_runs import Run, RunsTest

# Counts beside powers of two, above those that are tried one by one, up to the most points of a drawing.
GREAT_COUNTS = [
    *[511, 512, 513, 1023, 1024, 1025, 4095, 4096, 4097, 8191, 8192, 8193, 32_767, 32_768, 65_535],
    *[65_536, 65_537, 131_072, 262_143, 262_144, 262_145, 524_289, 1_048_575, 1_048_576],
]

COUNTS = [*range(301), *GREAT_COUNTS]

# The surface, as large as the frame.
WIDTH = 4096
SIDES = (WIDTH, 3)

# The points of row 0 to the right, and those of row 2 to the left.
ROW = b"".join(i16(column, 0) for column in range(WIDTH))
ROW_BACK = b"".join(i16(column, 2) for column in reversed(range(WIDTH)))


def run_of(record, writes, colours):
    """The run of a file of one record."""
    return Run(EMF.file([record], SIDES, 4), SIDES, 2, writes, colours)


def along_row(count):
    """So many points along row 0: to the right column by column and, after the last column, from the first one again."""
    return ROW * (count // WIDTH) + ROW[: 4 * (count % WIDTH)]


def listed(kind, count, points):
    """A record of so many points."""
    return emf_record(kind, BOUNDS + u32(count) + points)


def polyline_run(count):
    """The run of a polyline along a row. It writes a pixel for each of its lines, up to those of the row."""
    return run_of(listed(POLYLINE, count, along_row(count)), min(max(0, count - 1), WIDTH), {(0, 0): BLACK} if count > 1 else {})


def flat_polygon_run(count):
    """The run of a polygon along a row. It has nothing inside, and its outline a pixel for each point."""
    return run_of(listed(POLYGON, count, along_row(count)), 0 if count < 2 else min(count, WIDTH), {})


def polygon_run(count):
    """The run of a polygon around a box of three rows: half of its points lie on the first row and the others on the last one, one in each column up
    to the last. It has two pixels inside in each column but the last, and the box's outline."""
    there, back = count // 2, count - count // 2
    last = min(max(0, there - 1), WIDTH - 1)
    points = ROW[: 4 * there] + i16(last, 0) * (there - WIDTH)
    points += i16(last, 2) * (back - last - 1) + ROW_BACK[4 * max(WIDTH - back, WIDTH - 1 - last) :]
    # One point has no line, and two or three of them lie in one column.
    writes = 0 if count < 2 else 3 if count < 4 else 4 * last + 4
    return run_of(listed(POLYGON, count, points), writes, {(last, 2): BLACK} if count > 3 else {})


def pairs(kind, count):
    """A record of so many lists of two points, side by side in row 0."""
    return emf_record(kind, BOUNDS + u32(count, 2 * count) + u32(2) * count + along_row(2 * count))


def pairs_runs(count):
    """The runs of so many lists of two points. They write one pixel each as lines, and two as polygons, up to the row's."""
    pixels = min(count, WIDTH // 2)
    return [run_of(pairs(POLYLINES, count), pixels, {}), run_of(pairs(POLYGONS, count), 2 * pixels, {})]


class PointCounts(RunsTest):
    """Drawings of many points."""

    def test_lines_have_each_count_of_points(self):
        self.check_runs(map(polyline_run, COUNTS))

    def test_a_polygon_has_each_count_of_points(self):
        self.check_runs(map(polygon_run, COUNTS))
        self.check_runs(map(flat_polygon_run, COUNTS))

    def test_drawings_have_each_count_of_lists(self):
        counts = [*range(301), *(count // 2 for count in GREAT_COUNTS)]
        self.check_runs(run for count in counts for run in pairs_runs(count))


if __name__ == "__main__":
    unittest.main()
