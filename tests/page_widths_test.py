"""A page of tiles and lines on surfaces of each width, with the writes and some pixels by hand. At each of these sizes a run has its memory."""

import unittest

from page_sizes_test import page_run
from surface_sizes_test import LONGEST
from whole_runs import RunsTest


class PageWidths(RunsTest):
    """The page with a tile and lines."""

    def test_each_width(self):
        for height, rows in [(1, 1), (2, 1), (5, 2)]:
            self.check_runs(page_run(width, height, rows) for width in range(1, LONGEST + 1))


if __name__ == "__main__":
    unittest.main()
