"""Regions and paths as a kept box and cuts."""

import unittest

from metaplay_fixup.affine import Point
from metaplay_fixup.clips import NO_CLIP, Clip, box_of_figure, clip_of_region
from metaplay_fixup.faults import Fault, FaultName
from metaplay_fixup.text import Box


class Clips(unittest.TestCase):
    """Clips narrow."""

    def test_kept_boxes(self) -> None:
        """Two kept boxes keep what they have in common, perhaps nothing."""
        clip = NO_CLIP.keeping(Box(0, 0, 10, 10)).keeping(Box(5, -5, 20, 5))
        self.assertEqual(clip.kept, Box(5, 0, 10, 5))
        self.assertEqual(clip.keeping(Box(30, 30, 40, 40)).kept, Box(30, 30, 30, 30))

    def test_cuts(self) -> None:
        """The seventeenth cut is one too many."""
        clip = NO_CLIP
        for place in range(16):
            clip = clip.cutting(Box(place, 0, place + 1, 1))
        with self.assertRaises(Fault) as raised:
            clip.cutting(Box(0, 0, 1, 1))
        self.assertEqual(raised.exception.name, FaultName.TooManyCuts)


class Regions(unittest.TestCase):
    """Regions ([MS-EMF] 2.2.24) are boxes in bands."""

    def test_shapes(self) -> None:
        """A box; nothing; two boxes beside each other; a ring; an L; a gap between bands."""
        rows: list[tuple[list[Box], Clip]] = [
            ([Box(1, 2, 3, 4)], Clip(Box(1, 2, 3, 4))),
            ([], Clip(Box(0, 0, 0, 0))),
            ([Box(0, 0, 2, 9), Box(5, 0, 9, 9)], Clip(Box(0, 0, 9, 9), (Box(2, 0, 5, 9),))),
            (
                [Box(0, 0, 9, 3), Box(0, 3, 3, 6), Box(6, 3, 9, 6), Box(0, 6, 9, 9)],
                Clip(Box(0, 0, 9, 9), (Box(3, 3, 6, 6),)),
            ),
            ([Box(0, 0, 3, 6), Box(0, 6, 9, 9)], Clip(Box(0, 0, 9, 9), (Box(3, 0, 9, 6),))),
            ([Box(0, 0, 9, 2), Box(0, 5, 9, 9)], Clip(Box(0, 0, 9, 9), (Box(0, 2, 9, 5),))),
        ]
        for boxes, expected in rows:
            self.assertEqual(clip_of_region(boxes), expected, boxes)

    def test_gaps_that_go_on(self) -> None:
        """Gaps of the same columns in bands that follow each other are one cut."""
        bands = [Box(left, top, left + 3, top + 1) for top in range(20) for left in (0, 6)]
        self.assertEqual(clip_of_region(bands), Clip(Box(0, 0, 9, 20), (Box(3, 0, 6, 20),)))

    def test_faults(self) -> None:
        """Boxes out of order aren't bands, and a staircase of seventeen steps has too many gaps."""
        with self.assertRaises(Fault) as raised:
            clip_of_region([Box(0, 5, 9, 9), Box(0, 0, 9, 5)])
        self.assertEqual(raised.exception.name, FaultName.ClipShape)
        stairs = [Box(0, step, step + 1, step + 1) for step in range(18)]
        with self.assertRaises(Fault) as raised:
            clip_of_region(stairs)
        self.assertEqual(raised.exception.name, FaultName.TooManyCuts)


class Paths(unittest.TestCase):
    """Figures that are boxes."""

    def test_boxes(self) -> None:
        """A box in any direction from any corner, with its first point repeated, or off by the rounding of one unit."""
        rows = [
            [(0, 0), (90, 0), (90, 50), (0, 50)],
            [(0, 0), (0, 50), (90, 50), (90, 0)],
            [(90, 50), (0, 50), (0, 0), (90, 0), (90, 50)],
            [(0, 0), (90, 1), (90, 50), (0, 50)],
        ]
        for row in rows:
            self.assertEqual(box_of_figure([Point(*point) for point in row]), Box(0, 0, 90, 50), row)

    def test_others(self) -> None:
        """Triangles, trapezes, crossed and turned boxes, and boxes with more corners."""
        rows = [
            [(0, 0), (90, 0), (90, 50)],
            [(0, 0), (90, 0), (80, 50), (0, 50)],
            [(0, 0), (90, 50), (90, 0), (0, 50)],
            [(50, 0), (100, 50), (50, 100), (0, 50)],
            [(0, 0), (50, 0), (90, 0), (90, 50), (0, 50)],
        ]
        for row in rows:
            self.assertIsNone(box_of_figure([Point(*point) for point in row]), row)


if __name__ == "__main__":
    unittest.main()
