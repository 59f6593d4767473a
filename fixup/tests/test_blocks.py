"""How finely blocks count."""

import unittest

from metaplay_fixup.affine import Point
from metaplay_fixup.emf_blocks import Grid
from metaplay_fixup.emf_kinds import EMF
from metaplay_fixup.faults import Fault, FaultName
from metaplay_fixup.fixed import ONE
from metaplay_fixup.state import PageMap
from metaplay_fixup.text import Box
from metaplay_fixup.wmf_blocks import FineWindow, polygons

from .oracle import emf_file


def grid(width: int, height: int, bound: int) -> Grid:
    """The grid of a frame at the origin."""
    header = EMF.named("EMR_HEADER").read(emf_file([], width, height))
    return Grid.of_header(header, bound)


class Grids(unittest.TestCase):
    """Parts of a device unit in EMF."""

    def test_parts(self) -> None:
        """The least power of two that gives the longer side eight parts a pixel, if print can tell them apart."""
        rows = [
            (100, 100, 8192, 1024, 4096),
            (64, 1, 8192, 1024, 4096),
            (65, 1, 8192, 1024, 4096),
            (63, 1, 8192, 2048, 4096),
            (1, 1, 8192, 4096, 4096),
            (1, 300, 8192, 256, 2048),
            (256, 1, 8192, 256, 4096),
            (257, 1, 8192, 256, 2048),
            (100, 100, 1, 1, 4096),
            (100, 100, 13, 2, 4096),
            (65536, 1, 8192, 1, 16),
            (1 << 20, 1, 8192, 1, 1),
            (3 << 20, 1, 8192, 1, 1),
        ]
        for width, height, bound, parts, plane_parts in rows:
            made = grid(width, height, bound)
            self.assertEqual((made.parts, made.plane_parts), (parts, plane_parts), (width, height, bound))

    def test_units(self) -> None:
        """Points count from an origin, rounded to the nearest part, halves up."""
        made = grid(100, 100, 13)
        self.assertEqual(made.units(Point(5 * ONE // 4, -ONE // 4), Point(1, 0)), (1, 0))
        self.assertEqual(made.units(Point(5 * ONE // 4 - 1, -ONE // 4 - 1), Point(1, 0)), (0, -1))

    def test_plane(self) -> None:
        """2^30 parts of the print profile from the corner is on the plane, one more isn't."""
        made = grid(100, 100, 8192)
        edge = (1 << 30) // 4096
        self.assertEqual(made.units(Point(edge * ONE, 0), Point(edge, 0)), (0, 0))
        for point in (Point(edge * ONE + 1, 0), Point(0, -edge * ONE - 1)):
            with self.assertRaises(Fault) as raised:
                made.units(point, Point(0, 0))
            self.assertEqual(raised.exception.name, FaultName.OffPlane)

    def test_far_clips(self) -> None:
        """A clip's far sides are moved to 2^24 parts from the frame's corner."""
        made = grid(100, 100, 8192)
        record = made.clip_records("EMR_INTERSECTCLIPRECT", Box(-(1 << 60), 0, 1 << 60, ONE))
        self.assertEqual(
            EMF.named("EMR_INTERSECTCLIPRECT").read(record).several("left", "top", "right", "bottom"),
            (-(1 << 24), 0, 1 << 24, 1024),
        )


class FineWindows(unittest.TestCase):
    """Windows of blocks in WMF."""

    PAGE = PageMap(8, Point(10, 20), Point(100, -50), Point(0, 0), Point(100, 100))

    def test_around(self) -> None:
        """Device (50, 40) is the page's (60, 0); the window's sides are the farthest across, its extent of 50 down."""
        window = FineWindow.around(self.PAGE, [Point(50 * ONE, 40 * ONE)], False)
        self.assertEqual((window.base, window.factors), ((60, 0), (256, 256)))
        self.assertEqual((window.origin, window.extent), ((-50 * 256, 20 * 256), (25600, -12800)))

    def test_units(self) -> None:
        """One device unit across is a page unit, and one down half of one, upwards."""
        window = FineWindow.around(self.PAGE, [Point(50 * ONE, 40 * ONE)], False)
        self.assertEqual(window.units(Point(51 * ONE, 41 * ONE)), (256, -128))

    def test_room(self) -> None:
        """A point 2,000 units away leaves 32,767 / 2,002 parts on its axis; an even window has them on both."""
        points = [Point(0, 0), Point(2000 * ONE, 0)]
        self.assertEqual(FineWindow.around(self.PAGE, points, False).factors, (16, 256))
        self.assertEqual(FineWindow.around(self.PAGE, points, True).factors, (16, 16))

    def test_room_for_the_origin(self) -> None:
        """The window's origin of 5,000 units from the drawing, too, has 32,767 / 5,001 parts."""
        page = PageMap(8, Point(5000, 0), Point(100, 100), Point(0, 0), Point(100, 100))
        window = FineWindow.around(page, [Point(-5000 * ONE, 0), Point(-5000 * ONE, ONE)], False)
        self.assertEqual((window.base, window.factors, window.origin), ((0, 0), (6, 256), (30000, 0)))

    def test_long_lists(self) -> None:
        """A list of a WMF has at most 32,767 points."""
        window = FineWindow.around(self.PAGE, [Point(0, 0), Point(50 * ONE, 0)], False)
        points = [Point(place % 50 * ONE, 0) for place in range(32768)]
        self.assertEqual(len(polygons(window, [points[:-1]])), 1)
        with self.assertRaises(Fault) as raised:
            polygons(window, [points])
        self.assertEqual(raised.exception.name, FaultName.TooManyEdges)

    def test_no_room(self) -> None:
        """A window whose origin doesn't fit 16 bits from the drawing."""
        with self.assertRaises(Fault) as raised:
            FineWindow.around(self.PAGE, [Point(40000 * ONE, 0)], False)
        self.assertEqual(raised.exception.name, FaultName.OffPlane)


if __name__ == "__main__":
    unittest.main()
