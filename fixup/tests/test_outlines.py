"""Outlines as FreeType reads them, against fontTools, which shares no code with it."""

from __future__ import annotations

import unittest
from pathlib import Path
from typing import Any

from fontTools.pens.areaPen import AreaPen  # type: ignore[import]
from fontTools.pens.boundsPen import ControlBoundsPen  # type: ignore[import]
from fontTools.pens.recordingPen import DecomposingRecordingPen  # type: ignore[import]
from fontTools.ttLib import TTFont  # type: ignore[import]

from metaplay_fixup.affine import Point
from metaplay_fixup.catalogue import FontFile
from metaplay_fixup.faces import Face, RawGlyph
from metaplay_fixup.faults import Fault, FaultName
from metaplay_fixup.flattening import flattened
from metaplay_fixup.fonts import MOST_POINTS, Font
from metaplay_fixup.outlines import GlyphContour, GlyphOutline, outline_of

FONTS = Path("/usr/share/fonts")
PATHS = (
    "truetype/liberation/LiberationSerif-Italic.ttf",
    "truetype/crosextra/Carlito-Regular.ttf",
    "truetype/crosextra/Caladea-Bold.ttf",
    "truetype/liberation/LiberationMono-Bold.ttf",
    "opentype/urw-base35/NimbusRoman-BoldItalic.otf",
)
ON, OFF, CUBIC = 1, 0, 2


def draw(outline: GlyphOutline, pen: Any) -> None:
    """Draws an outline in halves of a font unit with a pen of fontTools."""
    for contour in outline.contours:
        pen.moveTo(contour.start)
        for piece in contour.pieces:
            (pen.lineTo, pen.qCurveTo, pen.curveTo)[len(piece) - 1](*piece)
        pen.closePath()


def box_and_area(record: Any) -> tuple[Any, float]:
    """The box of all points of a drawing, and its area with the sign of its direction."""
    bounds, area = ControlBoundsPen(None), AreaPen(None)
    record(bounds)
    record(area)
    return bounds.bounds, area.value


class AllGlyphs(unittest.TestCase):
    """Every glyph of five of Debian's fonts."""

    def test_advances_boxes_and_areas(self) -> None:
        for path in PATHS:
            with self.subTest(path):
                self.assert_equal_glyphs(FONTS / path)

    def assert_equal_glyphs(self, path: Path) -> None:
        """Advances, boxes and areas are the same."""
        font, other = Font(FontFile(path, 0, path.stem, "", False, False)), TTFont(path)
        glyphs = other.getGlyphSet()
        for index, name in enumerate(other.getGlyphOrder()):
            outline = font.outline(index)
            self.assertEqual(outline.advance, other["hmtx"][name][0], name)
            pen = DecomposingRecordingPen(glyphs)
            glyphs[name].draw(pen)
            box, area = box_and_area(lambda pen: draw(outline, pen))
            other_box, other_area = box_and_area(pen.replay)
            self.assertEqual(box, other_box and tuple(2 * side for side in other_box), name)
            self.assertAlmostEqual(area, 4 * other_area, 3, name)

    def test_points_of_composites(self) -> None:
        """The points of a font of many composites, moved so that each glyph begins at its left side bearing."""
        path = FONTS / "truetype/dejavu/DejaVuSansMono.ttf"
        face, font = Face(str(path), 0, path.name), TTFont(path)
        table = font["glyf"]
        for index, name in enumerate(font.getGlyphOrder()):
            glyph, other = face.glyph(index, MOST_POINTS), table[name]
            points, ends, flags = other.getCoordinates(table)
            shift = font["hmtx"][name][1] - other.xMin if len(points) else 0
            self.assertEqual(glyph.coordinates, [number for x, y in points for number in (x + shift, y)], name)
            self.assertEqual(
                (glyph.ends, [tag & ON for tag in glyph.tags]), (ends, [flag & ON for flag in flags]), name
            )

    def test_flattened_areas(self) -> None:
        """A chord is off by at most the tolerance of 4, and its ends are rounded: 5 at most for a unit of length."""
        path = FONTS / PATHS[0]
        font = Font(FontFile(path, 0, path.stem, "", False, False))
        for index in range(36, 62):
            outline = font.outline(index)
            _, area = box_and_area(lambda pen: draw(outline, pen))
            polygons = flattened(outline.contours, 4)
            length = sum(map(_length, polygons))
            self.assertLess(abs(sum(map(_area, polygons)) - area), 5 * length)


class Contours(unittest.TestCase):
    """Contours from points and tags."""

    def contours(self, *points: tuple[int, int, int]) -> tuple[GlyphContour, ...]:
        """The contours of points x, y with a tag."""
        coordinates = [number for x, y, _ in points for number in (x, y)]
        tags = bytes(tag for _, _, tag in points)
        return outline_of(RawGlyph(0, coordinates, tags, [len(points) - 1]), "font").contours

    def test_lines(self) -> None:
        found = self.contours((0, 0, ON), (0, 5, ON), (5, 5, ON))
        pieces = ((Point(0, 10),), (Point(10, 10),), (Point(0, 0),))
        self.assertEqual(found, (GlyphContour(Point(0, 0), pieces),))

    def test_implied_points_are_in_halves(self) -> None:
        """Between the controls (0, 5) and (5, 10) lies (2.5, 7.5)."""
        found = self.contours((0, 0, ON), (0, 5, OFF), (5, 10, OFF), (9, 10, ON))
        pieces = ((Point(0, 10), Point(5, 15)), (Point(10, 20), Point(18, 20)), (Point(0, 0),))
        self.assertEqual(found, (GlyphContour(Point(0, 0), pieces),))

    def test_a_contour_that_begins_off_the_curve(self) -> None:
        found = self.contours((4, 0, OFF), (4, 4, ON), (0, 0, ON))
        pieces = ((Point(0, 0),), (Point(8, 0), Point(8, 8)))
        self.assertEqual(found, (GlyphContour(Point(8, 8), pieces),))

    def test_a_contour_without_a_point_on_the_curve(self) -> None:
        """It begins midway between the last and the first point, at (0, 2)."""
        found = self.contours((0, 0, OFF), (4, 0, OFF), (4, 4, OFF), (0, 4, OFF))
        pieces = (
            (Point(0, 0), Point(4, 0)),
            (Point(8, 0), Point(8, 4)),
            (Point(8, 8), Point(4, 8)),
            (Point(0, 8), Point(0, 4)),
        )
        self.assertEqual(found, (GlyphContour(Point(0, 4), pieces),))

    def test_cubic_curves(self) -> None:
        found = self.contours((0, 0, ON), (0, 1, CUBIC), (1, 2, CUBIC), (3, 3, ON))
        pieces = ((Point(0, 2), Point(2, 4), Point(6, 6)), (Point(0, 0),))
        self.assertEqual(found, (GlyphContour(Point(0, 0), pieces),))

    def test_faults(self) -> None:
        glyphs = (
            RawGlyph(0, [0, 0, 1, 1], bytes([ON, ON]), [2]),
            RawGlyph(0, [0, 0, 1, 1], bytes([ON, ON]), [1, 0]),
            RawGlyph(0, [0, 0] * 4, bytes([ON, CUBIC, CUBIC, CUBIC]), [3]),
        )
        for glyph in glyphs:
            with self.assertRaises(Fault) as caught:
                outline_of(glyph, "font")
            self.assertIs(caught.exception.name, FaultName.BadFont)


def _area(polygon: list[Point]) -> float:
    following = polygon[1:] + polygon[:1]
    return sum(one.x * other.y - one.y * other.x for one, other in zip(polygon, following)) / 2


def _length(polygon: list[Point]) -> float:
    following = polygon[1:] + polygon[:1]
    return sum(abs(one.x - other.x) + abs(one.y - other.y) for one, other in zip(polygon, following))


if __name__ == "__main__":
    unittest.main()
