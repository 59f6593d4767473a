"""The round shapes of records as points: ellipses, arcs, chords, pies and round rectangles."""

from __future__ import annotations

from typing import NamedTuple

from .affine import Affine, Point
from .budgets import Budget
from .curves import Direction, Oval, direction_of
from .text import Box


class PageBox(NamedTuple):
    """A box of the page in order, as the device sees it by a transform."""

    box: Box
    device: Affine

    @staticmethod
    def ordered(box: Box, device: Affine) -> PageBox:
        """The box with its sides put in order."""
        left, right = sorted((box.left, box.right))
        top, bottom = sorted((box.top, box.bottom))
        return PageBox(Box(left, top, right, bottom), device)

    @property
    def sides(self) -> Point:
        """Width and height in page units, at least 0."""
        return Point(self.box.right - self.box.left, self.box.bottom - self.box.top)

    def oval_at(self, centre: Point, diameters: Point) -> Oval:
        """The ellipse with a centre in halves of page units and diameters in page units."""
        return Oval(
            self.device.apply_part(centre, 2),
            self.device.apply_vector_part(Point(diameters.x, 0), 2),
            self.device.apply_vector_part(Point(0, diameters.y), 2),
        )

    def oval(self) -> Oval:
        """The ellipse in the box."""
        return self.oval_at(self._twice_centre(), self.sides)

    def _twice_centre(self) -> Point:
        return Point(self.box.left + self.box.right, self.box.top + self.box.bottom)

    def direction(self, target: Point) -> Direction:
        """Where the ray from the centre to a point of the page meets the ellipse."""
        centre, sides = self._twice_centre(), self.sides
        return direction_of(Point((2 * target.x - centre.x) * sides.y, (2 * target.y - centre.y) * sides.x))

    def arc(self, start: Point, end: Point, is_clockwise: bool, budget: Budget) -> list[Point]:
        """The arc from one ray to another, both through points of the page.

        The direction is as the device shows it, y downwards.
        """
        first, last = self.direction(start), self.direction(end)
        grows_clockwise = self.device.determinant() > 0
        if is_clockwise == grows_clockwise:
            return self.oval().arc(first, last, budget)
        return self.oval().arc(last, first, budget)[::-1]

    def centre(self) -> Point:
        """The centre in fixed device units."""
        return self.device.apply_part(self._twice_centre(), 2)

    def round_rectangle(self, corner: Point, budget: Budget) -> list[Point]:
        """The box with corners that are quarters of an ellipse with these diameters, in page units."""
        sides = self.sides
        width, height = min(abs(corner.x), sides.x), min(abs(corner.y), sides.y)
        left, right = 2 * self.box.left + width, 2 * self.box.right - width
        top, bottom = 2 * self.box.top + height, 2 * self.box.bottom - height
        centres = (Point(right, bottom), Point(left, bottom), Point(left, top), Point(right, top))
        ovals = [self.oval_at(centre, Point(width, height)) for centre in centres]
        return [point for place, oval in enumerate(ovals) for point in oval.quarter(place, budget)]
