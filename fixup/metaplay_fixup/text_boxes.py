"""The box that a text record fills or is clipped by."""

from __future__ import annotations

from .affine import Contour, Point
from .faults import Fault, FaultName
from .shapes import corners_of
from .text import CLIPPED_BOX, OPAQUE_BOX, Box, LaidText, PageToDevice, TextRecord


def opaque_box(record: TextRecord, page: PageToDevice) -> Contour | None:
    """The box that the record fills with the background's colour, in fixed device units, or None. It may be turned."""
    corners = _corners(record, page, OPAQUE_BOX)
    return corners if corners is not None and _has_area(corners) else None


def clips_all(record: TextRecord, page: PageToDevice) -> bool:
    """Whether the record clips its text by a box without an area, so that nothing of it shows."""
    corners = _corners(record, page, CLIPPED_BOX)
    return corners is not None and not _has_area(corners)


def clip_box(record: TextRecord, laid: LaidText, page: PageToDevice) -> Box | None:
    """The box that the text must be clipped by, in fixed device units with its sides sorted.

    It is None if there is none or all of the text lies in it. A box without an area clips all of the text, and has no
    area here either.

    Raises Fault with ClipShape if the box is turned, has an area, and some of the text lies outside.
    """
    corners = _corners(record, page, CLIPPED_BOX)
    if corners is None:
        return None
    points = [point for contour in laid.glyphs + laid.lines + [laid.background or []] for point in contour]
    has_area = _has_area(corners)
    if has_area and all(_is_inside(point, corners) for point in points):
        return None
    if not page.affine.is_straight():
        if has_area:
            raise Fault(FaultName.ClipShape, "a turned box clips text")
        corners = corners[:1]
    xs, ys = sorted(corner.x for corner in corners), sorted(corner.y for corner in corners)
    return Box(xs[0], ys[0], xs[-1], ys[-1])


def _corners(record: TextRecord, page: PageToDevice, option: int) -> Contour | None:
    """The corners of the record's box if it has one for this option."""
    if record.box is None or not record.options & option:
        return None
    return [page.affine.apply(corner) for corner in corners_of(record.box)]


def _has_area(corners: Contour) -> bool:
    """Whether a parallelogram has an area. A box may lose its own on a page that shrinks it."""
    return _side(corners[3], corners[0], corners[1]) != 0


def _is_inside(point: Point, corners: Contour) -> bool:
    """Whether a point lies in a parallelogram or on its edge: on the same side of all edges."""
    following = corners[1:] + corners[:1]
    sides = [_side(point, start, end) for start, end in zip(corners, following)]
    return min(sides) >= 0 or max(sides) <= 0


def _side(point: Point, start: Point, end: Point) -> int:
    return (end.x - start.x) * (point.y - start.y) - (end.y - start.y) * (point.x - start.x)
