"""Which part of a picture a blit reads, and where it lands: mirrored and cropped, in whole numbers."""

from __future__ import annotations

from typing import NamedTuple

from .affine import Point
from .faults import Fault, FaultName
from .fixed import rounded_quotient
from .pictures import Picture


class Side(NamedTuple):
    """One axis of a blit: from `near` to `far` on the device, source from `start` over `length` pixels, none of
    them negative.
    """

    near: int
    far: int
    start: int
    length: int


def side(near: int, far: int, start: int, length: int) -> Side:
    """An axis whose source length may be negative, which mirrors it. Raises Fault SourceOutside if the length is 0."""
    if length == 0:
        raise Fault(FaultName.SourceOutside)
    if length < 0:
        return Side(far, near, start + length, -length)
    return Side(near, far, start, length)


def cropped(axis: Side, size: int) -> Side | None:
    """The part of an axis whose source lies within a picture of a size, or None if nothing does."""
    first, last = max(0, axis.start), min(size, axis.start + axis.length)
    if first >= last:
        return None
    reach = axis.far - axis.near
    near = axis.near + rounded_quotient(reach * (first - axis.start), axis.length)
    far = axis.near + rounded_quotient(reach * (last - axis.start), axis.length)
    return Side(near, far, first, last - first)


class Placed(NamedTuple):
    """A picture that is shown whole between two corners, in fixed device units."""

    picture: Picture
    first: Point
    last: Point


def placed(picture: Picture, across: Side, down: Side) -> Placed | None:
    """The part of a picture that a blit shows, rows counted from the top, or None if it shows nothing."""
    shown_across, shown_down = cropped(across, picture.width), cropped(down, picture.height)
    if shown_across is None or shown_down is None:
        return None
    part = picture.cut(shown_across.start, shown_down.start, shown_across.length, shown_down.length)
    first, last = Point(shown_across.near, shown_down.near), Point(shown_across.far, shown_down.far)
    return Placed(part, first, last)


def depends_on_source(operation: int) -> bool:
    """Whether a ternary raster operation ([MS-WMF] 2.1.1.31) needs a source."""
    table = operation >> 16 & 0xFF
    return (table >> 2 & 0x33) != (table & 0x33)


def is_within(start: int, length: int, size: int) -> bool:
    """Whether a source isn't empty and lies within a picture's side."""
    return length != 0 and min(start, start + length) >= 0 and max(start, start + length) <= size
