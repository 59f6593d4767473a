"""Extents of the page map that records scale ([MS-EMF] 2.3.11.12, 2.3.11.13; [MS-WMF] 2.3.5.12, 2.3.5.13)."""

from __future__ import annotations

from .affine import Point
from .faults import Fault, FaultName
from .records import Fields

_LARGEST = 0x7FFFFFFF


def scaled_extent(fields: Fields, extent: Point) -> Point:
    """An extent times the quotients in a record's fields.

    Raises Fault ZeroExtent if a side or a denominator is 0, and OffPlane for a side of more than 32 bits.
    """
    x = scaled_side(extent.x, fields["x_numerator"], fields["x_denominator"])
    y = scaled_side(extent.y, fields["y_numerator"], fields["y_denominator"])
    if max(abs(x), abs(y)) > _LARGEST:
        raise Fault(FaultName.OffPlane, "a scaled extent has more than 32 bits")
    return Point(x, y)


def scaled_side(side: int, numerator: int, denominator: int) -> int:
    """A side times a quotient, without its fraction. Raises Fault ZeroExtent if it is 0, or the denominator is."""
    if denominator == 0:
        raise Fault(FaultName.ZeroExtent)
    size = abs(side * numerator) // abs(denominator)
    if size == 0:
        raise Fault(FaultName.ZeroExtent)
    return size if side * numerator * denominator > 0 else -size
