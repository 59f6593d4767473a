"""How a WMF scales a viewport that it hasn't set: the viewport is that of the program that shows the file, so the
window changes instead.
"""

from __future__ import annotations

from dataclasses import dataclass
from math import gcd

from .affine import Point
from .faults import Fault, FaultName
from .fixed import rounded_quotient

_MOST = 1 << 31
_LARGEST = 0x7FFF


@dataclass(frozen=True, slots=True)
class ViewportScale:
    """What the viewport is scaled by: on each axis a quotient in lowest terms."""

    x_numerator: int
    x_denominator: int
    y_numerator: int
    y_denominator: int

    def scaled(self, other: ViewportScale) -> ViewportScale:
        """Both scales, one after the other. Raises Fault OffPlane if their numbers become too long."""
        x = _lowest(self.x_numerator * other.x_numerator, self.x_denominator * other.x_denominator)
        y = _lowest(self.y_numerator * other.y_numerator, self.y_denominator * other.y_denominator)
        return ViewportScale(*x, *y)

    def window(self, asked: Point) -> Point:
        """The window that stands for a window and this scale.

        Raises Fault ZeroExtent or OffPlane if it can't be written.
        """
        x = rounded_quotient(asked.x * self.x_denominator, self.x_numerator)
        y = rounded_quotient(asked.y * self.y_denominator, self.y_numerator)
        if 0 in (x, y):
            raise Fault(FaultName.ZeroExtent)
        if max(abs(x), abs(y)) > _LARGEST:
            raise Fault(FaultName.OffPlane, "a scaled window has more than 16 bits")
        return Point(x, y)


UNSCALED = ViewportScale(1, 1, 1, 1)


def _lowest(numerator: int, denominator: int) -> tuple[int, int]:
    if numerator == 0 or denominator == 0:
        raise Fault(FaultName.ZeroExtent)
    divisor = gcd(numerator, denominator)
    if max(abs(numerator), abs(denominator)) // divisor > _MOST:
        raise Fault(FaultName.OffPlane, "the viewport's scale")
    return numerator // divisor, denominator // divisor
