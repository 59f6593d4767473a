"""Underline and strike-out.

GDI fills a box of the text's colour along the baseline, as long as the text's advances. It takes the box from the
font's OUTLINETEXTMETRIC: the underline from underlinePosition and underlineThickness of [OpenType] post, the strike-out
from yStrikeoutPosition and yStrikeoutSize of OS/2, each times the height of the font over the units of its em. These
rules are wine 8.0's (dlls/win32u/font.c and freetype.c):

- The position is that of the middle of the line, although [OpenType] calls both positions those of its top. FreeType
  takes the middle too. How Windows does it isn't published, and a line may be off by half of its thickness there.
- A line is at least one device unit thick. A thickness below 0 counts like one above.
- GDI rounds position and thickness to whole device units. Here fractions are kept, since the file may be shown on a
  surface with more pixels: a side of a line is off by less than a device unit from GDI's.
"""

from __future__ import annotations

from math import isqrt

from .affine import Contour, Point
from .layout import Laid, band
from .metrics import VECTOR_BITS
from .text import LogicalFont

_UNIT = 1 << VECTOR_BITS
# Lengths on the device are rounded, and a line that is as thin as this less than a unit is thick enough.
_ROUNDING = 1 << (VECTOR_BITS - 20)


def lines(text: Laid, font: LogicalFont) -> list[Contour]:
    """The underline and the strike-out that a font asks for, but for those without an area."""
    metrics, bands = text.line.metrics, []
    if font.underline:
        bands.append(_line(text, metrics.underline_middle, metrics.underline_size))
    if font.strike_out:
        bands.append(_line(text, metrics.strike_out_middle, metrics.strike_out_size))
    return [contour for contour in bands if has_area(contour)]


def _line(text: Laid, middle: int, size: int) -> Contour:
    """The line with this middle and thickness, in font units."""
    rise = text.line.frame.rise
    unit = max(1, isqrt(rise.x * rise.x + rise.y * rise.y))
    thickness = max(abs(size), -(-(_UNIT - _ROUNDING) // unit))
    return band(text, 2 * middle - thickness, 2 * middle + thickness)


def has_area(contour: Contour) -> bool:
    """Whether a band has an area."""
    one, two, _, four = contour
    across, down = Point(two.x - one.x, two.y - one.y), Point(four.x - one.x, four.y - one.y)
    return across.x * down.y != across.y * down.x
