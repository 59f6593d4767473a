"""Metrics of the face that a record names, where a font of another family with equal advances stands in.

The advances are equal, but the cell and the average width needn't be. A width that a record gives is one of the average
character of the face, and the cell decides where text begins that is aligned to its top.
"""

from __future__ import annotations

from dataclasses import dataclass, replace

from .choice import ChosenFont
from .families import substituted
from .fixed import rounded_quotient
from .fonts import Font, FontMetrics
from .text import Choice, LogicalFont

_EM = 2048


@dataclass(frozen=True, slots=True)
class _Cell:
    """usWinAscent and usWinDescent of a family of Windows, for an em of 2,048 units."""

    ascent: int
    descent: int


_CELLS = {
    "arial": _Cell(1854, 434),
    "courier new": _Cell(1705, 615),
    "times new roman": _Cell(1825, 443),
}

# The weights of xAvgCharWidth in versions 0 to 2 of [OpenType] OS/2, which these families have; their sum is 1,000.
_WEIGHTS = {
    **dict(zip("abcdefghi", (64, 14, 27, 35, 100, 20, 14, 42, 63))),
    **dict(zip("jklmnopqr", (3, 6, 35, 20, 56, 56, 17, 4, 49))),
    **dict(zip("stuvwxyz ", (56, 71, 31, 10, 18, 3, 18, 2, 166))),
}
_WHOLE = 1000


def metrics_of_face(request: LogicalFont, chosen: ChosenFont) -> FontMetrics:
    """The metrics of the face in units of the font that was chosen for it: the font's own unless it stands in."""
    metrics = chosen.font.metrics
    cell = _CELLS.get(substituted(request.face.lower()))
    if chosen.choice is not Choice.TABLE or cell is None:
        return metrics
    return replace(
        metrics,
        ascent=rounded_quotient(cell.ascent * metrics.units_per_em, _EM),
        descent=rounded_quotient(cell.descent * metrics.units_per_em, _EM),
        average_width=weighted_average(chosen.font) if request.width else metrics.average_width,
    )


def weighted_average(font: Font) -> int:
    """The average advance of small letters and the space in font units, by how often English has them, rounded down."""
    total = sum(weight * font.outline(font.glyph_of(ord(letter))).advance for letter, weight in _WEIGHTS.items())
    return total // _WHOLE
