"""What pens say about their strokes: LogPen ([MS-EMF] 2.2.19), LogPenEx ([MS-EMF] 2.2.20), Pen ([MS-WMF] 2.2.1.4).

The player draws a stroke by moving a box along its line, without dashes. That is a stroke with square caps and mitred
joins, so only these pens need anything else:

- A thin pen, at most one device pixel wide, has no caps or joins that show. If it is dashed, its dashes are drawn as
  lines of a solid thin pen. They aren't polygons, because a polygon as narrow as a device pixel would have gaps on each
  surface that has fewer pixels than the device, and the player's thin lines have none.
- A wide pen whose style is dashed, whose caps aren't square, or whose joins aren't mitred is drawn as polygons.

Pens of the older kinds (LogPen, Pen) are dashed only if they are thin, as GDI draws them; a wide one is solid. Where
such a pen is dashed and the background mode is OPAQUE, its gaps have the background's colour.
"""

from __future__ import annotations

from collections.abc import Callable
from dataclasses import dataclass
from enum import Enum

from .faults import Fault, FaultName
from .singles import Ratio, single_of
from .text import Colour

Measure = Callable[[int], int]
"""Gives a length of page units in fixed device units."""

# The most dashes and gaps that GDI lets a pattern have.
_MOST_ENTRIES = 16

DEFAULT_MITER_LIMIT = Ratio(10, 1)

_GEOMETRIC = 0x10000
_LEAST_SINGLE = 1 << 23
_STYLE_BITS, _CAP_BITS, _JOIN_BITS = 0xF, 0xF00, 0xF000


class Style(Enum):
    """The styles of pens that draw ([MS-EMF] 2.1.25, [MS-WMF] 2.1.1.23)."""

    SOLID = 0
    DASH = 1
    DOT = 2
    DASH_DOT = 3
    DASH_DOT_DOT = 4
    INSIDE_FRAME = 6
    USER = 7
    ALTERNATE = 8


class Cap(Enum):
    """The ends of strokes."""

    ROUND = 0
    SQUARE = 0x100
    FLAT = 0x200


class Join(Enum):
    """The corners of strokes."""

    ROUND = 0
    BEVEL = 0x1000
    MITER = 0x2000


class Way(Enum):
    """How a pen's strokes are drawn: as the player draws them, as lines, or as polygons."""

    AS_PLAYED = "as played"
    LINES = "lines"
    POLYGONS = "polygons"


@dataclass(frozen=True, slots=True)
class PenLook:
    """What a pen that draws says of its strokes.

    `width` is in page units, and 0 for a cosmetic pen. `is_older` says that it is a LogPen or a Pen. `entries` are the
    lengths of dashes and gaps of a user style: in page units for a geometric pen, else in device units.
    """

    style: Style
    width: int
    cap: Cap
    join: Join
    colour: Colour
    is_older: bool
    entries: tuple[int, ...] = ()

    @property
    def is_geometric(self) -> bool:
        """Whether the pen counts in page units as a LogPenEx may."""
        return self.width > 0 and not self.is_older

    def is_dashed_at(self, is_wide: bool) -> bool:
        """Whether the pen is dashed, for one that is or isn't wider than a device pixel."""
        if self.style in (Style.SOLID, Style.INSIDE_FRAME) or (self.is_older and is_wide):
            return False
        return self.style is not Style.USER or any(self.entries)

    def way(self, measure: Measure, pixel: int) -> Way:
        """How the strokes are drawn. `pixel` is a device pixel in fixed units."""
        is_wide = self.is_wide(measure, pixel)
        if self.is_dashed_at(is_wide):
            return Way.POLYGONS if is_wide else Way.LINES
        is_box = self.cap is Cap.SQUARE and self.join is Join.MITER
        return Way.POLYGONS if is_wide and not is_box else Way.AS_PLAYED

    def is_wide(self, measure: Measure, pixel: int) -> bool:
        """Whether the pen is wider than a device pixel."""
        return self.width > 0 and measure(self.width) > pixel


@dataclass(frozen=True, slots=True)
class PenShape:
    """A pen on the device: the width, above 0, and the pattern's lengths are in fixed device units.

    The pattern has dashes and gaps in turn, an even number of lengths whose sum is above 0; it is empty for a solid
    pen. A miter is at most `miter_limit` times as long as the width.
    """

    width: int
    cap: Cap
    join: Join
    miter_limit: Ratio = DEFAULT_MITER_LIMIT
    pattern: tuple[int, ...] = ()

    @property
    def radius(self) -> int:
        """Half of the width, rounded up."""
        return (self.width + 1) // 2


def older_pen(style: int, width: int, colour: Colour) -> PenLook | None:
    """The look of a LogPen or a Pen, or None if the style is none that draws."""
    return _look(style, abs(width), colour, True, ())


def extended_pen(style: int, width: int, colour: Colour, entries: tuple[int, ...]) -> PenLook | None:
    """The look of a LogPenEx with a solid brush, or None if the style is none that draws.

    Only geometric pens have a width. Raises Fault BadValue for a pattern of more than 16 entries.
    """
    if len(entries) > _MOST_ENTRIES:
        raise Fault(FaultName.BadValue, "a pen's pattern has more than 16 entries")
    return _look(style, width if style & _GEOMETRIC else 0, colour, False, entries)


def is_user_style(style: int) -> bool:
    """Whether a pen with these style bits has a pattern of its own."""
    return style & _STYLE_BITS == Style.USER.value


def _look(style: int, width: int, colour: Colour, is_older: bool, entries: tuple[int, ...]) -> PenLook | None:
    """The look of style bits. Caps and joins that no standard names are round, the default."""
    number, cap, join = style & _STYLE_BITS, style & _CAP_BITS, style & _JOIN_BITS
    if number not in {known.value for known in Style}:
        return None
    found_cap = Cap(cap) if cap in {known.value for known in Cap} else Cap.ROUND
    found_join = Join(join) if join in {known.value for known in Join} else Join.ROUND
    return PenLook(Style(number), width, found_cap, found_join, colour, is_older, entries)


def read_miter_limit(word: int) -> Ratio | None:
    """A miter limit of a record, or None if it is below 1.

    The standard has a whole number there, but GDI writes an IEEE single. A word below 2^23 is taken as a whole number,
    since as a single it would be nearly 0. Raises Fault as `single_of` does.
    """
    limit = Ratio(word, 1) if word < _LEAST_SINGLE else single_of(word)
    return limit if limit.numerator >= limit.denominator else None
