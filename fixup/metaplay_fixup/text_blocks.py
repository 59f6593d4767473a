"""What of a laid text is filled with which colour, for blocks of both formats."""

from __future__ import annotations

from collections.abc import Sequence
from dataclasses import dataclass
from typing import NamedTuple

from .affine import Contour, Point
from .output import Entry
from .shapes import corners_of
from .state import State
from .text import Box, Colour, LaidText, TextRecord
from .text_boxes import clip_box, clips_all, opaque_box


class Fill(NamedTuple):
    """Contours that are filled together, in winding mode, with one colour."""

    colour: Colour
    contours: Sequence[Contour]


class TextFills(NamedTuple):
    """What a text draws, in order, and the box that it is clipped to, in fixed device units, or None."""

    fills: list[Fill]
    clip: Box | None

    @property
    def points(self) -> list[Point]:
        """All points of the fills and of the clip."""
        drawn = [point for fill in self.fills for contour in fill.contours for point in contour]
        return drawn if self.clip is None else [*drawn, *corners_of(self.clip)]

    @property
    def colours(self) -> set[Colour]:
        """The colours of the fills."""
        return {fill.colour for fill in self.fills}


@dataclass(slots=True)
class TextBlock:
    """A block of text of one colour, without a clip, that more text may be put into.

    `entry` has its records, of which the one at `end` restores the state; `last` is the newest entry whose text is in
    it; the origin is in device units.
    """

    entry: Entry
    end: int
    last: Entry
    colour: Colour
    origin: Point


def ink(laid: LaidText, colour: Colour) -> list[Fill]:
    """The fills of a text's glyphs, underline and strike-out.

    Each line is a fill of its own: in winding mode it could cut holes.
    """
    lists = [laid.glyphs, *([line] for line in laid.lines)]
    return [Fill(colour, contours) for contours in lists if contours]


def text_fills(laid: LaidText, record: TextRecord, state: State) -> TextFills:
    """What a text draws: the record's opaque box, the text's background, and the text.

    There is nothing of it if a box without an area clips it. Raises Fault ClipShape if the text must be clipped by a
    turned box, and PaletteColour if a colour that it needs isn't known.
    """
    page = state.page_to_device()
    if clips_all(record, page):
        return TextFills([], None)
    boxes = [box for box in (opaque_box(record, page), laid.background) if box is not None]
    fills = [Fill(state.background, [box]) for box in boxes]
    if laid.glyphs or laid.lines:
        fills += ink(laid, state.text_colour)
    return TextFills(fills, clip_box(record, laid, page))
