"""What a record of text may draw: which fills, in which colours, in which boxes of the device."""

from __future__ import annotations

import math
import struct
from typing import NamedTuple

from .areas import Area, around, corners
from .files import number
from .reading import Reader
from .state import State

TEXTS = {83, 84, 108, 0x0521, 0x0A32}
"""EMR_EXTTEXTOUTA, EMR_EXTTEXTOUTW, EMR_SMALLTEXTOUT; META_TEXTOUT, META_EXTTEXTOUT."""
_FILLED, _CLIPPED, _PAIRS, _NO_BOX = 2, 4, 0x2000, 0x100
_OVER = 4
# A condensed font's em may be as long as four average widths.
_WIDE = 4


class Stage(NamedTuple):
    """One fill of a text: its colour, whether it is one quadrangle, whether it has all of its box, and that box."""

    text: int
    colour: int
    is_box: bool
    is_whole: bool
    area: Area


class Text(NamedTuple):
    """A text's fills in order; the box that clips it, or None; and how far it reaches from its reference point."""

    stages: list[Stage]
    clip: Area | None
    reach: tuple[float, float]


class _Fields(NamedTuple):
    """A record of text: its reference point, characters, options, box, and the sums of its distances, if it has any."""

    x: int
    y: int
    characters: int
    options: int
    box: tuple[int, ...]
    distances: tuple[int, int] | None


def text_of(record: bytes, reader: Reader, place: int, position: Area) -> Text:
    """What a text may draw under the reader's state. `position` is where the position may be on the page.

    Raises struct.error if the record is too short.
    """
    fields = _fields(record, reader)
    state = reader.state
    reach = _reach(fields, state)
    start = position if state.align & 1 else Area(fields.x, fields.y, fields.x, fields.y)
    area = around([state.device(point) for point in corners(start)]).grown(*reach)
    rect, has_area = area, False
    if fields.options & (_FILLED | _CLIPPED):
        rect = around([state.device(point) for point in corners(Area(*fields.box))])
        has_area = fields.box[0] != fields.box[2] and fields.box[1] != fields.box[3]
    both = _FILLED | _CLIPPED
    stages = [Stage(place, state.back_colour, True, True, rect)] if fields.options & _FILLED and has_area else []
    if state.back_mode == 2 and fields.options & both != both:
        stages.append(Stage(place, state.back_colour, True, False, area))
    stages.append(Stage(place, state.text_colour, False, False, area))
    lines = state.font.underline + state.font.strike_out
    # A line is at least one device unit thick.
    stages += [Stage(place, state.text_colour, True, False, area.grown(1, 1))] * lines
    if not fields.options & _CLIPPED:
        return Text(stages, None, reach)
    # A box without an area clips all of the text.
    return Text(stages, rect, reach) if has_area else Text([], None, reach)


def _fields(record: bytes, reader: Reader) -> _Fields:
    kind, none = reader.file.kind(record), (0, 0, 0, 0)
    if kind == 0x0521:
        (count,) = struct.unpack_from("<h", record, 6)
        y, x = struct.unpack_from("<hh", record, 8 + count + count % 2)
        return _Fields(x, y, count, 0, none, None)
    if kind == 0x0A32:
        y, x, count, options = struct.unpack_from("<hhhH", record, 6)
        box = struct.unpack_from("<4h", record, 14) if options & (_FILLED | _CLIPPED) else none
        at = 14 + (8 if options & (_FILLED | _CLIPPED) else 0) + count + count % 2
        return _Fields(x, y, count, options, box, _distances(record, at, count, "h", False))
    if kind == 108:
        x, y, count, options = struct.unpack_from("<iiII", record, 8)
        plain = options & ~(_FILLED | _CLIPPED) if options & _NO_BOX else options
        return _Fields(x, y, count, plain, none if options & _NO_BOX else struct.unpack_from("<4i", record, 36), None)
    x, y, count, _, options = struct.unpack_from("<iiIII", record, 36)
    at = number(record, 72)
    distances = _distances(record, at, count, "i", options & _PAIRS != 0) if at else None
    return _Fields(x, y, count, options, struct.unpack_from("<4i", record, 56), distances)


def _distances(record: bytes, at: int, count: int, code: str, is_paired: bool) -> tuple[int, int] | None:
    """The sums of the distances' sizes across and down, or None if the record has none."""
    total = count * (2 if is_paired else 1)
    if count <= 0 or at + struct.calcsize(code) * total > len(record):
        return None
    numbers = [abs(distance) for distance in struct.unpack_from(f"<{total}{code}", record, at)]
    return (sum(numbers[::2]), sum(numbers[1::2])) if is_paired else (sum(numbers), 0)


def _reach(fields: _Fields, state: State) -> tuple[float, float]:
    """How far a text may reach from its reference point, in device units: its distances, and its height around."""
    height = abs(state.font.height) or 12
    em = max(height, _WIDE * abs(state.font.width))
    extras = fields.characters * (abs(state.extra) + abs(state.break_extra)) if fields.distances is None else 0
    along, up = fields.distances or (extras, 0)
    ems = _OVER * em + (2 * em * fields.characters if fields.distances is None else 0)
    across, down = state.scales
    if state.is_plain and not state.font.is_turned:
        return along * across + ems * max(across, down), up * down + _OVER * height * down
    most = math.hypot(across, down) * (along + up + ems)
    return most, most
