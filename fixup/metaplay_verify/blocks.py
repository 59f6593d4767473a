"""Blocks that stand for text: one fixed order of records, which only draw, in the text's colours, within its box."""

from __future__ import annotations

import math
import struct
from dataclasses import replace

from .areas import Area, around, corners
from .cursor import Cursor, emf, wmf
from .files import Metafile, Refused, kind_of, number
from .matching import Fill, Matching
from .places import Place
from .reading import Reader
from .shapes import is_polygons, read_polygons
from .state import State
from .texts import TEXTS, Text, text_of

_NULL_PEN, _NULL_BRUSH = 0x80000008, 0x80000005
_FINEST_PARTS, _FINEST_FACTOR = 4096, 256
_USED_INDEX = "the original itself uses the index of a block's brush"
# How far numbers with fractions may be off, in device units.
_ROUNDING = 0.01


class _Blocks(Cursor):
    """The blocks of one place, and the fills that its texts may still make."""

    def __init__(self, place: Place, reader: Reader, handle: int, parts: int) -> None:
        super().__init__(place, reader.file.is_emf)
        self.reader = reader
        self.handle = handle
        self.parts = parts
        self.texts = self._read_texts()
        self.matching = Matching(self.texts)
        self.reach = tuple(max(text.reach[axis] for text in self.texts) for axis in (0, 1))

    # --- The texts.

    def _moves(self) -> list[tuple[int, int]]:
        kind, code, at = (27, "<ii", 8) if self.is_emf else (0x0214, "<hh", 6)
        size = at + struct.calcsize(code)
        moves = [record for record in self.place.records if kind_of(self.is_emf, record) == kind]
        points = [struct.unpack_from(code, record, at) for record in moves if len(record) == size]
        return [(x, y) if self.is_emf else (y, x) for x, y in points]

    def _read_texts(self) -> list[Text]:
        """The place's texts. Those after the first may begin wherever the place moves the position."""
        first, count = self.place.first, self.place.count
        records = self.reader.file.records[first : first + count]
        if not records or any(self.reader.file.kind(record) not in TEXTS for record in records):
            raise Refused("a place stands for other records than text", self.place.begin - 1)
        if self.reader.is_in_path:
            raise Refused("a place stands in an open path", self.place.begin - 1)
        if not self.reader.state.is_mapped:
            raise Refused("where the text lies isn't known", self.place.begin - 1)
        position = self.reader.state.position
        if self.reader.state.align & 1 and not all(map(math.isfinite, position)):
            raise Refused("where the text begins isn't known", self.place.begin - 1)
        anywhere = around([*corners(position), *self._moves()])
        try:
            return [text_of(record, self.reader, at, anywhere if at else position) for at, record in enumerate(records)]
        except struct.error:
            raise Refused("a text of the original isn't whole", self.place.begin - 1) from None

    def check(self) -> None:
        """Raises Refused if the place has anything but blocks of its texts and moves of the position."""
        moves = 0
        while self.at < len(self.place.records):
            kind = kind_of(self.is_emf, self.peek())
            if kind == (27 if self.is_emf else 0x0214):
                moves += 1
                self._move(moves)
            elif self.is_emf:
                self._emf_block()
            else:
                self._wmf_block()

    def _move(self, moves: int) -> None:
        """A move of the position: by no more than a text reaches."""
        here = self.here
        numbers = self.numbers(27 if self.is_emf else 0x0214, "ii" if self.is_emf else "hh", "moves the position")
        point = numbers if self.is_emf else numbers[::-1]
        state = self.reader.state
        if not state.align & 1 or moves > len(self.texts):
            raise Refused("the position is moved, but no text moves it", here)
        before = around([state.device(corner) for corner in corners(state.position)]).grown(*self.reach).grown(1, 1)
        if not before.holds(around([state.device((point[0], point[1]))])):
            raise Refused("the position is moved outside of the text's box", here)
        self.reader.move(*point)

    # --- One block.

    def _emf_block(self) -> None:
        """Save, world, map, clip, settings, null pen, brushes with their polygons, restore, delete."""
        self.want(emf(33), "saves the state")
        if not self.skip(emf(36, "6fI", 1, 0, 0, 1, 0, 0, 1)) and not self.reader.state.is_plain:
            raise Refused("a block doesn't set the world aside", self.here)
        self.want(emf(17, "I", 8), "sets the map mode")
        self.want(emf(10, "ii", 0, 0), "sets the window's origin")
        parts, other = self.numbers(9, "ii", "sets the window's extent")
        if parts != other or not 0 < parts <= _FINEST_PARTS or parts & (parts - 1) or self.parts not in (0, parts):
            raise Refused("a block counts in wrong parts", self.here - 1)
        self.parts = parts
        x, y = self.numbers(12, "ii", "sets the viewport's origin")
        self.want(emf(11, "ii", 1, 1), "sets the viewport's extent")
        page, clip = State(8, (0, 0), (parts, parts), (x, y), (1, 1)), None
        if kind_of(True, self.peek()) == 30:
            clip = _on_device(page, Area(*self.numbers(30, "4i", "clips")))
        self.want(emf(19, "I", 2), "sets the fill mode")
        self.want(emf(20, "I", 13), "sets the raster operation")
        self.want(emf(37, "I", _NULL_PEN), "selects the null pen")
        brushes = [self._emf_brush(page)]
        while self.skip(emf(37, "I", _NULL_BRUSH)):
            self.want(emf(40, "I", self.handle), "deletes a brush")
            brushes.append(self._emf_brush(page))
        self.want(emf(34, "i", -1), "restores the state")
        self.want(emf(40, "I", self.handle), "deletes its brush")
        self._match([fill for brush in brushes for fill in brush], page, clip, clip is None and len(brushes) == 1)

    def _emf_brush(self, page: State) -> list[Fill]:
        index, style, colour, hatch = self.numbers(39, "4I", "makes a brush")
        if index != self.handle or style or hatch:
            raise Refused("a block makes a wrong brush", self.here - 1)
        self._check_colour(colour)
        self.want(emf(37, "I", self.handle), "selects its brush")
        return self._fills(page, colour)

    def _wmf_block(self) -> None:
        """Save, window, clip, settings, pen, brushes with their polygons, restore, delete."""
        state, slots = self.reader.state, self.reader.slots
        pen, *brushes = free = [slots.make() for _ in range(3)]
        for index in free:
            slots.delete(index)
        self.want(wmf(0x001E), "saves the state")
        if state.mode != 8:
            self.want(wmf(0x0103, "H", 8), "sets the map mode")
        y, x = self.numbers(0x020B, "hh", "sets the window's origin")
        high, wide = self.numbers(0x020C, "hh", "sets the window's extent")
        factors = [divmod(side, int(old)) for side, old in zip((wide, high), state.window)]
        if not all(rest == 0 and 1 <= factor <= _FINEST_FACTOR for factor, rest in factors):
            raise Refused("a block's window isn't the page's, made finer", self.here - 1)
        page, clip = replace(state, window_origin=(x, y), window=(wide, high)), None
        if kind_of(False, self.peek()) == 0x0416:
            bottom, right, top, left = self.numbers(0x0416, "4h", "clips")
            clip = _on_device(page, Area(left, top, right, bottom))
        self.want(wmf(0x0106, "H", 2), "sets the fill mode")
        self.want(wmf(0x0104, "H", 13), "sets the raster operation")
        self.want(wmf(0x02FA, "HhhI", 5, 0, 0, 0), "makes its pen")
        self.want(wmf(0x012D, "H", pen), "selects its pen")
        fills = self._wmf_brush(page, brushes[0], None)
        while kind_of(False, self.peek()) == 0x02FC:
            brushes.reverse()
            fills += self._wmf_brush(page, brushes[0], brushes[1])
        self.want(wmf(0x0127, "h", -1), "restores the state")
        self.want(wmf(0x01F0, "H", pen), "deletes its pen")
        self.want(wmf(0x01F0, "H", brushes[0]), "deletes its brush")
        self._match(fills, page, clip, False)

    def _wmf_brush(self, page: State, index: int, before: int | None) -> list[Fill]:
        style, colour, hatch = self.numbers(0x02FC, "HIH", "makes a brush")
        if style or hatch:
            raise Refused("a block makes a wrong brush", self.here - 1)
        self._check_colour(colour)
        self.want(wmf(0x012D, "H", index), "selects its brush")
        if before is not None:
            self.want(wmf(0x01F0, "H", before), "deletes a brush")
        return self._fills(page, colour)

    def _match(self, fills: list[Fill], page: State, clip: Area | None, is_shared: bool) -> None:
        """Finds the texts of a block, whose numbers may be off by one, since they are rounded."""
        across, down = page.scales
        self.matching.match(fills, clip, (across + _ROUNDING, down + _ROUNDING), is_shared, self.here - 1)

    def _check_colour(self, colour: int) -> None:
        if colour not in (self.reader.state.text_colour, self.reader.state.back_colour):
            raise Refused("a block has another colour than the text's", self.here - 1)

    def _fills(self, page: State, colour: int) -> list[Fill]:
        """The polygons that follow, with their boxes on the device."""
        fills = []
        while is_polygons(self.is_emf, self.peek()):
            made = read_polygons(self.is_emf, self.peek(), self.here)
            area = _on_device(page, made.area)
            if made.bounds is not None and not made.bounds.grown(1, 1).holds(area):
                raise Refused("a polygon's bounds are wrong", self.here)
            is_box = made.lists == 1 and made.points <= 4
            fills.append(Fill(colour, is_box, area if made.bounds is None else made.bounds, area, self.here))
            self.at += 1
        return fills


def _on_device(page: State, area: Area) -> Area:
    return around([page.device(corner) for corner in corners(area)])


def check_blocks(original: Metafile, places: list[Place]) -> None:
    """Raises Refused unless all places are blocks of text that only draw it."""
    reader, parts, done = Reader(original), 0, 1 if original.is_emf else 0
    handle = max(1, number(original.records[0], 56, 2))
    for place in places:
        for record in original.records[done : place.first]:
            _see(reader, record)
        blocks = _Blocks(place, reader, handle, parts)
        blocks.check()
        if blocks.parts and handle in reader.beyond:
            raise Refused(_USED_INDEX, place.begin - 1)
        done, parts = place.first + place.count, blocks.parts
    for record in original.records[done:]:
        _see(reader, record)
    if parts and handle in reader.beyond:
        raise Refused(_USED_INDEX)


def _see(reader: Reader, record: bytes) -> None:
    """Takes a kept record. Where a kept text moves the position, it isn't known any more."""
    reader.see(record)
    if reader.file.kind(record) in TEXTS and reader.state.align & 1:
        reader.move(math.inf, math.inf)
