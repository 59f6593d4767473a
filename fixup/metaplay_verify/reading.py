"""Follows the state through an original's records ([MS-EMF] 2.3.7 to 2.3.12, [MS-WMF] 2.3.4, 2.3.5)."""

from __future__ import annotations

import math
import struct
from collections.abc import Callable
from dataclasses import replace

from .areas import Area, around
from .files import Metafile, number
from .palettes import PALETTE_CHANGES, Palette, PaletteChange, entries_of
from .slots import MAKERS, Slots
from .state import IDENTITY, Font, State

_LARGEST = 1 << 31
_METRIC = {2: (1, 1), 3: (10, 1), 4: (100, 254), 5: (1000, 254), 6: (1440, 254)}


class Reader:
    """Follows the state through an original's records.

    `beyond` are the indexes that an EMF gives to objects although its header doesn't count them.
    """

    def __init__(self, file: Metafile) -> None:
        self.file = file
        self.state = State()
        self.slots = Slots()
        self.is_in_path = False
        self.beyond: set[int] = set()
        self._saved: list[State] = []
        self._objects: dict[int, Font | Palette] = {}
        header = file.records[0] if file.is_emf else file.head
        self._handles = number(header, 56, 2)
        self._device = struct.unpack_from("<4i", header, 72) if file.is_emf else (0, 0, 0, 0)
        if not file.is_emf:
            self._begin_wmf()

    def _begin_wmf(self) -> None:
        """A WMF's first map: its placeable box, or its first window."""
        box: tuple[int, ...] = (0, 0, 0, 0)
        if len(self.file.head) == 40:
            box = struct.unpack_from("<4h", self.file.head, 6)
        else:
            kinds = [record for record in self.file.records if self.file.kind(record) == 0x020C and len(record) >= 10]
            extents = [struct.unpack_from("<hh", record, 6) for record in kinds]
            box = next(((0, 0, x, y) for y, x in extents if x and y), box)
        x, y = (box[2] - box[0]) or 1, (box[3] - box[1]) or 1
        self.state = State(8, (box[0], box[1]), (x, y), (0, 0), (abs(x), abs(y)))

    def see(self, record: bytes) -> None:
        """Takes a record's change of the state. A record that is too short for it changes nothing."""
        kind = self.file.kind(record)
        if not self.file.is_emf and kind in MAKERS:
            self._make_slot(kind, record)
        entry = (_EMF if self.file.is_emf else _WMF).get(kind)
        at = 8 if self.file.is_emf else 6
        if entry is not None and len(record) >= at + struct.calcsize(f"<{entry[1]}"):
            numbers = struct.unpack_from(f"<{entry[1]}", record, at)
            entry[0](self, *(numbers if self.file.is_emf else numbers[::-1]))
        elif (self.file.is_emf, kind) in PALETTE_CHANGES:
            self._change_palette(PALETTE_CHANGES[self.file.is_emf, kind], record)
        elif self.file.is_emf:
            self._see_long(kind, record)

    def _see_long(self, kind: int, record: bytes) -> None:
        """Records of EMF with more than numbers: objects and lists of lines."""
        index = number(record, 8)
        if kind in (38, 39, 49, 82, 93, 94, 95) and index >= self._handles:
            self.beyond.add(index)
        elif kind in (59, 60, 68):
            self.is_in_path = kind == 59
        elif kind in (38, 39, 49, 82, 93, 94, 95) and 0 < index < self._handles:
            self._objects.pop(index, None)
            if kind == 82 and len(record) >= 104:
                height, width, escapement, orientation = struct.unpack_from("<4i", record, 12)
                turned = escapement % 3600 != 0 or orientation % 3600 != 0
                self._objects[index] = Font(height, width, turned, record[33] != 0, record[34] != 0)
            elif kind == 49 and len(record) >= 16:
                self._objects[index] = _palette(record, 16, number(record, 14, 2))
        elif kind in (56, 92):
            self.move(math.inf, math.inf)
        elif kind in (5, 6, 88, 89) and number(record, 24):
            code, size = ("<hh", 4) if kind > 80 else ("<ii", 8)
            at = 28 + size * (number(record, 24) - 1)
            if at + size <= len(record):
                self.move(*struct.unpack_from(code, record, at))

    def _make_slot(self, kind: int, record: bytes) -> None:
        index = self.slots.make()
        self._objects.pop(index, None)
        if kind == 0x02FB and len(record) >= 24:
            height, width, escapement, orientation = struct.unpack_from("<4h", record, 6)
            turned = escapement % 3600 != 0 or orientation % 3600 != 0
            self._objects[index] = Font(height, width, turned, record[17] != 0, record[18] != 0)
        elif kind == 0x00F7 and len(record) >= 10:
            self._objects[index] = _palette(record, 10, number(record, 8, 2))

    def _change_palette(self, change: PaletteChange, record: bytes) -> None:
        """A record of EMF names the palette, one of WMF changes the selected one."""
        found = self._objects.get(number(record, 8)) if self.file.is_emf else self.state.palette
        if isinstance(found, Palette):
            change.take(found, record)

    def move(self, x: float, y: float) -> None:
        """Moves the position."""
        self.state.position = Area(x, y, x, y)

    def _set(self, name: str, value: object) -> None:
        setattr(self.state, name, value)

    def _set_pair(self, name: str, x: int, y: int) -> None:
        self._set(name, (x, y))

    def _set_break(self, extra: int, _: int) -> None:
        self._set("break_extra", extra)

    def _set_world(self, *numbers: float) -> None:
        self._modify(*numbers, 4)

    def _set_mode(self, mode: int) -> None:
        state = self.state
        if mode in (1, 7, 8):
            state.mode = mode
            if mode == 1:
                state.window, state.viewport, state.is_mapped = (1, 1), (1, 1), True
        elif mode in _METRIC and all(1 <= side <= 65535 for side in self._device):
            units, tenths = _METRIC[mode]
            width, height, wide, high = self._device
            state.mode = mode
            state.window, state.viewport = (10 * wide * units, 10 * high * units), (width * tenths, -height * tenths)
        elif mode in _METRIC:
            # Its units are those of a device that the file doesn't tell.
            state.is_mapped = False

    def _set_extent(self, name: str, x: int, y: int) -> None:
        if self.state.mode in (7, 8) and x and y and max(abs(x), abs(y)) <= _LARGEST:
            self._set(name, (x, y))

    def _scale(self, name: str, x: int, x_divisor: int, y: int, y_divisor: int) -> None:
        if 0 in (x_divisor, y_divisor):
            return
        old_x, old_y = getattr(self.state, name)
        self._set_extent(name, _divided(int(old_x) * x, x_divisor), _divided(int(old_y) * y, y_divisor))

    def _offset(self, name: str, x: int, y: int) -> None:
        old = getattr(self.state, name)
        self._set(name, (old[0] + x, old[1] + y))

    def _modify(self, *numbers: float) -> None:
        """[MS-EMF] 2.3.12.1. The products are rounded to singles; a world without an inverse isn't taken."""
        new, mode, old = numbers[:6], numbers[6], self.state.world
        pairs = {1: (IDENTITY, IDENTITY), 2: (new, old), 3: (old, new), 4: (new, IDENTITY)}
        if mode not in pairs or (mode != 1 and not all(map(math.isfinite, new))):
            return
        (a, b, c, d, e, f), (g, h, i, j, k, m) = pairs[int(mode)]
        product = (a * g + b * i, a * h + b * j, c * g + d * i, c * h + d * j, e * g + f * i + k, e * h + f * j + m)
        try:
            world = struct.unpack("<6f", struct.pack("<6f", *product))
        except OverflowError:
            return
        if all(map(math.isfinite, world)) and world[0] * world[3] != world[1] * world[2]:
            self.state.world = world

    def _save(self) -> None:
        self._saved.append(replace(self.state))

    def _restore(self, saved: int) -> None:
        place = saved - 1 if saved > 0 else len(self._saved) + saved
        if saved and 0 <= place < len(self._saved):
            self.state = self._saved[place]
            del self._saved[place:]

    def _select(self, index: int) -> None:
        found = self._objects.get(index)
        if isinstance(found, Font):
            self.state.font = found
        elif self.file.is_emf and 0x8000000A <= index <= 0x80000011:
            self.state.font = Font()

    def _select_palette(self, index: int) -> None:
        found = self._objects.get(index)
        if self.file.is_emf and index == 0x8000000F:
            self.state.palette = Palette(is_stock=True)
        elif isinstance(found, Palette):
            self.state.palette = found

    def _delete(self, index: int) -> None:
        self._objects.pop(index, None)
        self.slots.delete(index)

    def _arc(self, *numbers: int) -> None:
        """An arc that draws to the position leaves it somewhere in its box."""
        left, top, right, bottom = numbers[:4]
        self.state.position = around([(left, top), (right, bottom)])

    def _turn(self, *numbers: float) -> None:
        x, y, radius = numbers[:3]
        self.state.position = Area(x, y, x, y).grown(radius, radius)


def _palette(record: bytes, at: int, count: int) -> Palette:
    entries, palette = entries_of(record, at, count), Palette()
    palette.resize(len(entries) // 4)
    palette.set(0, entries)
    return palette


def _divided(dividend: int, divisor: int) -> int:
    """A quotient without its fraction."""
    size = abs(dividend) // abs(divisor)
    return size if (dividend < 0) == (divisor < 0) else -size


Change = Callable[..., None]


def _named(method: Change, name: str) -> Change:
    """A change with its first argument given."""

    def change(reader: Reader, *numbers: float) -> None:
        method(reader, name, *numbers)

    return change


_COLOURS = [(_named(Reader._set, name), "I") for name in ("text_reference", "back_reference")]
_EXTENTS = [_named(Reader._set_extent, name) for name in ("window", "viewport")]
_SCALES = [_named(Reader._scale, name) for name in ("window", "viewport")]
_ORIGINS = [_named(Reader._set_pair, name) for name in ("window_origin", "viewport_origin")]
_EMF: dict[int, tuple[Change, str]] = {
    **{9: (_EXTENTS[0], "ii"), 11: (_EXTENTS[1], "ii"), 10: (_ORIGINS[0], "ii"), 12: (_ORIGINS[1], "ii")},
    **{31: (_SCALES[1], "4i"), 32: (_SCALES[0], "4i"), 17: (Reader._set_mode, "I"), 24: _COLOURS[0], 25: _COLOURS[1]},
    **{
        18: (_named(Reader._set, "back_mode"), "I"),
        22: (_named(Reader._set, "align"), "I"),
        27: (Reader.move, "ii"),
        54: (Reader.move, "ii"),
    },
    **{33: (Reader._save, ""), 34: (Reader._restore, "i"), 36: (Reader._modify, "6fI")},
    **{35: (Reader._set_world, "6f"), 37: (Reader._select, "I")},
    **{
        48: (Reader._select_palette, "I"),
        40: (Reader._delete, "I"),
        55: (Reader._arc, "8i"),
        41: (Reader._turn, "iiI"),
    },
    120: (Reader._set_break, "ii"),
}
# The numbers of WMF come in turn from the last to the first.
_WMF: dict[int, tuple[Change, str]] = {
    **{0x020B: (_ORIGINS[0], "hh"), 0x020C: (_EXTENTS[0], "hh"), 0x020D: (_ORIGINS[1], "hh")},
    **{0x020E: (_EXTENTS[1], "hh"), 0x0410: (_SCALES[0], "4h"), 0x0412: (_SCALES[1], "4h")},
    **{0x020F: (_named(Reader._offset, "window_origin"), "hh")},
    **{0x0211: (_named(Reader._offset, "viewport_origin"), "hh"), 0x0103: (Reader._set_mode, "H")},
    **{
        0x0102: (_named(Reader._set, "back_mode"), "H"),
        0x012E: (_named(Reader._set, "align"), "H"),
        0x0108: (_named(Reader._set, "extra"), "h"),
    },
    **{0x0209: _COLOURS[0], 0x0201: _COLOURS[1], 0x0213: (Reader.move, "hh"), 0x0214: (Reader.move, "hh")},
    **{0x001E: (Reader._save, ""), 0x0127: (Reader._restore, "h"), 0x012D: (Reader._select, "H")},
    **{0x01F0: (Reader._delete, "H"), 0x0234: (Reader._select_palette, "H")},
    0x020A: (Reader._set_break, "hh"),
}
