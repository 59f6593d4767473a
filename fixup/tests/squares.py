"""A text layer for the tests: each character but a blank is a square of the font's height."""

from __future__ import annotations

from metaplay_fixup.affine import Contour, Point
from metaplay_fixup.shapes import corners_of
from metaplay_fixup.text import (
    CLIPPED_BOX,
    OPAQUE,
    OPAQUE_BOX,
    UPDATE_POSITION,
    Box,
    Choice,
    LaidText,
    LogicalFont,
    Note,
    PageToDevice,
    TextRecord,
    TextSettings,
)

BLANK = 0x20
# A record that fills its box and clips its text by it has no other background.
_BOTH = OPAQUE_BOX | CLIPPED_BOX


class Squares:
    """Lays characters out from the reference point to the right and downwards, by the distances or the font's
    height.
    """

    def __init__(self) -> None:
        self.asked: list[tuple[TextRecord, LogicalFont, TextSettings]] = []

    def lay_out(self, record: TextRecord, font: LogicalFont, settings: TextSettings, page: PageToDevice) -> LaidText:
        """Squares, an underline of a tenth of the height below them, and a background of the line."""
        self.asked.append((record, font, settings))
        size, x, y = abs(font.height), record.reference.x, record.reference.y
        glyphs: list[Contour] = []
        for place, code in enumerate(record.codes):
            if code != BLANK:
                glyphs.append(self._box(Box(x, y, x + size, y + size), page))
            x += size if record.distances_x is None else record.distances_x[place]
        line = Box(record.reference.x, y + size, x, y + size + size // 10)
        lines = [self._box(line, page)] if font.underline else []
        whole = Box(record.reference.x, y, x, y + size)
        has_own = record.options & _BOTH == _BOTH
        background = self._box(whole, page) if settings.background_mode == OPAQUE and not has_own else None
        position = Point(x, y) if settings.align & UPDATE_POSITION else None
        note = Note(font.face, "Squares", Choice.FAMILY, "".join(map(chr, record.codes)), "ab" * 32)
        return LaidText(glyphs, lines, background, position, note)

    def _box(self, box: Box, page: PageToDevice) -> Contour:
        return [page.affine.apply(corner) for corner in corners_of(box)]
