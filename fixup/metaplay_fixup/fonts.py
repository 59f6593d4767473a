"""Fonts that a face asked for: metrics, glyphs of characters, outlines."""

from __future__ import annotations

import hashlib
from dataclasses import dataclass
from io import BytesIO

from .adobe_symbol import ENCODED_FAMILY, SYMBOL_NAMES
from .catalogue import LONGEST_FONT, FontFile
from .charsets import SYMBOL_BASE
from .composites import check_parts
from .faces import Face
from .faults import Fault, FaultName
from .outlines import GlyphOutline, outline_of

MOST_POINTS = 20_000
"""A glyph has at most so many points before its curves are flattened."""
_UNICODE_MAPS = ((3, 10), (0, 6), (0, 4), (3, 1), (0, 3), (0, 2), (0, 1), (0, 0))
_SYMBOL_MAP = (3, 0)
_RESTRICTED = 2
_USAGE = 0xF
_BITMAPS_ONLY = 0x200


@dataclass(frozen=True, slots=True)
class FontMetrics:
    """Metrics in font units, from [OpenType] head, OS/2 and post.

    `ascent` and `descent` are usWinAscent and usWinDescent. Of a line, `middle` is its height above the baseline,
    `size` its thickness: `text_lines` says why the positions of post and OS/2 are those of the middle.
    """

    units_per_em: int
    ascent: int
    descent: int
    average_width: int
    underline_middle: int
    underline_size: int
    strike_out_middle: int
    strike_out_size: int


class Font:
    """An open font. Its methods raise Fault with BadFont if FreeType rejects a part of it."""

    def __init__(self, file: FontFile) -> None:
        """Opens a font. Raises Fault with BadFont or EmbeddingNotAllowed."""
        data = _bytes_of(file)
        self.file = file
        self.sha256 = hashlib.sha256(data).hexdigest()
        self._face = Face(BytesIO(data), file.index, file.label)
        os2 = self._face.table("OS/2")
        self.permission = int.from_bytes(os2[8:10], "big")
        if self.permission & _USAGE == _RESTRICTED or self.permission & _BITMAPS_ONLY:
            raise Fault(FaultName.EmbeddingNotAllowed, file.family)
        self.metrics = _metrics(self._face, os2, file)
        self.is_postscript = self._face.is_postscript
        maps = self._face.character_maps()
        self._unicode_map = next((maps.index(key) for key in _UNICODE_MAPS if key in maps), None)
        self._symbol_map = maps.index(_SYMBOL_MAP) if _SYMBOL_MAP in maps else None
        self._glyphs: dict[int, int] = {}
        self._outlines: dict[int, GlyphOutline] = {}

    def glyph_of(self, code: int) -> int:
        """The glyph of a character, or 0. A symbol font has its characters at F000 to F0FF, and below 100 as well."""
        if code not in self._glyphs:
            self._glyphs[code] = self._found_glyph(code)
        return self._glyphs[code]

    def outline(self, glyph: int) -> GlyphOutline:
        """The outline of a glyph, with at most MOST_POINTS points."""
        if glyph not in self._outlines:
            check_parts(self._face, glyph)
            self._outlines[glyph] = outline_of(self._face.glyph(glyph, MOST_POINTS), self._face.label)
        return self._outlines[glyph]

    def _found_glyph(self, code: int) -> int:
        low = code - SYMBOL_BASE if SYMBOL_BASE <= code < SYMBOL_BASE + 0x100 else code
        if self.file.family.lower() == ENCODED_FAMILY and low < 0x100:
            return self._face.glyph_named(SYMBOL_NAMES[low]) if low in SYMBOL_NAMES else 0
        glyph = self._mapped(self._unicode_map, code) or self._mapped(self._symbol_map, code)
        if glyph == 0 and code < 0x100:
            glyph = self._mapped(self._symbol_map, SYMBOL_BASE + code)
        return glyph

    def _mapped(self, character_map: int | None, code: int) -> int:
        return 0 if character_map is None else self._face.glyph_index(character_map, code)


def _bytes_of(file: FontFile) -> bytes:
    try:
        with open(file.path, "rb") as stream:
            data = stream.read(LONGEST_FONT + 1)
    except OSError as error:
        raise Fault(FaultName.BadFont, f"{file.label}: it can't be read") from error
    if len(data) > LONGEST_FONT:
        raise Fault(FaultName.BadFont, f"{file.label}: it has more than {LONGEST_FONT} bytes")
    return data


def _metrics(face: Face, os2: bytes, file: FontFile) -> FontMetrics:
    """The metrics. Raises Fault with BadFont if a table is cut, or the em or the height isn't one."""
    post = face.table("post")
    if len(os2) < 78 or len(post) < 12:
        raise Fault(FaultName.BadFont, f"{file.label}: a table is cut")
    metrics = FontMetrics(
        units_per_em=face.units_per_em,
        ascent=int.from_bytes(os2[74:76], "big"),
        descent=int.from_bytes(os2[76:78], "big"),
        average_width=_signed(os2, 2),
        underline_middle=_signed(post, 8),
        underline_size=_signed(post, 10),
        strike_out_middle=_signed(os2, 28),
        strike_out_size=_signed(os2, 26),
    )
    if not 16 <= metrics.units_per_em <= 16384 or metrics.ascent + metrics.descent == 0:
        raise Fault(FaultName.BadFont, f"{file.label}: its em or its height is wrong")
    return metrics


def _signed(table: bytes, offset: int) -> int:
    end = offset + 2
    return int.from_bytes(table[offset:end], "big", signed=True)
