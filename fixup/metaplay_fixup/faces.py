"""Faces of font files, read by FreeType. No other module calls FreeType."""

from __future__ import annotations

import ctypes
from typing import Any, NamedTuple

import freetype  # type: ignore[import]

from .faults import Fault, FaultName

_LOAD_FLAGS = freetype.FT_LOAD_NO_SCALE | freetype.FT_LOAD_NO_HINTING | freetype.FT_LOAD_NO_BITMAP
_PART_FLAGS = _LOAD_FLAGS | freetype.FT_LOAD_NO_RECURSE
_OUTLINE_FORMAT = freetype.FT_GLYPH_FORMAT_OUTLINE
_LONGEST_TABLE = 1 << 16
_MOST_NAMES = 4096


class FaceName(NamedTuple):
    """An entry of the `name` table: platform, encoding, language, the number that says what it names, and its bytes."""

    platform: int
    encoding: int
    language: int
    number: int
    text: bytes


class RawGlyph(NamedTuple):
    """A glyph in font units: x and y of each point in turn, tags of points, the last point of each contour."""

    advance: int
    coordinates: list[int]
    tags: bytes
    ends: list[int]


class Face:
    """A face of a font file. Every method raises Fault with BadFont where FreeType rejects the font."""

    def __init__(self, source: Any, index: int, label: str) -> None:
        """Opens a face by its index.

        `source` is a path, or an object that reads the file's bytes. `label` names the font in faults.
        """
        self.label = label
        try:
            self._face = freetype.Face(source, index)
        except (freetype.FT_Exception, OSError, ValueError) as error:
            raise self._bad("it can't be opened") from error

    @property
    def count(self) -> int:
        """How many faces the file has."""
        return int(self._face.num_faces)

    @property
    def has_outlines(self) -> bool:
        """Whether the glyphs can be outlines at all."""
        return bool(self._face.is_scalable)

    @property
    def is_postscript(self) -> bool:
        """Whether the outlines are PostScript's, whose outer contours run the other way round than TrueType's."""
        return bool(self._face.get_format() != b"TrueType")

    @property
    def units_per_em(self) -> int:
        """The font units of an em."""
        return int(self._face.units_per_EM)

    def names(self) -> list[FaceName]:
        """The entries of the `name` table."""
        count = min(int(self._face.sfnt_name_count), _MOST_NAMES)
        try:
            entries = [self._face.get_sfnt_name(index) for index in range(count)]
        except freetype.FT_Exception as error:
            raise self._bad("its names can't be read") from error
        return [
            FaceName(entry.platform_id, entry.encoding_id, entry.language_id, entry.name_id, entry.string)
            for entry in entries
        ]

    def table(self, tag: str) -> bytes:
        """The first 65,536 bytes at most of a table."""
        number = int.from_bytes(tag.encode("ascii"), "big")
        length = ctypes.c_ulong(0)
        if freetype.FT_Load_Sfnt_Table(self._face._FT_Face, number, 0, None, ctypes.byref(length)):
            raise self._bad(f"it has no table {tag}")
        length.value = min(length.value, _LONGEST_TABLE)
        buffer = (ctypes.c_char * length.value)()
        if freetype.FT_Load_Sfnt_Table(self._face._FT_Face, number, 0, ctypes.byref(buffer), ctypes.byref(length)):
            raise self._bad(f"its table {tag} can't be read")
        return bytes(buffer)

    def character_maps(self) -> list[tuple[int, int]]:
        """Platform and encoding of each character map, in the order of their indexes."""
        return [(int(entry.platform_id), int(entry.encoding_id)) for entry in self._face.charmaps]

    def glyph_index(self, character_map: int, code: int) -> int:
        """The glyph of a code in the character map of this index, or 0."""
        try:
            self._face.set_charmap(character_map)
        except freetype.FT_Exception as error:
            raise self._bad("its character map can't be read") from error
        return int(self._face.get_char_index(code))

    def glyph_named(self, name: str) -> int:
        """The glyph with this name, or 0."""
        return int(self._face.get_name_index(name.encode("ascii")))

    def parts(self, index: int, most_parts: int) -> list[int]:
        """The glyphs that a glyph is put together from, at most so many; none if it has an outline of its own."""
        slot = self._loaded(index, _PART_FLAGS)
        if slot.contents.format != freetype.FT_GLYPH_FORMAT_COMPOSITE:
            return []
        count = int(slot.contents.num_subglyphs)
        if count > most_parts:
            raise self._bad(f"glyph {index} has more than {most_parts} parts")
        return [self._part(slot, number) for number in range(count)]

    def glyph(self, index: int, most_points: int) -> RawGlyph:
        """A glyph's outline, unscaled and unhinted, of at most so many points. A bitmap has no contours."""
        slot = self._loaded(index, _LOAD_FLAGS).contents
        advance = int(slot.metrics.horiAdvance)
        outline = slot.outline
        points, contours = outline.n_points, outline.n_contours
        if slot.format != _OUTLINE_FORMAT or points <= 0 or contours <= 0:
            return RawGlyph(advance, [], b"", [])
        if points > most_points:
            raise self._bad(f"glyph {index} has more than {most_points} points")
        coordinates = ctypes.cast(outline.points, ctypes.POINTER(ctypes.c_long * (2 * points))).contents[:]
        ends = ctypes.cast(outline.contours, ctypes.POINTER(ctypes.c_short * contours)).contents[:]
        return RawGlyph(advance, coordinates, ctypes.string_at(outline.tags, points), ends)

    def _loaded(self, index: int, flags: int) -> Any:
        """The pointer to the slot of a glyph that has just been loaded."""
        try:
            self._face.load_glyph(index, flags)
        except freetype.FT_Exception as error:
            raise self._bad(f"glyph {index} can't be read") from error
        return self._face._FT_Face.contents.glyph

    def _part(self, slot: Any, number: int) -> int:
        index, flags, first, second = ctypes.c_int(), ctypes.c_uint(), ctypes.c_int(), ctypes.c_int()
        matrix = freetype.FT_Matrix()
        numbers = [ctypes.byref(value) for value in (index, flags, first, second, matrix)]
        if freetype.FT_Get_SubGlyph_Info(slot, number, *numbers):
            raise self._bad("a part of a glyph can't be read")
        return index.value

    def _bad(self, detail: str) -> Fault:
        return Fault(FaultName.BadFont, f"{self.label}: {detail}")
