"""Device-independent bitmaps ([MS-WMF] 2.2.2.9) of all kinds as pictures of 24 bits."""

from __future__ import annotations

from dataclasses import dataclass

from .channels import Masks, channel_of, expanded
from .compressed import decoded_image, decoded_runs
from .faults import Fault, FaultName
from .palettes import NO_USE, Palette, PaletteUse
from .pictures import Picture, joined, stored
from .records import numbers_at

__all__ = ["Dib", "bitmap_use", "plays_as_stored", "read_dib", "read_picture", "stored"]

_CORE, _INFO = 12, 40
_PLAYED_HEADERS = (40, 108, 124)
_DEPTHS = (1, 4, 8, 16, 24, 32)
LONGEST_SIDE = 32_768

# A picture of 24 bits with more pixels couldn't be part of a file that the checker takes.
_MOST_PIXELS = 67_108_864 // 3

_RGB, _RLE8, _RLE4, _FIELDS, _JPEG, _PNG = range(6)
# [MS-WMF] 2.1.1.6: a table of red, green and blue, or of indexes into the palette.
_RGB_COLOURS, _PALETTE_COLOURS = 0, 1

_DEFAULT_MASKS = {16: Masks(0x7C00, 0x03E0, 0x001F), 32: Masks(0xFF0000, 0xFF00, 0xFF)}


@dataclass(frozen=True, slots=True)
class Dib:
    """The header of a bitmap.

    `is_top_down` says that the top row is stored first; `colours` counts the entries of its table.
    """

    header_size: int
    width: int
    height: int
    is_top_down: bool
    depth: int
    compression: int
    colours: int

    @property
    def is_file(self) -> bool:
        """Whether the rows are a JPEG or PNG file, which has a size of its own."""
        return self.compression in (_JPEG, _PNG)

    @property
    def row_size(self) -> int:
        """The bytes of a row that isn't compressed."""
        return (self.width * self.depth + 31) // 32 * 4

    def table_size(self, usage: int) -> int:
        """The bytes between the header and the rows, where the two follow one another."""
        masks = 12 if self.compression == _FIELDS and self.header_size == _INFO else 0
        entry = 2 if usage == _PALETTE_COLOURS else 3 if self.header_size == _CORE else 4
        return masks + entry * self.colours


def plays_as_stored(header: bytes, usage: int) -> bool:
    """Whether the checker reads a bitmap of this kind. Its other faults aren't those of its kind."""
    if len(header) < _INFO or int.from_bytes(header[:4], "little") not in _PLAYED_HEADERS:
        return False
    depth, compression = int.from_bytes(header[14:16], "little"), int.from_bytes(header[16:20], "little")
    return compression == _RGB and usage == _RGB_COLOURS and depth in _DEPTHS


def read_dib(header: bytes) -> Dib:
    """The header of a bitmap.

    Raises Fault ShortDib if it isn't all there, and BadDib for sides, depths or tables that no bitmap has.
    """
    if len(header) < _CORE:
        raise Fault(FaultName.ShortDib)
    size = int.from_bytes(header[:4], "little")
    if size == _CORE:
        width, height, _, depth = numbers_at(header, 4, 4, "H")
        dib = Dib(size, width, height, False, depth, _RGB, 1 << depth if depth <= 8 else 0)
    elif size < _INFO:
        raise Fault(FaultName.BadDib, f"a header of {size} bytes")
    elif len(header) < _INFO:
        raise Fault(FaultName.ShortDib)
    else:
        dib = _info(header, size)
    if not dib.is_file and dib.depth not in _DEPTHS:
        raise Fault(FaultName.BadDib, f"{dib.depth} bits")
    if not (0 < dib.width <= LONGEST_SIDE and 0 < dib.height <= LONGEST_SIDE) or dib.width * dib.height > _MOST_PIXELS:
        raise Fault(FaultName.BadDib, f"{dib.width} by {dib.height} pixels")
    if dib.depth <= 8 and dib.colours > 256:
        raise Fault(FaultName.BadDib, f"{dib.colours} colours")
    return dib


def _info(header: bytes, size: int) -> Dib:
    width, height = numbers_at(header, 4, 2, "i")
    depth = numbers_at(header, 14, 1, "H")[0]
    compression, used = numbers_at(header, 16, 1, "I")[0], numbers_at(header, 32, 1, "I")[0]
    colours = used or (1 << depth if 0 < depth <= 8 else 0)
    return Dib(size, width, abs(height), height < 0, depth, compression, colours)


def read_picture(header: bytes, bits: bytes, usage: int, palette: Palette) -> Picture:
    """A bitmap as 24 bits, with its alpha if it has 32 bits or is a PNG.

    Raises Fault BadDib, ShortDib, CompressedDib or PaletteColour for bitmaps that can't be read.
    """
    dib = read_dib(header)
    if dib.is_file:
        return decoded_image(bits, "JPEG" if dib.compression == _JPEG else "PNG", _MOST_PIXELS)
    if dib.compression not in (_RGB, _RLE8, _RLE4, _FIELDS):
        raise Fault(FaultName.CompressedDib, f"compression {dib.compression}")
    if dib.depth <= 8:
        return _indexed(dib, header, bits, usage, palette)
    rows = _rows(dib, bits, dib.width * dib.depth // 8)
    if dib.depth == 24:
        return Picture(dib.width, dib.height, rows, None)
    if dib.depth == 32 and dib.compression == _RGB:
        picture = joined(dib.width, dib.height, (rows[0::4], rows[1::4], rows[2::4]))
        return Picture(dib.width, dib.height, picture.pixels, rows[3::4])
    return _masked(dib, header, rows)


def _rows(dib: Dib, bits: bytes, length: int) -> bytes:
    """The first bytes of all rows, from the top. Raises Fault ShortDib if rows are missing."""
    size = dib.row_size
    if size * dib.height > len(bits):
        raise Fault(FaultName.ShortDib)
    order = range(dib.height) if dib.is_top_down else reversed(range(dib.height))
    return b"".join(bits[size * row : size * row + length] for row in order)


def _indexed(dib: Dib, header: bytes, bits: bytes, usage: int, palette: Palette) -> Picture:
    """A picture of a table's colours. Indexes beyond the table are black."""
    if dib.compression in (_RLE8, _RLE4):
        stored_rows = decoded_runs(bits, dib.width, dib.height, dib.compression == _RLE4)
        order = range(dib.height) if dib.is_top_down else reversed(range(dib.height))
        indexes = b"".join(stored_rows[dib.width * row : dib.width * (row + 1)] for row in order)
    elif dib.compression == _FIELDS:
        raise Fault(FaultName.BadDib, f"masks with {dib.depth} bits")
    else:
        indexes = expanded(_rows(dib, bits, dib.row_size), dib.depth, dib.width, dib.height)
    table = _table(dib, header, usage, palette)
    blue, green, red = (bytes(entry[place] for entry in table) for place in range(3))
    return joined(dib.width, dib.height, (indexes.translate(blue), indexes.translate(green), indexes.translate(red)))


def _table(dib: Dib, header: bytes, usage: int, palette: Palette) -> list[tuple[int, int, int]]:
    """256 colours as blue, green and red: those of the table, and black."""
    if usage not in (_RGB_COLOURS, _PALETTE_COLOURS):
        raise Fault(FaultName.PaletteColour, f"usage {usage}")
    if usage == _PALETTE_COLOURS:
        table = _palette_table(numbers_at(header, dib.header_size, dib.colours, "H"), palette)
    else:
        entry = 3 if dib.header_size == _CORE else 4
        numbers = numbers_at(header, dib.header_size, entry * dib.colours, "B")
        table = list(zip(numbers[0::entry], numbers[1::entry], numbers[2::entry]))
    return table + [(0, 0, 0)] * (256 - len(table))


def _palette_table(indexes: tuple[int, ...], palette: Palette) -> list[tuple[int, int, int]]:
    return [(blue, green, red) for _, (red, green, blue) in _found(indexes, palette).colours]


def bitmap_use(header: bytes, usage: int, palette: Palette) -> PaletteUse:
    """What a bitmap takes from a palette: each entry of its table, if that has indexes.

    Raises Fault as `read_picture` does.
    """
    dib = read_dib(header)
    if usage != _PALETTE_COLOURS or dib.depth > 8 or dib.is_file:
        return NO_USE
    return _found(numbers_at(header, dib.header_size, dib.colours, "H"), palette)


def _found(indexes: tuple[int, ...], palette: Palette) -> PaletteUse:
    """Indexes with their colours."""
    found = [(index, palette.colour(index)) for index in indexes]
    colours = tuple((index, colour) for index, colour in found if colour is not None)
    if len(colours) < len(found):
        raise Fault(FaultName.PaletteColour, "a bitmap's table goes beyond the palette")
    return PaletteUse(colours)


def _masked(dib: Dib, header: bytes, rows: bytes) -> Picture:
    """A picture of 16 or 32 bits whose channels have masks."""
    masks = _DEFAULT_MASKS[dib.depth]
    if dib.compression == _FIELDS:
        masks = Masks(*numbers_at(header, _INFO, 3, "I"))
    blue, green, red = (channel_of(rows, dib.depth, mask) for mask in (masks.blue, masks.green, masks.red))
    picture = joined(dib.width, dib.height, (blue, green, red))
    return Picture(dib.width, dib.height, picture.pixels, rows[3::4] if dib.depth == 32 else None)
