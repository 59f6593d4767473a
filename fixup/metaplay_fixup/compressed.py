"""Compressed bitmaps: runs ([MS-WMF] 3.1.6), and JPEG and PNG files inside ([MS-WMF] 2.1.1.7)."""

from __future__ import annotations

import io
import warnings

from .faults import Fault, FaultName
from .pictures import Picture, joined


def decoded_image(data: bytes, form: str, most_pixels: int) -> Picture:
    """A picture that is a JPEG or PNG file, with its alpha.

    Raises Fault BadDib if it is none, or has more pixels than allowed.
    """
    try:
        with warnings.catch_warnings():
            warnings.simplefilter("error")
            return _opened_image(data, form, most_pixels)
    except (Fault, MemoryError):
        raise
    except Exception as error:
        # Pillow has no exception of its own for broken files: besides OSError it raises whatever its parts do.
        raise Fault(FaultName.BadDib, f"{form}: {error}") from error


def _opened_image(data: bytes, form: str, most_pixels: int) -> Picture:
    # Imported here since hardly any file needs it, and each start of the command would wait for it.
    from PIL import Image

    with Image.open(io.BytesIO(data), formats=[form]) as image:
        width, height = image.size
        if width * height > most_pixels:
            raise Fault(FaultName.BadDib, f"{width} by {height} pixels")
        red, green, blue, alpha = (channel.tobytes() for channel in image.convert("RGBA").split())
    return Picture(width, height, joined(width, height, (blue, green, red)).pixels, alpha)


class _Cursor:
    """Where decoding of runs is: a row and a place in it. Pixels beyond a row's end are left out."""

    def __init__(self, width: int, height: int) -> None:
        self.width, self.height = width, height
        self.indexes = bytearray(width * height)
        self.column = self.row = 0

    def put(self, pixels: bytes) -> None:
        """Puts pixels from the place on."""
        room = max(0, self.width - self.column)
        if self.row < self.height and room:
            start = self.row * self.width + self.column
            shown = pixels[:room]
            self.indexes[start : start + len(shown)] = shown
        self.column += len(pixels)


def decoded_runs(data: bytes, width: int, height: int, is_nibbles: bool) -> bytes:
    """A byte for each pixel, rows as stored.

    Pixels that no run covers are 0; decoding ends at the end mark, or where data ends.
    """
    cursor = _Cursor(width, height)
    at = 0
    while at + 1 < len(data) and cursor.row < height:
        count, value = data[at], data[at + 1]
        at += 2
        if count:
            cursor.put(_nibbles(bytes([value]) * ((count + 1) // 2), count) if is_nibbles else bytes([value]) * count)
        elif value > 2:
            size = (value + 1) // 2 if is_nibbles else value
            literal = data[at : at + size]
            cursor.put(_nibbles(literal, value) if is_nibbles else literal)
            at += size + size % 2
        elif value == 1:
            break
        elif value == 0:
            cursor.column, cursor.row = 0, cursor.row + 1
        elif at + 1 < len(data):
            cursor.column, cursor.row = cursor.column + data[at], cursor.row + data[at + 1]
            at += 2
    return bytes(cursor.indexes)


def _nibbles(data: bytes, count: int) -> bytes:
    """The first half bytes, the high one of each byte first."""
    return bytes(half for byte in data for half in (byte >> 4, byte & 15))[:count]
