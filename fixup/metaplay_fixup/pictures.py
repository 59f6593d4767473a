"""Pictures of 24 bits: cut, masked and stored.

Pixels are rows from the top, each pixel a byte of blue, green and red.
"""

from __future__ import annotations

import struct
from dataclasses import dataclass

_HEADER = struct.Struct("<IiiHHIIiiII")


@dataclass(frozen=True, slots=True)
class Picture:
    """A picture. `alpha` has a byte for each pixel, or is None if the picture came without."""

    width: int
    height: int
    pixels: bytes
    alpha: bytes | None

    def cut(self, left: int, top: int, width: int, height: int) -> Picture:
        """The part of the picture with a corner and sides that lie within it."""
        if (left, top, width, height) == (0, 0, self.width, self.height):
            return self
        starts = [row * self.width + left for row in range(top, top + height)]
        pixels = b"".join(self.pixels[3 * start : 3 * (start + width)] for start in starts)
        alpha = None if self.alpha is None else b"".join(self.alpha[start : start + width] for start in starts)
        return Picture(width, height, pixels, alpha)

    def channel(self, place: int) -> bytes:
        """The bytes of blue (0), green (1) or red (2)."""
        return self.pixels[place::3]


def joined(width: int, height: int, channels: tuple[bytes, bytes, bytes]) -> Picture:
    """The picture of three channels: blue, green and red."""
    pixels = bytearray(3 * width * height)
    for place, channel in enumerate(channels):
        pixels[place::3] = channel
    return Picture(width, height, bytes(pixels), None)


def stored(picture: Picture) -> tuple[bytes, bytes]:
    """The header of a DIB of 24 bits ([MS-WMF] 2.2.2.3) and its rows, the bottom row first."""
    length = 3 * picture.width
    padding = bytes(-length % 4)
    rows = [picture.pixels[length * row : length * (row + 1)] + padding for row in range(picture.height)]
    bits = b"".join(reversed(rows))
    return _HEADER.pack(40, picture.width, picture.height, 1, 24, 0, len(bits), 0, 0, 0, 0), bits
