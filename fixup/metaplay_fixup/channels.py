"""Pixels that share bytes, and channels that masks take out of pixels."""

from __future__ import annotations

import sys
from array import array
from typing import NamedTuple

from .faults import Fault, FaultName


class Masks(NamedTuple):
    """Which bits of a pixel are its red, green and blue ([MS-WMF] 2.1.1.7)."""

    red: int
    green: int
    blue: int


def expanded(rows: bytes, depth: int, width: int, height: int) -> bytes:
    """A byte for each pixel of padded rows of 1, 4 or 8 bits a pixel; the leftmost pixel of a byte has its highest
    bits.
    """
    length = len(rows) // height
    if depth == 8:
        return b"".join(rows[length * row : length * row + width] for row in range(height))
    parts = [_parts(byte, depth) for byte in range(256)]
    whole = b"".join(map(parts.__getitem__, rows))
    length = length * 8 // depth
    return b"".join(whole[length * row : length * row + width] for row in range(height))


def _parts(byte: int, depth: int) -> bytes:
    mask = (1 << depth) - 1
    return bytes(byte >> shift & mask for shift in range(8 - depth, -1, -depth))


def channel_of(rows: bytes, depth: int, mask: int) -> bytes:
    """A byte from 0 to 255 for each pixel of 16 or 32 bits: the bits under a mask.

    Raises Fault BadDib if they aren't next to each other, or beyond the pixel.
    """
    count = len(rows) * 8 // depth
    if mask == 0:
        return bytes(count)
    low = (mask & -mask).bit_length() - 1
    bits = (mask >> low).bit_length()
    if mask >> low != (1 << bits) - 1 or mask >> depth:
        raise Fault(FaultName.BadDib, f"a mask {mask:08X}")
    if bits == 8 and low % 8 == 0:
        return rows[low // 8 :: depth // 8]
    words = array("H" if depth == 16 else "I")
    words.frombytes(rows)
    if sys.byteorder == "big":
        words.byteswap()
    if bits > 8:
        return bytes(word >> (low + bits - 8) & 0xFF for word in words)
    values = bytes(spread(value, bits) for value in range(1 << bits))
    most = (1 << bits) - 1
    return bytes(values[word >> low & most] for word in words)


def spread(value: int, bits: int) -> int:
    """A number of 1 to 8 bits as one from 0 to 255: its bits, repeated from the top until there are eight."""
    repeated, length = value, bits
    while length < 8:
        repeated, length = repeated << bits | value, length + bits
    return repeated >> (length - 8)
