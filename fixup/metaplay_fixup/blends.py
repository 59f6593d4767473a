"""What blits with transparent pixels become: pictures that are painted one after the other by AND and OR."""

from __future__ import annotations

from typing import NamedTuple

from .faults import Fault, FaultName
from .options import AlphaRule
from .pictures import Picture, joined

SRCCOPY, SRCAND, SRCPAINT = 0x00CC0020, 0x008800C6, 0x00EE0086

# Maps a byte of alpha to a byte that keeps what is below (255) where nothing is drawn.
_KEEPS_BELOW = bytes([255]) + bytes(255)
_IS_DRAWN = bytes([0]) + bytes([255]) * 255


class Layer(NamedTuple):
    """A picture, and the ternary raster operation that paints it."""

    picture: Picture
    operation: int


def keyed(picture: Picture, colour: int) -> list[Layer]:
    """The layers of a picture whose pixels of one colour aren't drawn (EMR_TRANSPARENTBLT, [MS-EMF] 2.3.1.8)."""
    key = bytes([colour >> 16 & 0xFF, colour >> 8 & 0xFF, colour & 0xFF])
    pixels = picture.pixels
    shown = bytes(pixels[at : at + 3] != key for at in range(0, len(pixels), 3))
    return _masked(picture, shown.translate(bytes([0]) + bytes([255]) * 255))


def blended(picture: Picture, function: int, rule: AlphaRule) -> list[Layer]:
    """The layers of a picture with alpha (EMR_ALPHABLEND, [MS-EMF] 2.3.1.1); `function` is its BLENDFUNCTION.

    Pixels that are fully drawn or not at all are masked. Raises Fault Alpha for others, unless the rule lays them on
    white.
    """
    constant, has_alpha = function >> 16 & 0xFF, bool(function >> 24 & 1)
    alpha = picture.alpha if has_alpha else None
    if has_alpha and alpha is None:
        raise Fault(FaultName.BadDib, "a picture with alpha has no byte for it")
    scale = bytes(value * constant // 255 for value in range(256))
    drawn = (alpha or b"\xff" * (picture.width * picture.height)).translate(scale)
    values = set(drawn)
    if values == {0}:
        return []
    if values == {255}:
        return [Layer(picture, SRCCOPY)]
    if values <= {0, 255}:
        return _masked(picture, drawn)
    if rule is AlphaRule.REFUSE:
        raise Fault(FaultName.Alpha)
    return _masked(_on_white(picture, drawn, scale), drawn.translate(_IS_DRAWN))


def _on_white(picture: Picture, drawn: bytes, scale: bytes) -> Picture:
    """The picture on white: its colours are multiplied by alpha already, so what alpha leaves is added."""
    channels = [
        bytes(min(255, value + 255 - alpha) for value, alpha in zip(picture.channel(place).translate(scale), drawn))
        for place in range(3)
    ]
    return joined(picture.width, picture.height, (channels[0], channels[1], channels[2]))


def _masked(picture: Picture, drawn: bytes) -> list[Layer]:
    """A mask that clears the place of what is drawn (255 in `drawn`), and the picture without the rest."""
    if 0 not in drawn:
        return [Layer(picture, SRCCOPY)]
    if 255 not in drawn:
        return []
    below = drawn.translate(_KEEPS_BELOW)
    mask = joined(picture.width, picture.height, (below, below, below))
    inked = [_and(picture.channel(place), drawn) for place in range(3)]
    ink = joined(picture.width, picture.height, (inked[0], inked[1], inked[2]))
    return [Layer(mask, SRCAND), Layer(ink, SRCPAINT)]


def _and(one: bytes, other: bytes) -> bytes:
    """The bits that both have, byte for byte."""
    both = int.from_bytes(one, "little") & int.from_bytes(other, "little")
    return both.to_bytes(len(one), "little")
