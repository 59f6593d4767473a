"""The state that texts are drawn under, as far as it bounds what they draw."""

from __future__ import annotations

import math
from dataclasses import dataclass, field
from typing import NamedTuple

from .areas import Area, Pair
from .palettes import Palette


class Font(NamedTuple):
    """The fields of a font that bound its text, in page units."""

    height: int = 16
    width: int = 0
    is_turned: bool = False
    underline: bool = False
    strike_out: bool = False


IDENTITY = (1.0, 0.0, 0.0, 1.0, 0.0, 0.0)
"""The world that changes nothing."""


@dataclass(slots=True)
class State:
    """A state. The position is a box on the page where it isn't known exactly, and `is_mapped` tells whether the map
    is known. The references are colours as records have them.
    """

    mode: int = 1
    window_origin: Pair = (0, 0)
    window: Pair = (1, 1)
    viewport_origin: Pair = (0, 0)
    viewport: Pair = (1, 1)
    world: tuple[float, ...] = IDENTITY
    position: Area = Area(0, 0, 0, 0)
    text_reference: int = 0
    back_reference: int = 0xFFFFFF
    back_mode: int = 2
    align: int = 0
    extra: int = 0
    break_extra: int = 0
    font: Font = Font()
    palette: Palette = field(default_factory=lambda: Palette(is_stock=True))
    is_mapped: bool = True

    @property
    def text_colour(self) -> int:
        """The colour of text, with red in the lowest byte; below 0 if it isn't known."""
        return self.palette.colour(self.text_reference)

    @property
    def back_colour(self) -> int:
        """The same for the background."""
        return self.palette.colour(self.back_reference)

    def device(self, point: Pair) -> Pair:
        """Where a point of the page lies on the device."""
        a, b, c, d, e, f = self.world
        x, y = a * point[0] + c * point[1] + e, b * point[0] + d * point[1] + f
        return (
            (x - self.window_origin[0]) * self.viewport[0] / self.window[0] + self.viewport_origin[0],
            (y - self.window_origin[1]) * self.viewport[1] / self.window[1] + self.viewport_origin[1],
        )

    @property
    def scales(self) -> Pair:
        """How many device units a page unit has at most, across and down."""
        across, down = abs(self.viewport[0] / self.window[0]), abs(self.viewport[1] / self.window[1])
        a, b, c, d = self.world[:4]
        return across * math.hypot(a, c), down * math.hypot(b, d)

    @property
    def is_plain(self) -> bool:
        """Whether the world is the identity, or as good as that."""
        return all(abs(one - other) < 1e-6 for one, other in zip(self.world, IDENTITY))
