"""The playing state that decides where drawings land and how text looks: [MS-EMF] 3.1.1.2, [MS-WMF] 3.1.4."""

from __future__ import annotations

from dataclasses import dataclass, field, replace
from math import isqrt

from .affine import Affine, Point
from .clips import NO_CLIP, Clip
from .doubts import Doubts
from .faults import Fault, FaultName
from .fixed import ONE
from .objects import BLACK_PEN, SYSTEM_FONT, WHITE_BRUSH, Brush, Pen
from .palettes import NO_USE, STOCK_PALETTE, Palette, PaletteUse, read_colour
from .pens import DEFAULT_MITER_LIMIT
from .singles import Ratio
from .text import OPAQUE, Colour, LogicalFont, PageToDevice, TextSettings
from .viewports import UNSCALED, ViewportScale
from .worlds import IDENTITY_WORLD, World

TEXT_MODE, ISOTROPIC, ANISOTROPIC = 1, 7, 8

MOST_SAVED = 256

_ORIGIN, _UNITS = Point(0, 0), Point(1, 1)
_BLACK, _WHITE = 0, 0xFFFFFF


@dataclass(frozen=True, slots=True)
class PageMap:
    """Where the page lies on the device: x' = (x - window origin) * viewport extent / window extent + viewport
    origin.
    """

    mode: int = TEXT_MODE
    window_origin: Point = _ORIGIN
    window_extent: Point = _UNITS
    viewport_origin: Point = _ORIGIN
    viewport_extent: Point = _UNITS

    def affine(self) -> Affine:
        """The map as whole numbers over one denominator. No extent is 0."""
        across = self.viewport_extent.x * self.window_extent.y
        down = self.viewport_extent.y * self.window_extent.x
        denominator = self.window_extent.x * self.window_extent.y
        move_x = self.viewport_origin.x * denominator - self.window_origin.x * across
        move_y = self.viewport_origin.y * denominator - self.window_origin.y * down
        return Affine.reduced((across, 0, 0, down, move_x, move_y), denominator)

    def in_mode(self, mode: int) -> PageMap:
        """The map after its mode was set: text mode sets all extents to 1, and the others keep them."""
        if mode == TEXT_MODE:
            return replace(self, mode=mode, window_extent=_UNITS, viewport_extent=_UNITS)
        return replace(self, mode=mode)


@dataclass(slots=True)
class State:
    """A state. All values but palettes are immutable, so a saved state is a copy of the references.

    `text_reference` and `back_reference` are colours as their records have them; `background_use` is what the player's
    background took from a palette. `output_position` is the position that the converted file's player has, or None if
    it isn't known. `clip` is what was clipped since the clip was removed last; `meta_clip` stays when it is removed.
    Three are of WMF: what its records scale the viewport by that they haven't set, the window that they set, and
    whether they set a viewport.
    """

    page: PageMap = field(default_factory=PageMap)
    world: World = IDENTITY_WORLD
    position: Point = _ORIGIN
    output_position: Point | None = _ORIGIN
    pen: Pen = BLACK_PEN
    font: LogicalFont = SYSTEM_FONT
    brush: Brush = WHITE_BRUSH
    palette: Palette = STOCK_PALETTE
    text_reference: int = _BLACK
    back_reference: int = _WHITE
    background_use: PaletteUse = NO_USE
    background_mode: int = OPAQUE
    align: int = 0
    character_extra: int = 0
    break_extra: int = 0
    break_count: int = 0
    is_clockwise: bool = False
    miter_limit: Ratio = DEFAULT_MITER_LIMIT
    clip: Clip = NO_CLIP
    meta_clip: Clip = NO_CLIP
    viewport_scale: ViewportScale = UNSCALED
    asked_window: Point = _UNITS
    has_own_viewport: bool = False
    doubts: Doubts = field(default_factory=dict)
    device: Affine = field(default_factory=lambda: PageMap().affine())

    def set_page(self, page: PageMap) -> None:
        """Takes another page map. Raises Fault ZeroExtent if an extent is 0."""
        if 0 in page.window_extent or 0 in page.viewport_extent:
            raise Fault(FaultName.ZeroExtent)
        self.page = page
        self._place()

    def set_world(self, world: World) -> None:
        """Takes another world. Raises Fault BadValue if it has no inverse."""
        if world.affine().determinant() == 0:
            raise Fault(FaultName.BadValue, "a world transform without an inverse")
        self.world = world
        self._place()

    def _place(self) -> None:
        self.device = self.world.affine().then(self.page.affine())

    @property
    def is_plain(self) -> bool:
        """Whether the world is the identity."""
        return self.world == IDENTITY_WORLD

    def copy(self) -> State:
        """A state with the same values."""
        return replace(self)

    @property
    def text_colour(self) -> Colour:
        """The colour of text. Raises Fault PaletteColour if the selected palette doesn't have it."""
        return read_colour(self.text_reference, self.palette)

    @property
    def background(self) -> Colour:
        """The colour behind text, and in the gaps of dashes. Raises Fault as `text_colour` does."""
        return read_colour(self.back_reference, self.palette)

    def check_palette(self) -> None:
        """Raises Fault PaletteColour if pen, brush or background took a colour that the palette hasn't there now."""
        for use in (self.pen.use, self.brush.use, self.background_use):
            if not use.holds(self.palette):
                raise Fault(FaultName.PaletteColour, "the palette has changed since a colour was taken from it")

    def text_settings(self) -> TextSettings:
        """The settings of text, for a layout."""
        return TextSettings(
            self.background_mode,
            self.align,
            self.character_extra,
            self.break_extra,
            self.break_count,
        )

    def page_to_device(self) -> PageToDevice:
        """The maps, for a layout."""
        page = self.page
        return PageToDevice(
            self.world.affine(),
            self.is_plain,
            page.window_origin,
            page.window_extent,
            page.viewport_origin,
            page.viewport_extent,
            self.device,
        )


def scaled_width(width: int, parts: int, device: Affine) -> int:
    """A pen's width in parts of a device unit, at least 1: that of the mean scale, which is the root of the
    determinant.
    """
    square = (2 * width * parts) ** 2 * abs(device.determinant()) // device.denominator**2
    return max(1, (isqrt(square) + 1) // 2)


def page_length(device: Affine, length: int) -> int:
    """A length of page units in fixed device units, by the mean scale; above 0 for a length above 0."""
    return scaled_width(length, ONE, device) if length > 0 else 0


class SavedStates:
    """The stack of saved states."""

    def __init__(self) -> None:
        self._saved: list[State] = []

    def __len__(self) -> int:
        return len(self._saved)

    def save(self, state: State) -> None:
        """Saves a copy. Raises Fault DepthLimit if there are as many as the checker allows."""
        if len(self._saved) >= MOST_SAVED:
            raise Fault(FaultName.DepthLimit)
        self._saved.append(state.copy())

    def restore(self, number: int) -> State:
        """Takes back a state: -1 is the newest, 1 the oldest. Raises Fault NoSavedState if there is none."""
        place = number - 1 if number > 0 else len(self._saved) + number
        if number == 0 or not 0 <= place < len(self._saved):
            raise Fault(FaultName.NoSavedState)
        state = self._saved[place]
        del self._saved[place:]
        return state

    def forget_positions(self) -> None:
        """Says that the positions of the converted file's player aren't known in any saved state."""
        for state in self._saved:
            state.output_position = None
