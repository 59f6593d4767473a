"""What the conversion of records and the layout of text tell each other."""

from __future__ import annotations

from dataclasses import dataclass
from enum import Enum
from typing import NamedTuple, Protocol

from .affine import Affine, Contour, Point

COMPATIBLE = 1
"""GM_COMPATIBLE of [MS-EMF] 2.1.16; all text of a WMF file is laid out so."""
ADVANCED = 2
"""GM_ADVANCED of [MS-EMF] 2.1.16."""

TRANSPARENT = 1
OPAQUE = 2
"""The background modes of [MS-WMF] 2.1.1.20."""

UPDATE_POSITION = 1
RIGHT = 2
CENTRE = 6
BOTTOM = 8
BASELINE = 24
HORIZONTAL_ALIGNMENT = 6
VERTICAL_ALIGNMENT = 24
RIGHT_TO_LEFT_ALIGNMENT = 0x100
"""The text alignment flags of [MS-WMF] 2.1.2.3."""

OPAQUE_BOX = 0x2
CLIPPED_BOX = 0x4
GLYPH_INDEXES = 0x10
RIGHT_TO_LEFT = 0x80
IGNORE_LANGUAGE = 0x1000
DISTANCES_IN_PAIRS = 0x2000
"""The options of [MS-EMF] 2.1.11 and [MS-WMF] 2.1.2.2."""

Colour = tuple[int, int, int]
"""Red, green and blue, each from 0 to 255."""


class Box(NamedTuple):
    """A box. As a record has it, its sides aren't sorted."""

    left: int
    top: int
    right: int
    bottom: int


@dataclass(frozen=True, slots=True)
class LogicalFont:
    """A font as a record asks for it ([MS-WMF] 2.2.1.2, [MS-EMF] 2.2.13).

    Height and width count page units. Escapement and orientation count tenths of a degree. The weight is 0 (any) or
    from 1 to 1,000.
    """

    height: int
    width: int
    escapement: int
    orientation: int
    weight: int
    italic: bool
    underline: bool
    strike_out: bool
    charset: int
    face: str


@dataclass(frozen=True, slots=True)
class TextSettings:
    """The state that text is drawn under.

    The extras count page units: one is for each character, one is shared by `break_count` spaces.
    """

    background_mode: int = OPAQUE
    align: int = 0
    character_extra: int = 0
    break_extra: int = 0
    break_count: int = 0


@dataclass(frozen=True, slots=True)
class TextRecord:
    """The text of one record.

    `codes` are UTF-16 code units, or the bytes of a string in the font's charset. The small characters of [MS-EMF]
    2.3.5.37 are code units below 256. `distances_x` and `distances_y` count page units, one for each code unit or
    byte. `reference` is the record's reference point in page units, or the current position if UPDATE_POSITION is set.
    """

    codes: tuple[int, ...] | bytes
    distances_x: tuple[int, ...] | None
    distances_y: tuple[int, ...] | None
    options: int
    box: Box | None
    reference: Point
    graphics_mode: int


@dataclass(frozen=True, slots=True)
class PageToDevice:
    """The map from the page to the device.

    `affine` is all of it: the world transform, then the window and the viewport. No extent is 0.
    """

    world: Affine
    world_is_identity: bool
    window_origin: Point
    window_extent: Point
    viewport_origin: Point
    viewport_extent: Point
    affine: Affine


class Choice(Enum):
    """How a font was chosen for a face."""

    NONE = "none"
    """The text has nothing to draw, so no font was opened."""
    FAMILY = "family"
    """The face is a name of the font."""
    TABLE = "table"
    """The table of families with equal widths."""
    MAP = "map"
    """The caller named a family for this face."""
    INSTEAD = "instead"
    """The caller named a family for all other faces."""


@dataclass(frozen=True, slots=True)
class Note:
    """What the report says of a text.

    `font` is the family, `style` its style, `sha256` the digest of its file in hexadecimal, all empty if no font was
    opened. `made_slant`: a family has no italic, so upright glyphs of it were slanted. `code_page` is the one that
    bytes were read by, or None. `own_widths`: the record has no distances, so the font's widths were taken.
    `fallbacks` are the families that gave glyphs which the font hasn't. `permission` is the font's fsType
    ([OpenType] OS/2), or None if no font was opened.
    """

    face: str
    font: str
    choice: Choice
    text: str
    sha256: str = ""
    style: str = ""
    made_slant: bool = False
    code_page: str | None = None
    own_widths: bool = False
    fallbacks: tuple[str, ...] = ()
    permission: int | None = None


@dataclass(frozen=True, slots=True)
class LaidText:
    """A text as contours in fixed device coordinates.

    `glyphs` are filled together, by the winding rule, in the text's colour. Each of `lines` (underline, strike-out) is
    filled by itself in the same colour. `background` is the cell behind the text, in the background's colour, or None.
    The box of OPAQUE_BOX isn't part of it. `position` is the new current position in whole page units, or None if the
    text doesn't move it.
    """

    glyphs: list[Contour]
    lines: list[Contour]
    background: Contour | None
    position: Point | None
    note: Note


class TextLayer(Protocol):
    """Lays out texts with fonts."""

    def lay_out(self, record: TextRecord, font: LogicalFont, settings: TextSettings, page: PageToDevice) -> LaidText:
        """The contours of a text. Raises Fault if a font, a character or a size doesn't allow it."""
        ...
