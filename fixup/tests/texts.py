"""Texts for tests of the layout, and what they are laid out as, in device units."""

from __future__ import annotations

from collections.abc import Sequence
from dataclasses import dataclass, field, replace
from fractions import Fraction
from pathlib import Path

from metaplay_fixup.affine import IDENTITY, Affine, Contour, Point
from metaplay_fixup.catalogue import Catalogue
from metaplay_fixup.choice import FontChooser, FontRules
from metaplay_fixup.fixed import ONE
from metaplay_fixup.layer import FontLayer
from metaplay_fixup.text import BASELINE, COMPATIBLE, LaidText, LogicalFont, PageToDevice, TextRecord, TextSettings
from metaplay_fixup.text import TRANSPARENT

TOLERANCE = ONE // 8
FONT = LogicalFont(-100, 0, 0, 0, 400, False, False, False, 0, "Squares")
"""An em of 100 page units, so that a font unit is a tenth of one."""
SETTINGS = TextSettings(align=BASELINE, background_mode=TRANSPARENT)
RECORD = TextRecord((0x41,), None, None, 0, None, Point(100, 200), COMPATIBLE)
"""The letter A at (100, 200)."""


def page_of(window: Point = Point(1, 1), viewport: Point = Point(1, 1), world: Affine = IDENTITY) -> PageToDevice:
    """A page with origins at (0, 0)."""
    zero = Point(0, 0)
    x, y = window
    scale = Affine.reduced((viewport.x * y, 0, 0, viewport.y * x, 0, 0), x * y)
    return PageToDevice(world, world == IDENTITY, zero, window, zero, viewport, world.then(scale))


PAGE = page_of()


@dataclass(frozen=True, slots=True)
class Case:
    """A text and what it is laid out under."""

    font: LogicalFont = FONT
    settings: TextSettings = SETTINGS
    record: TextRecord = RECORD
    page: PageToDevice = field(default_factory=page_of)

    def of(self, text: str) -> Case:
        """The same with another text in UTF-16, whose characters are all below 10000."""
        return self.with_record(codes=tuple(map(ord, text)))

    def with_font(self, **changes: object) -> Case:
        """The same with another font."""
        return replace(self, font=replace(self.font, **changes))

    def with_settings(self, **changes: object) -> Case:
        """The same with other settings."""
        return replace(self, settings=replace(self.settings, **changes))

    def with_record(self, **changes: object) -> Case:
        """The same with another record."""
        return replace(self, record=replace(self.record, **changes))

    def on(self, page: PageToDevice) -> Case:
        """The same on another page."""
        return replace(self, page=page)


def layer_of(folder: Path, rules: FontRules = FontRules(), code_page: str = "cp1252") -> FontLayer:
    """A layer over the fonts of a folder."""
    return FontLayer(FontChooser(Catalogue.of_folders([folder]), rules), TOLERANCE, code_page)


def lay(layer: FontLayer, case: Case) -> LaidText:
    """The laid text of a case."""
    return layer.lay_out(case.record, case.font, case.settings, case.page)


def units(contour: Contour) -> list[tuple[Fraction, Fraction]]:
    """The points of a contour in device units."""
    return [(Fraction(point.x, ONE), Fraction(point.y, ONE)) for point in contour]


def box(contour: Contour) -> tuple[Fraction, Fraction, Fraction, Fraction]:
    """The left, top, right and bottom of a contour in device units."""
    xs, ys = zip(*units(contour))
    return min(xs), min(ys), max(xs), max(ys)


def boxes(contours: Sequence[Contour]) -> list[tuple[Fraction, Fraction, Fraction, Fraction]]:
    """The boxes of contours."""
    return [box(contour) for contour in contours]
