"""The glyphs of characters, from the chosen font or from one that the caller names for missing glyphs."""

from __future__ import annotations

from dataclasses import dataclass

from .choice import ChosenFont, FontChooser
from .faults import Fault, FaultName
from .scripts import (
    HYPHEN,
    NO_BREAK_SPACE,
    SOFT_HYPHEN,
    SPACE,
    is_blank,
    is_without_width,
    needs_shaping,
    shows_nothing,
)
from .text import IGNORE_LANGUAGE, RIGHT_TO_LEFT, RIGHT_TO_LEFT_ALIGNMENT, LogicalFont

_SAME_GLYPH = {SOFT_HYPHEN: HYPHEN, NO_BREAK_SPACE: SPACE}


@dataclass(frozen=True, slots=True)
class Glyph:
    """A character's glyph and the font that has it. Glyph 0 draws nothing and takes no place."""

    code: int
    source: ChosenFont
    index: int

    @property
    def advance(self) -> int:
        """The advance in units of the source's font."""
        return self.source.font.outline(self.index).advance if self.index else 0


def check_scripts(codes: tuple[int, ...], options: int, align: int) -> None:
    """Raises Fault with ComplexScript if the text needs shaping.

    A record that asks for none (IGNORE_LANGUAGE) doesn't.
    """
    if options & IGNORE_LANGUAGE:
        return
    if options & RIGHT_TO_LEFT or align & RIGHT_TO_LEFT_ALIGNMENT:
        raise Fault(FaultName.ComplexScript, "the text runs from right to left")
    for code in codes:
        if needs_shaping(code):
            raise Fault(FaultName.ComplexScript, f"U+{code:04X}")


def glyphs_of(codes: tuple[int, ...], request: LogicalFont, chooser: FontChooser, has_distances: bool) -> list[Glyph]:
    """The glyph of each character. Raises Fault with MissingFont, or with MissingGlyph if no font has a character.

    A blank that the font hasn't is left out, if the record gives its distance or it has no width.
    """
    chosen = chooser.choose(request)
    return [_glyph(code, chosen, request, chooser, has_distances) for code in codes]


def _glyph(code: int, chosen: ChosenFont, request: LogicalFont, chooser: FontChooser, has_distances: bool) -> Glyph:
    index = _index_in(chosen, code)
    if index:
        return _checked(Glyph(code, chosen, index), request)
    if is_without_width(code) or shows_nothing(code) and has_distances:
        return Glyph(code, chosen, 0)
    for source in chooser.fallbacks(request):
        index = _index_in(source, code)
        if index:
            return _checked(Glyph(code, source, index), request)
    raise Fault(FaultName.MissingGlyph, f"U+{code:04X} in {request.face}")


def _index_in(source: ChosenFont, code: int) -> int:
    return source.font.glyph_of(code) or source.font.glyph_of(_SAME_GLYPH.get(code, code))


def _checked(glyph: Glyph, request: LogicalFont) -> Glyph:
    """The glyph. Raises Fault with MissingGlyph if a visible character has no outline, as in a font of bitmaps."""
    if not glyph.source.font.outline(glyph.index).contours and not is_blank(glyph.code):
        raise Fault(FaultName.MissingGlyph, f"U+{glyph.code:04X} in {request.face} has no outline")
    return glyph
