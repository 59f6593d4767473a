"""The text layer: from a record's text to contours."""

from __future__ import annotations

from .affine import Contour
from .charsets import Characters, from_bytes, from_utf16
from .choice import FontChooser
from .face_metrics import metrics_of_face
from .faults import Fault, FaultName
from .glyphs import Glyph, check_scripts, glyphs_of
from .layout import Laid, Line, band, glyph_contours, laid, moved_position
from .metrics import direction_of, frame_of
from .scripts import shows_nothing
from .glyph_shapes import ShapeCache
from .text import (
    CLIPPED_BOX,
    GLYPH_INDEXES,
    OPAQUE,
    OPAQUE_BOX,
    UPDATE_POSITION,
    Choice,
    LaidText,
    LogicalFont,
    Note,
    PageToDevice,
    TextRecord,
    TextSettings,
)
from .text_lines import has_area, lines

MOST_CHARACTERS = 1 << 20
"""A text has at most so many characters."""


class FontLayer:
    """Lays out texts with the fonts of a chooser. It is a TextLayer."""

    def __init__(self, chooser: FontChooser, tolerance: int, code_page: str = "cp1252") -> None:
        """`tolerance` is how far chords may be off a glyph's curves, in fixed device units, above 0.

        `code_page` is the one, by its name in Python, that bytes are read by in a font of the default charset.
        """
        self._chooser = chooser
        self._shapes = ShapeCache(tolerance)
        self._code_page = code_page

    def lay_out(self, record: TextRecord, font: LogicalFont, settings: TextSettings, page: PageToDevice) -> LaidText:
        """The contours of a text.

        Raises Fault: GlyphIndexes, ComplexScript, MissingFont, MissingBold, VerticalFace, MissingGlyph,
        EmbeddingNotAllowed, BadFont; OffPlane if the font is too large; TooManyEdges if the text has too many
        characters or points. Contours may lie anywhere.
        """
        characters = self._characters(record, font)
        if _draws_nothing(characters.codes, record, font, settings):
            return LaidText([], [], None, None, _note(characters, font))
        check_scripts(characters.codes, record.options, settings.align)
        line = self._line(characters, record, font, page)
        text = laid(line, settings, page.affine.apply(record.reference))
        position = None
        if settings.align & UPDATE_POSITION:
            position = moved_position(text, settings, record.reference, direction_of(font.escapement, page))
        contours = glyph_contours(text, self._shapes)
        underlines = lines(text, font)
        background = _background(text, record, settings)
        note = self._note(characters, font, line.glyphs)
        return LaidText(contours, underlines, background, position, note)

    def _characters(self, record: TextRecord, font: LogicalFont) -> Characters:
        """The characters, without the zeros that some programs count with the string."""
        if record.options & GLYPH_INDEXES and record.codes:
            raise Fault(FaultName.GlyphIndexes, font.face)
        if len(record.codes) > MOST_CHARACTERS:
            raise Fault(FaultName.TooManyEdges, f"a text has more than {MOST_CHARACTERS} characters")
        xs, ys = record.distances_x, record.distances_y
        if isinstance(record.codes, bytes):
            return from_bytes(record.codes.rstrip(b"\0"), font.charset, self._code_page, xs, ys)
        count = len(record.codes)
        while count and record.codes[count - 1] == 0:
            count -= 1
        return from_utf16(record.codes[:count], xs, ys)

    def _line(self, characters: Characters, record: TextRecord, font: LogicalFont, page: PageToDevice) -> Line:
        has_distances = characters.distances_x is not None
        glyphs = glyphs_of(characters.codes, font, self._chooser, has_distances)
        metrics = metrics_of_face(font, self._chooser.choose(font))
        frame = frame_of(font, metrics, page, record.graphics_mode)
        return Line(glyphs, characters.distances_x, characters.distances_y, metrics, frame)

    def _note(self, characters: Characters, font: LogicalFont, glyphs: list[Glyph]) -> Note:
        chosen = self._chooser.choose(font)
        sources = [chosen, *(glyph.source for glyph in glyphs if glyph.index)]
        used = dict.fromkeys(glyph.source.font.file.family for glyph in glyphs if glyph.source.font is not chosen.font)
        return Note(
            face=font.face,
            font=chosen.font.file.family,
            choice=chosen.choice,
            text=_string(characters.codes),
            sha256=chosen.font.sha256,
            style=chosen.font.file.style,
            made_slant=any(source.made_slant for source in sources),
            code_page=characters.code_page,
            own_widths=characters.distances_x is None,
            fallbacks=tuple(used),
            permission=chosen.font.permission,
        )


def _draws_nothing(codes: tuple[int, ...], record: TextRecord, font: LogicalFont, settings: TextSettings) -> bool:
    """Whether a text is blank, shows no background or lines, and moves no position. Such a text needs no font."""
    if not codes:
        return True
    moves = settings.align & UPDATE_POSITION
    has_lines = font.underline or font.strike_out
    cell = settings.background_mode == OPAQUE and not record.options & OPAQUE_BOX
    return not (moves or has_lines or cell) and all(map(shows_nothing, codes))


def _note(characters: Characters, font: LogicalFont) -> Note:
    """The note of a text that needs no font."""
    return Note(font.face, "", Choice.NONE, _string(characters.codes), code_page=characters.code_page)


def _background(text: Laid, record: TextRecord, settings: TextSettings) -> Contour | None:
    """The cell behind the text in the opaque mode, unless the record fills its box and clips the text by it."""
    both = OPAQUE_BOX | CLIPPED_BOX
    if settings.background_mode != OPAQUE or record.options & both == both:
        return None
    cell = band(text, -2 * text.line.metrics.descent, 2 * text.line.metrics.ascent)
    return cell if has_area(cell) else None


def _string(codes: tuple[int, ...]) -> str:
    """The characters as a string. Half a surrogate is the replacement character."""
    return "".join("\ufffd" if 0xD800 <= code < 0xE000 else chr(code) for code in codes)
