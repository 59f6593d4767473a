"""Backgrounds, boxes, blanks, code pages and characters."""

from __future__ import annotations

import hashlib

from metaplay_fixup.affine import Affine, Point
from metaplay_fixup.catalogue import Catalogue
from metaplay_fixup.choice import FontChooser, FontRules
from metaplay_fixup.faults import Fault, FaultName
from metaplay_fixup.fixed import ONE
from metaplay_fixup.layer import MOST_CHARACTERS, FontLayer
from metaplay_fixup.text import (
    BASELINE,
    CLIPPED_BOX,
    GLYPH_INDEXES,
    IGNORE_LANGUAGE,
    OPAQUE,
    OPAQUE_BOX,
    RIGHT_TO_LEFT,
    RIGHT_TO_LEFT_ALIGNMENT,
    UPDATE_POSITION,
    Box,
    Choice,
    Note,
)
from metaplay_fixup.text_boxes import clip_box, opaque_box

from .made_folder import MadeFolder
from .made_fonts import OTHER, SPACE, A, MadeFont, Square
from .texts import Case, box, boxes, lay, layer_of, page_of

HIRAGANA_A = Square(0, 0, 100, 200)
HYPHENED = {0x41: A, 0x20: SPACE, 0x2D: OTHER}


class Backgrounds(MadeFolder):
    """The cell behind a text, and the record's box."""

    def test_no_cell_in_the_transparent_mode(self) -> None:
        self.assertIsNone(lay(self.layer, Case()).background)

    def test_cell_in_the_opaque_mode(self) -> None:
        """As long as the advances, from 900 above to 300 units below the baseline."""
        laid = lay(self.layer, Case().of("AA").with_settings(background_mode=OPAQUE))
        self.assertEqual(box(laid.background or []), (100, 110, 220, 230))

    def test_cell_of_a_blank_text(self) -> None:
        laid = lay(self.layer, Case().of(" ").with_settings(background_mode=OPAQUE))
        self.assertEqual((laid.glyphs, box(laid.background or [])), ([], (100, 110, 125, 230)))

    def test_cell_beside_an_opaque_box(self) -> None:
        case = Case().with_settings(background_mode=OPAQUE).with_record(options=OPAQUE_BOX)
        self.assertEqual(box(lay(self.layer, case).background or []), (100, 110, 160, 230))

    def test_no_cell_where_the_box_is_opaque_and_clips(self) -> None:
        case = Case().with_settings(background_mode=OPAQUE).with_record(options=OPAQUE_BOX | CLIPPED_BOX)
        self.assertIsNone(lay(self.layer, case).background)

    def test_opaque_box(self) -> None:
        case = Case().with_record(options=OPAQUE_BOX, box=Box(10, 20, 30, 60)).on(page_of(Point(1, 1), Point(2, 3)))
        self.assertEqual(box(opaque_box(case.record, case.page) or []), (20, 60, 60, 180))
        self.assertIsNone(opaque_box(case.with_record(options=CLIPPED_BOX).record, case.page))
        self.assertIsNone(opaque_box(case.with_record(box=Box(10, 20, 10, 60)).record, case.page))
        self.assertIsNone(opaque_box(case.with_record(box=None).record, case.page))


class Clips(MadeFolder):
    """The letter A covers (100, 150) to (150, 200)."""

    def clip(self, sides: Box, world: Affine = Affine(1, 0, 0, 1, 0, 0), options: int = CLIPPED_BOX) -> Box | None:
        """The clip of the letter in device units."""
        case = Case().with_record(options=options, box=sides).on(page_of(world=world))
        clip = clip_box(case.record, lay(self.layer, case), case.page)
        return None if clip is None else Box(*(side // ONE for side in clip))

    def test_text_within_the_box(self) -> None:
        self.assertIsNone(self.clip(Box(100, 150, 150, 200)))
        self.assertIsNone(self.clip(Box(150, 200, 100, 150)))

    def test_text_beyond_the_box(self) -> None:
        self.assertEqual(self.clip(Box(149, 200, 100, 150)), Box(100, 150, 149, 200))

    def test_not_asked_for(self) -> None:
        self.assertIsNone(self.clip(Box(0, 0, 1, 1), options=OPAQUE_BOX))

    def test_box_without_an_area(self) -> None:
        self.assertEqual(self.clip(Box(100, 150, 100, 200)), Box(100, 150, 100, 200))
        self.assertEqual(self.clip(Box(0, 0, 0, 0)), Box(0, 0, 0, 0))

    def test_turned_box_without_an_area(self) -> None:
        """It is a point, that of its first corner, which the world takes to (0 - 150, 0 + 150)."""
        self.assertEqual(self.clip(Box(0, 150, 0, 400), Affine(1, 1, -1, 1, 0, 0)), Box(-150, 150, -150, 150))

    def test_box_on_a_page_that_points_up(self) -> None:
        case = Case().with_record(options=CLIPPED_BOX, box=Box(100, -200, 150, -150), reference=Point(100, -200))
        case = case.on(page_of(Point(1, -1), Point(1, 1)))
        self.assertIsNone(clip_box(case.record, lay(self.layer, case), case.page))

    def test_turned_box_around_the_text(self) -> None:
        """A world that turns by 45 degrees and stretches; text and box turn with it."""
        self.assertIsNone(self.clip(Box(90, 140, 160, 210), Affine(1, 1, -1, 1, 0, 0)))

    def test_turned_box_that_clips(self) -> None:
        """The text lies in the bounds of the turned box, but not in the box."""
        with self.assertRaises(Fault) as caught:
            self.clip(Box(0, 150, 149, 400), Affine(1, 1, -1, 1, 0, 0))
        self.assertIs(caught.exception.name, FaultName.ClipShape)


class Blanks(MadeFolder):
    """Texts that show nothing need no font."""

    def test_blank_text_opens_no_font(self) -> None:
        """No font has this name."""
        for text in ("", "\0\0", "   ", "\r\n", "\u00a0\u3000"):
            laid = lay(self.layer, Case().of(text).with_font(face="Nowhere"))
            self.assertEqual((laid.glyphs, laid.lines, laid.background, laid.position), ([], [], None, None))
            self.assertIs(laid.note.choice, Choice.NONE)

    def test_blank_text_in_an_opaque_box(self) -> None:
        case = Case().of(" ").with_font(face="Nowhere").with_settings(background_mode=OPAQUE)
        self.assertIs(lay(self.layer, case.with_record(options=OPAQUE_BOX)).note.choice, Choice.NONE)

    def test_blank_text_that_does_something_needs_a_font(self) -> None:
        blank = Case().of(" ").with_font(face="Nowhere")
        cases = (
            blank.with_settings(background_mode=OPAQUE),
            blank.with_settings(align=BASELINE | UPDATE_POSITION),
            blank.with_font(underline=True),
            blank.with_font(strike_out=True),
        )
        for case in cases:
            with self.assertRaises(Fault) as caught:
                lay(self.layer, case)
            self.assertIs(caught.exception.name, FaultName.MissingFont)

    def test_zeros_at_the_end_are_left_out(self) -> None:
        case = Case().of("A\0\0").with_settings(align=BASELINE | UPDATE_POSITION).with_record(distances_x=(60, 7, 7))
        self.assertEqual(lay(self.layer, case).position, Point(160, 200))
        self.assertEqual(lay(self.layer, case.with_record(codes=b"A\0\0")).position, Point(160, 200))

    def test_blanks_that_the_font_has_not(self) -> None:
        """With distances they are left out; without, a line feed has no width, and the width of U+2003 is unknown."""
        distant = Case().of("\u2003A").with_record(distances_x=(30, 60))
        self.assertEqual(boxes(lay(self.layer, distant).glyphs), [(130, 150, 180, 200)])
        self.assertEqual(boxes(lay(self.layer, Case().of("\nA")).glyphs), [(100, 150, 150, 200)])
        with self.assertRaises(Fault) as caught:
            lay(self.layer, Case().of("\u2003A"))
        self.assertEqual(str(caught.exception), "MissingGlyph (U+2003 in Squares)")

    def test_characters_without_a_width(self) -> None:
        """Controls and format characters, the first and the last of each range, take no place."""
        for code in (1, 0x1F, 0x7F, 0x200B, 0x200E, 0x2028, 0x202D, 0x2060, 0x206F, 0xFEFF):
            found = boxes(lay(self.layer, Case().of(f"A{chr(code)}A")).glyphs)
            self.assertEqual(found, [(100, 150, 150, 200), (160, 150, 210, 200)], hex(code))

    def test_no_break_space_is_a_space(self) -> None:
        self.assertEqual(boxes(lay(self.layer, Case().of("\u00a0A")).glyphs), [(125, 150, 175, 200)])


class Rejections(MadeFolder):
    """What is never guessed."""

    made = (MadeFont(characters={0x41: A, 0x42: Square(0, 0, 0, 300), 0x5D0: A}),)

    def assert_fault(self, case: Case, text: str) -> None:
        """The text is rejected with this fault."""
        with self.assertRaises(Fault) as caught:
            lay(self.layer, case)
        self.assertEqual(str(caught.exception), text)

    def test_glyph_indexes(self) -> None:
        self.assert_fault(Case().with_record(options=GLYPH_INDEXES), "GlyphIndexes (Squares)")

    def test_missing_glyph(self) -> None:
        self.assert_fault(Case().of("AC"), "MissingGlyph (U+0043 in Squares)")

    def test_visible_character_without_an_outline(self) -> None:
        self.assert_fault(Case().of("AB"), "MissingGlyph (U+0042 in Squares has no outline)")

    def test_too_many_characters(self) -> None:
        case = Case().with_record(codes=(0x41,) * (MOST_CHARACTERS + 1))
        self.assert_fault(case, "TooManyEdges (a text has more than 1048576 characters)")

    def test_half_a_surrogate(self) -> None:
        self.assert_fault(Case().with_record(codes=(0xD800, 0x41)), "MissingGlyph (U+D800 in Squares)")

    def test_symbols_in_a_font_of_letters(self) -> None:
        """F041 is no A."""
        self.assert_fault(Case().of("\uf041"), "MissingGlyph (U+F041 in Squares)")

    def test_complex_scripts(self) -> None:
        for code in (
            0x301,
            0x5D0,
            0x627,
            0x915,
            0xE01,
            0xF40,
            0x1000,
            0x109F,
            0x1100,
            0x11FF,
            0x17B6,
            0x202E,
            0x3099,
            0x309A,
            0xFB1D,
            0xFEFC,
            0x10840,
        ):
            case = Case().with_record(codes=(0x41, *_utf16(code)))
            self.assert_fault(case, f"ComplexScript (U+{code:04X})")

    def test_simple_scripts(self) -> None:
        """They are only missing."""
        for code in (0xE9, 0x391, 0x416, 0x10D0, 0x1E00, 0x3042, 0x4E00, 0xAC00, 0x20000):
            case = Case().with_record(codes=tuple(_utf16(code)))
            self.assert_fault(case, f"MissingGlyph (U+{code:04X} in Squares)")

    def test_text_from_right_to_left(self) -> None:
        fault = "ComplexScript (the text runs from right to left)"
        self.assert_fault(Case().with_record(options=RIGHT_TO_LEFT), fault)
        self.assert_fault(Case().with_settings(align=BASELINE | RIGHT_TO_LEFT_ALIGNMENT), fault)

    def test_a_record_that_asks_for_no_shaping(self) -> None:
        case = Case().with_record(codes=(0x5D0,), options=IGNORE_LANGUAGE)
        self.assertEqual(boxes(lay(self.layer, case).glyphs), [(100, 150, 150, 200)])


class Notes(MadeFolder):
    """What the report says."""

    made = (MadeFont(characters=HYPHENED),)

    def test_note(self) -> None:
        note = lay(self.layer, Case().of("A-")).note
        self.assertEqual(
            (
                note.face,
                note.font,
                note.style,
                note.choice,
                note.text,
                note.own_widths,
                note.code_page,
                note.made_slant,
            ),
            ("Squares", "Squares", "Regular", Choice.FAMILY, "A-", True, None, False),
        )
        self.assertEqual(len(note.sha256), 64)

    def test_note_of_a_blank_text(self) -> None:
        self.assertEqual(lay(self.layer, Case().of(" ")).note, Note("Squares", "", Choice.NONE, " "))

    def test_fonts_that_were_opened(self) -> None:
        chooser = FontChooser(Catalogue.of_folders([self.folder]), FontRules())
        layer = FontLayer(chooser, ONE)
        self.assertEqual(chooser.opened(), ())
        note = lay(layer, Case()).note
        found = [(font.file.family, font.sha256, font.permission) for font in chooser.opened()]
        self.assertEqual(found, [("Squares", note.sha256, 0)])
        digest = hashlib.sha256((self.folder / "font00.ttf").read_bytes()).hexdigest()
        self.assertEqual((note.sha256, note.permission), (digest, 0))

    def test_soft_hyphen_is_a_hyphen(self) -> None:
        self.assertEqual(boxes(lay(self.layer, Case().of("\u00ad")).glyphs), [(100, 180, 120, 200)])

    def test_code_page_of_the_default_charset(self) -> None:
        case = Case().with_record(codes=b"A-").with_font(charset=1)
        self.assertEqual(lay(self.layer, case).note.code_page, "cp1252")
        greek = layer_of(self.folder, code_page="cp1253")
        self.assertEqual(lay(greek, case).note.code_page, "cp1253")


def _utf16(code: int) -> list[int]:
    units = chr(code).encode("utf-16-le")
    return [units[index] | units[index + 1] << 8 for index in range(0, len(units), 2)]
