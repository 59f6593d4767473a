"""Strings as characters, and fonts of symbols."""

from __future__ import annotations

import unittest
from pathlib import Path

from fontTools.ttLib import TTFont  # type: ignore[import]

from metaplay_fixup.adobe_symbol import SYMBOL_NAMES
from metaplay_fixup.catalogue import Catalogue
from metaplay_fixup.charsets import CODE_PAGES, Characters, code_page_named, code_page_of, from_bytes, from_utf16
from metaplay_fixup.faults import Fault
from metaplay_fixup.fonts import Font

from .made_folder import MadeFolder
from .made_fonts import A, B, MadeFont
from .texts import Case, boxes, lay

URW = Path("/usr/share/fonts/opentype/urw-base35")


class Bytes(unittest.TestCase):
    """Bytes by the charsets of [MS-WMF] 2.1.1.5."""

    def assert_codes(self, text: bytes, charset: int, *codes: int) -> None:
        """The bytes are these characters."""
        self.assertEqual(from_bytes(text, charset, "cp1252", None, None).codes, codes)

    def test_code_pages_of_one_byte(self) -> None:
        """By the Unicode consortium's tables of Microsoft's code pages."""
        self.assert_codes(b"\x80\xe9", 0, 0x20AC, 0xE9)
        self.assert_codes(b"\xe1", 161, 0x3B1)
        self.assert_codes(b"\xfd", 162, 0x131)
        self.assert_codes(b"\xd0", 163, 0x110)
        self.assert_codes(b"\xe0", 177, 0x5D0)
        self.assert_codes(b"\xc7", 178, 0x627)
        self.assert_codes(b"\xe0", 186, 0x105)
        self.assert_codes(b"\xc0", 204, 0x410)
        self.assert_codes(b"\xa1", 222, 0xE01)
        self.assert_codes(b"\xb9", 238, 0x105)
        self.assert_codes(b"\x80", 255, 0xC7)
        self.assert_codes(b"\x80", 77, 0xC4)

    def test_code_pages_of_several_bytes(self) -> None:
        self.assert_codes(b"A\x82\xa0\xb1", 128, 0x41, 0x3042, 0xFF71)
        self.assert_codes(b"\xb0\xa1", 129, 0xAC00)
        self.assert_codes(b"\x88\x61", 130, 0xAC00)
        self.assert_codes(b"\xb0\xa1", 134, 0x554A)
        self.assert_codes(b"\xa4\x40", 136, 0x4E00)

    def test_distances_are_joined(self) -> None:
        found = from_bytes(b"\x82\xa0A", 128, "cp1252", (30, 40, 5), (1, 2, 3))
        self.assertEqual(found, Characters((0x3042, 0x41), (70, 5), (3, 3), "cp932"))

    def test_distances_that_are_missing(self) -> None:
        self.assertEqual(from_bytes(b"AB", 0, "cp1252", (30,), None).distances_x, (30, 0))

    def test_bytes_without_a_character(self) -> None:
        for text, charset, fault in (
            (b"A\x81", 0, "MissingGlyph (byte 81 isn't a character of cp1252)"),
            (b"\x82", 128, "MissingGlyph (byte 82 isn't a character of cp932)"),
            (b"\x82\x20", 128, "MissingGlyph (byte 82 isn't a character of cp932)"),
        ):
            with self.assertRaises(Fault) as caught:
                from_bytes(text, charset, "cp1252", None, None)
            self.assertEqual(str(caught.exception), fault)

    def test_charsets_without_a_code_page_of_their_own(self) -> None:
        self.assertEqual([code_page_of(charset, "cp1250") for charset in (1, 7)], ["cp1250", "cp1250"])

    def test_code_pages_that_a_caller_may_choose(self) -> None:
        """Each is one of Python's; the letter A is the same in all."""
        for number in CODE_PAGES:
            self.assertEqual(from_bytes(b"A", 1, code_page_named(number), None, None).codes, (0x41,), number)
        for number in (0, 37, 1259, 65001):
            self.assertRaises(ValueError, code_page_named, number)

    def test_symbols(self) -> None:
        found = from_bytes(b"a\xff", 2, "cp1252", (7,), None)
        self.assertEqual(found, Characters((0xF061, 0xF0FF), (7, 0), None, None))


class Utf16(unittest.TestCase):
    """Code units."""

    def test_surrogates(self) -> None:
        found = from_utf16((0x41, 0xD835, 0xDC00, 0x42), (1, 2, 3, 4), (5, 6, 7, 8))
        self.assertEqual(found, Characters((0x41, 0x1D400, 0x42), (1, 5, 4), (5, 13, 8), None))

    def test_halves_of_surrogates(self) -> None:
        self.assertEqual(from_utf16((0xD835,), None, None).codes, (0xD835,))
        self.assertEqual(from_utf16((0xDC00, 0xD835, 0x41), None, None).codes, (0xDC00, 0xD835, 0x41))


class SupplementaryPlanes(MadeFolder):
    """A font with a character beyond FFFF."""

    made = (MadeFont(characters={0x41: B, 0x1D400: A}),)

    def test_surrogates_find_their_glyph(self) -> None:
        laid = lay(self.layer, Case().with_record(codes=(0xD835, 0xDC00)))
        self.assertEqual((boxes(laid.glyphs), laid.note.text), ([(100, 150, 150, 200)], "\U0001d400"))


class SymbolFonts(MadeFolder):
    """A font with a character map of symbols, at F041 and F042."""

    made = (MadeFont(family="Signs", characters={0xF041: A, 0xF042: B}, is_symbol=True),)

    def assert_letter_a(self, case: Case) -> None:
        """The text is the glyph of F041."""
        self.assertEqual(boxes(lay(self.layer, case.with_font(face="Signs")).glyphs), [(100, 150, 150, 200)])

    def test_bytes(self) -> None:
        self.assert_letter_a(Case().with_record(codes=b"A").with_font(charset=2))

    def test_code_units(self) -> None:
        for charset in (0, 1, 2):
            self.assert_letter_a(Case().of("A").with_font(charset=charset))
            self.assert_letter_a(Case().of("\uf041").with_font(charset=charset))

    def test_missing_sign(self) -> None:
        with self.assertRaises(Fault) as caught:
            lay(self.layer, Case().with_record(codes=b"C").with_font(face="Signs", charset=2))
        self.assertEqual(str(caught.exception), "MissingGlyph (U+F043 in Signs)")


class StandardSymbols(unittest.TestCase):
    """Adobe's Symbol encoding, for Standard Symbols PS of fonts-urw-base35."""

    font: Font

    @classmethod
    def setUpClass(cls) -> None:
        cls.font = Font(Catalogue.of_folders([URW]).named("Standard Symbols PS")[0])

    def test_number_of_codes(self) -> None:
        """95 codes from 20 to 7E and 94 from A0 to FE, without F0."""
        self.assertEqual(sorted(SYMBOL_NAMES), [*range(0x20, 0x7F), *range(0xA0, 0xF0), *range(0xF1, 0xFF)])

    def test_names_are_those_of_the_font(self) -> None:
        """The character map of this version of the font is the encoding, with the apple at 80."""
        font = TTFont(self.font.file.path)
        self.assertEqual({**SYMBOL_NAMES, 0x80: "apple"}, font["cmap"].getcmap(3, 1).cmap)
        glyphs = [font.getGlyphID(name) for name in SYMBOL_NAMES.values()]
        self.assertEqual([self.font.glyph_of(0xF000 + code) for code in SYMBOL_NAMES], glyphs)

    def test_codes_below_100(self) -> None:
        for code in SYMBOL_NAMES:
            self.assertEqual(self.font.glyph_of(code), self.font.glyph_of(0xF000 + code))

    def test_codes_without_a_glyph(self) -> None:
        self.assertEqual([self.font.glyph_of(code) for code in (0x1F, 0x7F, 0x9F, 0xF0, 0xFF, 0xF0F0)], [0] * 6)


if __name__ == "__main__":
    unittest.main()
