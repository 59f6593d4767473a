"""The choice of fonts by made fonts of several families and styles."""

from __future__ import annotations

import tempfile
import unittest
from collections.abc import Iterable
from dataclasses import replace
from pathlib import Path

from metaplay_fixup.catalogue import Catalogue
from metaplay_fixup.choice import FontChooser, FontRules
from metaplay_fixup.faults import Fault
from metaplay_fixup.layer import FontLayer
from metaplay_fixup.text import ADVANCED, BASELINE, UPDATE_POSITION, Choice, LogicalFont

from .made_fonts import SPACE, A, MadeFont, write_font
from .texts import FONT, TOLERANCE, Case, boxes, lay, units

MS_GOTHIC = "\uff2d\uff33 \u30b4\u30b7\u30c3\u30af"
REGULAR, BOLD, ITALIC = 0x40, 0x20, 0x01
MADE = (
    MadeFont("Liberation Sans"),
    MadeFont("Liberation Sans", "Bold", weight=700, selection=BOLD),
    MadeFont("Liberation Sans", "Italic", selection=ITALIC),
    MadeFont("Liberation Sans", "Bold Italic", weight=700, selection=BOLD | ITALIC),
    MadeFont("Nimbus Sans"),
    MadeFont("Tinos"),
    MadeFont("Nimbus Roman"),
    MadeFont("Cousine"),
    MadeFont("Nimbus Mono PS"),
    MadeFont("Nimbus Mono PS", "Bold", weight=700, selection=BOLD),
    MadeFont("Demi", "Demi", weight=600, selection=0),
    MadeFont("Plain"),
    MadeFont("Plain", "Bold", weight=700, selection=BOLD),
    MadeFont("Slanted", "Italic", selection=ITALIC),
    MadeFont("MS Gothic", localised={0x411: MS_GOTHIC}),
    MadeFont("Standard Symbols PS"),
    MadeFont("Greek", characters={0x391: A}),
    MadeFont("Small", characters={0x392: A}, units_per_em=2000),
    MadeFont("Curly", characters={0x393: A}, is_postscript=True),
    MadeFont("Empty", characters={0x395: SPACE}),
    MadeFont("Restricted", permission=0x0002),
    MadeFont("Bitmaps", permission=0x0200),
    MadeFont("Preview", permission=0x0104),
    MadeFont("Editable", permission=0x0008),
    MadeFont("Either", permission=0x0006),
)


class MadeFamilies(unittest.TestCase):
    """Tests that choose among the made fonts."""

    catalogue: Catalogue
    _temporary: tempfile.TemporaryDirectory[str]

    @classmethod
    def setUpClass(cls) -> None:
        cls._temporary = tempfile.TemporaryDirectory()
        folder = Path(cls._temporary.name)
        for number, made in enumerate(MADE):
            write_font(folder, f"font{number:02}.otf", made)
        cls.catalogue = Catalogue.of_folders([folder])

    @classmethod
    def tearDownClass(cls) -> None:
        cls._temporary.cleanup()


class Choices(MadeFamilies):
    """Which font a face gets."""

    def choose(self, request: LogicalFont, rules: FontRules = FontRules()) -> tuple[str, str, Choice, bool]:
        """Family and style of the font, how it was chosen, and whether it is slanted."""
        chosen = FontChooser(self.catalogue, rules).choose(request)
        return chosen.font.file.family, chosen.font.file.style, chosen.choice, chosen.made_slant

    def assert_missing(self, request: LogicalFont, text: str, rules: FontRules = FontRules()) -> None:
        """The face is rejected with this fault."""
        with self.assertRaises(Fault) as caught:
            FontChooser(self.catalogue, rules).choose(request)
        self.assertEqual(str(caught.exception), text)

    def test_by_family_in_any_case(self) -> None:
        expected = ("Nimbus Sans", "Regular", Choice.FAMILY, False)
        self.assertEqual(self.choose(face("Nimbus Sans")), expected)
        self.assertEqual(self.choose(face("nimbus SANS")), expected)

    def test_by_a_name_in_another_language(self) -> None:
        self.assertEqual(self.choose(face(MS_GOTHIC)), ("MS Gothic", "Regular", Choice.FAMILY, False))

    def test_by_a_full_name(self) -> None:
        self.assertEqual(self.choose(face("Liberation Sans Bold"))[1], "Bold")

    def test_styles(self) -> None:
        for weight, italic, style in ((0, False, "Regular"), (550, False, "Regular"), (551, False, "Bold")):
            self.assertEqual(self.choose(face("Liberation Sans", weight=weight, italic=italic))[1], style)
        slanted = ("Liberation Sans", "Italic", Choice.FAMILY, False)
        self.assertEqual(self.choose(face("Liberation Sans", italic=True)), slanted)
        self.assertEqual(self.choose(face("Liberation Sans", weight=700, italic=True))[1], "Bold Italic")

    def test_a_heavy_font_is_a_bold_one(self) -> None:
        self.assertEqual(self.choose(face("Demi", weight=700))[1], "Demi")

    def test_a_family_of_one_style_serves_lighter_and_upright_faces(self) -> None:
        self.assertEqual(self.choose(face("Demi")), ("Demi", "Demi", Choice.FAMILY, False))
        self.assertEqual(self.choose(face("Slanted")), ("Slanted", "Italic", Choice.FAMILY, False))

    def test_a_missing_bold_is_rejected(self) -> None:
        self.assert_missing(face("Greek", weight=700), "MissingBold (Greek)")
        self.assert_missing(face("Greek", weight=551, italic=True), "MissingBold (Greek)")
        self.assert_missing(face("Greek", weight=700), "MissingBold (Greek)", FontRules(instead="Plain"))

    def test_a_missing_bold_of_a_family_with_equal_widths(self) -> None:
        """Nimbus Sans has no bold, but Liberation Sans has; Tinos and Nimbus Roman both have none."""
        for italic, style in ((False, "Bold"), (True, "Bold Italic")):
            found = self.choose(face("Nimbus Sans", weight=700, italic=italic))
            self.assertEqual(found, ("Liberation Sans", style, Choice.TABLE, False))
        self.assertEqual(self.choose(face("Nimbus Sans", weight=550))[:2], ("Nimbus Sans", "Regular"))
        for name in ("Tinos", "Times", "Nimbus Roman"):
            self.assert_missing(face(name, weight=700), f"MissingBold ({name})", FontRules(instead="Plain"))
        self.assertEqual(self.choose(face("Courier", weight=700))[:3], ("Nimbus Mono PS", "Bold", Choice.TABLE))
        self.assertEqual(self.choose(face("Courier"))[:3], ("Cousine", "Regular", Choice.TABLE))
        self.assertEqual(self.choose(face("Arimo"))[:3], ("Liberation Sans", "Regular", Choice.TABLE))

    def test_bold_by_another_rule(self) -> None:
        """A map, and --instead, must lead to a family with a bold one too."""
        bold = face("Verdana", weight=700)
        for rules in (FontRules(maps={"Verdana": "Plain"}), FontRules(instead="Plain")):
            self.assertEqual(self.choose(bold, rules)[:2], ("Plain", "Bold"))
        for rules in (FontRules(maps={"Verdana": "Greek"}), FontRules(instead="Greek")):
            self.assert_missing(bold, "MissingBold (Verdana)", rules)

    def test_a_missing_slant_is_made(self) -> None:
        self.assertEqual(self.choose(face("Plain", italic=True)), ("Plain", "Regular", Choice.FAMILY, True))
        self.assertEqual(self.choose(face("Plain", weight=700, italic=True)), ("Plain", "Bold", Choice.FAMILY, True))

    def test_by_the_table(self) -> None:
        self.assertEqual(self.choose(face("Arial"))[:3], ("Liberation Sans", "Regular", Choice.TABLE))
        self.assertEqual(self.choose(face("Arial CE", charset=238))[:3], ("Liberation Sans", "Regular", Choice.TABLE))
        self.assertEqual(self.choose(face("Symbol", charset=2))[:3], ("Standard Symbols PS", "Regular", Choice.TABLE))

    def test_the_table_has_no_letters_for_symbols(self) -> None:
        self.assert_missing(face("Arial", charset=2), "MissingFont (Arial)")

    def test_by_a_map(self) -> None:
        rules = FontRules(maps={"Verdana": "Plain", "ARIAL": "Demi"})
        self.assertEqual(self.choose(face("verdana"), rules)[:3], ("Plain", "Regular", Choice.MAP))
        self.assertEqual(self.choose(face("Arial"), rules)[:3], ("Demi", "Demi", Choice.MAP))
        self.assert_missing(face("X"), "MissingFont (X)", FontRules(maps={"X": "Nowhere"}, instead="Plain"))

    def test_a_map_may_serve_symbols(self) -> None:
        rules = FontRules(maps={"Wingdings": "Plain"})
        self.assertEqual(self.choose(face("Wingdings", charset=2), rules)[2], Choice.MAP)

    def test_instead(self) -> None:
        rules = FontRules(instead="Plain")
        self.assertEqual(self.choose(face("Verdana"), rules)[:3], ("Plain", "Regular", Choice.INSTEAD))
        self.assertEqual(self.choose(face(""), rules)[:3], ("Plain", "Regular", Choice.INSTEAD))
        self.assertEqual(self.choose(face("Arial"), rules)[2], Choice.TABLE)

    def test_nothing_stands_in_for_symbols(self) -> None:
        rules = FontRules(instead="Plain", fallbacks=("Greek",))
        self.assert_missing(face("Wingdings", charset=2), "MissingFont (Wingdings)", rules)
        self.assert_missing(face("Wingdings", charset=0), "MissingFont (Wingdings)", rules)
        self.assert_missing(face("Unknown", charset=2), "MissingFont (Unknown)", rules)
        self.assertEqual(list(FontChooser(self.catalogue, rules).fallbacks(face("Symbol"))), [])

    def test_vertical_faces(self) -> None:
        rules = FontRules(instead="Plain")
        self.assert_missing(face("@MS Gothic"), "VerticalFace (@MS Gothic)", rules)
        self.assert_missing(face("@Nowhere"), "VerticalFace (@Nowhere)", FontRules(maps={"@Nowhere": "Plain"}))

    def test_no_face(self) -> None:
        self.assert_missing(face(""), "MissingFont (no face is named)")

    def test_permissions(self) -> None:
        for family in ("Restricted", "Bitmaps"):
            self.assert_missing(face(family), f"EmbeddingNotAllowed ({family})", FontRules(instead="Plain"))
            mapped = FontRules(maps={"Verdana": family})
            self.assert_missing(face("Verdana"), f"EmbeddingNotAllowed ({family}, for Verdana)", mapped)
        for family in ("Preview", "Editable", "Either"):
            self.assertEqual(self.choose(face(family))[0], family)


class Fallbacks(MadeFamilies):
    """Glyphs that a font hasn't, and made slants, as outlines."""

    def lay(self, text: str, fallbacks: Iterable[str]) -> tuple[list[tuple[float, ...]], tuple[str, ...]]:
        """The boxes of a text's glyphs, and the families that stood in."""
        layer = FontLayer(FontChooser(self.catalogue, FontRules(fallbacks=tuple(fallbacks))), TOLERANCE)
        laid = lay(layer, Case().of(text).with_font(face="Plain"))
        return [tuple(map(float, found)) for found in boxes(laid.glyphs)], laid.note.fallbacks

    def test_first_family_that_has_the_glyph(self) -> None:
        found = self.lay("A\u0391", ("Nowhere", "Nimbus Sans", "Greek"))
        self.assertEqual(found, ([(100, 150, 150, 200), (160, 150, 210, 200)], ("Greek",)))

    def test_an_em_of_other_units(self) -> None:
        """The em is as large, so that its 500 of 2,000 units are 25, and its advance of 600 is 30."""
        found = self.lay("\u0392A", ("Small",))
        self.assertEqual(found, ([(100, 175, 125, 200), (130, 150, 180, 200)], ("Small",)))

    def test_position_after_an_em_of_other_units(self) -> None:
        """The advance of 600 of 2,000 units is 30, and that of 600 of 1,000 is 60."""
        layer = FontLayer(FontChooser(self.catalogue, FontRules(fallbacks=("Small",))), TOLERANCE)
        case = Case().of("\u0392A").with_font(face="Plain").with_settings(align=BASELINE | UPDATE_POSITION)
        self.assertEqual(lay(layer, case).position, (190, 200))

    def test_a_fallback_without_an_outline(self) -> None:
        """A letter of bitmaps, or without any picture, can't stand in."""
        with self.assertRaises(Fault) as caught:
            self.lay("\u0395", ("Empty",))
        self.assertEqual(str(caught.exception), "MissingGlyph (U+0395 in Plain has no outline)")

    def test_fallbacks_are_opened_in_turn(self) -> None:
        """A font that isn't needed may be one that can't be used."""
        self.assertEqual(self.lay("\u0391", ("Greek", "Restricted"))[1], ("Greek",))
        with self.assertRaises(Fault) as caught:
            self.lay("\u0391", ("Restricted", "Greek"))
        self.assertEqual(str(caught.exception), "EmbeddingNotAllowed (Restricted, for Plain)")

    def test_fallbacks_without_a_bold_are_passed_over(self) -> None:
        chooser = FontChooser(self.catalogue, FontRules(fallbacks=("Greek", "Liberation Sans", "Small")))
        found = [source.font.file.family for source in chooser.fallbacks(face("Plain", weight=700))]
        self.assertEqual(found, ["Liberation Sans"])

    def test_no_family_has_it(self) -> None:
        with self.assertRaises(Fault) as caught:
            self.lay("\u0394", ("Greek", "Small"))
        self.assertEqual(str(caught.exception), "MissingGlyph (U+0394 in Plain)")

    def test_outlines_of_postscript_run_like_those_of_truetype(self) -> None:
        """The same square has the same points, apart from where it begins, and the same direction."""
        layer = FontLayer(FontChooser(self.catalogue, FontRules(fallbacks=("Curly",))), TOLERANCE)
        case = Case().with_font(face="Plain")
        first, second = lay(layer, case.of("A")).glyphs[0], lay(layer, case.of("\u0393")).glyphs[0]
        start = second.index(first[0])
        self.assertEqual(second[start:] + second[:start], first)

    def test_a_made_slant(self) -> None:
        """x moves by a quarter of y: by 12.5 units at the top, 50 above the baseline, whatever the width is."""
        layer = FontLayer(FontChooser(self.catalogue, FontRules()), TOLERANCE)
        laid = lay(layer, Case().with_font(face="Plain", italic=True))
        self.assertEqual(units(laid.glyphs[0]), [(100, 200), (112.5, 150), (162.5, 150), (150, 200)])
        narrow = lay(layer, Case().with_font(face="Plain", italic=True, width=25))
        self.assertEqual(units(narrow.glyphs[0]), [(100, 200), (112.5, 150), (137.5, 150), (125, 200)])
        advanced = Case().with_record(graphics_mode=ADVANCED).with_font(face="Plain", italic=True, width=25)
        self.assertEqual(lay(layer, advanced).glyphs, narrow.glyphs)
        down = Case().with_font(face="Plain", italic=True, escapement=2700)
        self.assertEqual(units(lay(layer, down).glyphs[0]), [(100, 200), (150, 212.5), (150, 262.5), (100, 250)])
        self.assertTrue(laid.note.made_slant)

    def test_a_made_slant_of_a_fallback(self) -> None:
        """The family has an italic, but the one that stands in for a glyph hasn't."""
        layer = FontLayer(FontChooser(self.catalogue, FontRules(fallbacks=("Greek",))), TOLERANCE)
        case = Case().with_font(face="Liberation Sans", italic=True)
        for text, is_slanted in (("A", False), ("A\u0391", True)):
            self.assertEqual(lay(layer, case.of(text)).note.made_slant, is_slanted)


def face(name: str, weight: int = 400, italic: bool = False, charset: int = 0) -> LogicalFont:
    """A font as a record asks for it."""
    return replace(FONT, face=name, weight=weight, italic=italic, charset=charset)


if __name__ == "__main__":
    unittest.main()
