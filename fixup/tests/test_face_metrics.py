"""Metrics of Arial and others, where other families stand in for them."""

from __future__ import annotations

import unittest
from dataclasses import replace
from pathlib import Path

from metaplay_fixup.catalogue import Catalogue
from metaplay_fixup.choice import FontChooser, FontRules
from metaplay_fixup.face_metrics import metrics_of_face
from metaplay_fixup.families import equal_families, substituted
from metaplay_fixup.fonts import FontMetrics

from .made_folder import MadeFolder
from .made_fonts import A, MadeFont, Square
from .texts import FONT, Case, boxes, lay

FONTS = Path("/usr/share/fonts")
LIBERATION = FONTS / "truetype/liberation"
URW = FONTS / "opentype/urw-base35"


class Metrics(unittest.TestCase):
    """Debian's fonts of equal advances."""

    def metrics(self, face: str, folder: Path, width: int = 10, weight: int = 400) -> FontMetrics:
        """The metrics of a face, for which a font of the folder stands in."""
        request = replace(FONT, face=face, width=width, weight=weight)
        chosen = FontChooser(Catalogue.of_folders([folder]), FontRules()).choose(request)
        return metrics_of_face(request, chosen)

    def test_average_widths_are_those_of_windows(self) -> None:
        """Arial has 904, Times New Roman 821, Courier New 1229, where Liberation Sans has 1208 and Serif 1163."""
        found = [self.metrics(face, LIBERATION).average_width for face in ("Arial", "Times New Roman", "Courier New")]
        self.assertEqual(found, [904, 821, 1229])

    def test_a_family_by_its_own_name_keeps_its_average_width(self) -> None:
        self.assertEqual(self.metrics("Liberation Sans", LIBERATION).average_width, 1208)

    def test_cells_of_liberation_are_those_of_windows(self) -> None:
        """These families were made for that."""
        for face, family in (("Arial", "Sans"), ("Times New Roman", "Serif"), ("Courier New", "Mono")):
            own, found = self.metrics(f"Liberation {family}", LIBERATION), self.metrics(face, LIBERATION)
            self.assertEqual((found.ascent, found.descent), (own.ascent, own.descent))

    def test_cells_of_nimbus(self) -> None:
        """1854 and 434 of 2,048 are 905.3 and 211.9 of 1,000, where Nimbus Sans has 1075 and 299."""
        found = self.metrics("Arial", URW)
        self.assertEqual((found.ascent, found.descent, found.average_width), (905, 212, 441))
        own = self.metrics("Nimbus Sans", URW)
        self.assertEqual((own.ascent, own.descent), (1075, 299))

    def test_substitutes_of_windows(self) -> None:
        self.assertEqual(
            [substituted(face) for face in ("helvetica", "times", "arial cyr")], ["arial", "times new roman", "arial"]
        )
        self.assertEqual(
            [substituted(face) for face in ("arial", "calibri", "calibri ce")], ["arial", "calibri", "calibri ce"]
        )
        scripts = [f"{face} {script}" for face in ("courier new", "times new roman") for script in ("ce", "tur")]
        self.assertEqual([substituted(face) for face in scripts], ["courier new"] * 2 + ["times new roman"] * 2)
        self.assertEqual(equal_families("times")[:2], ("times new roman", "liberation serif"))
        self.assertEqual((equal_families("calibri"), equal_families("verdana")), (("carlito",), ()))


class OwnFonts(MadeFolder):
    """A made font that has the name Arial itself."""

    made = (MadeFont("Arial"),)

    def test_metrics_are_its_own(self) -> None:
        """An average of 500 units and an ascent of 900."""
        case = Case().with_font(face="Arial", width=25).with_settings(align=0)
        self.assertEqual(boxes(lay(self.layer, case).glyphs), [(100, 240, 125, 290)])


class Widths(MadeFolder):
    """A made font of the name Liberation Sans, whose small letters and space have an advance of 250 units."""

    made = (
        MadeFont(
            "Liberation Sans",
            characters={ord(c): Square(0, 0, 100, 250) for c in "abcdefghijklmnopqrstuvwxyz "} | {0x41: A},
        ),
    )

    def test_width_of_a_named_face(self) -> None:
        """25 page units for 250 font units, so that 500 units are 50; by the font's own average of 500 they are 25."""
        case = Case().with_font(face="Arial", width=25)
        self.assertEqual(boxes(lay(self.layer, case).glyphs), [(100, 150, 150, 200)])
        case = Case().with_font(face="Liberation Sans", width=25)
        self.assertEqual(boxes(lay(self.layer, case).glyphs), [(100, 150, 125, 200)])

    def test_top_of_a_named_face(self) -> None:
        """Arial's ascent of 905 units is 90.5, that of the font 90. Windows takes Arial for some other faces too."""
        case = Case().with_settings(align=0)
        for face in ("Arial", "HELVETICA", "Arial CE"):
            self.assertEqual(boxes(lay(self.layer, case.with_font(face=face)).glyphs), [(100, 240.5, 150, 290.5)])
        self.assertEqual(boxes(lay(self.layer, case.with_font(face="Liberation Sans")).glyphs), [(100, 240, 150, 290)])


if __name__ == "__main__":
    unittest.main()
