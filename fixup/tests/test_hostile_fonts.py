"""Fonts that are damaged or mean harm end by themselves, with a named fault."""

from __future__ import annotations

import random
import tempfile
import time
import unittest
from pathlib import Path

from metaplay_fixup.catalogue import Catalogue
from metaplay_fixup.choice import FontChooser, FontRules
from metaplay_fixup.composites import MOST_PARTS
from metaplay_fixup.faults import Fault, FaultName
from metaplay_fixup.fonts import MOST_POINTS, Font
from metaplay_fixup.layer import FontLayer

from .hostile_fonts import composite_bomb, parts_font, point_bomb, subroutine_bomb
from .made_fonts import A, B, MadeFont, write_font
from .texts import TOLERANCE, Case, lay

LIBERATION = Path("/usr/share/fonts/truetype/liberation/LiberationSans-Regular.ttf")
NIMBUS = Path("/usr/share/fonts/opentype/urw-base35/NimbusSans-Regular.otf")
LONGEST_SECONDS = 10
MUTANTS = 150
EXPECTED = {FaultName.BadFont, FaultName.MissingFont, FaultName.MissingGlyph, FaultName.EmbeddingNotAllowed}


class Hostile(unittest.TestCase):
    """Each test has an empty folder for its font."""

    folder: Path
    _temporary: tempfile.TemporaryDirectory[str]

    def setUp(self) -> None:
        self._temporary = tempfile.TemporaryDirectory()
        self.folder = Path(self._temporary.name)
        self.start = time.process_time()

    def tearDown(self) -> None:
        self._temporary.cleanup()
        self.assertLess(time.process_time() - self.start, LONGEST_SECONDS)

    def fault(self, text: str, face: str = "Squares") -> Fault | None:
        """The fault that a text in the folder's font is rejected with."""
        layer = FontLayer(FontChooser(Catalogue.of_folders([self.folder]), FontRules()), TOLERANCE)
        try:
            lay(layer, Case().of(text).with_font(face=face))
        except Fault as fault:
            return fault
        return None


class Bombs(Hostile):
    """Small fonts whose glyphs have no end."""

    def assert_bad_font(self, text: str, detail: str) -> None:
        """The text is rejected with BadFont."""
        fault = self.fault(text)
        self.assertIsNotNone(fault)
        self.assertEqual(str(fault), f"BadFont ({detail})")

    def test_composites(self) -> None:
        """Glyph 32 has 2^31 squares; glyph 9 has 2^8, and 511 parts."""
        composite_bomb(self.folder / "bomb.ttf", True)
        self.assert_bad_font("\x60", f"bomb.ttf: glyph 32 has more than {MOST_PARTS} parts")
        self.assertIsNone(self.fault("\x49"))

    def test_number_of_parts(self) -> None:
        """Two parts of 499 parts each are 1,000; of 500 they are 1,002."""
        parts_font(self.folder / "bomb.ttf", 499)
        self.assertIsNone(self.fault("A"))
        parts_font(self.folder / "bomb.ttf", 500)
        self.assert_bad_font("A", f"bomb.ttf: glyph 1 has more than {MOST_PARTS} parts")
        parts_font(self.folder / "bomb.ttf", 1001)
        self.assert_bad_font("B", f"bomb.ttf: glyph 2 has more than {MOST_PARTS} parts")

    def test_composites_without_points(self) -> None:
        composite_bomb(self.folder / "bomb.ttf", False)
        self.assert_bad_font("\x60", f"bomb.ttf: glyph 32 has more than {MOST_PARTS} parts")

    def test_points(self) -> None:
        """A glyph of 4,001 contours has 20,005 points, one of 4,000 has as many as it may."""
        point_bomb(self.folder / "bomb.ttf", 4001)
        self.assert_bad_font("A", f"bomb.ttf: glyph 1 has more than {MOST_POINTS} points")
        point_bomb(self.folder / "bomb.ttf", 4000)
        self.assertIsNone(self.fault("A"))

    def test_points_of_a_text(self) -> None:
        """52 letters of 20,000 points have 1,040,000, one more has more than 1,048,576."""
        point_bomb(self.folder / "bomb.ttf", 4000)
        self.assertIsNone(self.fault("A" * 52))
        self.assertEqual(str(self.fault("A" * 53)), "TooManyEdges (a text has more than 1048576 points)")

    def test_subroutines(self) -> None:
        subroutine_bomb(self.folder / "bomb.otf")
        self.assert_bad_font("A", "bomb.otf: glyph 1 can't be read")


class Damaged(Hostile):
    """Fonts that are cut, or have changed bytes."""

    def assert_named(self, data: bytes, ending: str, face: str) -> None:
        """A text in the damaged font is laid out, or rejected with one of the faults of fonts."""
        (self.folder / f"font{ending}").write_bytes(data)
        fault = self.fault("Affe 12", face)
        self.assertIn(fault.name if fault else FaultName.BadFont, EXPECTED)

    def test_cut_fonts(self) -> None:
        for path, face in ((LIBERATION, "Liberation Sans"), (NIMBUS, "Nimbus Sans")):
            data = path.read_bytes()
            for sixteenth in range(16):
                self.assert_named(data[: len(data) * sixteenth // 16], path.suffix, face)

    def test_a_font_that_is_cut_after_its_names_were_read(self) -> None:
        path = write_font(self.folder, "font.ttf", MadeFont())
        file = Catalogue.of_folders([self.folder]).named("Squares")[0]
        path.write_bytes(path.read_bytes()[:100])
        with self.assertRaises(Fault) as caught:
            Font(file)
        self.assertEqual(str(caught.exception), "BadFont (font.ttf: it can't be opened)")
        path.unlink()
        with self.assertRaises(Fault) as caught:
            Font(file)
        self.assertEqual(str(caught.exception), "BadFont (font.ttf: it can't be read)")

    def test_mutants_of_real_fonts(self) -> None:
        for path, face in ((LIBERATION, "Liberation Sans"), (NIMBUS, "Nimbus Sans")):
            self.assert_mutants_named(path.read_bytes(), path.suffix, face)

    def test_mutants_of_made_fonts(self) -> None:
        for is_postscript, ending in ((False, ".ttf"), (True, ".otf")):
            made = MadeFont(characters={ord(letter): A for letter in "Aef 12"} | {0x42: B}, is_postscript=is_postscript)
            path = write_font(self.folder, f"font{ending}", made)
            self.assert_mutants_named(path.read_bytes(), ending, "Squares")
            path.unlink()

    def assert_mutants_named(self, data: bytes, ending: str, face: str) -> None:
        """Changes up to eight bytes of the first 4,096 or of all, always in the same way."""
        source = random.Random(1)
        for number in range(MUTANTS):
            mutant = bytearray(data)
            reach = min(len(data), 4096) if number % 2 else len(data)
            for _ in range(source.randint(1, 8)):
                mutant[source.randrange(reach)] = source.randrange(256)
            self.assert_named(bytes(mutant), ending, face)

    def test_folders_without_fonts(self) -> None:
        (self.folder / "notes.ttf").write_text("no font")
        (self.folder / "folder.ttf").mkdir()
        (self.folder / "link.ttf").symlink_to(self.folder / "nowhere")
        fault = self.fault("A")
        self.assertEqual(str(fault), "MissingFont (Squares)")


if __name__ == "__main__":
    unittest.main()
