"""The fonts of folders by their names."""

from __future__ import annotations

import os
import tempfile
import unittest
from pathlib import Path

from fontTools.ttLib import TTCollection, TTFont  # type: ignore[import]

from metaplay_fixup.catalogue import Catalogue
from metaplay_fixup.fonts import Font

from .made_fonts import MadeFont, write_font


class Folders(unittest.TestCase):
    """Made fonts in folders."""

    folder: Path
    _temporary: tempfile.TemporaryDirectory[str]

    def setUp(self) -> None:
        self._temporary = tempfile.TemporaryDirectory()
        self.folder = Path(self._temporary.name)

    def tearDown(self) -> None:
        self._temporary.cleanup()

    def write(self, place: str, made: MadeFont) -> Path:
        """Writes a font into a folder below."""
        path = self.folder / place
        path.parent.mkdir(parents=True, exist_ok=True)
        return write_font(path.parent, path.name, made)

    def test_files_are_sorted_by_their_paths(self) -> None:
        for place in ("b/one.ttf", "a/two.ttf", "c.ttf", "a/one.OTF"):
            self.write(place, MadeFont())
        found = Catalogue.of_folders([self.folder]).named("Squares")
        places = [str(file.path.relative_to(self.folder)) for file in found]
        self.assertEqual(places, ["a/one.OTF", "a/two.ttf", "b/one.ttf", "c.ttf"])

    def test_folders_are_taken_in_the_order_given(self) -> None:
        for place in ("a/font.ttf", "b/font.ttf"):
            self.write(place, MadeFont())
        found = Catalogue.of_folders([self.folder / "b", self.folder / "a"]).named("Squares")
        self.assertEqual([file.path.parent.name for file in found], ["b", "a"])

    def test_any_file_name(self) -> None:
        """Names with letters beyond ASCII, and names that aren't UTF-8."""
        data = self.write("font.ttf", MadeFont()).read_bytes()
        (self.folder / "font.ttf").unlink()
        for name in ("Gr\u00f6\u00dfe.ttf".encode(), b"\xff\xfe.ttf"):
            path = Path(os.fsdecode(bytes(self.folder) + b"/" + name))
            path.write_bytes(data)
        found = Catalogue.of_folders([self.folder]).named("Squares")
        self.assertEqual(len(found), 2)
        self.assertEqual([Font(file).metrics.units_per_em for file in found], [1000, 1000])
        self.assertEqual([file.label for file in found], ["Gr\u00f6\u00dfe.ttf", "??.ttf"])

    def test_other_files_are_no_fonts(self) -> None:
        self.write("font.ttf", MadeFont()).rename(self.folder / "font.txt")
        self.assertEqual(Catalogue.of_folders([self.folder]).named("Squares"), ())
        self.assertEqual(Catalogue.of_folders([self.folder / "nowhere"]).named("Squares"), ())

    def test_names_in_every_language(self) -> None:
        """Japanese and German; the English name is the one that is reported."""
        made = MadeFont(
            "Squares", localised={0x411: "\u56db\u89d2", 0x407: "Quadrate", 0x401: "\u0645\u0631\u0628\u0639"}
        )
        self.write("font.ttf", made)
        catalogue = Catalogue.of_folders([self.folder])
        for name in ("Squares", "SQUARES", "\u56db\u89d2", "quadrate", "\u0645\u0631\u0628\u0639"):
            self.assertEqual([file.family for file in catalogue.named(name)], ["Squares"], name)
        self.assertEqual(catalogue.named("Square"), ())

    def test_names_of_macintosh(self) -> None:
        path = self.write("font.ttf", MadeFont("Squares"))
        font = TTFont(path)
        font["name"].setName("Carr\u00e9s", 1, 1, 0, 1)
        font.save(path)
        self.assertEqual(len(Catalogue.of_folders([self.folder]).named("CARR\u00c9S")), 1)

    def test_styles(self) -> None:
        self.write("a.ttf", MadeFont("Squares", "Bold Italic", weight=700, selection=0x21))
        self.write("b.ttf", MadeFont("Squares", "Light", weight=300, selection=0))
        self.write("c.ttf", MadeFont("Squares", "Black", weight=900, selection=0))
        found = Catalogue.of_folders([self.folder]).named("Squares")
        styles = [(file.style, file.is_bold, file.is_italic) for file in found]
        self.assertEqual(styles, [("Bold Italic", True, True), ("Light", False, False), ("Black", True, False)])

    def test_styles_in_every_language(self) -> None:
        """The English one is that of the report."""
        path = self.write("a.ttf", MadeFont("Squares", "Bold"))
        font = TTFont(path)
        for language, style in ((0x407, "Fett"), (0x40C, "Gras")):
            font["name"].setName(style, 2, 3, 1, language)
        font.save(path)
        (file,) = Catalogue.of_folders([self.folder]).named("Squares")
        self.assertEqual(file.style, "Bold")

    def test_full_names(self) -> None:
        self.write("a.ttf", MadeFont("Squares", "Light"))
        found = Catalogue.of_folders([self.folder]).named("Squares Light")
        self.assertEqual([file.style for file in found], ["Light"])

    def test_collections(self) -> None:
        paths = [self.write(f"{family}.ttf", MadeFont(family)) for family in ("One", "Two")]
        collection = TTCollection()
        collection.fonts = [TTFont(path) for path in paths]
        collection.save(str(self.folder / "both.ttc"))
        for path in paths:
            path.unlink()
        catalogue = Catalogue.of_folders([self.folder])
        found = [catalogue.named(family)[0] for family in ("One", "Two")]
        self.assertEqual([(file.path.name, file.index) for file in found], [("both.ttc", 0), ("both.ttc", 1)])


if __name__ == "__main__":
    unittest.main()
