"""--out-dir: many files in one call."""

import os
import unittest
from unittest import mock

from metaplay_fixup.catalogue import Catalogue
from metaplay_fixup.child import Limits
from metaplay_fixup.command import Command
from metaplay_fixup.late_catalogue import LateCatalogue

from .command_case import PLAIN, CommandCase, Ran, text_file


class Folder(CommandCase):
    """--out-dir."""

    def setUp(self) -> None:
        super().setUp()
        self.target = self.folder / "target"
        self.target.mkdir()

    def test_files(self) -> None:
        """The others are written even if one is rejected. The status is that of the worst."""
        good = [self.file("a.wmf", PLAIN), self.file("b.emf", text_file("A"))]
        bad, missing = self.file("c.emf", text_file("C")), self.folder / "none"
        words = ("--out-dir", self.target, "--fonts", self.fonts)
        self.assertEqual(self.run_command(*good[:1], bad, *good[1:], *words).status, 1)
        self.assertEqual(sorted(path.name for path in self.target.iterdir()), ["a.wmf", "b.emf"])
        self.assertEqual((self.target / "a.wmf").read_bytes(), PLAIN)
        ran = self.run_command(bad, missing, *good, *words)
        lines = [f"{bad}: MissingGlyph (U+0043 in Squares) at record 4", f"{missing}: cannot read"]
        self.assertEqual(ran, Ran(3, "".join(f"metaplay-fixup: {line}\n" for line in lines)))
        self.assertEqual(self.run_command(*good, *words), Ran(0, ""))

    def test_as_single_files(self) -> None:
        """Each result is that of a call of its own."""
        files = [self.file("a.emf", text_file("A")), self.file("b.emf", text_file("B"))]
        self.assertEqual(self.run_command(*files, "--out-dir", self.target, "--fonts", self.fonts).status, 0)
        for file in files:
            self.assertEqual(self.run_command(file, self.out, "--fonts", self.fonts).status, 0)
            self.assertEqual((self.target / file.name).read_bytes(), self.out.read_bytes())

    def test_fonts_are_read_once(self) -> None:
        """The names of fonts are read before the processes of the files begin."""
        files = [self.file(name, text_file("A")) for name in ("a.emf", "b.emf", "c.emf")]
        reading = "metaplay_fixup.late_catalogue.Catalogue.of_folders"
        with mock.patch(reading, side_effect=Catalogue.of_folders) as reads:
            self.assertEqual(self.run_command(*files, "--out-dir", self.target, "--fonts", self.fonts).status, 0)
        self.assertEqual(reads.call_count, 1)

    def test_hostile_font(self) -> None:
        """A font that takes too long, or crashes FreeType, ends the call before any file is converted."""
        files = [self.file(name, PLAIN) for name in ("a.wmf", "b.wmf")]
        for crash, line in ((os.abort, "Crashed (signal 6)"), (_for_ever, "TimeLimit")):
            reading = "metaplay_fixup.late_catalogue.Catalogue.of_folders"
            with mock.patch(reading, side_effect=lambda _: crash()):
                ran = self.run_command(*files, "--out-dir", self.target, command=Command(limits=Limits(seconds=1)))
            self.assertEqual(ran, Ran(1, f"metaplay-fixup: {line}\n"))
        self.assertEqual(list(self.target.iterdir()), [])

    def test_no_folder(self) -> None:
        target = self.folder / "none"
        ran = self.run_command(self.file("a.wmf", PLAIN), "--out-dir", target)
        self.assertEqual(ran, Ran(3, f"metaplay-fixup: cannot write (the folder {target})\n"))

    def test_report_that_cannot_be_written(self) -> None:
        """A folder, and a file in a folder that isn't there: no file is converted. A device that is full: all are."""
        source = self.file("a.wmf", PLAIN)
        for wrong in (self.fonts, self.folder / "none/report"):
            ran = self.run_command(source, "--out-dir", self.target, "--report", wrong)
            self.assertEqual(ran, Ran(3, "metaplay-fixup: cannot write (the report)\n"))
        self.assertEqual(list(self.target.iterdir()), [])
        ran = self.run_command(source, "--out-dir", self.target, "--report", "/dev/full")
        self.assertEqual(ran, Ran(3, "metaplay-fixup: cannot write\n"))
        self.assertEqual((self.target / "a.wmf").read_bytes(), PLAIN)

    def test_report_is_another_file(self) -> None:
        """The report can't be one of the files, nor one that is written."""
        source = self.file("a.wmf", PLAIN)
        for report in (source, self.target / "a.wmf"):
            ran = self.run_command(source, "--out-dir", self.target, "--report", report)
            self.assertEqual(ran, Ran(2, "metaplay-fixup: the report is FILE or OUT\n"))

    def test_names(self) -> None:
        """Files of one name, a file in the folder itself, and two names in the folder that lead to one file."""
        one, other = self.file("a.wmf", PLAIN), self.file("b.wmf", PLAIN)
        ran = self.run_command(one, self.folder / "fonts/../a.wmf", "--out-dir", self.target)
        self.assertEqual(ran, Ran(2, "metaplay-fixup: two files have the name a.wmf\n"))
        ran = self.run_command(one, "--out-dir", self.folder)
        self.assertEqual(ran, Ran(2, "metaplay-fixup: OUT is FILE\n"))
        os.symlink(other, self.target / "a.wmf")
        self.assertEqual(self.run_command(one, other, "--out-dir", self.target).status, 2)
        os.remove(self.target / "a.wmf")
        os.symlink("b.wmf", self.target / "a.wmf")
        ran = self.run_command(one, other, "--out-dir", self.target)
        self.assertEqual(ran, Ran(2, "metaplay-fixup: two files would be written to one\n"))
        self.assertEqual(other.read_bytes(), PLAIN)


class Late(CommandCase):
    """A catalogue that is read when it is needed."""

    def test_read_once(self) -> None:
        with mock.patch.object(Catalogue, "of_folders", side_effect=Catalogue.of_folders) as reads:
            late = LateCatalogue([self.fonts])
            self.assertEqual(reads.call_count, 0)
            for _ in range(2):
                self.assertEqual([file.path.name for file in late.named("SQUARES")], ["squares.ttf"])
                self.assertEqual(late.named("Nowhere"), ())
        self.assertEqual(reads.call_count, 1)


def _for_ever() -> None:
    while True:
        pass


if __name__ == "__main__":
    unittest.main()
