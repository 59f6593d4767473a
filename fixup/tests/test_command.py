"""Runs of the command: statuses, lines on standard error, and what becomes of OUT."""

import os
import sys
import tempfile
import unittest
from pathlib import Path
from unittest import mock

from metaplay_fixup.child import Limits
from metaplay_fixup.command import Command
from metaplay_fixup.convert import Converted, convert
from metaplay_fixup.options import Options

from .command_case import OLD, PLAIN, CommandCase, Ran, text_file
from .oracle import emf_file, emf_record, i32, refusal_of
from .parts import places_of

NOBODY = 65534


class Done(CommandCase):
    """Status 0."""

    def test_text(self) -> None:
        """The result plays, has its text replaced, and is the same again without fonts."""
        data = text_file("A")
        source = self.file("a.emf", data)
        self.assertEqual(self.run_command(source, self.out, "--fonts", self.fonts), Ran(0, ""))
        result = self.out.read_bytes()
        self.assertIsNone(refusal_of(result))
        self.assertEqual([(place.first, place.count) for place in places_of(data, result)], [(4, 1)])
        self.assertEqual(convert(result, Options(), None), Converted(result, ()))

    def test_nothing_to_do(self) -> None:
        """What needs nothing comes out byte for byte, and needs no fonts."""
        self.assertEqual(self.run_command(self.file("a.wmf", PLAIN), self.out), Ran(0, ""))
        self.assertEqual(self.out.read_bytes(), PLAIN)

    def test_no_font_is_opened_without_text(self) -> None:
        """A font that would be a fault isn't even looked at."""
        source = self.file("a.wmf", PLAIN)
        with mock.patch("metaplay_fixup.late_catalogue.Catalogue.of_folders", side_effect=AssertionError):
            self.assertEqual(self.run_command(source, self.out, "--fonts", self.fonts), Ran(0, ""))

    def test_open_files(self) -> None:
        """No file stays open, whatever a run ends with."""
        good, bad = self.file("a.wmf", PLAIN), self.file("b.emf", text_file("C"))
        before = os.listdir("/proc/self/fd")
        for source in (good, bad, self.folder / "none"):
            for target in (self.out, self.fonts, Path(os.devnull)):
                self.run_command(source, target, "--report", self.folder / "report")
        self.assertEqual(os.listdir("/proc/self/fd"), before)

    def test_standard_input(self) -> None:
        with open(self.file("a.wmf", PLAIN), encoding="latin-1") as stream, mock.patch.object(sys, "stdin", stream):
            self.assertEqual(self.run_command("stdin", self.out), Ran(0, ""))
        self.assertEqual(self.out.read_bytes(), PLAIN)

    def test_rules_reach_the_conversion(self) -> None:
        """--map, --instead, --text-only and --drop-emf-plus."""
        text = self.file("a.emf", text_file("A", "Nowhere"))
        for rule in ("--map=nowhere=Squares", "--instead=Squares"):
            self.out.write_bytes(OLD)
            self.assertEqual(self.run_command(text, self.out, "--fonts", self.fonts, rule), Ran(0, ""))
            self.assertNotEqual(self.out.read_bytes(), OLD)
        ellipse = emf_file([emf_record(42, i32(1, 1, 90, 90))])
        curve = self.file("b.emf", ellipse)
        self.assertEqual(self.run_command(curve, self.out, "--text-only"), Ran(0, ""))
        self.assertEqual(self.out.read_bytes(), ellipse)
        self.assertEqual(self.run_command(curve, self.out), Ran(0, ""))
        fine = self.out.read_bytes()
        self.assertEqual(self.run_command(curve, self.out, "--bound", "64"), Ran(0, ""))
        self.assertLess(len(self.out.read_bytes()), len(fine))


class Rejected(CommandCase):
    """Status 1: the fault, the face or the character, and the record."""

    def assert_rejected(self, data: bytes, line: str, *words: str) -> None:
        """The file is rejected with this line, and OUT is untouched."""
        source = self.file("a.emf", data)
        ran = self.run_command(source, self.out, *words, "--fonts", self.fonts)
        self.assertEqual(ran, Ran(1, f"metaplay-fixup: {line}\n"))
        self.assert_untouched("a.emf")

    def test_faults(self) -> None:
        self.assert_rejected(text_file("A", "Nowhere"), "MissingFont (Nowhere) at record 4")
        self.assert_rejected(text_file("A", "@Square"), "VerticalFace (@Square) at record 4")
        self.assert_rejected(text_file("C"), "MissingGlyph (U+0043 in Squares) at record 4")
        self.assert_rejected(b"x" * 100, "NotMetafile")
        self.assert_rejected(b"", "NotMetafile")
        self.assert_rejected(PLAIN[:-6], "NoEnd at record 1")

    def test_hostile_face(self) -> None:
        """A face can't send commands to a terminal, and its half surrogate doesn't hinder the line."""
        face = "\x1b[31m\ud800A".encode("utf-16-le", "surrogatepass")
        data = text_file("A", "1234567").replace("1234567".encode("utf-16-le"), face)
        self.assert_rejected(data, "MissingFont (\\x1b[31m\ufffdA) at record 4")

    def test_report_of_a_rejected_file(self) -> None:
        """The report isn't touched either."""
        report = self.file("report", OLD)
        self.assert_untouched("report")
        source = self.file("a.emf", text_file("C"))
        self.assertEqual(self.run_command(source, self.out, "--fonts", self.fonts, "--report", report).status, 1)
        self.assertEqual(report.read_bytes(), OLD)


class WrongUsage(CommandCase):
    """Status 2."""

    def test_words(self) -> None:
        ran = self.run_command("a")
        self.assertEqual(ran.status, 2)
        self.assertTrue(ran.error.startswith("metaplay-fixup: FILE and OUT are needed\nusage: metaplay-fixup FILE OUT"))

    def test_help(self) -> None:
        """As with `metaplay`, help has the status 2."""
        self.assertEqual(self.run_command("--help"), Ran(2, ""))

    def test_out_is_file(self) -> None:
        """By the same name, another spelling, a link, and a second name of the file."""
        os.symlink("out.emf", self.folder / "link")
        os.link(self.out, self.folder / "second")
        for name in ("out.emf", "./out.emf", "fonts/../out.emf", "link", "second"):
            other = f"{self.folder}/{name}"
            for one, two in ((str(self.out), other), (other, str(self.out))):
                self.assertEqual(self.run_command(one, two), Ran(2, "metaplay-fixup: OUT is FILE\n"))
        self.assert_untouched("link", "second")

    def test_out_is_a_missing_file(self) -> None:
        name = self.folder / "none"
        self.assertEqual(self.run_command(name, self.folder / "fonts/../none").status, 2)

    def test_report_is_another_file(self) -> None:
        source = self.file("a.wmf", PLAIN)
        for report in (source, self.out):
            ran = self.run_command(source, self.out, "--report", report)
            self.assertEqual(ran, Ran(2, "metaplay-fixup: the report is FILE or OUT\n"))
        self.assert_untouched("a.wmf")


class Failed(CommandCase):
    """Status 3."""

    def test_no_file(self) -> None:
        for name in ("none", "fonts"):
            ran = self.run_command(self.folder / name, self.out)
            self.assertEqual(ran, Ran(3, "metaplay-fixup: cannot read\n"))
        self.assert_untouched()

    def test_longest_input(self) -> None:
        """268,435,456 bytes are read, and are too many for a metafile; one more can't be read."""
        source = self.file("a.wmf", PLAIN)
        for size, ran in ((1 << 28, Ran(1, "metaplay-fixup: TooLong\n")), ((1 << 28) + 1, None)):
            os.truncate(source, size)
            self.assertEqual(self.run_command(source, self.out), ran or Ran(3, "metaplay-fixup: cannot read\n"))
        self.assert_untouched("a.wmf")

    def test_no_folder_of_fonts(self) -> None:
        source = self.file("a.wmf", PLAIN)
        for folder in (self.folder / "none", source):
            ran = self.run_command(source, self.out, "--fonts", folder)
            self.assertEqual(ran, Ran(3, f"metaplay-fixup: cannot read (the folder {folder})\n"))
        self.assert_untouched("a.wmf")

    def test_out_that_cannot_be_written(self) -> None:
        """A folder, and a file in a folder that isn't there. The report is untouched then, and the other way round."""
        source, report = self.file("a.wmf", PLAIN), self.file("report", OLD)
        for wrong in (self.fonts, self.folder / "none/out", self.folder / "a.wmf/out"):
            ran = self.run_command(source, wrong, "--report", report)
            self.assertEqual(ran, Ran(3, "metaplay-fixup: cannot write\n"))
            self.assertEqual(report.read_bytes(), OLD)
            ran = self.run_command(source, self.out, "--report", wrong)
            self.assertEqual(ran, Ran(3, "metaplay-fixup: cannot write\n"))
            self.assert_untouched("a.wmf", "report")

    @unittest.skipIf(os.geteuid(), "only root can become somebody else")
    def test_folders_of_somebody_else(self) -> None:
        """In an unwritable folder OUT stays, even if it could be written itself. A folder of fonts must be readable."""
        source = self.file("a.wmf", PLAIN)
        self.folder.chmod(0o755)
        self.out.chmod(0o666)
        self.fonts.chmod(0o700)
        lines = ["cannot write", f"cannot read (the folder {self.fonts})"]
        for line, *words in (lines[:1], [lines[1], "--fonts", str(self.fonts)]):
            self.assertEqual(self.run_as_nobody(source, self.out, *words), Ran(3, f"metaplay-fixup: {line}\n"))
            self.assert_untouched("a.wmf")

    def run_as_nobody(self, *words: str | Path) -> Ran:
        """Runs the command in a process that isn't root's."""
        with tempfile.TemporaryFile() as error:
            child = os.fork()
            if child == 0:
                os.setuid(NOBODY)
                ran = self.run_command(*words)
                os.write(error.fileno(), ran.error.encode())
                os._exit(ran.status)
            status = os.waitstatus_to_exitcode(os.waitpid(child, 0)[1])
            return Ran(status, os.pread(error.fileno(), 1000, 0).decode())


class Limited(CommandCase):
    """A file that takes too much ends by itself, by name."""

    def test_time(self) -> None:
        """A bomb of 200,000 large ellipses, of which each becomes some 1,000 chords."""
        data = emf_file([emf_record(42, i32(1, 1, 8000, 8000))] * 200_000, 8192, 8192)
        command = Command(limits=Limits(seconds=1))
        ran = self.run_command(self.file("a.emf", data), self.out, command=command)
        self.assertEqual(ran, Ran(1, "metaplay-fixup: TimeLimit\n"))
        self.assert_untouched("a.emf")

    def test_memory(self) -> None:
        """An input that doesn't fit into the addresses that the process may have."""
        source = self.file("a.wmf", PLAIN)
        os.truncate(source, 256 << 20)
        command = Command(limits=Limits(memory=500 << 20))
        self.assertEqual(self.run_command(source, self.out, command=command), Ran(4, "metaplay-fixup: OutOfMemory\n"))
        self.assert_untouched("a.wmf")

    def test_little_memory(self) -> None:
        """A small file needs at most 16 MiB more than the process has at its begin."""
        size = int(Path("/proc/self/statm").read_text().split()[0]) * os.sysconf("SC_PAGE_SIZE")
        command = Command(limits=Limits(memory=size + (16 << 20)))
        self.assertEqual(self.run_command(self.file("a.wmf", PLAIN), self.out, command=command), Ran(0, ""))

    def test_output(self) -> None:
        """An output that is longer than a file may be, as is a report."""
        source = self.file("a.wmf", PLAIN)
        line = "metaplay-fixup: TooLong (the output or its report)\n"
        short = Command(limits=Limits(file=len(PLAIN) - 1))
        self.assertEqual(self.run_command(source, self.out, command=short), Ran(1, line))
        report = self.folder / "report"
        exact = Command(limits=Limits(file=len(PLAIN)))
        self.assertEqual(self.run_command(source, self.out, "--report", report, command=exact), Ran(1, line))
        self.assert_untouched("a.wmf")
        self.assertEqual(self.run_command(source, self.out, command=exact), Ran(0, ""))


if __name__ == "__main__":
    unittest.main()
