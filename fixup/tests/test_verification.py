"""--verify: the command asks the second reader."""

import contextlib
import io
import os
import sys
import unittest
from pathlib import Path
from unittest import mock

from metaplay_fixup.child import Limits
from metaplay_fixup.command import Command

from .command_case import PLAIN, CommandCase, Ran, text_file


class Verify(CommandCase):
    """The four statuses, and what is printed."""

    def setUp(self) -> None:
        super().setUp()
        self.original = self.file("a.emf", text_file("A"))
        self.fixed = self.folder / "fixed.emf"
        self.assertEqual(self.run_command(self.original, self.fixed, "--fonts", self.fonts), Ran(0, ""))

    def verified(self, *words: str | Path, command: Command = Command()) -> tuple[Ran, str]:
        """How a run ends, and what it prints."""
        output, error = io.StringIO(), io.StringIO()
        with contextlib.redirect_stdout(output), contextlib.redirect_stderr(error):
            status = command.run(["--verify", *(os.fspath(word) for word in words)])
        return Ran(int(status), error.getvalue()), output.getvalue()

    def test_accepted(self) -> None:
        """Status 0. The text is record 4."""
        lines = "record 4 was replaced: EMR_EXTTEXTOUTW\nholds: 1 records were replaced in 1 places"
        self.assertEqual(self.verified(self.original, self.fixed), (Ran(0, ""), f"{lines}\n"))
        only = self.verified(self.original, self.fixed, "--text-only")
        self.assertEqual(only, (Ran(0, ""), f"{lines}, which only draw text\n"))
        same = self.verified(self.original, self.original)
        self.assertEqual(same, (Ran(0, ""), "holds: 0 records were replaced in 0 places\n"))

    def test_rejected(self) -> None:
        """Status 1. Two bytes more behind the end, which is the last of the records; another original."""
        self.fixed.write_bytes(self.fixed.read_bytes() + b"\0\0")
        ran, text = self.verified(self.original, self.fixed)
        self.assertEqual(ran, Ran(1, ""))
        self.assertRegex(text, r"^doesn't hold: record [0-9]+ of the file: bytes follow the end record\n$")
        other = self.file("b.wmf", PLAIN)
        ran, text = self.verified(other, self.original)
        self.assertEqual((ran, text), (Ran(1, ""), "doesn't hold: the files have different forms\n"))

    def test_wrong_usage(self) -> None:
        """Status 2, with the usage; nothing is printed."""
        rows: list[tuple[str, ...]] = [
            (),
            ("a",),
            ("a", "b", "c"),
            ("a", "b", "--fonts", "d"),
            ("a", "b", "--report", "r"),
        ]
        for words in rows:
            ran, text = self.verified(*words)
            self.assertEqual((ran.status, text), (2, ""), words)
            self.assertIn("--verify ORIGINAL FILE", ran.error)

    def test_unreadable(self) -> None:
        """Status 3: no file, a folder, no metafile, a cut one, a name that can't be."""
        lines = [f"metaplay-fixup: cannot read ({role})\n" for role in ("the original", "the fixed file")]
        for name in (str(self.folder / "none"), str(self.fonts), "a\0b"):
            self.assertEqual(self.verified(name, self.fixed), (Ran(3, lines[0]), ""))
            self.assertEqual(self.verified(self.original, name), (Ran(3, lines[1]), ""))
        wrong, cut = self.file("text", b"text"), self.file("cut", self.fixed.read_bytes()[:-4])
        line = "metaplay-fixup: cannot read (the original: the file is no metafile)\n"
        self.assertEqual(self.verified(wrong, self.fixed), (Ran(3, line), ""))
        ran, text = self.verified(self.original, cut)
        self.assertEqual((ran.status, text), (3, ""))
        self.assertIn("cannot read (the fixed file: the record at byte", ran.error)

    def test_standard_input(self) -> None:
        """One of the files may be standard input."""
        with open(self.fixed, encoding="latin-1") as stream, mock.patch.object(sys, "stdin", stream):
            self.assertEqual(self.verified(self.original, "stdin")[0], Ran(0, ""))

    def test_nothing_is_written(self) -> None:
        """Both files are as before, and no other one is there."""
        before = {path: path.read_bytes() for path in self.folder.iterdir() if path.is_file()}
        self.verified(self.original, self.fixed)
        self.assertEqual({path: path.read_bytes() for path in self.folder.iterdir() if path.is_file()}, before)

    def test_full_output(self) -> None:
        """What can't be printed is no verdict."""
        full = io.TextIOWrapper(open("/dev/full", "wb"), write_through=True)
        with contextlib.redirect_stdout(full), contextlib.redirect_stderr(io.StringIO()) as error:
            status = Command().run(["--verify", str(self.original), str(self.fixed)])
        self.assertEqual((status, error.getvalue()), (3, "metaplay-fixup: cannot write\n"))
        with contextlib.suppress(OSError):
            full.close()

    def test_limits(self) -> None:
        """The reader runs under the limits of a conversion."""
        with mock.patch("metaplay_fixup.verification.verify", side_effect=_for_ever):
            ran, text = self.verified(self.original, self.fixed, command=Command(limits=Limits(seconds=1)))
        self.assertEqual((ran, text), (Ran(1, "metaplay-fixup: TimeLimit\n"), ""))


def _for_ever(*_: object) -> None:
    while True:
        pass


if __name__ == "__main__":
    unittest.main()
