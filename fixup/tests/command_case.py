"""What tests of the command have in common: a folder, a font, files, and runs of the command."""

from __future__ import annotations

import contextlib
import io
import os
import tempfile
import unittest
from dataclasses import dataclass
from pathlib import Path

from metaplay_fixup.command import Command

from .made_fonts import MadeFont, write_font
from .oracle import emf_file, emf_script, placeable_file, wmf_script
from .text_records import font, text

OLD = b"as it was"


@dataclass(frozen=True)
class Ran:
    """What a run ended with, and what it wrote to standard error."""

    status: int
    error: str


def text_file(string: str, face: str = "Squares") -> bytes:
    """An EMF with one text, which is record 4."""
    assert len(face) == len("Squares"), "another length of a face"
    create, select = font(-20)
    create = create.replace("Squares".encode("utf-16-le"), face.encode("utf-16-le"))
    return emf_file([*emf_script("back_mode 1"), create, select, text(string, 20, 30)])


PLAIN = placeable_file(wmf_script("pixel 1 1"))
"""A file in which nothing is replaced."""


class CommandCase(unittest.TestCase):
    """Each test has a folder with a folder of fonts, and OUT, which is there already."""

    def setUp(self) -> None:
        temporary = tempfile.TemporaryDirectory()
        self.addCleanup(temporary.cleanup)
        self.folder = Path(temporary.name)
        self.fonts = self.folder / "fonts"
        self.fonts.mkdir()
        write_font(self.fonts, "squares.ttf", MadeFont())
        self.out = self.folder / "out.emf"
        self.out.write_bytes(OLD)

    def file(self, name: str, data: bytes) -> Path:
        """A file with this name in the folder."""
        path = self.folder / name
        path.write_bytes(data)
        return path

    def run_command(self, *words: str | Path, command: Command = Command()) -> Ran:
        """Runs the command in this process, but for the processes that it starts."""
        error = io.StringIO()
        with contextlib.redirect_stderr(error), contextlib.redirect_stdout(io.StringIO()):
            status = command.run([os.fspath(word) for word in words])
        return Ran(int(status), error.getvalue())

    def assert_untouched(self, *others: str) -> None:
        """OUT is as it was, and the folder has no other files than it had, but for those named."""
        self.assertEqual(self.out.read_bytes(), OLD)
        self.assertEqual(sorted(path.name for path in self.folder.iterdir()), sorted(["fonts", "out.emf", *others]))
