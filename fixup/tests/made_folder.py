"""A folder of made fonts for the tests of a class."""

from __future__ import annotations

import tempfile
import unittest
from pathlib import Path

from metaplay_fixup.layer import FontLayer

from .made_fonts import MadeFont, write_font
from .texts import layer_of


class MadeFolder(unittest.TestCase):
    """Tests that lay out texts with the font Squares."""

    made: tuple[MadeFont, ...] = (MadeFont(),)
    folder: Path
    layer: FontLayer
    _temporary: tempfile.TemporaryDirectory[str]

    @classmethod
    def setUpClass(cls) -> None:
        cls._temporary = tempfile.TemporaryDirectory()
        cls.folder = Path(cls._temporary.name)
        for number, made in enumerate(cls.made):
            write_font(cls.folder, f"font{number:02}.ttf", made)
        cls.layer = layer_of(cls.folder)

    def write(self, made: MadeFont) -> Path:
        """Writes another font into the folder, under its family's name."""
        return write_font(self.folder, f"{made.family}.ttf", made)

    @classmethod
    def tearDownClass(cls) -> None:
        cls._temporary.cleanup()
