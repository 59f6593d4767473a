"""A catalogue that is read when the first face asks for a font, so that a file without text opens none."""

from __future__ import annotations

from collections.abc import Iterable
from pathlib import Path

from .catalogue import Catalogue, FontFile


class LateCatalogue(Catalogue):
    """The fonts of folders, which are read once."""

    def __init__(self, folders: Iterable[Path]) -> None:
        super().__init__()
        self._folders = tuple(folders)
        self._found: Catalogue | None = None

    def read(self) -> None:
        """Reads the names of all fonts, unless that was done."""
        if self._found is None:
            self._found = Catalogue.of_folders(self._folders)

    def named(self, name: str) -> tuple[FontFile, ...]:
        """The faces that have this name, in any case."""
        self.read()
        return () if self._found is None else self._found.named(name)
