"""The fonts of the folders that the caller names, by the names that they have in every language."""

from __future__ import annotations

import os
from collections.abc import Iterable
from dataclasses import dataclass, field
from pathlib import Path

from .faces import Face, FaceName
from .faults import Fault

LONGEST_FONT = 1 << 26
"""A font file of more bytes isn't read."""
_ENDINGS = (".ttf", ".otf", ".ttc", ".otc")
_MOST_FACES = 64
_FAMILY_NAME, _STYLE_NAME, _FULL_NAME = 1, 2, 4
_MACINTOSH, _WINDOWS = 1, 3
_ENGLISH = 0x409
_BOLD_WEIGHT = 550
"""A font of more than this weight (OS/2's usWeightClass) is a bold one, like one whose fsSelection says so."""


@dataclass(frozen=True, slots=True)
class FontFile:
    """A face of a font file, of which only the names and two fields of OS/2 were read."""

    path: Path
    index: int
    family: str
    style: str
    is_bold: bool
    is_italic: bool

    @property
    def label(self) -> str:
        """The file's name for faults. What isn't UTF-8 in it is a question mark."""
        return label_of(self.path)


@dataclass(slots=True)
class Catalogue:
    """The faces of fonts by family names and full names in small letters, in the order in which they were found."""

    _by_name: dict[str, list[FontFile]] = field(default_factory=dict)

    @staticmethod
    def of_folders(folders: Iterable[Path]) -> Catalogue:
        """The fonts of the folders and all below them: folders as given, files sorted by their paths.

        A file that isn't a font, or is damaged, isn't in the catalogue.
        """
        catalogue = Catalogue()
        for path in (path for folder in folders for path in _font_paths(folder)):
            catalogue._add_file(path)
        return catalogue

    def named(self, name: str) -> tuple[FontFile, ...]:
        """The faces that have this name, in any case."""
        return tuple(self._by_name.get(name.lower(), ()))

    def _add_file(self, path: Path) -> None:
        """Adds the faces of a file up to the first damaged one."""
        index, count = 0, 1
        try:
            while index < min(count, _MOST_FACES):
                face = Face(str(path), index, label_of(path))
                count = face.count
                self._add_face(path, index, face)
                index += 1
        except Fault:
            return

    def _add_face(self, path: Path, index: int, face: Face) -> None:
        if not face.has_outlines:
            return
        names = face.names()
        font = _font_file(path, index, face.table("OS/2"), names)
        keys = {text.lower() for number in (_FAMILY_NAME, _FULL_NAME) for text in _texts(names, number)}
        for key in sorted(keys):
            self._by_name.setdefault(key, []).append(font)


def label_of(path: Path) -> str:
    """The name of a file. What isn't UTF-8 in it is a question mark."""
    return path.name.encode("utf-8", "replace").decode("utf-8")


def _font_paths(folder: Path) -> list[Path]:
    """The font files below a folder, sorted by their paths. What can't be read is left out."""
    paths = [Path(root, name) for root, _, names in os.walk(folder) for name in names]
    return sorted(path for path in paths if path.suffix.lower() in _ENDINGS and _is_short_file(path))


def _is_short_file(path: Path) -> bool:
    try:
        return path.is_file() and path.stat().st_size <= LONGEST_FONT
    except OSError:
        return False


def _font_file(path: Path, index: int, os2: bytes, names: list[FaceName]) -> FontFile:
    """The entry of a face, by usWeightClass and fsSelection of [OpenType] OS/2."""
    weight = int.from_bytes(os2[4:6], "big")
    selection = int.from_bytes(os2[62:64], "big")
    families, styles = _texts(names, _FAMILY_NAME), _texts(names, _STYLE_NAME)
    is_bold = bool(selection & 0x20) or weight > _BOLD_WEIGHT
    return FontFile(path, index, (families + [""])[0], (styles + [""])[0], is_bold, bool(selection & 0x01))


def _texts(names: list[FaceName], number: int) -> list[str]:
    """The names of one kind, English first, without empty ones."""
    entries = sorted((name for name in names if name.number == number), key=_is_foreign)
    return [text for text in map(_text, entries) if text]


def _is_foreign(name: FaceName) -> bool:
    return (name.platform, name.language) != (_WINDOWS, _ENGLISH)


def _text(name: FaceName) -> str:
    """The name as a string ([OpenType] name): UTF-16 but for Macintosh's, of which Roman alone is read."""
    if name.platform != _MACINTOSH:
        return name.text.decode("utf-16-be", "ignore").strip("\0")
    return name.text.decode("mac_roman").strip("\0") if name.encoding == 0 else ""
