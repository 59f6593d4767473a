"""What the pages of metaplay say about faults and notes, as the report shows it."""

from __future__ import annotations

import html
import re
from collections.abc import Iterator
from dataclasses import dataclass, field
from pathlib import Path
from typing import NamedTuple

PLACES = ("..", "../../doc/metaplay")
"""Where the pages are, from the folder of the recipes: in the repository, and where metaplay is installed."""

ERRORS = {
    "cannot read": "See whether the file is there, and whether you may read it.",
    "the name is not UTF-8": "Give the file a name in UTF-8.",
}
"""What to do about an error that has no page."""


class Advice(NamedTuple):
    """What is said about a fault, as HTML: what it means, what the fix-up mends of it, and what to do."""

    meaning: str
    mended: str
    remedy: str


def inline(text: str) -> str:
    """A text of a page as HTML: code between backticks, and links without their places."""
    plain = re.sub(r"\[([^\]]*)\]\([^)]*\)", r"\1", text)
    return re.sub(r"`([^`]*)`", r"<code>\1</code>", html.escape(plain))


def rows(text: str) -> Iterator[list[str]]:
    """The rows of the tables of a page: the cells of each."""
    for line in text.splitlines():
        if line.startswith("| ") and line.endswith(" |"):
            yield [cell.strip() for cell in line[2:-2].split(" | ")]


@dataclass(frozen=True)
class Texts:
    """The texts by the names of faults and notes. Where a page is missing, there are none."""

    faults: dict[str, Advice] = field(default_factory=dict)
    notes: dict[str, str] = field(default_factory=dict)

    @staticmethod
    def read(recipes: Path) -> Texts:
        """The texts of the pages that are near this folder of recipes."""
        pages = {name: page(recipes, name) for name in ("FAULTS.md", "FORMATS.md")}
        faults = {
            cells[1].strip("`"): Advice(inline(cells[2]), inline(cells[3]), inline(cells[4]))
            for cells in rows(pages["FAULTS.md"])
            if len(cells) == 6 and cells[0].isdigit()
        }
        notes = pages["FORMATS.md"].partition("\n## Notes\n")[2].partition("\n## ")[0]
        told = {cells[0].strip("`"): inline(cells[1]) for cells in rows(notes) if cells[0].startswith("`")}
        return Texts(faults, told)


def page(recipes: Path, name: str) -> str:
    """The text of a page, or nothing where it is missing."""
    for place in PLACES:
        try:
            return (recipes / place / name).read_text(encoding="utf-8")
        except OSError:
            pass
    return ""
