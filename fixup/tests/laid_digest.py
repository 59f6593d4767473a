"""Prints a digest of texts that are laid out with Debian's fonts, to compare two runs."""

from __future__ import annotations

import hashlib
from dataclasses import replace
from pathlib import Path

from metaplay_fixup.affine import Affine, Point
from metaplay_fixup.catalogue import Catalogue
from metaplay_fixup.choice import FontChooser, FontRules
from metaplay_fixup.layer import FontLayer
from metaplay_fixup.text import ADVANCED, UPDATE_POSITION

from .texts import FONT, TOLERANCE, Case, lay, page_of

FOLDERS = [Path("/usr/share/fonts/truetype"), Path("/usr/share/fonts/opentype")]
FACES = ("Arial", "Times New Roman", "Courier New", "Calibri", "Cambria", "DejaVu Sans", "Verdana")
PAGES = (page_of(), page_of(Point(97, -31), Point(55, 13)), page_of(world=Affine(97, 13, -31, 55, 7, 9, 89)))


def main() -> None:
    """Lays out a turned text in each face, on each page, and prints the digest of contours, positions and notes."""
    rules = FontRules(instead="DejaVu Serif", fallbacks=("DejaVu Sans Mono", "Nimbus Roman"))
    layer = FontLayer(FontChooser(Catalogue.of_folders(FOLDERS), rules), TOLERANCE)
    digest = hashlib.sha256()
    for face in FACES:
        font = replace(FONT, face=face, height=-23, escapement=123, italic=True, underline=True, strike_out=True)
        case = replace(Case().of("Größe 12 \u2126 \u25a0"), font=font).with_settings(align=UPDATE_POSITION)
        for page in PAGES:
            digest.update(repr(lay(layer, case.with_record(graphics_mode=ADVANCED).on(page))).encode())
    print(digest.hexdigest())


if __name__ == "__main__":
    main()
