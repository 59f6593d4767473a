"""Glyphs that are put together from other glyphs, and limits to that."""

from __future__ import annotations

from .faces import Face
from .faults import Fault, FaultName

MOST_PARTS = 1_000
"""A glyph is put together from at most so many glyphs, parts of parts included."""


def check_parts(face: Face, glyph: int) -> None:
    """Raises Fault with BadFont if a glyph has more than MOST_PARTS parts.

    FreeType has no such limit. Given a small font in which each glyph is the one before twice, it takes gigabytes
    before it gives up.
    """
    waiting = [glyph]
    count = 0
    while waiting:
        count += 1
        waiting += face.parts(waiting.pop(), MOST_PARTS)
        if count + len(waiting) > MOST_PARTS + 1:
            raise Fault(FaultName.BadFont, f"{face.label}: glyph {glyph} has more than {MOST_PARTS} parts")
