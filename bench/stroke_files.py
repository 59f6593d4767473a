"""Smaller strokes of the sorts of `hostile_strokes`, whose instructions are counted: what a wide pen covers already may not be walked again, one cut may
not send a stroke another way, and two far corners may not buy a surface."""

from collections.abc import Callable

from hostile_strokes import Made, anywhere, corners, path, pens, steep, stroke, zigzag
from instruction_files import Counted

# The side of the surface and the seed of the places.
SIDE, SEED = 2048, 32

PENS = pens(SIDE)


def counted(made: Made) -> Callable[[], Counted]:
    """The maker of a file that is shown at that side."""
    return lambda: Counted(made(SEED), SIDE, SIDE)


STROKES = {
    "20,000 random lines, the widest nib": stroke(PENS.widest, anywhere, 20_001),
    "20,000 steep lines, nib 1 by 4,096": stroke(PENS.upright, steep, 20_001),
    "2,000 steep lines, nib 2 by 2, a pixel cut out": stroke(PENS.narrow, steep, 2_001, is_cut=True),
    "2,000 steep lines, nib 4,096 by 1, a pixel cut out": stroke(PENS.flat, steep, 2_001, is_cut=True),
    "2,000 steep lines, nib 1 by 4,096, a pixel cut out": stroke(PENS.upright, steep, 2_001, is_cut=True),
    "2,000 random lines, the widest nib, a pixel cut out": stroke(PENS.widest, anywhere, 2_001, is_cut=True),
    "2,000 random lines, a thin pen, a pixel cut out": stroke(PENS.thin, anywhere, 2_001, is_cut=True),
    "50 drawings in two far corners, the widest nib": corners(PENS.widest, 50),
    "400 drawings in two far corners, nib 2 by 2": corners(PENS.narrow, 400),
    "a zigzag of 2,000 lines, nib 3 by 3": stroke(PENS.third, zigzag, 2_001),
    "a path of 5,000 lines, nib 64 by 64": path(PENS.broad, 5_000),
    "5,000 steep lines, a thin pen": stroke(PENS.thin, steep, 5_001),
    "a path of 5,000 lines, a thin pen": path(PENS.thin, 5_000),
}

FILES = {name: counted(made) for name, made in STROKES.items()}
