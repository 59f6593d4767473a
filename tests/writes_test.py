"""How many pixels files write, and how many their certificates let a run write at most, worked by hand."""

import struct
import unittest

from blits_test import stretched
from large_lists_test import BOUNDS, POLYGON, ROUNDS
from large_lists_test import SIDE as SQUARE
from metafile.bitmaps import QUAD
from metafile.fields import i16, u32
from metafile.files import emf_record
from metafile.scripts import EMF, WMF
from request_program import COUNT, PREPARE, PROGRAMS, asked, replies

# The longest side of a surface, and the coordinate farthest from 0 on which a point may land.
LONGEST, FAR = 8192, 1 << 28

# A hatched rectangle as large as the surface, without a pen; the hatch has 15 cells of 64.
HATCHED = "null_pen 0; hatched_brush 1 4 0xFF0000; select 0; select 1; rectangle 0 0 8 8"

# A blit that inverts what is there.
INVERTED = "pat_blt 0x00550009 0 0 4 4"


def emf(script, side):
    """A file of EMF whose frame and surface have this side."""
    return EMF.file(EMF.records(script), side, 16), side


def wmf(script, side):
    """The same as WMF."""
    return WMF.file(WMF.records(script), side, 2), side


def round_and_round(front):
    """A square as large as the surface, 16,384 times over."""
    square = i16(0, 0, SQUARE, 0, SQUARE, SQUARE, 0, SQUARE) * ROUNDS
    record = emf_record(POLYGON, BOUNDS + u32(4 * ROUNDS) + square)
    return EMF.file([*EMF.records(front), record], SQUARE, 16), SQUARE


def to_and_fro():
    """A thousand lines from side to side, as far as lines may go."""
    return "; ".join(f"line {FAR} 0; line {-FAR} {LONGEST - 1}" for _ in range(500))


FILLED = "null_pen 0; solid_brush 1 0xFF0000; select 0; select 1"

# A file and its side, the budget in its certificate, and how many pixels it writes.
CASES = {
    "a line as long as one may be": (emf(f"line {FAR} 0", LONGEST), 8192, 8192),
    "a square filled again and again, ALTERNATE": (round_and_round(f"{FILLED}; fill_mode 1"), 1_048_576, 0),
    "a square filled again and again, WINDING": (round_and_round(f"{FILLED}; fill_mode 2"), 1_048_576, 1_048_576),
    "a square stroked again and again": (round_and_round("null_brush 0; select 0"), 1_048_576, 2047),
    "a thousand lines from side to side": (emf(to_and_fro(), LONGEST), 67_041_763_328, 8_192_000),
    "a stretched bitmap": (wmf(stretched(QUAD, "0 0 4 4", "0 0 2 2", "stretch_dib"), 4), 16, 16),
    "blits under a clip": (wmf(f"keep 1 1 3 3; {INVERTED}; cut 1 1 2 2; {INVERTED}", 4), 32, 7),
    "a transparent hatch": (wmf(f"back_mode 1; {HATCHED}", 8), 64, 15),
    "an opaque hatch": (wmf(f"back_mode 2; {HATCHED}", 8), 64, 64),
}


class Writes(unittest.TestCase):
    """Budgets and writes."""

    def test_budgets_and_writes(self):
        for program in PROGRAMS:
            for name, ((given, side), budget, writes) in CASES.items():
                with self.subTest(program=program.name, name=name):
                    [(line, text)] = replies(program, [asked(PREPARE, (side, side), given)])
                    self.assertEqual(line, f"prepared {len(text)}")
                    self.assertEqual(struct.unpack_from("<Q", text, 12), (budget,))
                    self.assertEqual(replies(program, [asked(COUNT, (side, side), given, text)]), [(f"wrote {writes}", b"")])


if __name__ == "__main__":
    unittest.main()
