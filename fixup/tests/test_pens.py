"""What pens say of their strokes. Numbers are whole units; ONE is a unit."""

import unittest

from metaplay_fixup.dashes import pattern_of
from metaplay_fixup.faults import Fault, FaultName
from metaplay_fixup.fixed import ONE
from metaplay_fixup.pens import Cap, Join, PenLook, Style, Way, extended_pen, older_pen, read_miter_limit
from metaplay_fixup.singles import Ratio

from .strokes import BLACK


def units(length: int) -> int:
    """A measure in which a page unit is a device unit."""
    return length * ONE


class Pens(unittest.TestCase):
    """What pens say."""

    def look(self, style: int, width: int = 10, entries: tuple[int, ...] = ()) -> PenLook:
        """A LogPenEx."""
        found = extended_pen(style, width, BLACK, entries)
        assert found is not None
        return found

    def test_styles(self) -> None:
        """The bits of a style ([MS-EMF] 2.1.25)."""
        found = self.look(0x10000 | 0x2000 | 0x200 | 3)
        self.assertEqual(found, PenLook(Style.DASH_DOT, 10, Cap.FLAT, Join.MITER, BLACK, False))
        self.assertEqual(
            self.look(0x1000 | 0x100 | 8), PenLook(Style.ALTERNATE, 0, Cap.SQUARE, Join.BEVEL, BLACK, False)
        )
        self.assertEqual(older_pen(6, -4, BLACK), PenLook(Style.INSIDE_FRAME, 4, Cap.ROUND, Join.ROUND, BLACK, True))
        for style in (5, 9, 15):
            self.assertIsNone(older_pen(style, 1, BLACK))

    def test_ways(self) -> None:
        """Which pens need what: the box of the player has square caps and mitred joins."""
        geometric, square, miter = 0x10000, 0x100, 0x2000
        rows = [
            (self.look(geometric | square | miter), Way.AS_PLAYED),
            (self.look(geometric | square | miter | 6), Way.AS_PLAYED),
            (self.look(geometric | square), Way.POLYGONS),
            (self.look(geometric | miter), Way.POLYGONS),
            (self.look(geometric | square | miter | 1), Way.POLYGONS),
            (self.look(geometric, 1), Way.AS_PLAYED),
            (self.look(geometric | 2, 1), Way.LINES),
            (self.look(geometric, 2), Way.POLYGONS),
            (self.look(0), Way.AS_PLAYED),
            (self.look(4), Way.LINES),
            (self.look(7, 1, (0, 0)), Way.AS_PLAYED),
            (self.look(7, 1, (0, 1)), Way.LINES),
            (PenLook(Style.DASH, 1, Cap.ROUND, Join.ROUND, BLACK, True), Way.LINES),
            (PenLook(Style.DASH, 5, Cap.SQUARE, Join.MITER, BLACK, True), Way.AS_PLAYED),
            (PenLook(Style.SOLID, 5, Cap.ROUND, Join.ROUND, BLACK, True), Way.POLYGONS),
            (PenLook(Style.SOLID, 0, Cap.ROUND, Join.ROUND, BLACK, True), Way.AS_PLAYED),
        ]
        for look, way in rows:
            self.assertIs(look.way(units, ONE), way, look)

    def test_patterns(self) -> None:
        """Lengths of a geometric pen are widths, caps included; of a cosmetic pen they are device pixels.

        A thin geometric pen has the numbers of a wide one, in pixels. A pixel has 2 units here.
        """
        flat = {1: (30, 10), 2: (10, 10), 3: (30, 10, 10, 10), 4: (30, 10, 10, 10, 10, 10)}
        others = {1: (20, 20), 2: (0, 20), 3: (20, 20, 0, 20), 4: (20, 20, 0, 20, 0, 20)}
        cosmetic = {1: (36, 12), 2: (6, 6), 3: (18, 12, 6, 12), 4: (18, 6, 6, 6, 6, 6), 8: (2, 2)}
        thin = {1: (6, 2), 2: (2, 2), 3: (6, 2, 2, 2), 4: (6, 2, 2, 2, 2, 2)}
        kinds = (
            (0x10200, 10, flat),
            (0x10100, 10, others),
            (0x10000, 10, others),
            (0x10100, 1, thin),
            (0x10200, 2, thin),
            (0, 1, cosmetic),
        )
        for bits, width, table in kinds:
            for style, lengths in table.items():
                found = pattern_of(self.look(bits | style, width), units, 2 * ONE)
                self.assertEqual(found, tuple(length * ONE for length in lengths))
        for style, lengths in cosmetic.items():
            older = older_pen(style, 1, BLACK)
            assert older is not None
            self.assertEqual(pattern_of(older, units, 2 * ONE), tuple(length * ONE for length in lengths))
        self.assertEqual(pattern_of(self.look(0x10000), units, ONE), ())

    def test_user_patterns(self) -> None:
        """A user style's lengths are page units, or of a cosmetic pen 3 pixels, here of 2 units.

        An odd number of them changes places each time around.
        """
        for bits, factor in ((0x10007, 1), (7, 6)):
            for entries, lengths in (((5, 3), (5, 3)), ((5,), (5, 5)), ((1, 2, 3), (1, 2, 3, 1, 2, 3)), ((0, 0), ())):
                found = pattern_of(self.look(bits, 10, entries), units, 2 * ONE)
                self.assertEqual(found, tuple(factor * length * ONE for length in lengths))
        with self.assertRaises(Fault) as raised:
            self.look(7, 1, (1,) * 17)
        self.assertIs(raised.exception.name, FaultName.BadValue)
        self.assertEqual(len(self.look(7, 1, (1,) * 16).entries), 16)

    def test_miter_limits(self) -> None:
        """A limit is a single, or a whole number as the standard says; those below 1 are none."""
        self.assertEqual(read_miter_limit(0x41200000), Ratio(10, 1))
        self.assertEqual(read_miter_limit(0x3FA00000), Ratio(5, 4))
        self.assertEqual(read_miter_limit(0x3F800000), Ratio(1, 1))
        self.assertEqual(read_miter_limit(1), Ratio(1, 1))
        self.assertEqual(read_miter_limit(25), Ratio(25, 1))
        for word in (0, 0x3F000000, 0xC1200000):
            self.assertIsNone(read_miter_limit(word))
        with self.assertRaises(Fault):
            read_miter_limit(0x7F800000)


if __name__ == "__main__":
    unittest.main()
