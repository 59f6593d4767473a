"""Whole numbers in place of fractions, and transforms of them."""

import struct
import unittest
from fractions import Fraction

from metaplay_fixup.affine import IDENTITY, Affine, Point
from metaplay_fixup.faults import Fault, FaultName
from metaplay_fixup.fixed import ONE, ceiling_units, floor_units, of_ratio, rounded_quotient
from metaplay_fixup.singles import Ratio, nearest_single, single_of


def word_of(value: float) -> int:
    """The 32 bits of a single."""
    return int(struct.unpack("<I", struct.pack("<f", value))[0])


class Quotients(unittest.TestCase):
    """Quotients are rounded to the nearest, halves upwards."""

    def test_rounding(self) -> None:
        """Halves go up, also below 0 and with a negative denominator."""
        rows = [
            (1, 2, 1),
            (-1, 2, 0),
            (-3, 2, -1),
            (3, 2, 2),
            (1, -2, 0),
            (-1, -2, 1),
            (7, 3, 2),
            (8, 3, 3),
            (-7, 3, -2),
        ]
        for numerator, denominator, expected in rows:
            self.assertEqual(rounded_quotient(numerator, denominator), expected, (numerator, denominator))

    def test_units(self) -> None:
        """A third of a unit, and the units around it."""
        self.assertEqual(of_ratio(1, 3), 349525)
        self.assertEqual(of_ratio(-1, 3), -349525)
        self.assertEqual((floor_units(ONE - 1), ceiling_units(1)), (0, 1))
        self.assertEqual((floor_units(-1), ceiling_units(-1)), (-1, 0))
        self.assertEqual((floor_units(2 * ONE), ceiling_units(2 * ONE)), (2, 2))


class Transforms(unittest.TestCase):
    """Transforms are exact."""

    def test_apply(self) -> None:
        """X = (2 x + 3 y + 1) / 4, Y = (-x + 5 y - 2) / 4 of (7, 9): 42 / 4 and 36 / 4."""
        affine = Affine(2, -1, 3, 5, 1, -2, 4)
        self.assertEqual(affine.apply(Point(7, 9)), (42 * ONE // 4, 9 * ONE))
        self.assertEqual(affine.apply_vector(Point(7, 9)), (41 * ONE // 4, 38 * ONE // 4))
        self.assertEqual(affine.apply_part(Point(14, 18), 2), (42 * ONE // 4, 9 * ONE))

    def test_then(self) -> None:
        """Twice and 3 further, then a quarter turn: (1, 1) goes to (5, 2) and then to (-2, 5)."""
        both = Affine(2, 0, 0, 2, 3, 0).then(Affine(0, 1, -1, 0, 0, 0))
        self.assertEqual(both.apply(Point(1, 1)), (-2 * ONE, 5 * ONE))
        self.assertEqual(both.determinant(), 4)
        self.assertFalse(both.is_straight())

    def test_lowest_terms(self) -> None:
        """A common factor is taken out, and the denominator is above 0."""
        self.assertEqual(Affine.reduced((4, 0, 0, 6, 2, 8), -2), Affine(-2, 0, 0, -3, -1, -4, 1))
        self.assertTrue(Affine.reduced((5, 0, 0, 5, 0, 0), 5).is_identity())
        self.assertEqual(IDENTITY.apply(Point(3, -4)), (3 * ONE, -4 * ONE))

    def test_inverse(self) -> None:
        """The page point nearest to where a device point comes from."""
        affine = Affine(2, 0, 0, -3, 10, 20)
        self.assertEqual(affine.inverse_rounded(Point(16 * ONE, 5 * ONE)), (3, 5))
        self.assertEqual(affine.inverse_rounded(Point(17 * ONE, 5 * ONE)), (4, 5))


class Singles(unittest.TestCase):
    """IEEE singles as ratios."""

    def test_exact(self) -> None:
        """Each is the number that Python reads from the same bits."""
        for value in (0.0, 1.0, -1.0, 0.1, -2.75, 3.0e10, 1.0e-40, 2.0**-149, -(2.0**39)):
            exact = struct.unpack("<f", struct.pack("<f", value))[0]
            ratio = single_of(word_of(value))
            self.assertEqual(Fraction(*ratio), Fraction(exact), value)

    def test_rounded(self) -> None:
        """A ratio is rounded as the packing of a double rounds it, halves to even."""
        values = [
            1 + 2.0**-24,
            1 + 3 * 2.0**-24,
            1 + 2.0**-23,
            0.1,
            1 / 3,
            -1 - 2.0**-24 - 2.0**-40,
            2.0**-149 * 1.5,
            0.0,
        ]
        for value in values:
            exact = struct.unpack("<f", struct.pack("<f", value))[0]
            ratio = nearest_single(Ratio(*value.as_integer_ratio()))
            self.assertEqual(Fraction(*ratio), Fraction(exact), value)

    def test_faults(self) -> None:
        """Numbers that aren't finite, or are 2^40 or more, are rejected."""
        values = {float("inf"): FaultName.BadValue, float("nan"): FaultName.BadValue}
        values.update({2.0**40: FaultName.OffPlane, -(2.0**127): FaultName.OffPlane})
        for value, name in values.items():
            with self.assertRaises(Fault) as raised:
                single_of(word_of(value))
            self.assertEqual(raised.exception.name, name)
        with self.assertRaises(Fault) as raised:
            nearest_single(Ratio(1 << 40, 1))
        self.assertEqual(raised.exception.name, FaultName.OffPlane)


if __name__ == "__main__":
    unittest.main()
