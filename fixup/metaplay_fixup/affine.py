"""Points, and affine transforms as whole numbers over one denominator."""

from __future__ import annotations

from dataclasses import dataclass
from math import gcd
from typing import NamedTuple

from .fixed import FRACTION_BITS, of_ratio, rounded_quotient


class Point(NamedTuple):
    """A point or a vector. Its context says whether it counts page units or fixed device units (2^-20)."""

    x: int
    y: int


Contour = list[Point]
"""A closed polygon in fixed device coordinates, without its first point at the end."""


@dataclass(frozen=True, slots=True)
class Affine:
    """X = (a x + c y + e) / denominator, Y = (b x + d y + f) / denominator.

    The denominator is above 0, and nothing divides all seven.
    """

    a: int
    b: int
    c: int
    d: int
    e: int
    f: int
    denominator: int = 1

    @staticmethod
    def reduced(numbers: tuple[int, int, int, int, int, int], denominator: int) -> Affine:
        """The transform in its lowest terms. Raises ZeroDivisionError if the denominator is 0."""
        divisor = gcd(*numbers, denominator)
        if denominator < 0:
            divisor = -divisor
        a, b, c, d, e, f = (number // divisor for number in numbers)
        return Affine(a, b, c, d, e, f, denominator // divisor)

    def apply(self, point: Point) -> Point:
        """Where a point of whole page units lands, in fixed device units."""
        return self.apply_part(point, 1)

    def apply_part(self, point: Point, parts: int) -> Point:
        """Where a point lands whose coordinates count so many parts of a page unit, in fixed device units."""
        x = self.a * point.x + self.c * point.y + self.e * parts
        y = self.b * point.x + self.d * point.y + self.f * parts
        return Point(of_ratio(x, self.denominator * parts), of_ratio(y, self.denominator * parts))

    def apply_vector_part(self, vector: Point, parts: int) -> Point:
        """What a vector becomes whose numbers count so many parts of a page unit: the move doesn't count."""
        x = self.a * vector.x + self.c * vector.y
        y = self.b * vector.x + self.d * vector.y
        return Point(of_ratio(x, self.denominator * parts), of_ratio(y, self.denominator * parts))

    def apply_vector(self, vector: Point) -> Point:
        """What a vector of whole page units becomes, in fixed device units: the move doesn't count."""
        return self.apply_vector_part(vector, 1)

    def then(self, other: Affine) -> Affine:
        """This transform first, and the other after it."""
        numbers = (
            other.a * self.a + other.c * self.b,
            other.b * self.a + other.d * self.b,
            other.a * self.c + other.c * self.d,
            other.b * self.c + other.d * self.d,
            other.a * self.e + other.c * self.f + other.e * self.denominator,
            other.b * self.e + other.d * self.f + other.f * self.denominator,
        )
        return Affine.reduced(numbers, self.denominator * other.denominator)

    def determinant(self) -> int:
        """a d - b c, which is the true determinant times the denominator's square."""
        return self.a * self.d - self.b * self.c

    def is_straight(self) -> bool:
        """Whether boxes stay boxes: the axes are scaled and moved alone."""
        return self.b == 0 and self.c == 0

    def is_identity(self) -> bool:
        """Whether each point stays where it is."""
        return self == IDENTITY

    def inverse_rounded(self, point: Point) -> Point:
        """The point of whole page units nearest to where a point of fixed device units comes from.

        Raises ZeroDivisionError if the determinant is 0.
        """
        x = point.x * self.denominator - (self.e << FRACTION_BITS)
        y = point.y * self.denominator - (self.f << FRACTION_BITS)
        divisor = self.determinant() << FRACTION_BITS
        return Point(
            rounded_quotient(self.d * x - self.c * y, divisor), rounded_quotient(self.a * y - self.b * x, divisor)
        )


IDENTITY = Affine(1, 0, 0, 1, 0, 0)
