"""Whole numbers in place of fractions.

A device coordinate is an int that counts parts of a device unit. A unit has 2^20 parts, so the finest grid of the
print profile (4,096 parts) is a multiple of it, and sums and comparisons are exact.
"""

FRACTION_BITS = 20
ONE = 1 << FRACTION_BITS


def rounded_quotient(numerator: int, denominator: int) -> int:
    """The whole number nearest to a quotient; a half is rounded up, also below 0.

    Raises ZeroDivisionError if the denominator is 0.
    """
    if denominator < 0:
        numerator, denominator = -numerator, -denominator
    return (2 * numerator + denominator) // (2 * denominator)


def of_ratio(numerator: int, denominator: int) -> int:
    """A quotient in units of 2^-20, rounded to the nearest; a half is rounded up."""
    return rounded_quotient(numerator << FRACTION_BITS, denominator)


def floor_units(value: int) -> int:
    """The greatest whole number of units that isn't above a fixed value."""
    return value >> FRACTION_BITS


def ceiling_units(value: int) -> int:
    """The least whole number of units that isn't below a fixed value."""
    return -(-value >> FRACTION_BITS)
