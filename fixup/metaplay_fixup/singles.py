"""IEEE single-precision numbers as exact ratios of whole numbers."""

from typing import NamedTuple

from .faults import Fault, FaultName

# No transform of a drawing needs numbers of 2^40 or above, and they would make every product long.
_GREATEST_EXPONENT = 40
_MANTISSA_BITS = 24
# The exponent of the least number that a single can hold.
_LEAST_EXPONENT = -149


class Ratio(NamedTuple):
    """A numerator over a denominator that is a power of two."""

    numerator: int
    denominator: int


def single_of(word: int) -> Ratio:
    """The number whose 32 bits are given.

    Raises Fault BadValue if it isn't finite, and OffPlane if its absolute value is 2^40 or more.
    """
    exponent = word >> 23 & 0xFF
    mantissa = word & 0x7FFFFF
    if exponent == 0xFF:
        raise Fault(FaultName.BadValue, "a transform has a number that isn't finite")
    if exponent:
        mantissa |= 0x800000
    shift = max(exponent, 1) - 150
    if mantissa.bit_length() + shift > _GREATEST_EXPONENT:
        raise Fault(FaultName.OffPlane, "a transform has a number that is too large")
    signed = -mantissa if word >> 31 else mantissa
    return _lowest(signed, shift)


def nearest_single(value: Ratio) -> Ratio:
    """The single nearest to a ratio whose denominator is a power of two; a half goes to the even one.

    A product of transforms is rounded so, since the transform of a device context is kept in singles. Raises Fault
    OffPlane if it is 2^40 or more.
    """
    size = abs(value.numerator)
    scale = value.denominator.bit_length() - 1
    if size.bit_length() - scale > _GREATEST_EXPONENT:
        raise Fault(FaultName.OffPlane, "a transform has a number that is too large")
    spare = max(size.bit_length() - _MANTISSA_BITS, scale + _LEAST_EXPONENT)
    if spare <= 0:
        return value
    kept, rest = size >> spare, size & ((1 << spare) - 1)
    half = 1 << (spare - 1)
    if rest > half or (rest == half and kept & 1):
        kept += 1
    return _lowest(-kept if value.numerator < 0 else kept, spare - scale)


def _lowest(mantissa: int, shift: int) -> Ratio:
    """mantissa * 2^shift in its lowest terms."""
    if mantissa == 0:
        return Ratio(0, 1)
    if shift >= 0:
        return Ratio(mantissa << shift, 1)
    zeros = min((mantissa & -mantissa).bit_length() - 1, -shift)
    return Ratio(mantissa >> zeros, 1 << (-shift - zeros))
