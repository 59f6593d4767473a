"""Sines and cosines of tenths of degrees, in whole numbers."""

from functools import cache

from .fixed import rounded_quotient

ANGLE_BITS = 40
"""Sines and cosines count parts of 2^-40."""

_GUARD_BITS = 24
_SCALE = 1 << (ANGLE_BITS + _GUARD_BITS)
# Pi times 2^64, rounded down. Its digits are those of 3.243F6A8885A308D313..., pi in hexadecimal.
_PI = 0x3243F6A8885A308D3


@cache
def cosine_and_sine(tenths: int) -> tuple[int, int]:
    """The cosine and the sine of an angle in tenths of a degree, in units of 2^-40, off by less than one unit.

    They are exact at whole quarter turns.
    """
    quarter, rest = divmod(tenths % 3600, 900)
    cosine, sine = _first_quarter(rest)
    return ((cosine, sine), (-sine, cosine), (-cosine, -sine), (sine, -cosine))[quarter]


def _first_quarter(tenths: int) -> tuple[int, int]:
    """Cosine and sine of 0 to 900 tenths of a degree."""
    if tenths > 450:
        cosine, sine = _first_quarter(900 - tenths)
        return sine, cosine
    angle = rounded_quotient(_PI * tenths, 1800)
    return _series(angle, 0), _series(angle, 1)


def _series(angle: int, first: int) -> int:
    """The sum of (-1)^i angle^(2i + first) / (2i + first)!, the cosine for first 0, the sine for 1.

    The angle counts parts of 2^-64.
    """
    term = _SCALE if first == 0 else angle
    total, power = 0, first
    while term:
        total += term
        term = -rounded_quotient(term * angle * angle, _SCALE * _SCALE * (power + 1) * (power + 2))
        power += 2
    return rounded_quotient(total, 1 << _GUARD_BITS)
