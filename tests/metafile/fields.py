"""What the fields of records and headers hold, as bytes: numbers and colours."""

import struct

# Numbers, with the least byte first.


def u16(*numbers):
    """Numbers of two bytes without a sign."""
    return struct.pack(f"<{len(numbers)}H", *numbers)


def i16(*numbers):
    """Numbers of two bytes with a sign."""
    return struct.pack(f"<{len(numbers)}h", *numbers)


def u32(*numbers):
    """Numbers of four bytes without a sign."""
    return struct.pack(f"<{len(numbers)}I", *numbers)


def i32(*numbers):
    """Numbers of four bytes with a sign."""
    return struct.pack(f"<{len(numbers)}i", *numbers)


def joined(fields, changes):
    """The bytes of fields in file order, some of them changed."""
    assert changes.keys() <= fields.keys(), changes
    return b"".join((fields | changes).values())


# Colours.

RED = (255, 0, 0)

BLUE = (0, 0, 255)

BLACK = (0, 0, 0)


def colour(colour_type=0, rgb=RED):
    """A colour ([MS-WMF] 2.2.2.8) with its type in the reserved byte."""
    return bytes((*rgb, colour_type))


# A colour of a palette.
PALETTE = colour(1)
