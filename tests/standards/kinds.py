"""What the kinds of both formats' records share, written as data for the tests alone.

What a record leads to, its outcome, is one of four: the pixels that it draws, by their places
(none, where it has no effect), and the file goes on; `Behind`, where it changes what later records
are played with; a fault's text; or `ENDS`, the file's end.
"""

from collections.abc import Callable
from typing import NamedTuple

from metafile.fields import BLACK, PALETTE, RED, colour, joined, u16

ENDS = None


class Behind(NamedTuple):
    """Where a pixel that stands behind the record, at (3,3) of the page, is drawn: in a place, or
    nowhere."""

    place: tuple[int, int] | None


# The pixel behind is drawn as it would be without the record.
ACCEPTED = Behind((3, 3))

# The pixel behind isn't drawn.
HIDDEN = Behind(None)


class Kind(NamedTuple):
    """A kind of record that is read: its function or type, its name, what its least parameters lead
    to, those by name in file order, and changes of them with what each leads to. A kind without
    least parameters needs none."""

    number: int
    name: str
    outcome: object
    least: dict[str, bytes] = {}
    others: list[tuple[dict[str, bytes], object]] = []


def numbers(field, number, outcomes):
    """Changes of one field to the numbers that lead to each outcome."""
    return [
        ({field: number(value)}, outcome)
        for outcome, values in outcomes.items()
        for value in values
    ]


def far(number, good):
    """Numbers whose low byte or half is a good one, and the largest: a reader of too few bytes
    takes them for the good one."""
    largest = 0xFFFF if number is u16 else 0xFFFFFFFF
    return [value + good for value in (0x100, 0x10000, 0x80000000) if value < largest] + [largest]


# A colour is of type 0 or 2: a byte each of red, green and blue.
COLOURS = {ACCEPTED: [0, 2], "PaletteColour": [1, 3, 0x80, 0xFF]}


def background_modes(number):
    """MixMode, [MS-WMF] 2.1.1.20."""
    return numbers("mode", number, {ACCEPTED: [1, 2], "BadValue": [0, 3, *far(number, 1)]})


def fill_modes(number):
    """PolyFillMode, [MS-WMF] 2.1.1.25."""
    return numbers("mode", number, {ACCEPTED: [1, 2], "BadValue": [0, 3, *far(number, 2)]})


def map_modes(number):
    """MapMode, [MS-WMF] 2.1.1.16, of which 2 to 6 count in units of length. In the others the page
    of these files lands on itself: where extents count, those of window and viewport are alike."""
    bad = [0, 9, *far(number, 8), *far(number, 2)]
    outcomes = {ACCEPTED: [1, 7, 8], "MetricMode": [2, 3, 4, 5, 6], "BadValue": bad}
    return numbers("mode", number, outcomes)


def raster_operations(number):
    """BinaryRasterOperation, [MS-WMF] 2.1.1.2."""
    good = list(range(1, 17))
    return numbers("operation", number, {ACCEPTED: good, "BadValue": [0, 17, *far(number, 13)]})


def pens(number, signed):
    """PenStyle, [MS-WMF] 2.1.1.23, by its low four bits, a width of any value, and a colour that
    isn't read where the pen is null."""
    largest = 0xFFFF if number is u16 else 0xFFFFFFFF
    lowest = -(largest // 2) - 1
    return [
        *numbers("style", number, {ACCEPTED: [*range(9), largest - 15, largest - 7]}),
        *numbers("style", number, {"BadValue": [*range(9, 16), largest - 6, largest]}),
        *numbers("width", signed, {ACCEPTED: [0, 1, 2, -1, lowest]}),
        *numbers("colour", colour, COLOURS),
        ({"style": number(5), "colour": PALETTE}, ACCEPTED),
        ({"style": number(0x15), "colour": PALETTE}, ACCEPTED),
        ({"style": number(8), "colour": PALETTE}, "PaletteColour"),
        ({"style": number(9), "colour": PALETTE}, "BadValue"),
    ]


def brushes(number):
    """BrushStyle, [MS-WMF] 2.1.1.4: solid, null or hatched; a null brush has its colour unread, and
    only a hatched one has its hatch read (HatchStyle, [MS-WMF] 2.1.1.12)."""
    hatched = {"style": number(2)}
    return [
        *numbers("style", number, {ACCEPTED: [0, 1, 2], "BadValue": [3, 4, 9, *far(number, 0)]}),
        *numbers("colour", colour, COLOURS),
        ({"style": number(1), "colour": PALETTE, "hatch": number(6)}, ACCEPTED),
        ({"style": number(0), "hatch": number(6)}, ACCEPTED),
        *[(hatched | {"hatch": number(hatch)}, ACCEPTED) for hatch in range(6)],
        *[(hatched | {"hatch": number(hatch)}, "BadValue") for hatch in [6, *far(number, 5)]],
        (hatched | {"colour": PALETTE}, "PaletteColour"),
        (hatched | {"colour": PALETTE, "hatch": number(6)}, "PaletteColour"),
        ({"style": number(3), "colour": PALETTE, "hatch": number(6)}, "BadValue"),
    ]


def pixels(signed):
    """A pixel is drawn where it lies on the surface, in its three bytes of red, green and blue."""
    return [
        ({"colour": colour(2)}, {(2, 1): RED}),
        ({"colour": colour(0, (1, 2, 3))}, {(2, 1): (1, 2, 3)}),
        ({"x": signed(0), "y": signed(3)}, {(0, 3): RED}),
        ({"x": signed(3), "y": signed(0)}, {(3, 0): RED}),
        *[({axis: signed(far_off)}, {}) for axis in "xy" for far_off in (-32768, -1, 4, 32767)],
        *numbers("colour", colour, {"PaletteColour": [1, 3, 0x80, 0xFF]}),
    ]


def boxes(signed, held, beside):
    """Changes of a box from (3,2) to (5,4): those by which it still holds (3,3), in whatever order
    its corners are, and those by which (3,3) lies beside it."""
    outer = {"left": 2, "top": 3, "right": 4, "bottom": 5}
    inner = {"left": 4, "top": 4, "right": 3, "bottom": 3}
    return [
        *[({edge: signed(place)}, held) for edge, place in outer.items()],
        *[({edge: signed(place)}, beside) for edge, place in inner.items()],
        ({"left": signed(5), "right": signed(3)}, held),
        ({"top": signed(4), "bottom": signed(2)}, held),
    ]


# A line from the page's origin to (2,1), and to (1,2): of its two pixels the second is as near to
# (1,0), or (0,1), and the one farther down, or to the right, is taken. Its end is left out.
LINE = {(0, 0): BLACK, (1, 1): BLACK}

# A box from (3,2) down to the right has no other pixels on the surface, and these are on its rim.
CORNER = {(3, 2): BLACK, (3, 3): BLACK}


def points(signed, count):
    """A point in its two numbers, again and again: lines between them have no pixel."""
    return signed(*[1, 2] * count)


class Format(NamedTuple):
    """A format: its kinds that are read, those without effect, and refused, and those with bitmaps;
    how its records are written (one of any kind, one that draws a pixel, the one that ends a file),
    of how many bytes their sizes are multiples, how a file is made of them, and which number its
    first one has."""

    name: str
    kinds: list[Kind]
    skipped: dict[int, str]
    refused: dict[int, str]
    bitmaps: dict[int, str]
    record: Callable
    pixel: Callable
    end: bytes
    unit: int
    file: Callable
    first: int

    def outcome_of_empty(self, number):
        """What a record of any kind without any parameter leads to."""
        for kind in self.kinds:
            if kind.number == number:
                return "BadParams" if joined(kind.least, {}) else kind.outcome
        if number in self.skipped:
            return {}
        if number in self.refused:
            return f"Unsupported {number}"
        if number in self.bitmaps:
            return "BadParams"
        return f"UnknownRecord {number}"
