"""The numbers of a record, the values that both formats share, and the faults of either."""

import functools
from typing import NamedTuple

from metafile.bitmaps import APART
from metafile.shapes import BETWEEN
from reference.bitmaps import picture_of
from reference.pixels import Refused

# The bytes of the identity as a transform: of its six words the first and the fourth are 1.
IDENTITY = bytes.fromhex("0000803f 00000000 00000000 0000803f 00000000 00000000")

# Styles of pens and brushes.
NULL_PEN, LAST_PEN = 5, 8
DASHED_PENS = (1, 2, 3, 4, 7, 8)
GEOMETRIC_PEN = 0x10000
SOLID, NULL, HATCHED = 0, 1, 2


@functools.cache
def kind_of(text):
    """The kind of a fault, by the text that a refusal tells, as the reference has a kind for each of its own."""
    return type(text, (Refused,), {})


def fault(text):
    """A fault of this text."""
    return kind_of(text)()


def text_of(refused):
    """The text of a refusal."""
    return type(refused).__name__


class Step(NamedTuple):
    """What a record asks for: its name in scripts, the words that follow it there, and what is noted of the record. A step of lists of points also has
    how many there are, since no word stands for a list without a point."""

    name: str
    words: list | tuple = ()
    notes: list | tuple = ()
    lists: int | None = None


class Record:
    """A record's bytes, its head included."""

    def __init__(self, data):
        self.data = data

    def need(self, count):
        """So many bytes are there."""
        if len(self.data) < count:
            raise fault("BadParams")
        return self

    def number(self, at, length, signed=False):
        """A number, its least byte first."""
        return int.from_bytes(self.data[at : at + length], "little", signed=signed)

    def u16(self, at):
        return self.number(at, 2)

    def i16(self, at):
        return self.number(at, 2, signed=True)

    def u32(self, at):
        return self.number(at, 4)

    def i32(self, at):
        return self.number(at, 4, signed=True)

    def signed(self, at, count, length):
        """So many numbers with a sign, one behind the other."""
        self.need(at + count * length)
        return [self.number(at + nth * length, length, signed=True) for nth in range(count)]

    def colour(self, at):
        """Red, green and blue, in front of the byte that is the colour's type."""
        *rgb, kind = self.data[at : at + 4]
        if kind not in (0, 2):
            raise fault("PaletteColour")
        return tuple(rgb)

    def shade(self, at):
        """A colour as one number, as scripts tell it."""
        return int.from_bytes(self.colour(at), "big")


def one_of(number, allowed):
    """A number that is one of these."""
    if number not in allowed:
        raise fault("BadValue")
    return number


def setting(name, number, allowed):
    """A step that sets a mode."""
    return Step(name, [one_of(number, allowed)])


def map_mode(number):
    """A step that sets the map mode: those in units of length aren't played."""
    if number in range(2, 7):
        raise fault("MetricMode")
    return Step("map_mode", [one_of(number, (1, 7, 8))], ["Isotropic"] if number == 7 else [])


def nothing(*notes):
    """A step without effect."""
    return Step("nothing", notes=notes)


def made(at, kind, name=None, words=(), notes=()):
    """A step that makes an object: at an index, if one is told; of a kind; and by the reference's name for it, if it draws."""
    return Step("make", [at, kind, name, *words], notes)


def pen(record, at, style, width, colour, brush=SOLID, is_noted=True):
    """A step that makes a pen of a style and a width, which mostly is noted, with its colour at a place. A width below 0 counts by its distance
    from it, and isn't noted."""
    style &= 15
    if style > LAST_PEN:
        raise fault("BadValue")
    if brush not in (SOLID, NULL):
        raise fault(f"Unsupported {record.u32(0)}")
    notes = ["DashedPen"] if style in DASHED_PENS else []
    if NULL_PEN == style or brush == NULL:
        return made(at, "pen", "null_pen", (), notes)
    shade = record.shade(colour)
    return made(at, "pen", "solid_pen", [shade, abs(width)], notes + (["WidePen"] if is_noted and width > 1 else []))


def brush(record, at, style, colour, hatch):
    """A step that makes a brush of a style, with its colour at a place."""
    one_of(style, (SOLID, NULL, HATCHED))
    if style == NULL:
        return made(at, "brush", "null_brush")
    shade = record.shade(colour)
    if style == SOLID:
        return made(at, "brush", "solid_brush", [shade])
    return made(at, "brush", "hatched_brush", [one_of(hatch, range(6)), shade])


def bitmap_word(info, bits):
    """The script's word of a bitmap without a fault: in one piece, where there are no bits."""
    picture_of(info, bits)
    return info.hex() + APART + (b"" if bits is None else bits).hex()


def lists_step(name, record, counts, at, length):
    """A step of lists of so many points each, which stand one after another from a place on."""
    numbers, words = record.signed(at, 2 * sum(counts), length), []
    for count in counts:
        words += [BETWEEN, *numbers[: 2 * count]]
        numbers = numbers[2 * count :]
    return Step(name, words[1:], lists=len(counts))
