#!/usr/bin/env python3
"""Makes label.emf beside this script, which metaplay rejects: text, curves, and a stamp that a world turns, beside boxes and lines that play."""
import math
import pathlib
import struct
import sys

sys.path.insert(0, str(pathlib.Path(__file__).resolve().parent.parent.parent / "tests"))

from metafile.drawings import emf_brush, emf_pen, emf_rectangle, emf_select
from metafile.fields import i16, i32, u32
from metafile.pictures import emf_picture
from metafile.scripts import EMF
from metafile.shapes import ink

WIDTH, HEIGHT = 256, 192

CREAM, NAVY, RED, GOLD = (0xFF, 0xFA, 0xE8), (0x18, 0x20, 0x58), (0xC8, 0x28, 0x30), (0xF0, 0xA8, 0x20)

# The indexes of objects, from 1 on. The null brush and the null pen are stock objects.
BOX, DISC, NAVY_PEN, RED_PEN, DASHED_PEN, TITLE, SMALL, STAMP = range(1, 9)
NO_BRUSH, NO_PEN = 0x80000005, 0x80000008

BASELINE = 24

IDENTITY = (1, 0, 0, 1, 0, 0)


def font(index, face, height, weight=400, italic=0):
    """EMR_EXTCREATEFONTINDIRECTW ([MS-EMF] 2.3.7.8), whose height is that of the em."""
    return EMF.record(
        82, u32(index) + i32(-height, 0, 0, 0, weight) + bytes([italic, 0, 0, 0, 0, 0, 0, 0]) + face.encode("utf-16-le").ljust(64, b"\0")
    )


def text(string, x, y):
    """EMR_EXTTEXTOUTW ([MS-EMF] 2.3.5.8) on a baseline, without distances."""
    codes = string.encode("utf-16-le")
    return EMF.record(84, bytes(16) + u32(2, 0, 0) + i32(x, y) + u32(len(string), 76, 0) + bytes(20) + codes + bytes(-len(codes) % 4))


def coloured(rgb):
    """EMR_SETTEXTCOLOR ([MS-EMF] 2.3.11.26)."""
    return EMF.record(24, ink(int.from_bytes(bytes(rgb), "big")))


def world(*numbers):
    """EMR_SETWORLDTRANSFORM ([MS-EMF] 2.3.12.2)."""
    return EMF.record(35, struct.pack("<6f", *numbers))


def wave():
    """EMR_POLYBEZIER16 ([MS-EMF] 2.3.5.17) across the label."""
    places = [(16, 150)] + [(16 + 37 * (number + 1), 150 + (-22, 22, 0)[number % 3]) for number in range(6)]
    return EMF.record(85, bytes(16) + u32(len(places)) + i16(*(number for place in places for number in place)))


def turned(degrees, x, y):
    """A world that turns about the origin and moves it to a place."""
    angle = math.radians(degrees)
    return world(math.cos(angle), math.sin(angle), -math.sin(angle), math.cos(angle), x, y)


def objects():
    """Brushes, pens and fonts."""
    yield from (emf_brush(BOX, CREAM), emf_brush(DISC, GOLD), emf_pen(NAVY_PEN, NAVY, 3), emf_pen(RED_PEN, RED, 3))
    yield EMF.step("styled_pen", DASHED_PEN - 1, 1, 1, int.from_bytes(bytes(NAVY), "big"))
    yield from (font(TITLE, "Arial", 30, 700), font(SMALL, "Times New Roman", 17, 400, 1), font(STAMP, "Arial", 22, 700))
    yield from (EMF.step("back_mode", 1), EMF.record(22, u32(BASELINE)))


def records():
    """What is drawn: the ground, a title with a line below, discs, a wave, and a turned stamp."""
    yield from objects()
    yield from (emf_select(BOX), emf_select(NO_PEN), emf_rectangle(0, 0, WIDTH - 1, HEIGHT - 1))
    yield from (coloured(NAVY), emf_select(TITLE), text("Fragile", 16, 40), emf_select(SMALL), text("Keep dry, and this side up", 16, 66))
    yield from (emf_select(DASHED_PEN), EMF.step("polyline", 16, 76, 240, 76), emf_select(DISC), emf_select(NAVY_PEN))
    yield EMF.record(42, i32(16, 86, 66, 136))
    yield EMF.record(47, i32(76, 86, 126, 136, 126, 111, 101, 86))
    yield from (emf_select(NO_BRUSH), wave())
    yield from (turned(-14, 138, 134), emf_select(RED_PEN), emf_rectangle(0, -24, 100, 8))
    yield from (coloured(RED), emf_select(STAMP), text("PASSED", 4, 0), world(*IDENTITY))
    yield from (emf_select(NAVY_PEN), emf_rectangle(4, 4, WIDTH - 5, HEIGHT - 5))


def label():
    """The file."""
    return emf_picture(WIDTH, HEIGHT, list(records()), handles=STAMP + 1, device=(1024, 768))


FILES = {"label.emf": label}


def main():
    """Writes the file."""
    (pathlib.Path(__file__).parent / "label.emf").write_bytes(label())


if __name__ == "__main__":
    main()
