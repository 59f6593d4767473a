"""The instructions of single calls of the library for C, beside those on record. A program makes a call once and then twice: the difference is the
call's alone."""

import pathlib
import tempfile
import unittest
from typing import NamedTuple

from built import PROGRAMS, Answer, answer
from c_library import compiled, folder
from c_library_counting import instructions, small_drawings
from metafile.scripts import EMF

# The side of the surface.
SIDE = 2048

# How many times the instructions on record a call may take.
MOST = 1.15

# A program that makes a call of the library so often, with the files of its words. Its status is 0 if each is done.
CALLS = b"""
#include <metaplay.h>
#include <stdio.h>
#include <stdlib.h>

static uint8_t file[1 << 22], certificate[1 << 22], out[3 << 22];

static size_t contents(const char *name, uint8_t *bytes)
{
    FILE *opened = fopen(name, "rb");
    size_t length = opened ? fread(bytes, 1, 1 << 22, opened) : 0;

    if (opened) {
        fclose(opened);
    }
    return length;
}

int main(int count, char **words)
{
    const uint32_t side = 2048;
    size_t length, certified;
    metaplay_terms terms;
    metaplay_sides sides;
    metaplay_rows rows = {side, side, side / 2, 64, 3 * side};
    uint32_t outcome = 0;
    int left;

    if (count != 5) {
        return 2;
    }
    length = contents(words[3], file);
    certified = contents(words[4], certificate);
    for (left = atoi(words[2]); left > 0; left--) {
        switch (words[1][0]) {
        case 'p':
            outcome |= metaplay_prepare_print(file, length, 0, side, side, out, sizeof out).outcome;
            break;
        case 's':
            outcome |= metaplay_fitted_sides(file, length, side, side, &sides).outcome;
            break;
        case 't':
            outcome |= metaplay_certificate_terms(certificate, certified, &terms).outcome;
            break;
        case 'r':
            outcome |= metaplay_play_rows(file, length, certificate, certified, &rows, out, sizeof out).outcome;
            break;
        case 'o':
            outcome |= metaplay_over(file, length, certificate, certified, side, side, out, sizeof out).outcome;
            break;
        default:
            outcome |= metaplay_play(file, length, certificate, certified, side, side, out, sizeof out).outcome;
        }
    }
    return outcome != METAPLAY_DONE;
}
"""


class Call(NamedTuple):
    """A call: the letter that asks for it, the file, and its instructions on record."""

    letter: str
    file: bytes
    recorded: int


DRAWINGS = small_drawings(SIDE, SIDE)

CALLED = {
    "a preparation under print": Call("p", DRAWINGS, 12_845_997),
    "the sides that fit": Call("s", DRAWINGS, 241),
    "the terms of a certificate": Call("t", DRAWINGS, 186),
    "64 rows": Call("r", DRAWINGS, 22_233_202),
    "a play of nothing over an image": Call("o", EMF.file([], SIDE, 16), 40_581_677),
    "a play of nothing": Call("-", EMF.file([], SIDE, 16), 20_109_388),
}


def linked_calls():
    """That program, linked with the archive."""
    source = folder() / "calls.c"
    source.write_bytes(CALLS)
    return compiled(source, "calls", [folder() / "lib/libmetaplay.a"])


def call_alone(call, room):
    """The instructions of one call."""
    file, certificate = pathlib.Path(room, "file"), pathlib.Path(room, "certificate")
    file.write_bytes(call.file)
    if answer(PROGRAMS[0], ["prepare", file, str(SIDE), str(SIDE), certificate]) != Answer(0, b"", b""):
        raise ValueError("the file has no certificate")
    once, twice = (instructions([linked_calls(), call.letter, times, file, certificate])[0] for times in (1, 2))
    return twice - once


class Calls(unittest.TestCase):
    """Each call alone."""

    def test_each_takes_about_as_many_as_on_record(self):
        for name, call in CALLED.items():
            with self.subTest(call=name), tempfile.TemporaryDirectory() as room:
                taken = call_alone(call, room)
                self.assertLess(taken, MOST * call.recorded, f"{taken:,} instructions")
                self.assertLess(call.recorded, MOST * taken, f"{taken:,} instructions: the record is of another library")


if __name__ == "__main__":
    unittest.main()
