"""The instructions of the library for C beside those of the program: it plays in bands as high as the program's, also on a surface of many rows."""

import pathlib
import tempfile
import unittest

from built import PROGRAMS, Answer, answer
from c_library import compiled, folder, linked_show
from c_library_counting import instructions, small_drawings

# How many times the program's instructions a play by the library may take. It has the file's bytes at once, and copies no image to a pipe.
MOST = 1.08

# Surfaces that are high or wide, which are played in many bands, and one that is played in few.
SURFACES = [(300, 8192), (8192, 300), (600, 600), (64, 8192), (2048, 2048)]

# A program that checks the file of its first word by the certificate of its second. Its status is the outcome.
CHECK = b"""
#include <metaplay.h>
#include <stdio.h>

static uint8_t bytes[2][1 << 22];

int main(int count, char **words)
{
    size_t lengths[2];
    int nth;

    for (nth = 0; nth < 2; nth++) {
        FILE *file = fopen(words[1 + nth], "rb");
        lengths[nth] = count == 3 ? fread(bytes[nth], 1, sizeof bytes[nth], file) : 0;
        fclose(file);
    }
    return (int)metaplay_check(bytes[0], lengths[0], bytes[1], lengths[1]).outcome;
}
"""


def linked_check():
    """That program, linked with the archive."""
    source = folder() / "check.c"
    source.write_bytes(CHECK)
    return compiled(source, "check", [folder() / "lib/libmetaplay.a"])


class Instructions(unittest.TestCase):
    """Plays by a certificate."""

    def test_a_play_takes_about_as_many_as_the_program(self):
        with tempfile.TemporaryDirectory() as folder:
            file, certificate = pathlib.Path(folder, "file"), pathlib.Path(folder, "certificate")
            for width, height in SURFACES:
                file.write_bytes(small_drawings(width, height))
                sides = [str(width), str(height)]
                self.assertEqual(answer(PROGRAMS[0], ["prepare", file, *sides, certificate]), Answer(0, b"", b""))
                program, shown = instructions([PROGRAMS[0], "play", file, certificate, *sides])
                library, image = instructions([linked_show(), file, *sides, certificate])
                with self.subTest(sides=sides):
                    self.assertTrue(image == shown)
                    self.assertLess(library, MOST * program, f"{library:,} by the library, {program:,} by the program")

    def test_a_preparation_takes_about_as_many_as_the_program(self):
        # Without a certificate the example prepares one: the first of two calls tells its length.
        with tempfile.TemporaryDirectory() as folder:
            file, certificate = pathlib.Path(folder, "file"), pathlib.Path(folder, "certificate")
            width, height = SURFACES[-1]
            file.write_bytes(small_drawings(width, height))
            sides = [str(width), str(height)]
            program, _ = instructions([PROGRAMS[0], "prepare", file, *sides, certificate])
            playing, image = instructions([linked_show(), file, *sides, certificate])
            both, same = instructions([linked_show(), file, *sides])
            self.assertTrue(image == same)
            self.assertLess(both - playing, 2 * MOST * program, f"{both - playing:,} by two calls of the library, {program:,} by the program")

    def test_a_check_takes_about_as_many_as_the_program(self):
        with tempfile.TemporaryDirectory() as room:
            file, certificate = pathlib.Path(room, "file"), pathlib.Path(room, "certificate")
            width, height = SURFACES[-1]
            file.write_bytes(small_drawings(width, height))
            self.assertEqual(answer(PROGRAMS[0], ["prepare", file, str(width), str(height), certificate]), Answer(0, b"", b""))
            program, _ = instructions([PROGRAMS[0], "check", file, certificate])
            library, _ = instructions([linked_check(), file, certificate])
            self.assertLess(library, MOST * program, f"{library:,} by the library, {program:,} by the program")


if __name__ == "__main__":
    unittest.main()
