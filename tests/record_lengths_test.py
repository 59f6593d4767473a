"""Comments of each length before a drawing, and bytes of each count after the end: the drawing is played nevertheless."""

import unittest

from built import DOT
from metafile.fields import RED
from metafile.files import emf_record, wmf_record
from metafile.scripts import EMF
from whole_runs import Run, RunsTest

# Lengths beside powers of two, above those that are tried one by one.
GREAT_LENGTHS = [
    *[8191, 8192, 8193, 16_383, 16_384, 16_385, 32_767, 32_768, 32_769, 65_535, 65_536, 65_537],
    *[131_071, 131_072, 131_073, 1_048_575, 1_048_576, 1_048_577, 4_194_303, 4_194_304, 4_194_305],
]

# The length of the headers of the dot.
HEADERS = 40

SIDES = (4, 4)

# The same pixel in an EMF.
EMF_DOT = EMF.file([EMF.pixel(2, 1, RED)], 4, 4)


def dot_run(given):
    """The run of a file that writes one red pixel in column 2 of row 1."""
    return Run(given, SIDES, 3, 1, {(2, 1): RED})


def escape_run(words):
    """The run of the dot after an escape of so many words, its head among them (META_ESCAPE, [MS-WMF] 2.3.6.1)."""
    return dot_run(DOT[:HEADERS] + wmf_record(0x0626, b"\xa5" * (2 * words - 6)) + DOT[HEADERS:])


def comment_run(longs):
    """The run of the dot after a comment of so many numbers of 32 bits, its head among them (EMR_COMMENT, [MS-EMF] 2.3.3.1)."""
    return dot_run(EMF.file([emf_record(70, b"\xa5" * (4 * longs - 8)), EMF.pixel(2, 1, RED)], 4, 4))


class RecordLengths(RunsTest):
    """Files of a dot."""

    def test_an_escape_has_each_length(self):
        self.check_runs(map(escape_run, [*range(3, 4100), *GREAT_LENGTHS]))

    def test_a_comment_has_each_length(self):
        self.check_runs(map(comment_run, [*range(2, 4100), *GREAT_LENGTHS]))

    def test_each_count_of_bytes_may_follow_the_end(self):
        # The great lengths are those of the whole file.
        for given in (DOT, EMF_DOT):
            lengths = [*range(len(given), len(given) + 8200), *GREAT_LENGTHS]
            self.check_runs(dot_run(given.ljust(min(length, 8300), b"\x0e").ljust(length, b"\0")) for length in lengths)


if __name__ == "__main__":
    unittest.main()
