"""Files of the three kinds that are cut short, in the built programs."""

import unittest
from typing import NamedTuple

from answers import refused, shown
from built import DOT, SAMPLES, for_each_program
from header_answers import NOT_METAFILE, NO_FRAME, SHORT_HEADER, SIDE, HeaderTest, pixel_at
from metafile.fields import RED
from metafile.files import (
    EMF_END,
    WMF_END,
    emf_file,
    emf_pixel,
    placeable_file,
    plain_file,
    window_extent,
    wmf_pixel,
)


class Layout(NamedTuple):
    """How a file of good records is made: how many bytes tell its format, how many its headers
    have, how long a record's head is, how long its records are, the number of the first, and the
    number of the one that gives the frame, if one does."""

    tells: int
    header: int
    head: int
    records: list[int]
    first: int
    framing: int | None = None

    def ends(self):
        """Where each record ends."""
        return [self.header + sum(self.records[: count + 1]) for count in range(len(self.records))]

    def refusal(self, length):
        """The answer to so many first bytes of the file, which are fewer than all."""
        if length < self.tells:
            return NOT_METAFILE
        if length < self.header:
            return SHORT_HEADER
        if self.framing is not None and length < self.ends()[self.framing]:
            return NO_FRAME
        whole = sum(end <= length for end in self.ends())
        begin = self.header + sum(self.records[:whole])
        fault = "NoEnd" if length < begin + self.head else "PastEnd"
        return refused(fault, self.first + whole)


PIXEL = wmf_pixel(2, 1, RED)

LONG_PIXEL = emf_pixel(2, 1, RED)

PLACEABLE = (
    placeable_file([PIXEL] * 1000 + [WMF_END]),
    Layout(4, 40, 6, [14] * 1000 + [6], 0),
)

PLAIN = (
    plain_file([PIXEL] * 9 + [window_extent(4, 4)] + [PIXEL] * 20 + [WMF_END]),
    Layout(4, 18, 6, [14] * 9 + [10] + [14] * 20 + [6], 0, framing=9),
)

ENHANCED = (
    emf_file([LONG_PIXEL] * 1000 + [EMF_END], extension=bytes(20)),
    Layout(44, 108, 8, [20] * 1000 + [20], 1),
)

SMALLEST = (DOT, Layout(4, 40, 6, [14, 6], 0))

NIL = ((SAMPLES / "nil.emf").read_bytes(), Layout(44, 88, 8, [20], 1))


class CutShort(HeaderTest):
    """Fronts of files of each kind."""

    def check_fronts(self, program, file, lengths):
        """The answers to fronts of a file of so many bytes."""
        given, layout = file
        for length in lengths:
            self.check(program, given[:length], layout.refusal(length), length)

    @for_each_program
    def test_the_whole_files_are_shown(self, program):
        for given, _ in (PLACEABLE, PLAIN, ENHANCED, SMALLEST):
            self.check(program, given, pixel_at(10, 5))
        self.check(program, NIL[0], shown({}, SIDE, SIDE))

    @for_each_program
    def test_the_first_300_fronts(self, program):
        for file in (PLACEABLE, PLAIN, ENHANCED):
            self.check_fronts(program, file, range(300))

    @for_each_program
    def test_each_front_of_the_smallest_files(self, program):
        for file in (SMALLEST, NIL):
            self.check_fronts(program, file, range(len(file[0])))

    @for_each_program
    def test_a_cut_is_told_by_the_record_that_it_lies_in(self, program):
        # A cut behind so many records and so many bytes, and its fault.
        cuts = [(0, 0, "NoEnd"), (0, 6, "PastEnd"), (1, 13, "PastEnd"), (9, 1, "NoEnd")]
        cuts += [(99, 5, "NoEnd"), (100, 7, "PastEnd"), (500, 0, "NoEnd"), (777, 12, "PastEnd")]
        cuts += [(999, 13, "PastEnd"), (1000, 5, "NoEnd")]
        for records, more, fault in cuts:
            given = PLACEABLE[0][: 40 + 14 * records + more]
            self.check(program, given, refused(fault, records), records, more)
        cuts = [(0, 0, "NoEnd"), (0, 8, "PastEnd"), (1, 19, "PastEnd"), (9, 1, "NoEnd")]
        cuts += [(99, 7, "NoEnd"), (100, 9, "PastEnd"), (500, 0, "NoEnd"), (777, 12, "PastEnd")]
        cuts += [(999, 19, "PastEnd"), (1000, 19, "PastEnd")]
        for records, more, fault in cuts:
            given = ENHANCED[0][: 108 + 20 * records + more]
            self.check(program, given, refused(fault, 1 + records), records, more)

    @for_each_program
    def test_a_plain_file_cut_behind_its_extent(self, program):
        for place in range(10):
            records = [PIXEL] * place + [window_extent(4, 4), PIXEL]
            given = plain_file(records)[: -place - 1]
            fault = "PastEnd" if 14 - place - 1 >= 6 else "NoEnd"
            self.check(program, given, refused(fault, place + 1), place)


if __name__ == "__main__":
    unittest.main()
