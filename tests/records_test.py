"""Each record of both formats in the built programs: its least parameters and fewer, more bytes
than it needs, its values and their edges, every function and type, and how records are framed."""

import unittest
from concurrent.futures import ProcessPoolExecutor
from functools import partial

from answers import refused, shown
from built import PROGRAMS, answer, for_each_program
from metafile.fields import BLUE, RED, colour, joined, u16, u32
from metafile.files import (
    EMF_END,
    WMF_END,
    emf_file,
    emf_pixel,
    emf_record,
    placeable_file,
    plain_file,
    window_extent,
    wmf_pixel,
    wmf_record,
)
from standards.emf import EMF, EMF_ABSENT
from standards.kinds import ENDS, Behind
from standards.wmf import WMF

FORMATS = [WMF, EMF]

# Bytes of all ones: whatever is read of them is no small number.
SURPLUS = [b"\xff" * length for length in (4, 64)]

# No file has more records, the end record included.
RECORD_LIMIT = 1048576


def shown_by(program, given):
    """What a program answers to a file at 4 by 4."""
    return answer(program, ["show", "stdin", "4", "4"], given)


def file_with(form, record):
    """A file with a record between two blue pixels."""
    return form.file([form.pixel(0, 0, BLUE), record, form.pixel(3, 3, BLUE), form.end])


def answer_for(form, outcome):
    """The answer to a file with a record, between two blue pixels, that has this outcome."""
    if outcome is ENDS:
        return shown({(0, 0): BLUE})
    if isinstance(outcome, str):
        return refused(outcome, form.first + 1)
    if isinstance(outcome, Behind):
        places = [(0, 0)] if outcome.place is None else [(0, 0), outcome.place]
        return shown(dict.fromkeys(places, BLUE))
    return shown({(0, 0): BLUE} | outcome | {(3, 3): BLUE})


def records_of(kind):
    """The least parameters of a kind and their changes, with what each leads to."""
    for changes, outcome in [({}, kind.outcome), *kind.others]:
        yield joined(kind.least, changes), outcome


def is_whole(outcome):
    """The record has all its parameters."""
    return outcome != "BadParams"


class Records(unittest.TestCase):
    """What many records lead to, several at a time."""

    def check(self, program, form, records):
        """Records, given by their kind's number and parameters, lead to their outcomes."""
        files = [file_with(form, form.record(number, given)) for number, given, _ in records]
        with ProcessPoolExecutor() as pool:
            answers = pool.map(partial(shown_by, program), files, chunksize=64)
            wrong = [
                f"{form.name} {number}, {given[:64].hex(' ', 4)}: {answered}"
                for (number, given, outcome), answered in zip(records, answers, strict=True)
                if answered != answer_for(form, outcome)
            ]
        self.assertEqual(wrong[:20], [], f"{len(wrong)} of {len(records)} records")


class Parameters(Records):
    """Each kind of record that is read, with what the table says of its parameters."""

    @for_each_program
    def test_each_record_with_its_parameters(self, program):
        for form in FORMATS:
            records = [
                (kind.number, given, outcome)
                for kind in form.kinds
                for given, outcome in records_of(kind)
            ]
            self.check(program, form, records)

    @for_each_program
    def test_each_record_without_its_last_bytes(self, program):
        # Values are looked at only where all parameters are there.
        for form in FORMATS:
            records = [
                (kind.number, given[: -form.unit], "BadParams")
                for kind in form.kinds
                for given, outcome in records_of(kind)
                if is_whole(outcome) and given
            ]
            self.check(program, form, records)

    @for_each_program
    def test_each_record_at_every_length_below_its_least(self, program):
        for form in FORMATS:
            records = [
                (kind.number, given[:length], "BadParams")
                for kind in form.kinds
                for given in [joined(kind.least, {})]
                for length in range(0, len(given), form.unit)
            ]
            self.check(program, form, records)

    @for_each_program
    def test_each_record_with_more_bytes_than_it_needs(self, program):
        for form in FORMATS:
            records = [
                (kind.number, given + more, outcome)
                for kind in form.kinds
                for given, outcome in records_of(kind)
                for more in SURPLUS
                if is_whole(outcome)
            ]
            self.check(program, form, records)


class Numbers(Records):
    """Functions and types, and which of them are read, without effect, refused or unknown."""

    def test_the_table_has_every_number_once(self):
        listed = {
            form.name: [
                *(kind.number for kind in form.kinds),
                *form.skipped,
                *form.refused,
                *form.bitmaps,
            ]
            for form in FORMATS
        }
        # [MS-WMF] 2.1.1.1 lists 70 functions, [MS-EMF] 2.1.1 types from 1 to 122.
        self.assertEqual(len(set(listed["WMF"])), 70)
        self.assertEqual(len(listed["WMF"]), 70)
        self.assertEqual(sorted([*listed["EMF"], *EMF_ABSENT]), list(range(123)))

    def functions(self, program, numbers):
        """Records of WMF of these functions, without parameters, lead to their outcomes."""
        self.check(program, WMF, [(number, b"", WMF.outcome_of_empty(number)) for number in numbers])

    def test_every_function_without_parameters(self):
        # The second program is of the same code by another compiler: it has those below.
        self.functions(PROGRAMS[0], range(1 << 16))

    @for_each_program
    def test_functions_one_bit_beside_one_that_is_listed(self, program):
        listed = [*(kind.number for kind in WMF.kinds), *WMF.skipped, *WMF.refused, *WMF.bitmaps]
        self.functions(program, sorted({number ^ bit for number in listed for bit in [0, *(1 << at for at in range(16))]}))

    @for_each_program
    def test_types_without_parameters(self, program):
        # A reader of one or two bytes of the type takes the high ones for low ones.
        high = [1 << 31, (1 << 32) - 1]
        high += [number + 15 for number in (1 << 8, 1 << 16, 1 << 24, 1 << 31)]
        records = [(number, b"", EMF.outcome_of_empty(number)) for number in [*range(201), *high]]
        self.check(program, EMF, records)

    @for_each_program
    def test_parameters_of_records_that_are_not_read(self, program):
        for form in FORMATS:
            unread = [*form.skipped, *form.refused]
            records = [
                (number, more, form.outcome_of_empty(number))
                for number in unread
                for more in SURPLUS
            ]
            self.check(program, form, records)

    @for_each_program
    def test_comments_of_any_length_and_mark_have_no_effect(self, program):
        # [MS-EMF] 2.3.3: a comment's length in bytes, and a mark.
        marks = [b"", u32(0), u32(4), u32(4) + b"EMF+", u32(4) + b"EMF-", u32(1 << 31) + b"EMF+"]
        self.check(program, EMF, [(70, given, {}) for given in marks])


class Framing(unittest.TestCase):
    """Files of records behind one that draws a blue pixel, so that their numbers begin with 1 in a
    WMF and with 2 in an EMF."""

    def check_wmf(self, program, rest, wanted):
        """A placeable WMF whose records go on with these bytes behind the first."""
        given = placeable_file([wmf_pixel(0, 0, BLUE), rest])
        self.assertEqual(shown_by(program, given), wanted, rest.hex(" "))

    def check_emf(self, program, rest, wanted):
        """An EMF whose records go on with these bytes behind the first."""
        given = emf_file([emf_pixel(0, 0, BLUE), rest])
        self.assertEqual(shown_by(program, given), wanted, rest.hex(" "))

    @for_each_program
    def test_bytes_end_within_a_head(self, program):
        # The size of a head that isn't whole isn't looked at.
        for left in range(6):
            self.check_wmf(program, wmf_record(0x041F, size=1)[:left], refused("NoEnd", 1))
        for left in range(8):
            self.check_emf(program, emf_record(15, size=1)[:left], refused("NoEnd", 2))

    @for_each_program
    def test_bytes_end_behind_records_without_an_end(self, program):
        self.check_wmf(program, wmf_pixel(1, 1, RED), refused("NoEnd", 2))
        self.check_emf(program, emf_pixel(1, 1, RED), refused("NoEnd", 3))

    @for_each_program
    def test_wmf_sizes_below_a_head(self, program):
        # Whatever the function, and whatever is left.
        for size in (0, 1, 2):
            for function in (0x0000, 0x041F, 0x0A32, 0x0999):
                for behind in (b"", b"\xff" * 10 + WMF_END):
                    rest = wmf_record(function, size=size) + behind
                    self.check_wmf(program, rest, refused("ShortRecord", 1))

    @for_each_program
    def test_emf_sizes_below_a_head_or_no_multiple_of_4(self, program):
        for size in (0, 1, 4, 7, 9, 10, 11, 21, 22, 23, (1 << 31) + 2, (1 << 32) - 1):
            for kind in (14, 15, 2, 69):
                for behind in (b"", b"\xff" * 12 + EMF_END):
                    rest = emf_record(kind, size=size) + behind
                    self.check_emf(program, rest, refused("ShortRecord", 2))

    @for_each_program
    def test_wmf_sizes_past_the_end(self, program):
        # Some of these sizes in words are small in bytes where they wrap at 2^32, or at 2^16.
        wrapping = [(1 << 31) + words for words in (0, 3, 7)]
        for size in (11, 12, (1 << 15) + 7, (1 << 31) - 1, *wrapping, (1 << 32) - 1):
            for function in (0x0000, 0x041F, 0x0A32, 0x0999):
                rest = wmf_record(function, colour() + u16(0, 0), size=size) + WMF_END
                self.check_wmf(program, rest, refused("PastEnd", 1))

    @for_each_program
    def test_emf_sizes_past_the_end(self, program):
        for size in (44, 48, (1 << 16) + 20, (1 << 31) + 20, (1 << 32) - 8, (1 << 32) - 4):
            for kind in (14, 15, 2, 69):
                rest = emf_record(kind, u32(0, 0) + colour(), size=size) + EMF_END
                self.check_emf(program, rest, refused("PastEnd", 2))

    @for_each_program
    def test_a_size_may_reach_to_the_end(self, program):
        pixel = wmf_record(0x041F, colour() + u16(1, 2), size=10) + WMF_END
        self.check_wmf(program, pixel, refused("NoEnd", 2))
        self.check_wmf(program, wmf_record(0x0000, u16(7)), shown({(0, 0): BLUE}))
        pixel = emf_record(15, u32(2, 1) + colour(), size=40) + EMF_END
        self.check_emf(program, pixel, refused("NoEnd", 3))
        self.check_emf(program, emf_record(14), shown({(0, 0): BLUE}))

    @for_each_program
    def test_a_head_alone_has_no_parameters(self, program):
        for more in (b"", wmf_pixel(1, 1, RED) + WMF_END):
            self.check_wmf(program, wmf_record(0x041F) + more, refused("BadParams", 1))
            self.check_wmf(program, wmf_record(0x0A32) + more, refused("Unsupported 2610", 1))
            self.check_wmf(program, wmf_record(0x0999) + more, refused("UnknownRecord 2457", 1))
        for more in (b"", emf_pixel(1, 1, RED) + EMF_END):
            self.check_emf(program, emf_record(15) + more, refused("BadParams", 2))
            self.check_emf(program, emf_record(2) + more, refused("Unsupported 2", 2))
            self.check_emf(program, emf_record(69) + more, refused("UnknownRecord 69", 2))

    @for_each_program
    def test_the_first_record_with_a_fault_is_told(self, program):
        red = shown({(0, 0): BLUE, (1, 1): RED})
        front = wmf_pixel(1, 1, RED)
        self.check_wmf(program, front + WMF_END, red)
        for rest, fault in [
            (wmf_record(0x041F), "BadParams"),
            (wmf_record(0x041F, colour(1) + u16(0, 0)), "PaletteColour"),
            (wmf_record(0x0103, u16(2)), "MetricMode"),
            (wmf_record(0x0104, u16(17)), "BadValue"),
        ]:
            for more in (b"", wmf_record(0x0999), wmf_record(0x041F, size=2), WMF_END):
                self.check_wmf(program, front + rest + more, refused(fault, 2))

    @for_each_program
    def test_bytes_behind_the_end_are_not_looked_at(self, program):
        for behind in (b"\0", wmf_record(0x041F, size=0), wmf_record(0x0999), b"\xff" * 99):
            self.check_wmf(program, WMF_END + behind, shown({(0, 0): BLUE}))
        for behind in (b"\0", emf_record(15, size=0), emf_record(69), b"\xff" * 99):
            self.check_emf(program, EMF_END + behind, shown({(0, 0): BLUE}))

    @for_each_program
    def test_the_number_of_records_is_limited(self, program):
        # The place behind the last that a record may have is refused, whatever is there.
        too_many = refused("TooManyRecords", RECORD_LIMIT)
        skipped = wmf_record(0x0626) * (RECORD_LIMIT - 1)
        self.assertEqual(shown_by(program, placeable_file([skipped, WMF_END])), shown({}))
        for rest in (b"", WMF_END, wmf_record(0x041F, size=0)):
            given = placeable_file([skipped, wmf_record(0x0626), rest])
            self.assertEqual(shown_by(program, given), too_many, rest.hex(" "))
        # The header of an EMF is a record.
        skipped = emf_record(70) * (RECORD_LIMIT - 2)
        self.assertEqual(shown_by(program, emf_file([skipped, EMF_END])), shown({}))
        for rest in (b"", EMF_END, emf_record(15, size=0)):
            given = emf_file([skipped, emf_record(70), rest])
            self.assertEqual(shown_by(program, given), too_many, rest.hex(" "))

    @for_each_program
    def test_plain_files_are_framed_as_placeable_ones(self, program):
        extent = window_extent(4, 4)
        for records, wanted in [
            ([extent, WMF_END], shown({})),
            ([wmf_pixel(1, 1, RED), extent, WMF_END], shown({(1, 1): RED})),
            ([extent, window_extent(8, 2), wmf_pixel(2, 1, RED), WMF_END], shown({(1, 2): RED})),
            ([wmf_record(0x0999), extent, WMF_END], refused("UnknownRecord 2457", 0)),
            ([wmf_record(0x0626), wmf_record(0x0A32), extent], refused("Unsupported 2610", 1)),
            ([wmf_record(0x041F), extent], refused("BadParams", 0)),
        ]:
            self.assertEqual(shown_by(program, plain_file(records)), wanted)


if __name__ == "__main__":
    unittest.main()
