"""Files with many different counts of records: each pixel is drawn, and a fault is reported with its record."""

import unittest

from built import DOT
from metafile.fields import RED
from metafile.files import WMF_END, wmf_pixel, wmf_record
from request_program import PREPARE, PROGRAMS, asked
from whole_runs import FIRST, Run, RunsTest, all_replies

# Counts beside powers of two, above those that are tried one by one, and more.
GREAT_COUNTS = [
    *[4095, 4096, 4097, 8191, 8192, 8193, 16_383, 16_384, 16_385, 32_767, 32_768, 32_769],
    *[65_533, 65_534, 65_535, 65_536, 65_537, 70_000, 100_000],
]

COUNTS = [*range(3001), *GREAT_COUNTS]

# The headers of a file with the box (0,0,4,4).
HEADERS = DOT[:40]

# The most records of a file, the end among them.
MOST = 1 << 20

PIXEL = wmf_pixel(2, 1, RED)

# A record that is skipped: META_ESCAPE ([MS-WMF] 2.3.6.1).
SKIPPED = wmf_record(0x0626)


def pixels_run(count):
    """The run of so many pixels at one place."""
    return Run(HEADERS + PIXEL * count + WMF_END, (4, 4), 3, count, {(2, 1): RED} if count else {})


class RecordCounts(RunsTest):
    """Files of records that are all alike."""

    def test_a_file_may_write_each_count_of_pixels(self):
        self.check_runs(map(pixels_run, COUNTS))

    def test_a_fault_in_each_record_is_reported_with_its_number(self):
        requests = [asked(PREPARE, (1, 1), HEADERS + SKIPPED * count) for count in COUNTS]
        self.assertEqual(list(all_replies(FIRST[0], requests)), [(f"NoEnd at record {count}", b"") for count in COUNTS])

    def test_a_file_has_at_most_1048576_records(self):
        self.check_runs([pixels_run(MOST - 1)], PROGRAMS)
        # With one pixel more, the end record has number 1,048,576.
        for program in PROGRAMS:
            found = list(all_replies(program, [asked(PREPARE, (4, 4), pixels_run(MOST).given)]))
            self.assertEqual(found, [("TooManyRecords at record 1048576", b"")])


if __name__ == "__main__":
    unittest.main()
