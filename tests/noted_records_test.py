"""Listings of single records with their notes, and of files that end early, worked out by hand."""

import unittest

from built import DOT, Answer, answer, for_each_program
from metafile.fields import u32
from metafile.files import EMF_END, emf_file, emf_record

HEADERS, PIXEL, END = DOT[:40], DOT[40:54], DOT[54:]

PIXEL_LINE = b"0\t40\t14\t0x041f\tMETA_SETPIXEL\tplayed\tpixel 2,1 #ff0000\n"

END_LINE = b"1\t%d\t6\t0x0000\tMETA_EOF\tplayed\tnothing%s\n"

# Records of WMF, and their lines: a dashed blue pen of width 2 (style, width as a point, colour), an escape, and the isotropic map mode.
WMF_RECORDS = [
    (bytes([8, 0, 0, 0, 0xFA, 2, 1, 0, 2, 0, 0, 0, 0, 0, 255, 0]), b"0x02fa\tMETA_CREATEPENINDIRECT\tplayed\tcreate pen #0000ff width 2; DashedPen; WidePen"),
    (bytes([3, 0, 0, 0, 0x26, 6]), b"0x0626\tMETA_ESCAPE\tnoted\tnothing; Skipped"),
    (bytes([4, 0, 0, 0, 3, 1, 7, 0]), b"0x0103\tMETA_SETMAPMODE\tplayed\tmap mode 7; Isotropic"),
]

# Records of EMF, and their lines: a polygon (0, 0), (4, 0), (0, -4) after its box and count; a dashed pen of width 5 whose brush style is null, after its
# index and bitmap; a comment of EMF+.
EMF_RECORDS = [
    (emf_record(86, bytes(16) + u32(3) + bytes([0, 0, 0, 0, 4, 0, 0, 0, 0, 0, 252, 255])), b"40\t86\tEMR_POLYGON16\tplayed\tpolygon lists 1, points 3"),
    (
        emf_record(95, u32(1) + bytes(16) + u32(1, 5) + bytes([1, 0, 0, 0, 9, 9, 9, 9]) + u32(0, 0)),
        b"52\t95\tEMR_EXTCREATEPEN\tplayed\tcreate 1 pen null; DashedPen",
    ),
    (emf_record(70, u32(4) + b"EMF+"), b"16\t70\tEMR_COMMENT\tnoted\tnothing; EmfPlus"),
]


class NotedRecords(unittest.TestCase):
    """`list` of files of one record and an end."""

    def listed(self, program, given):
        """What the program answers."""
        return answer(program, ["list", "stdin"], given)

    @for_each_program
    def test_records_of_wmf(self, program):
        for record, told in WMF_RECORDS:
            lines = b"0\t40\t%d\t%s\n" % (len(record), told) + END_LINE % (40 + len(record), b"")
            self.assertEqual(self.listed(program, HEADERS + record + END), Answer(0, lines, b""))

    @for_each_program
    def test_records_of_emf(self, program):
        for record, told in EMF_RECORDS:
            header, end = b"0\t0\t88\t1\tEMR_HEADER\tplayed\tnothing\n", b"2\t%d\t20\t14\tEMR_EOF\tplayed\tnothing\n" % (88 + len(record))
            self.assertEqual(self.listed(program, emf_file([record, EMF_END])), Answer(0, header + b"1\t88\t%s\n" % told + end, b""))

    @for_each_program
    def test_bytes_after_the_end_are_noted_with_the_end(self, program):
        for more, note in [(b"", b""), (b"\0", b"; AfterEnd")]:
            self.assertEqual(self.listed(program, DOT + more), Answer(0, PIXEL_LINE + END_LINE % (54, note), b""))

    @for_each_program
    def test_records_without_an_end(self, program):
        missing = b"%d\t%d\t-\t-\t-\trefused\tNoEnd\n"
        self.assertEqual(self.listed(program, HEADERS), Answer(1, missing % (0, 40), b""))
        for length in range(54, 60):
            self.assertEqual(self.listed(program, DOT[:length]), Answer(1, PIXEL_LINE + missing % (1, 54), b""))


if __name__ == "__main__":
    unittest.main()
