"""Certificates that declare more than their file needs: if there is memory, the file plays by each."""

import unittest

from metafile.scripts import EMF, WMF
from reference.certificates import Certificate, Entry
from request_program import COUNT, PREPARE, PROGRAMS, asked, replies
from whole_runs import FIRST, all_replies

SIDES = (4, 4)

# An EMF with a line of three pixels, and its certificate.
LINE = EMF.file(EMF.records("line 3 1"), 4, 4)
LINE_CERTIFICATE = Certificate(*SIDES, 8, 0, 0, 2, 0, (Entry(1, 0, 0, 3, 1),))

# A placeable file with a polygon of three points, which writes 16 pixels, and its certificate.
POLYGON = WMF.file(WMF.records("polygon 0 0 4 0 0 4"), 4, 0)
POLYGON_CERTIFICATE = Certificate(*SIDES, 32, 0, 0, 3, 0, (Entry(0, 0, 0, 4, 4),))

# Counts beside powers of two, above those that are tried one by one, up to the most edges.
GREAT_COUNTS = [
    *[65_535, 65_536, 65_537, 131_071, 131_072, 131_073, 262_143, 262_144, 262_145],
    *[524_287, 524_288, 1_048_575, 1_048_576],
]


class DeclaredNeeds(unittest.TestCase):
    """Files by certificates with larger needs."""

    def check(self, given, certificates, writes, programs=FIRST):
        """A file plays by each certificate, and writes so many pixels."""
        requests = [asked(COUNT, SIDES, given, certificate.text()) for certificate in certificates]
        for program in programs:
            found = [line for line, _ in all_replies(program, requests)]
            wrong = [it for it in zip(certificates, found, strict=True) if it[1] != f"wrote {writes}"]
            self.assertEqual(wrong[:3], [])

    def check_lines(self, need, counts, programs=FIRST):
        """The line plays by certificates that declare one of its needs with each of these counts."""
        self.check(LINE, [LINE_CERTIFICATE._replace(**{need: count}) for count in counts], 3, programs)

    def test_what_the_files_need(self):
        for program in PROGRAMS:
            for given, certificate in [(LINE, LINE_CERTIFICATE), (POLYGON, POLYGON_CERTIFICATE)]:
                self.assertEqual(replies(program, [asked(PREPARE, SIDES, given)])[0][1], certificate.text())

    def test_each_depth(self):
        self.check_lines("depth", range(257), PROGRAMS)

    def test_each_count_of_slots(self):
        self.check_lines("slots", range(65_536))
        # A placeable file has at most 1,024 objects.
        self.check(POLYGON, [POLYGON_CERTIFICATE._replace(slots=slots) for slots in range(1025)], 16, PROGRAMS)

    def test_each_count_of_pieces(self):
        self.check_lines("pieces", range(65_537))

    def test_each_count_of_edges(self):
        self.check_lines("edges", [*range(2, 32_770), *GREAT_COUNTS])


if __name__ == "__main__":
    unittest.main()
