"""Reports of `check` and listings, compared whole, and what becomes of them if they can't be written."""

import unittest

from built import DOT
from command_inputs import DOT_LINES, FAR, NOTED, NOTED_CERT, NOTHING, NOTHING_CERT, TRIANGLE, TRIANGLE_CERT, changed
from request_program import CHECK_COMMAND, LIST, WORKING, Command, CommandsTest, Ended, Output

CANNOT_WRITE = b"metaplay: cannot write\n"

TRIANGLE_REPORT = (
    b'{"accepted":true,"drawings":1,"format":"placeable","frame":[4,4],"max":[4,4],'
    b'"needs":{"depth":0,"edges":3,"pieces":0,"slots":0},"notes":{},"records":2,"writes":32}\n'
)

NOTHING_REPORT = (
    b'{"accepted":true,"drawings":0,"format":"emf","frame":[1,1],"max":[2,3],'
    b'"needs":{"depth":0,"edges":0,"pieces":0,"slots":0},"notes":{},"records":2,"writes":0}\n'
)

# Of the triangle with a wrong checksum.
ALTERED_REPORT = (
    b'{"accepted":true,"drawings":1,"format":"placeable","frame":[4,4],"max":[4,4],'
    b'"needs":{"depth":0,"edges":3,"pieces":0,"slots":0},"notes":{"PlaceableChecksum":1},"records":2,"writes":32}\n'
)

NOTED_REPORT = (
    b'{"accepted":true,"drawings":0,"format":"wmf","frame":[5,6],"max":[10,20],'
    b'"needs":{"depth":2,"edges":0,"pieces":0,"slots":7},'
    b'"notes":{"AfterEnd":1,"DashedPen":1,"SizeField":1,"Skipped":2,"WidePen":1},"records":5,"writes":9}\n'
)


def rejection(code, fault, number="null", record="null"):
    """The report of a rejection."""
    return f'{{"accepted":false,"code":{code},"fault":"{fault}","number":{number},"record":{record}}}\n'.encode()


NOT_METAFILE = rejection(2, "NotMetafile")

# Files that the triangle's certificate doesn't fit, and their reports: TEXTOUT in the polygon's place, a function that the standard doesn't have, no
# end, and nothing.
REJECTED_FILES = [
    (changed(TRIANGLE, 44, b"\x32\x0a"), rejection(15, "Unsupported", 2610, 0)),
    (changed(TRIANGLE, 44, b"\x99\x09"), rejection(14, "UnknownRecord", 2457, 0)),
    (TRIANGLE[:60], rejection(10, "NoEnd", record=1)),
    (b"", NOT_METAFILE),
]

# Each case has the offset of a number in the triangle's certificate, the number's new lowest byte, and the report.
REJECTED_NUMBERS = [
    (12, b"\x1f", rejection(41, "BudgetTooSmall")),
    (52, b"\x03", rejection(39, "BoxTooSmall", record=0)),
    (28, b"\x02", rejection(40, "NeedTooSmall")),
    (40, b"\x01", rejection(38, "WrongEntry", record=0)),
    (4, b"\x00", rejection(8, "BadBound")),
    (0, b"m", rejection(6, "NotCertificate")),
]


def check(given, certificate=TRIANGLE_CERT, out=WORKING):
    """The command that checks a certificate against a file."""
    return Command(CHECK_COMMAND, given, certificate, out=out)


class Reports(CommandsTest):
    """`check`."""

    def test_an_accepted_certificate_is_reported(self):
        accepted = [(check(TRIANGLE), TRIANGLE_REPORT), (check(NOTHING, NOTHING_CERT), NOTHING_REPORT)]
        accepted.append((check(changed(TRIANGLE, 20, b"\x70")), ALTERED_REPORT))
        self.check([(command, Ended(0, report)) for command, report in accepted])

    def test_what_was_noted_is_reported_by_its_names(self):
        self.check([(check(NOTED, NOTED_CERT), Ended(0, NOTED_REPORT))])

    def test_a_refusal_is_reported(self):
        self.check([(check(given), Ended(1, report)) for given, report in REJECTED_FILES])

    def test_a_certificate_that_says_too_little_is_reported(self):
        cases = [(check(TRIANGLE, changed(TRIANGLE_CERT, place, byte)), report) for place, byte, report in REJECTED_NUMBERS]
        cases.append((check(TRIANGLE, TRIANGLE_CERT[:59]), rejection(7, "ShortCertificate")))
        # A surplus entry is in the end record.
        cases.append((check(NOTHING), rejection(38, "WrongEntry", record=1)))
        self.check([(command, Ended(1, report)) for command, report in cases])

    def test_a_report_that_cannot_be_written_has_status_3(self):
        few, some, unflushed = Output(0), Output(40), Output(1000, False)
        cases = [(TRIANGLE, TRIANGLE_REPORT, out) for out in (few, some, unflushed)] + [(b"", NOT_METAFILE, out) for out in (some, unflushed)]
        self.check([(check(given, out=out), Ended(3, report[: out.most], CANNOT_WRITE)) for given, report, out in cases])


# Of the dot without its last byte.
BROKEN_LINES = b"0\t40\t14\t0x041f\tMETA_SETPIXEL\tplayed\tpixel 2,1 #ff0000\n1\t54\t-\t-\t-\trefused\tNoEnd\n"

NOTHING_LINES = b"0\t0\t88\t1\tEMR_HEADER\tplayed\tnothing\n1\t88\t20\t14\tEMR_EOF\tplayed\tnothing\n"

# For record 3 the fault of its run on the largest surface, for record 4 the fault on the smallest.
FAR_LINES = (
    b"0\t40\t8\t0x0103\tMETA_SETMAPMODE\tplayed\tmap mode 8\n"
    b"1\t48\t10\t0x020c\tMETA_SETWINDOWEXT\tplayed\twindow extent 1,1\n"
    b"2\t58\t10\t0x020e\tMETA_SETVIEWPORTEXT\tplayed\tviewport extent 2,2\n"
    b"3\t68\t14\t0x041f\tMETA_SETPIXEL\trefused\tOffPlane\n"
    b"4\t82\t8\t0x0127\tMETA_RESTOREDC\trefused\tNoSavedState\n"
    b"5\t90\t6\t0x0000\tMETA_EOF\tplayed\tnothing\n"
)


class Listings(CommandsTest):
    """`list`."""

    def test_each_record_has_its_line(self):
        self.check([(Command(LIST, DOT), Ended(0, DOT_LINES)), (Command(LIST, NOTHING), Ended(0, NOTHING_LINES))])

    def test_faults_of_the_smallest_surface_and_of_the_largest_are_printed(self):
        self.check([(Command(LIST, FAR), Ended(0, FAR_LINES))])

    def test_records_that_break_have_status_1_and_a_line_for_that(self):
        broken = Ended(1, b"-\t-\t-\t-\t-\trefused\tNotMetafile\n")
        self.check([(Command(LIST, DOT[:59]), Ended(1, BROKEN_LINES)), (Command(LIST, b"GIF89a"), broken)])

    def test_a_listing_that_cannot_be_written_has_status_3(self):
        outputs = [Output(0), Output(20), Output(len(DOT_LINES), False)]
        self.check([(Command(LIST, DOT, out=out), Ended(3, DOT_LINES[: out.most], CANNOT_WRITE)) for out in outputs])


if __name__ == "__main__":
    unittest.main()
