"""Listings of each count of records, and reports of each count of drawings, notes, records and deletions of selected objects."""

import itertools
import unittest

from built import DOT
from metafile.fields import RED, u32
from metafile.files import WMF_END, wmf_pixel, wmf_record
from metafile.scripts import WMF
from reading.rules import CORE, PRINT, Rules
from request_program import CHECK_COMMAND, LIST, PREPARE_COMMAND, PROGRAMS, SHOW, Command, CommandsTest, Ended

# META_SETPIXEL of red at (2,1), and META_ESCAPE, which is skipped.
PIXEL, SKIPPED = wmf_pixel(2, 1, RED), wmf_record(0x0626)

# A certificate at 4 by 4 of no drawing.
NONE = b"MPC1" + u32(4, 4, 0, 0, 0, 0, 0, 0, 0)

# A certificate of the print profile at 4 by 4 of no drawing, which allows held deletions and needs a slot; and these rules.
NONE_HELD = b"MPC3" + u32(1, 4, 4, 0, 0, 0, 1, 0, 0, 0)
ALLOWING = Rules(is_print=True, held_deletion=True)

# Each small count, and counts beside powers of two above these.
COUNTS = [*range(501), 511, 512, 513, 1023, 1024, 1025, 4095, 4096, 4097, 9999, 10_000, 16_384, 65_536]


def repeated(record, count, end=WMF_END):
    """A placeable file of so many times a record, and these bytes behind them."""
    return DOT[:40] + record * count + end


def lines_of(count):
    """The listing of a file of so many pixels, and its end."""
    pixels = [f"{nth}\t{40 + 14 * nth}\t14\t0x041f\tMETA_SETPIXEL\tplayed\tpixel 2,1 #ff0000\n" for nth in range(count)]
    return "".join([*pixels, f"{count}\t{40 + 14 * count}\t6\t0x0000\tMETA_EOF\tplayed\tnothing\n"]).encode()


def certificate_of(count, rules):
    """The certificate of a file of so many pixels at 4 by 4: 40 bytes, and 20 for each; under print, where a unit has 4,096 parts, 44 and 24."""
    head = u32(4, 4, count, 0, 0, 0, 0, 0, count)
    if rules == CORE:
        return b"MPC1" + head + b"".join(u32(nth, 2, 1, 2, 1) for nth in range(count))
    return b"MPC3" + u32(0) + head + b"".join(u32(nth, 8192, 4096, 8192, 4096) + b"\1\0\1\0" for nth in range(count))


def report_of(drawings, notes, records, rules=CORE):
    """The report of an accepted certificate at 4 by 4, with these drawings, notes and records. As many pixels are written as are drawn."""
    allowed, profile = ("", "") if rules == CORE else ('"allowed":{},', '"profile":"print",')
    return (
        f'{{"accepted":true,{allowed}"drawings":{drawings},"format":"placeable","frame":[4,4],"max":[4,4],'
        f'"needs":{{"depth":0,"edges":0,"pieces":0,"slots":0}},"notes":{{{notes}}},{profile}"records":{records},"writes":{drawings}}}\n'
    ).encode()


def held_report(count):
    """The report of a file with so many deletions of a selected pen, each of which is then made and selected again."""
    used = f'"held-deletion":{count}' if count else ""
    return (
        f'{{"accepted":true,"allowed":{{{used}}},"drawings":0,"format":"placeable","frame":[4,4],"max":[4,4],'
        f'"needs":{{"depth":0,"edges":0,"pieces":0,"slots":1}},"notes":{{"SizeField":1}},"profile":"print","records":{3 + 3 * count},"writes":0}}\n'
    ).encode()


def no_end_report(count):
    """The report of a file that ends after so many records."""
    return b'{"accepted":false,"code":10,"fault":"NoEnd","number":null,"record":%d}\n' % count


class EachCount(CommandsTest):
    """Records up to some hundreds, and some greater counts of them."""

    def test_a_listing_has_each_count_of_records(self):
        self.check((Command(LIST, repeated(PIXEL, count)), Ended(0, lines_of(count))) for count in COUNTS)

    def test_a_report_has_each_count_of_drawings(self):
        cases = []
        for count, rules in itertools.product(COUNTS, (CORE, PRINT)):
            given, certificate = repeated(PIXEL, count), certificate_of(count, rules)
            # The header gives the size of a file of one pixel.
            report = report_of(count, "" if count == 1 else '"SizeField":1', count + 1, rules)
            cases.append((Command(PREPARE_COMMAND, given, sides=(4, 4), rules=rules), Ended(0, certificate)))
            cases.append((Command(CHECK_COMMAND, given, certificate), Ended(0, report)))
        self.check(cases)

    def test_a_report_has_each_count_of_notes_and_each_record(self):
        cases = []
        for count in COUNTS:
            notes = f'"SizeField":1,"Skipped":{count}' if count else '"SizeField":1'
            cases.append((Command(CHECK_COMMAND, repeated(SKIPPED, count), NONE), Ended(0, report_of(0, notes, count + 1))))
            # A file that ends after these records is rejected there.
            cases.append((Command(CHECK_COMMAND, repeated(SKIPPED, count, b""), NONE), Ended(1, no_end_report(count))))
        self.check(cases)

    def test_a_report_has_each_count_of_held_deletions(self):
        start, again = (b"".join(WMF.records(script)) for script in ("pen 0; select 0", "delete 0; pen 0; select 0"))
        cases = []
        for count in COUNTS:
            given = DOT[:40] + start + again * count + WMF_END
            cases.append((Command(PREPARE_COMMAND, given, sides=(4, 4), rules=ALLOWING), Ended(0, NONE_HELD)))
            cases.append((Command(CHECK_COMMAND, given, NONE_HELD), Ended(0, held_report(count))))
        self.check(cases)

    def test_a_rejection_in_each_record_is_reported(self):
        file = repeated(SKIPPED, 6_000, b"")
        rejected = ((file[: 40 + len(SKIPPED) * count], b"metaplay: NoEnd at record %d\n" % count) for count in range(6_001))
        self.check(((Command(SHOW, given, sides=(4, 4)), Ended(1, b"", line)) for given, line in rejected), PROGRAMS[:1])

    def test_a_file_of_each_length_is_listed(self):
        lines = b"0\t40\t14\t0x041f\tMETA_SETPIXEL\tplayed\tpixel 2,1 #ff0000\n1\t54\t6\t0x0000\tMETA_EOF\tplayed\tnothing; AfterEnd\n"
        file = repeated(PIXEL, 1)
        self.check(((Command(LIST, file + b"\x07" * count), Ended(0, lines)) for count in range(1, 10_001)), PROGRAMS[:1])


if __name__ == "__main__":
    unittest.main()
