"""The line about a file, compared whole with what `reading` makes of the same bytes: samples, random files, files with faults in their headers,
files cut short, and odd names."""

import json
import random
import unittest

from built import DOT
from listing_test import all_kinds, altered, samples
from metafile.fields import i16, i32, u16, u32
from metafile.files import EMF_END, WMF_END, emf_file, emf_record, placeable_file, plain_file, wmf_record
from reading.info import info
from reading.rules import CORE, PRINT, Rules
from request_program import INFO, PROGRAMS, Command, replies
from standards.emf import EMF
from standards.wmf import WMF

SEED = 1

# The line of the dot, by hand. Its box is 4 by 4 units, and an inch has 96: the box is 105.83 hundredths of a millimetre wide.
DOT_LINE = (
    b'{"description":null,"dots_per_inch":[96,96],"drawings":1,"emf_frame":null,"error":null,"fault":null,"faults":[],"file":"dot.wmf",'
    b'"format":"placeable","frame":[4,4],"notes":{},"number":null,"objects":0,"plays":true,"record":null,"record_name":null,"records":2,'
    b'"size":[106,106]}\n'
)

# That of bytes that begin like no metafile.
NOTHING_LINE = (
    b'{"description":null,"dots_per_inch":null,"drawings":null,"emf_frame":null,"error":null,"fault":"NotMetafile",'
    b'"faults":[{"count":1,"fault":"NotMetafile","number":null,"record_name":null}],"file":"","format":null,"frame":null,"notes":{},"number":null,'
    b'"objects":null,"plays":false,"record":null,"record_name":null,"records":null,"size":null}\n'
)

# Of EMF files with a frame of 3 by 3 pixels: Device, Millimeters, and the dots per inch and the frame's size by them, worked out by hand. 100 pixels
# on 1 mm are 2,540 dots per inch, and 3 of them 3 hundredths of a millimetre. 4,227,330,015 pixels on 25 mm are 4,294,967,295.24 dots per inch, and
# one pixel more is 4,294,967,296.26. On 1,431,655,765 mm, 3 of 100 pixels take 4,294,967,295 hundredths, and on one millimetre more 4,294,967,298.
LONGEST = 4294967295
ON_PAPER = [
    ((100, 100), (1, 1), [2540, 2540], [3, 3]),
    ((100, 100), (1431655765, 1431655765), [0, 0], [LONGEST, LONGEST]),
    ((100, 100), (1431655766, 1), [0, 2540], None),
    ((100, 100), (1, 1431655766), [2540, 0], None),
    ((4227330015, 4227330015), (25, 25), [LONGEST, LONGEST], [0, 0]),
    ((4227330016, 100), (25, 1), None, [0, 3]),
    ((100, 4227330016), (1, 25), None, [3, 0]),
    ((4227330016, 100), (25, 1431655766), None, None),
]

# A window extent of 4 by 4.
EXTENT = wmf_record(0x020C, i16(4, 4))


# Rules: those of core, and those of the print profile that allow nothing, and all.
RULES = [CORE, PRINT, Rules(True, True, True)]


def lines(program, cases, rules=CORE):
    """The lines of pairs of a name and a file."""
    return [made for _, made in replies(program, [Command(INFO, given, name.encode(), rules=rules).asked() for name, given in cases])]


class Information(unittest.TestCase):
    """Lines of files."""

    def check(self, cases, programs=PROGRAMS):
        """The lines of pairs of a name and a file are those of `reading`."""
        cases = list(cases)
        for rules in RULES:
            wanted = [info(name, given, rules)[0] for name, given in cases]
            for program in programs:
                for case, found, line in zip(cases, lines(program, cases, rules), wanted, strict=True):
                    self.assertEqual(found, line, (case, rules))

    def test_lines_by_hand(self):
        for program in PROGRAMS:
            self.assertEqual(lines(program, [("dot.wmf", DOT), ("", b"")]), [DOT_LINE, NOTHING_LINE])

    def test_each_sample(self):
        self.check((path.name, path.read_bytes()) for path in samples())

    def test_all_kinds_of_records(self):
        self.check((form.name, all_kinds(form)) for form in (WMF, EMF))

    def test_random_files(self):
        chance = random.Random(SEED)
        files = [path.read_bytes() for path in samples() if path.stat().st_size < 3000]
        self.check((str(trial), altered(chance.choice(files), chance)) for trial in range(300))

    def test_files_cut_in_each_part(self):
        for file in (DOT, emf_file([EMF_END]), plain_file([EXTENT, WMF_END])):
            self.check((str(length), file[:length]) for length in range(len(file)))

    def test_names_that_are_escaped(self):
        names = ['"', "\\", "a b", "\n\t\r\b\f", "\x00\x1f\x7f", "\u00e9\u2028\uffff", "\U0001f5bc.emf", "/a/b"]
        self.check((name, DOT) for name in names)

    def test_sizes_on_paper(self):
        inches = [0, 1, 2, 3, 96, 1440, 65535]
        self.check((str(inch), placeable_file([WMF_END], inch=u16(inch), right=i16(7), bottom=i16(-5))) for inch in inches)
        devices = [((1024, 768), (320, 240)), ((1, 1), (1, 1)), ((0, 1), (1, 1)), ((1, 1), (1, 0)), ((3, 7), (2, 5)), ((0xFFFFFFFF, 1), (1, 0xFFFFFFFF))]
        self.check((str(it), emf_file([EMF_END], device=u32(*it[0]), millimetres=u32(*it[1]), frame=i32(-1, 0, 2147483647, -2147483648))) for it in devices)

    def test_each_member_has_its_own_limit(self):
        files = [emf_file([EMF_END], right=i32(2), bottom=i32(2), device=u32(*it[0]), millimetres=u32(*it[1])) for it in ON_PAPER]
        wanted = [(dots, size) for _, _, dots, size in ON_PAPER]
        for program in PROGRAMS:
            found = [json.loads(line) for line in lines(program, [("", it) for it in files])]
            self.assertEqual([(it["dots_per_inch"], it["size"]) for it in found], wanted)
        self.check(("", it) for it in files)

    def test_many_faults_of_many_kinds(self):
        unknown = [wmf_record(0x7000 + number % 7) for number in range(50)]
        self.check([("faults", plain_file([EXTENT, *unknown, wmf_record(0x0A32), WMF_END]))])
        kinds = [emf_record(1000 + number) for number in range(5000)]
        self.check([("kinds", emf_file([*kinds, *kinds[:100], EMF_END]))])


if __name__ == "__main__":
    unittest.main()
