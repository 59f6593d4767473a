"""Listings in the built programs: of each sample, of samples that were altered, of files cut short, of
files whose headers are refused, and of all kinds of both formats, compared whole with what `reading` makes of the same bytes."""

import random
import re
import unittest

from built import SAMPLES, Answer, answer, for_each_program
from listing_stops import APART, APART_AT, DOUBLED, FAR, NIB_PATH_STOPS, NIB_STOPS, PATH_STOPS, STOPS, TOLD_APART, TOLD_BOTH
from metafile.fields import BLUE, colour, i16, joined, u16, u32
from metafile.files import EMF_END, emf_file, emf_record, placeable_file, plain_file, wmf_record
from metafile.scripts import FORMS
from metafile.shapes import BOUNDS
from reading.commands import Asked
from reading.listing import listing
from reading.rules import CORE, PRINT, Rules
from standards.emf import EMF
from standards.wmf import WMF

# The lines of a small sample, by hand: META_SETWINDOWEXT, four pixels, and the end.
SMALL = b"".join(
    [
        b"0\t18\t10\t0x020c\tMETA_SETWINDOWEXT\tplayed\twindow extent 4,4\n",
        b"1\t28\t14\t0x041f\tMETA_SETPIXEL\tplayed\tpixel 0,0 #ff0000\n",
        b"2\t42\t14\t0x041f\tMETA_SETPIXEL\tplayed\tpixel 1,1 #00ff00\n",
        b"3\t56\t14\t0x041f\tMETA_SETPIXEL\tplayed\tpixel 2,2 #0000ff\n",
        b"4\t70\t14\t0x041f\tMETA_SETPIXEL\tplayed\tpixel 3,3 #000000\n",
        b"5\t84\t6\t0x0000\tMETA_EOF\tplayed\tnothing\n",
    ]
)

# Those of the sample that deletes a pen which is selected.
HELD = b"".join(
    [
        b"0\t40\t16\t0x02fa\tMETA_CREATEPENINDIRECT\tplayed\tcreate pen #ff0000 width 1\n",
        b"1\t56\t16\t0x02fa\tMETA_CREATEPENINDIRECT\tplayed\tcreate pen #0000ff width 1\n",
        b"2\t72\t8\t0x012d\tMETA_SELECTOBJECT\tplayed\tselect 1\n",
        b"3\t80\t10\t0x0213\tMETA_LINETO\tplayed\tline 4,4\n",
        b"4\t90\t8\t0x01f0\tMETA_DELETEOBJECT\tplayed\tdelete 0\n",
        b"5\t98\t8\t0x01f0\tMETA_DELETEOBJECT\trefused\tHeldObject\n",
        b"6\t106\t6\t0x0000\tMETA_EOF\tplayed\tnothing\n",
    ]
)

# Records that no sample has: comments with records of EMF+ and without, map mode 7, a null brush, three polygons of two, no and three points, a
# polyline without a point, and a record without a polyline.
RARE = [
    emf_record(70, u32(4) + b"EMF+"),
    emf_record(70, u32(4) + b"EMF-"),
    emf_record(17, u32(7)),
    emf_record(39, u32(1, 1) + colour() + u32(0)),
    emf_record(91, BOUNDS + u32(3, 5, 2, 0, 3) + i16(*[1] * 10)),
    emf_record(7, BOUNDS + u32(1, 0, 0)),
    emf_record(7, BOUNDS + u32(0, 0)),
    EMF_END,
]

# Their lines, by hand.
RARE_LINES = b"".join(
    [
        b"0\t0\t88\t1\tEMR_HEADER\tplayed\tnothing\n",
        b"1\t88\t16\t70\tEMR_COMMENT\tnoted\tnothing; EmfPlus\n",
        b"2\t104\t16\t70\tEMR_COMMENT\tnoted\tnothing; Skipped\n",
        b"3\t120\t12\t17\tEMR_SETMAPMODE\tplayed\tmap mode 7; Isotropic\n",
        b"4\t132\t24\t39\tEMR_CREATEBRUSHINDIRECT\tplayed\tcreate 1 brush null\n",
        b"5\t156\t64\t91\tEMR_POLYPOLYGON16\tplayed\tpolygon lists 3, points 5\n",
        b"6\t220\t36\t7\tEMR_POLYPOLYLINE\tplayed\tpolyline lists 1, points 0\n",
        b"7\t256\t32\t7\tEMR_POLYPOLYLINE\tplayed\tpolyline lists 0, points 0\n",
        b"8\t288\t20\t14\tEMR_EOF\tplayed\tnothing\n",
    ]
)

NO_METAFILE = b"-\t-\t-\t-\t-\trefused\tNotMetafile\n"

# What a command tells of a refusal in a record: the fault, its kind where it tells one, and the record's number.
TOLD = re.compile(r"metaplay: (\w+)(?: \w+)? at record (\d+)\n")

SEED = 1

# The print profile with all that it may allow.
ALLOWING = Rules(is_print=True, held_deletion=True, emf_plus=True)


def listed(program, given, rules=CORE):
    """What a program answers to `list` of some bytes under rules."""
    return answer(program, ["list", "stdin", *rules.words()], given)


def wanted(given, stops=()):
    """What it is to answer: nothing is told on standard error, since the listing tells all."""
    text, has_ended = listing(given, stops)
    return Answer(0 if has_ended else 1, text, b"")


def all_kinds(form):
    """A file that has each kind of a format with its least parameters, each without any, and kinds
    that the standard lacks. Those whose playing would be refused come last of all."""
    kinds = [kind for kind in form.kinds if form.record(kind.number) != form.end[:6]]
    named = [kind.number for kind in kinds] + [*form.skipped, *form.refused, *form.bitmaps]
    ends = {0x0000} if form is WMF else {14}
    least = [form.record(kind.number, joined(kind.least, {})) for kind in kinds]
    least = [record for record, kind in zip(least, kinds, strict=True) if kind.number not in ends]
    empty = [form.record(number) for number in named if number not in ends]
    absent = [form.record(number) for number in (0x7777, 0x0A0A, 0xFFFF)]
    # A fault of meaning comes first, so that no fault of the playing state is told.
    return form.file([form.record(0x7777), *least, *empty, *absent, form.end])


def samples():
    """The samples that are metafiles."""
    return [path for path in sorted(SAMPLES.iterdir()) if path.suffix in (".wmf", ".emf")]


def altered(file, chance):
    """A file with one to three bytes changed."""
    changed = bytearray(file)
    for _ in range(chance.randint(1, 3)):
        changed[chance.randrange(len(file))] = chance.choice([0, 1, 2, 255, chance.randrange(256)])
    return bytes(changed)


def refused_at(program, given, side, rules=CORE):
    """The record in which the run on a square surface is refused, and the fault, as the program tells them where it prepares for it."""
    told = TOLD.fullmatch(answer(program, ["prepare", "stdin", str(side), str(side), "/dev/null", *rules.words()], given).err.decode())
    return (int(told[2]), told[1]) if told else None


def stops_of(program, given, rules=CORE):
    """The records in which the runs on the largest surface and on the smallest are refused, and the faults."""
    return [it for it in (refused_at(program, given, side, rules) for side in (8192, 1)) if it]


def first_refused(program, given, rules=CORE):
    """The first record whose line tells that it is refused and the fault, or nothing."""
    lines = [line.split("\t") for line in listed(program, given, rules).out.decode().splitlines()]
    return next(((int(line[0]), line[6]) for line in lines if line[5] == "refused" and line[0] != "-"), None)


class Listings(unittest.TestCase):
    """`list`: its lines and its status."""

    def same(self, program, given, stops=(), name=None):
        """A listing is that of the player in Python."""
        self.assertEqual(listed(program, given), wanted(given, stops), name)

    @for_each_program
    def test_small_ones_by_hand(self, program):
        small, held = ((SAMPLES / name).read_bytes() for name in ("small.wmf", "held.wmf"))
        self.assertEqual(listed(program, small), Answer(0, SMALL, b""))
        self.assertEqual(listed(program, held), Answer(0, HELD, b""))

    @for_each_program
    def test_a_file_without_object_indexes_by_hand(self, program):
        given = emf_file([EMF_END], handles=u16(0))
        lines = b"0\t0\t88\t1\tEMR_HEADER\tplayed\tnothing\n1\t88\t20\t14\tEMR_EOF\tplayed\tnothing\n"
        self.assertEqual(listed(program, given), Answer(0, lines, b""))

    @for_each_program
    def test_records_that_no_sample_has_by_hand(self, program):
        given = emf_file(RARE)
        self.assertEqual(listed(program, given), Answer(0, RARE_LINES, b""))
        self.same(program, given)

    @for_each_program
    def test_each_sample(self, program):
        for path in samples():
            stops = [(5, "HeldObject")] if path.name == "held.wmf" else []
            self.same(program, path.read_bytes(), stops, path.name)

    @for_each_program
    def test_a_record_in_which_a_run_is_refused_is_refused_by_that_fault(self, program):
        chance = random.Random(SEED)
        stops = 0
        for path in samples():
            file = path.read_bytes()
            for trial in range(25 if len(file) < 3000 else 2):
                changed = altered(file, chance)
                for rules in (CORE, PRINT, ALLOWING):
                    told = listed(program, changed, rules)
                    self.assertEqual(told, Asked(changed, rules).list(), (path.name, trial, rules))
                    found = stops_of(program, changed, rules)
                    if found:
                        stops += 1
                        # In one record the line tells the largest surface's fault.
                        self.assertEqual(first_refused(program, changed, rules), min(found, key=lambda it: it[0]), (path.name, trial, rules))
        self.assertGreater(stops, 150)

    @for_each_program
    def test_each_record_that_is_refused_on_some_surface(self, program):
        for form in FORMS:
            for script, off, stop in STOPS + (PATH_STOPS if "begin_path" in form.named else []):
                front = form.records(DOUBLED)
                given = form.file([*front, *form.records(script)], 1, 16)
                first = form.first + len(front)
                stops = [(first + number, fault) for number, fault in [*((it, "OffPlane") for it in off), *filter(None, [stop])]]
                self.same(program, given, stops, (form.name, script))
                self.assertEqual(Asked(given).list(), wanted(given, stops), (form.name, script))
                self.assertEqual(stops_of(program, given), stops[:1] + stops[-1:] * bool(stop), (form.name, script))

    @for_each_program
    def test_each_record_whose_nib_is_too_wide_on_some_surface(self, program):
        for form in FORMS:
            front = form.records(DOUBLED)
            first = form.first + len(front)
            for script, told, runs in NIB_STOPS + (NIB_PATH_STOPS if "begin_path" in form.named else []):
                given = form.file([*front, *form.records(script)], 1, 16)
                told, runs = ([(first + number, fault) for number, fault in its] for its in (told, runs))
                self.same(program, given, told, (form.name, script))
                self.assertEqual(Asked(given).list(), wanted(given, told), (form.name, script))
                self.assertEqual(stops_of(program, given), runs, (form.name, script))

    @for_each_program
    def test_the_fault_at_each_bound_is_told_on_its_line(self, program):
        form = FORMS[0]
        given = form.file(form.records(APART), 1, 1)
        self.assertEqual(listed(program, given), Answer(0, TOLD_APART, b""))
        for side, record in APART_AT:
            self.assertEqual(refused_at(program, given, side), (record, "OffPlane") if record else None, side)

    @for_each_program
    def test_a_fault_of_the_largest_surface_in_front_of_another_by_hand(self, program):
        form = FORMS[0]
        given = form.file(form.records(f"{DOUBLED}; {FAR}; restore -1"), 1, 1)
        self.assertEqual(listed(program, given), Answer(0, TOLD_BOTH, b""))

    @for_each_program
    def test_a_fault_of_the_largest_surface_in_front_of_records_that_mean_nothing_or_break(self, program):
        for form in FORMS:
            front = form.records(f"{DOUBLED}; {FAR}")
            first = form.first + len(front)
            stop = (first - 1, "OffPlane")
            # The smallest surface's run stops behind it, by a fault of meaning or of framing, which is told without a run.
            given = form.file([*front, form.record(0x7777, bytes(8))], 1, 1)
            cut = given[: -len(form.end) - 2]
            for given, fault in [(given, "UnknownRecord"), (cut, "PastEnd")]:
                self.assertEqual(stops_of(program, given), [stop, (first, fault)], (form.name, fault))
                self.same(program, given, [stop], (form.name, fault))

    @for_each_program
    def test_cut_at_each_byte_of_the_last_records(self, program):
        for name in ("small.wmf", "small.emf", "dot.wmf"):
            file = (SAMPLES / name).read_bytes()
            lines = listing(file)[0].decode().splitlines()
            place = int(lines[-3:][0].split("\t")[1])
            for end in range(place, len(file)):
                self.same(program, file[:end], name=(name, end))

    @for_each_program
    def test_all_kinds(self, program):
        for form in (WMF, EMF):
            self.same(program, all_kinds(form), name=form.name)

    @for_each_program
    def test_headers_that_are_refused(self, program):
        pixel, end = wmf_record(0x041F, bytes(8)), wmf_record(0)
        files = [
            plain_file([pixel, end]),
            plain_file([pixel, end], version=u16(7)),
            placeable_file([pixel, end], right=u16(0)),
            placeable_file([pixel, end], version=u16(7)),
            emf_file([EMF_END], size=u32(80)),
        ]
        for file in files:
            self.same(program, file)
        for file in (b"", b"\xd7", b"GIF89a"):
            self.assertEqual(listed(program, file), Answer(1, NO_METAFILE, b""))
        for length in range(4, 40):
            self.same(program, files[2][:length])

    @for_each_program
    def test_framing(self, program):
        pixel, end = EMF.pixel(1, 1, BLUE), EMF_END
        for size in (0, 4, 7, 9, 1 << 20, (1 << 32) - 4):
            self.same(program, emf_file([pixel, emf_record(27, bytes(8), size), end]))
        for size in (0, 2, 1 << 20, (1 << 32) - 1, 1 << 31):
            broken = wmf_record(0x0214, bytes(4), size)
            self.same(program, placeable_file([WMF.pixel(1, 1, BLUE), broken, WMF.end]))
        self.same(program, placeable_file([WMF.end, b"\0"]))


if __name__ == "__main__":
    unittest.main()
