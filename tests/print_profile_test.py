"""The print profile: a plane that is finer than the frame's units, certificates that say by which rules they were made, the deletion of selected
objects, and EMF files that contain EMF+. The numbers were worked by hand."""

import json
import pathlib
import struct
import tempfile
import unittest

from answers import refused, shown
from built import Answer, answer, for_each_program
from command_inputs import TRIANGLE, TRIANGLE_CERT, changed
from metafile.fields import BLACK, RED, i32, u16, u32
from metafile.files import EMF_END, emf_file, emf_record
from metafile.scripts import EMF, FORMS, WMF

PRINT = ["--profile", "print"]
DELETION = [*PRINT, "--allow", "held-deletion"]
EMF_PLUS = [*PRINT, "--allow", "emf-plus"]
BOTH = [*DELETION, "--allow", "emf-plus"]

# The stock objects: a pen that draws nothing, and a black brush.
STOCK = "select_at 0x80000008; select_at 0x80000004"

# A comment ([MS-EMF] 2.3.3.1) of 20 bytes with EMF+ records.
PLUS_COMMENT = emf_record(70, u32(8) + b"EMF+" + u32(0))


# Scripts that delete a selected pen in the record with this number, where the first has number 0; and then make another at its index.
HELD = [
    ("solid_pen 0 0; select 0; delete 0; solid_pen 0 255; move 0 1; line 4 1; delete 0", 2),
    ("solid_pen 0 0; select 0; save 0; delete 0; solid_pen 0 255; select 0; restore -1; delete 0; move 0 1; line 4 1", 3),
]


def prepared(program, given, sides, words=PRINT):
    """The certificate of a file, or the answer if it is refused."""
    with tempfile.TemporaryDirectory() as room:
        path = pathlib.Path(room, "certificate")
        done = answer(program, ["prepare", "stdin", *map(str, sides), path, *words], given)
        return path.read_bytes() if done.status == 0 else done


def checked(program, given, certificate):
    """The report about a file and a certificate."""
    with tempfile.TemporaryDirectory() as room:
        path = pathlib.Path(room, "certificate")
        path.write_bytes(certificate)
        return json.loads(answer(program, ["check", "stdin", path], given).out)


def played(program, given, sides, words=PRINT):
    """What showing a file answers, after its certificate played the same."""
    image = answer(program, ["show", "stdin", *map(str, sides), *words], given)
    certificate = prepared(program, given, sides, words)
    if isinstance(certificate, Answer):
        return image
    with tempfile.TemporaryDirectory() as room:
        path = pathlib.Path(room, "certificate")
        path.write_bytes(certificate)
        for bands in ([], ["--bands", "1"]):
            if answer(program, ["play", "stdin", path, *map(str, sides), *bands], given) != image:
                raise AssertionError("a play by the certificate differs")
    return image


def boxes(certificate):
    """The boxes of a certificate of the print profile, in parts."""
    entries = certificate[44:]
    return [struct.unpack_from("<4i", entries, place + 4) for place in range(0, len(entries), 24)]


class FinePlane(unittest.TestCase):
    """Each unit of the frame has parts, and places are rounded down to parts."""

    @for_each_program
    def test_a_unit_has_as_many_parts_as_the_longer_side_allows(self, program):
        rows = {(1, 1): 4096, (256, 4): 4096, (257, 1): 2048, (8192, 8192): 128, (524288, 1): 2, (1, 524288): 2, (524289, 1): 1}
        rows |= {(1 << 20, 1): 1, ((1 << 20) + 1, 1): 1, (1 << 28, 1): 1}
        for frame, parts in rows.items():
            given = EMF.file(EMF.records("pixel 1 -2"), frame, 1)
            for sides in ((1, 1), (5, 3)):
                self.assertEqual(boxes(prepared(program, given, sides)), [(parts, -2 * parts, parts, -2 * parts)], frame)

    @for_each_program
    def test_each_side_of_a_power_of_two(self, program):
        for power in range(8, 20):
            for side, parts in ((2**power - 1, 2 ** (20 - power)), (2**power, 2 ** (20 - power)), (2**power + 1, 2 ** (19 - power))):
                given = EMF.file(EMF.records("pixel 1 0"), (side, 1), 1)
                self.assertEqual(boxes(prepared(program, given, (1, 1)))[0][0], min(4096, parts), side)

    @for_each_program
    def test_a_page_is_scaled_before_it_is_rounded(self, program):
        script = "map_mode 8; window_extent 3 3; viewport_extent 10 10; pixel {} 0"
        for form in (EMF, WMF):
            for x, place in ((2, 27306), (-1, -13654), (0, 0), (3, 40960)):
                given = form.file(form.records(script.format(x)), 4, 1)
                self.assertEqual(boxes(prepared(program, given, (4, 4)))[0][0], place, (form.name, x))

    @for_each_program
    def test_a_square_lands_where_its_page_is_larger_than_the_frame(self, program):
        given = EMF.file(EMF.records(f"map_mode 8; window_extent 64 64; viewport_extent 4 4; {STOCK}; polygon 8 8 24 8 24 24 8 24"), 4, 1)
        certificate = prepared(program, given, (8, 8))
        self.assertEqual((boxes(certificate), checked(program, given, certificate)["writes"]), ([(2048, 2048, 6144, 6144)], 9))
        self.assertEqual(played(program, given, (8, 8)), shown(dict.fromkeys([(1, 1), (2, 1), (1, 2), (2, 2)], BLACK), 8, 8))
        core = prepared(program, given, (8, 8), [])
        self.assertEqual((core[:4], struct.unpack_from("<4i", core, 44)), (b"MPC1", (0, 0, 1, 1)))
        self.assertEqual(played(program, given, (8, 8), []), shown(dict.fromkeys([(0, 0), (1, 0), (0, 1), (1, 1)], BLACK), 8, 8))

    @for_each_program
    def test_a_frame_may_begin_anywhere(self, program):
        given = emf_file([EMF.pixel(3, 3, BLACK), EMF_END], left=i32(2), top=i32(1), right=i32(5), bottom=i32(4))
        self.assertEqual(played(program, given, (4, 4)), shown({(1, 2): BLACK}))

    @for_each_program
    def test_the_plane_ends_at_its_parts(self, program):
        near = EMF.file(EMF.records("line 8388608 0"), 8192, 1)
        certificate = prepared(program, near, (8192, 8192))
        self.assertEqual(checked(program, near, certificate)["writes"], 8192)
        far = EMF.file(EMF.records("line 8388609 0"), 8192, 1)
        self.assertEqual(prepared(program, far, (8192, 8192)), refused("OffPlane", 1))

    @for_each_program
    def test_a_rectangle_ends_a_pixel_further_not_a_part(self, program):
        given = EMF.file(EMF.records(f"{STOCK}; rectangle 0 0 1 1"), 4, 1)
        self.assertEqual(played(program, given, (8, 8)), played(program, given, (8, 8), []))

    @for_each_program
    def test_a_wide_pen_covers_the_same_pixels(self, program):
        for width in (1, 2, 3, 5):
            given = WMF.file(WMF.records(f"styled_pen 0 0 {width} 255; select 0; move 1 1; line 3 1"), 4, 1)
            for sides in ((4, 4), (9, 9), (40, 31)):
                self.assertEqual(played(program, given, sides), played(program, given, sides, []), (width, sides))


class Certificates(unittest.TestCase):
    """A certificate says by which rules it was made, and what they allow."""

    MADE = b"MPC3" + u32(0, 4, 4, 32, 0, 0, 0, 3, 0, 1) + u32(0, 0, 0, 16384, 16384) + b"\1\0\1\0"

    REPORT = {
        "accepted": True,
        "allowed": {},
        "drawings": 1,
        "format": "placeable",
        "frame": [4, 4],
        "max": [4, 4],
        "needs": {"depth": 0, "edges": 3, "pieces": 0, "slots": 0},
        "notes": {},
        "profile": "print",
        "records": 2,
        "writes": 32,
    }

    @for_each_program
    def test_a_triangle_has_one_of_68_bytes(self, program):
        self.assertEqual(prepared(program, TRIANGLE, (4, 4)), self.MADE)
        self.assertEqual(checked(program, TRIANGLE, self.MADE), self.REPORT)
        self.assertEqual(played(program, TRIANGLE, (4, 4)), played(program, TRIANGLE, (4, 4), []))

    @for_each_program
    def test_what_is_allowed_but_not_used_is_not_reported(self, program):
        made = changed(self.MADE, 4, u32(3))
        self.assertEqual(prepared(program, TRIANGLE, (4, 4), BOTH), made)
        self.assertEqual(checked(program, TRIANGLE, made), self.REPORT)

    @for_each_program
    def test_others_are_rejected(self, program):
        for given, fault, record in (
            (changed(self.MADE, 4, u32(4)), "BadBound", None),
            (changed(self.MADE, 4, u32(1 << 31)), "BadBound", None),
            (self.MADE[:43], "ShortCertificate", None),
            (self.MADE[:67], "ShortCertificate", None),
            (self.MADE + b"\0", "TrailingBytes", None),
            (changed(self.MADE, 56, i32(16383)), "BoxTooSmall", 0),
            (changed(self.MADE, 0, b"MPC2"), "BadBound", None),
            (changed(self.MADE, 0, b"MPC4"), "NotCertificate", None),
        ):
            report = checked(program, TRIANGLE, given)
            self.assertEqual((report.get("fault"), report.get("record")), (fault, record))

    @for_each_program
    def test_a_certificate_of_core_stays(self, program):
        report = {name: value for name, value in self.REPORT.items() if name not in ("allowed", "profile")}
        self.assertEqual(checked(program, TRIANGLE, TRIANGLE_CERT), report)
        self.assertEqual(prepared(program, TRIANGLE, (4, 4), []), TRIANGLE_CERT)
        self.assertEqual(prepared(program, TRIANGLE, (4, 4), ["--profile", "core"]), TRIANGLE_CERT)


class HeldDeletion(unittest.TestCase):
    """A selected object may be deleted if that is allowed: what is selected keeps its values."""

    # Both scripts as files of each format, with the number of the record that deletes what is selected, and the slots of objects that each needs.
    FILES = [(form.file(form.records(script), 4, 2), form.first + place, 1 + form.first) for script, place in HELD for form in FORMS]
    FILE = FILES[0][0]
    IMAGE = shown({(x, 1): BLACK for x in range(4)})

    @for_each_program
    def test_it_is_rejected_unless_it_is_allowed(self, program):
        for given, record, _ in self.FILES:
            for words in ([], PRINT, EMF_PLUS):
                self.assertEqual(played(program, given, (4, 4), words), refused("HeldObject", record))

    @for_each_program
    def test_what_is_selected_keeps_its_values(self, program):
        for given, _, slots in self.FILES:
            self.assertEqual(played(program, given, (4, 4), DELETION), self.IMAGE)
            certificate = prepared(program, given, (4, 4), DELETION)
            report = checked(program, given, certificate)
            self.assertEqual((report["allowed"], report["writes"], report["needs"]["slots"]), ({"held-deletion": 1}, 4, slots))

    @for_each_program
    def test_what_is_deleted_still_draws(self, program):
        whole = {(x, y): RED for x in range(4) for y in range(4)}
        for form in FORMS:
            brush = form.file(form.records("null_pen 0; solid_brush 1 0xFF0000; select 0; select 1; delete 1; delete 0; rectangle 0 0 4 4"), 4, 3)
            pen = form.file(form.records("solid_pen 0 0xFF0000; select 0; delete 0; move 0 1; line 4 1"), 4, 2)
            for words in (DELETION, BOTH):
                self.assertEqual(played(program, brush, (4, 4), words), shown(whole))
                self.assertEqual(played(program, pen, (4, 4), words), shown({(x, 1): RED for x in range(4)}))

    @for_each_program
    def test_a_certificate_that_does_not_allow_it_is_rejected(self, program):
        certificate = prepared(program, self.FILE, (4, 4), BOTH)
        self.assertEqual(certificate[:8], b"MPC3" + u32(3))
        for allowed in (0, 2):
            report = checked(program, self.FILE, changed(certificate, 4, u32(allowed)))
            self.assertEqual((report["fault"], report["record"]), ("HeldObject", 2))

    @for_each_program
    def test_brushes_fonts_and_palettes_too(self, program):
        for kind, more in (("brush", ""), ("font", ""), ("palette", "_palette"), ("pen", "")):
            script = f"{kind} 0; select{more} 0; save 0; delete 0; restore -1; delete 0; pixel 2 1"
            given = EMF.file(EMF.records(script), 4, 2)
            self.assertEqual(played(program, given, (4, 4), DELETION), refused("NoSuchHandle", 6), kind)
            given = EMF.file(EMF.records(f"{kind} 0; select{more} 0; save 0; delete 0; restore -1; {kind} 0; delete 0; pixel 2 1"), 4, 2)
            self.assertEqual(played(program, given, (4, 4), DELETION), shown({(2, 1): RED}), kind)
            report = checked(program, given, prepared(program, given, (4, 4), DELETION))
            self.assertEqual(report["allowed"], {"held-deletion": 1}, kind)


class EmfPlusAlone(unittest.TestCase):
    """An EMF file that contains EMF+ and draws nothing is rejected under the print profile, unless that is allowed."""

    ALONE = emf_file([PLUS_COMMENT, EMF_END])

    @for_each_program
    def test_it_is_rejected_at_the_end_record(self, program):
        self.assertEqual(played(program, self.ALONE, (4, 4)), refused("EmfPlusAlone", 2))
        self.assertEqual(played(program, self.ALONE, (4, 4), DELETION), refused("EmfPlusAlone", 2))
        certificate = changed(prepared(program, self.ALONE, (4, 4), EMF_PLUS), 4, u32(1))
        report = checked(program, self.ALONE, certificate)
        self.assertEqual((report["code"], report["fault"], report["record"]), (48, "EmfPlusAlone", 2))

    @for_each_program
    def test_it_plays_if_it_is_allowed(self, program):
        certificate = prepared(program, self.ALONE, (4, 4), EMF_PLUS)
        report = checked(program, self.ALONE, certificate)
        self.assertEqual((len(certificate), report["allowed"], report["notes"]), (44, {"emf-plus": 1}, {"EmfPlus": 1}))
        self.assertEqual(played(program, self.ALONE, (4, 4), EMF_PLUS), shown({}))
        self.assertEqual(played(program, self.ALONE, (4, 4), []), shown({}))

    @for_each_program
    def test_both_may_be_allowed_and_used(self, program):
        given = emf_file([PLUS_COMMENT, *EMF.records("pen 0; select 0; delete 0"), EMF_END], handles=u16(2))
        self.assertEqual(played(program, given, (4, 4), DELETION), refused("EmfPlusAlone", 5))
        self.assertEqual(played(program, given, (4, 4), EMF_PLUS), refused("HeldObject", 4))
        self.assertEqual(played(program, given, (4, 4), BOTH), shown({}))
        used = {"emf-plus": 1, "held-deletion": 1}
        self.assertEqual(checked(program, given, prepared(program, given, (4, 4), BOTH))["allowed"], used)
        self.assertEqual(json.loads(answer(program, ["info", "stdin", *BOTH], given).out)["allowed"], used)

    @for_each_program
    def test_a_file_that_draws_is_accepted(self, program):
        for records in (EMF.records("pixel 0 0"), EMF.records("polyline")):
            given = emf_file([PLUS_COMMENT, *records, EMF_END])
            report = checked(program, given, prepared(program, given, (4, 4)))
            self.assertEqual((report["accepted"], report["allowed"]), (True, {}))

    @for_each_program
    def test_the_listing_has_the_fault_on_the_end_record(self, program):
        for words, said in (([], "played\tnothing"), (PRINT, "refused\tEmfPlusAlone"), (EMF_PLUS, "played\tnothing")):
            last = answer(program, ["list", "stdin", *words], self.ALONE).out.decode().splitlines()[-1]
            self.assertTrue(last.endswith(said), last)


class Options(unittest.TestCase):
    """The rules are given by options."""

    @for_each_program
    def test_wrong_options_are_wrong_usage(self, program):
        deletion = ["--allow", "held-deletion"]
        for words in (deletion, ["--profile", "core", *deletion], ["--profile", "Print"], [*PRINT, *PRINT], [*PRINT, "--allow", "all"], ["--profile"]):
            for command in (["show", "stdin", "4", "4"], ["list", "stdin"], ["info", "stdin"]):
                done = answer(program, [*command, *words], TRIANGLE)
                self.assertEqual((done.status, done.out), (2, b""), (command, words))
            with tempfile.TemporaryDirectory() as room:
                path = pathlib.Path(room, "certificate")
                done = answer(program, ["prepare", "stdin", "4", "4", path, *words], TRIANGLE)
                self.assertEqual((done.status, done.out, path.exists()), (2, b"", False), words)

    @for_each_program
    def test_the_usage_is_that_of_the_command(self, program):
        for command, usage in (
            (["show", "stdin", "4", "4"], b"Usage: metaplay show [OPTIONS] <FILE> <W> <H>\n"),
            (["prepare", "stdin", "4", "4", "none.cert"], b"Usage: metaplay prepare [OPTIONS] <FILE> <W> <H> <OUT>\n"),
            (["list", "stdin"], b"Usage: metaplay list [OPTIONS] <FILE>\n"),
            (["info", "stdin"], b"Usage: metaplay info [OPTIONS] <FILE>...\n"),
        ):
            for words, why in (
                (["--profile", "paper"], b"error: --profile needs core or print\n"),
                ([*PRINT, "--allow", "text"], b"error: --allow needs held-deletion or emf-plus\n"),
                (["--allow", "emf-plus"], b"error: --allow needs --profile print\n"),
                (["--allow", "text"], b"error: --allow needs held-deletion or emf-plus\n"),
                (["--profile", "paper", "--allow", "text"], b"error: --profile needs core or print\n"),
                ([*BOTH, "--allow", "text"], b"error: --allow needs held-deletion or emf-plus\n"),
                ([*PRINT, *["--allow", "held-deletion"] * 40, "--allow", "text"], b"error: --allow needs held-deletion or emf-plus\n"),
            ):
                done = answer(program, [*command, *words])
                self.assertTrue(done.err.startswith(why + b"\n" + usage), done.err)
        for words in ([], PRINT, BOTH):
            done = answer(program, ["info", "stdin", "stdin", *words])
            self.assertTrue(done.err.startswith(b"error: standard input was given more than once\n\nUsage: metaplay info [OPTIONS] <FILE>...\n"), done.err)

    @for_each_program
    def test_commands_with_a_certificate_take_none(self, program):
        with tempfile.TemporaryDirectory() as room:
            path = pathlib.Path(room, "certificate")
            path.write_bytes(TRIANGLE_CERT)
            for command in (["check", "stdin", path], ["play", "stdin", path, "4", "4"], ["over", "stdin", path, "none.ppm"]):
                for words in (["--profile", "core"], PRINT, ["--allow", "emf-plus"]):
                    done = answer(program, [*command, *words], TRIANGLE)
                    self.assertEqual((done.status, done.out), (2, b""), (command, words))

    @for_each_program
    def test_a_name_may_be_given_again(self, program):
        certificate = prepared(program, TRIANGLE, (4, 4), DELETION)
        for count in range(40):
            self.assertEqual(prepared(program, TRIANGLE, (4, 4), [*DELETION, *["--allow", "held-deletion"] * count]), certificate, count)

    @for_each_program
    def test_options_may_stand_anywhere(self, program):
        image = answer(program, ["show", "stdin", "4", "4", *BOTH, "--fit"], TRIANGLE)
        self.assertEqual(image.status, 0)
        for words in (
            ["show", *BOTH, "--fit", "stdin", "4", "4"],
            ["show", "--allow", "emf-plus", "stdin", "--allow", "held-deletion", "4", "--profile", "print", "4", "--fit"],
            ["show", "--fit", "stdin", "--profile=print", "4", "--allow=held-deletion", "4", "--allow=emf-plus"],
        ):
            self.assertEqual(answer(program, words, TRIANGLE), image, words)

    @for_each_program
    def test_info_is_by_the_rules(self, program):
        for given, words, told in (
            (HeldDeletion.FILE, DELETION, {"allowed": {"held-deletion": 1}, "plays": True, "profile": "print"}),
            (HeldDeletion.FILE, PRINT, {"allowed": None, "fault": "HeldObject", "plays": False, "profile": "print"}),
            (EmfPlusAlone.ALONE, PRINT, {"allowed": None, "fault": "EmfPlusAlone", "plays": False, "record": 2}),
            (EmfPlusAlone.ALONE, EMF_PLUS, {"allowed": {"emf-plus": 1}, "plays": True}),
        ):
            line = json.loads(answer(program, ["info", "stdin", *words], given).out)
            self.assertEqual({name: line[name] for name in told}, told)
        line = json.loads(answer(program, ["info", "stdin"], HeldDeletion.FILE).out)
        self.assertFalse({"allowed", "profile"} & line.keys())


if __name__ == "__main__":
    unittest.main()
