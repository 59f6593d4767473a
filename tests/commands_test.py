"""The commands for certificates in the built program: what they write and tell, and what becomes of a file that is to be written."""

import json
import os
import re
import shutil
import struct
import subprocess
import tempfile
import threading
import unittest

from answers import refused
from built import DOT, DOT_IMAGE, ROOT, SAMPLES, Answer, answer, for_each_program
from metafile.fields import i16, i32, u32
from metafile.files import placeable_file, wmf_record
from program_test import CANNOT_READ, CANNOT_WRITE, as_nobody

DOT_FILE = SAMPLES / "dot.wmf"

# The certificate of the dot for surfaces up to 4 by 4: one write, no need, and one entry, of record 0 and the point (2,1).
DOT_CERT = b"MPC1" + struct.pack("<IIQ5I", 4, 4, 1, 0, 0, 0, 0, 1) + struct.pack("<I4i", 0, 2, 1, 2, 1)

# Its report, key by key.
DOT_REPORT = (
    b'{"accepted":true,"drawings":1,"format":"placeable","frame":[4,4],"max":[4,4],'
    b'"needs":{"depth":0,"edges":0,"pieces":0,"slots":0},"notes":{},"records":2,"writes":1}\n'
)

DONE = Answer(0, b"", b"")

# The formats of the samples, by the ends of their names and their first bytes.
FORMATS = {b"\xd7\xcd\xc6\x9a": "placeable", b"\x01\0\0\0": "emf", b"\x01\0\x09\0": "wmf"}


class CommandTest(unittest.TestCase):
    """Tests with a folder of their own, in which the dot's certificate lies."""

    def setUp(self):
        self.folder = tempfile.mkdtemp()
        self.addCleanup(shutil.rmtree, self.folder)
        self.certificate = self.file("dot.cert", DOT_CERT)

    def file(self, name, given):
        """A file of these bytes in the folder."""
        path = os.path.join(self.folder, name)
        with open(path, "wb") as file:
            file.write(given)
        return path

    def kept(self, path):
        """The bytes of a file."""
        with open(path, "rb") as file:
            return file.read()


class Samples(CommandTest):
    """Each sample."""

    @for_each_program
    def test_each_sample_is_prepared_checked_and_played(self, program):
        for sample in sorted(SAMPLES.glob("*.?mf")):
            with self.subTest(sample=sample.name):
                certificate = os.path.join(self.folder, sample.name)
                if sample.name == "held.wmf":
                    told = refused("HeldObject", 5)
                    self.assertEqual(answer(program, ["prepare", sample, "64", "48", certificate]), told)
                    self.assertFalse(os.path.exists(certificate))
                    continue
                self.assertEqual(answer(program, ["prepare", sample, "64", "48", certificate]), DONE)
                checked = answer(program, ["check", sample, certificate])
                report = json.loads(checked.out)
                self.assertEqual((checked.status, checked.err), (0, b""))
                self.assertEqual((report["accepted"], report["max"]), (True, [64, 48]))
                self.assertEqual(report["format"], FORMATS[sample.read_bytes()[:4]])
                for width, height in [("64", "48"), ("17", "48"), ("1", "1")]:
                    shown = answer(program, ["show", sample, width, height])
                    played = answer(program, ["play", sample, certificate, width, height])
                    self.assertEqual((shown.status, played), (0, shown))
                    white = b"\xff" * (3 * int(width) * int(height))
                    paper = self.file("paper.ppm", f"P6 {width} {height} 255 ".encode() + white)
                    self.assertEqual(answer(program, ["over", sample, certificate, paper]), shown)

    @for_each_program
    def test_a_refused_sample_is_reported(self, program):
        # Its line is record 3, from (0,0) to (4,4), and has its entry: so the first refusal is that of record 5.
        certificate = os.path.join(self.folder, "held")
        with open(certificate, "wb") as file:
            file.write(b"MPC1" + struct.pack("<IIQ5I", 4, 4, 100, 0, 2, 2, 0, 1) + struct.pack("<I4i", 3, 0, 0, 4, 4))
        checked = answer(program, ["check", SAMPLES / "held.wmf", certificate])
        report = b'{"accepted":false,"code":27,"fault":"HeldObject","number":null,"record":5}\n'
        self.assertEqual(checked, Answer(1, report, b""))


class Prepare(CommandTest):
    """`prepare FILE W H OUT`."""

    @for_each_program
    def test_the_certificate_is_written_to_its_file(self, program):
        output = os.path.join(self.folder, "new")
        self.assertEqual(answer(program, ["prepare", DOT_FILE, "4", "4", output]), DONE)
        self.assertEqual(self.kept(output), DOT_CERT)
        output = self.file("old", bytes(1000))
        self.assertEqual(answer(program, ["prepare", "stdin", "4", "4", output], DOT), DONE)
        self.assertEqual(self.kept(output), DOT_CERT)

    @for_each_program
    def test_of_a_refused_file_nothing_is_written(self, program):
        new, old = os.path.join(self.folder, "new"), self.file("old", b"as it was")
        for output in [new, old]:
            told = answer(program, ["prepare", "stdin", "4", "4", output], DOT[:54])
            self.assertEqual(told, refused("NoEnd", 1))
            told = answer(program, ["prepare", "/no/such/file", "4", "4", output])
            self.assertEqual(told, CANNOT_READ)
            self.assertEqual(answer(program, ["prepare", "stdin", "0", "4", output], DOT).status, 2)
        self.assertFalse(os.path.exists(new))
        self.assertEqual(self.kept(old), b"as it was")

    @for_each_program
    def test_a_file_that_cannot_be_made_cannot_be_written(self, program):
        for output in ["/no/such/folder/out", self.folder, "", "/dev/full"]:
            told = answer(program, ["prepare", DOT_FILE, "4", "4", output])
            self.assertEqual(told, CANNOT_WRITE, output)
        # The file's own refusal comes first.
        told = answer(program, ["prepare", "stdin", "4", "4", "/no/such/folder/out"], DOT[:54])
        self.assertEqual(told, refused("NoEnd", 1))

    @for_each_program
    def test_a_file_that_may_not_be_written_is_as_it_was(self, program):
        os.chmod(self.folder, 0o755)
        copy = shutil.copy(program, f"{self.folder}/metaplay")
        os.chmod(copy, 0o755)
        output = self.file("old", b"as it was")
        os.chmod(output, 0o444)
        told = answer(copy, ["prepare", "stdin", "4", "4", output], DOT, preexec_fn=as_nobody)
        self.assertEqual(told, CANNOT_WRITE)
        self.assertEqual(self.kept(output), b"as it was")


class Check(CommandTest):
    """`check FILE CERT`."""

    @for_each_program
    def test_the_report_goes_to_standard_output(self, program):
        self.assertEqual(answer(program, ["check", DOT_FILE, self.certificate]), Answer(0, DOT_REPORT, b""))
        self.assertEqual(answer(program, ["check", "stdin", self.certificate], DOT), Answer(0, DOT_REPORT, b""))
        report = b'{"accepted":false,"code":10,"fault":"NoEnd","number":null,"record":1}\n'
        self.assertEqual(answer(program, ["check", "stdin", self.certificate], DOT[:54]), Answer(1, report, b""))

    @for_each_program
    def test_the_words_in_another_order(self, program):
        report = b'{"accepted":false,"code":2,"fault":"NotMetafile","number":null,"record":null}\n'
        self.assertEqual(answer(program, ["check", self.certificate, DOT_FILE]), Answer(1, report, b""))
        report = b'{"accepted":false,"code":6,"fault":"NotCertificate","number":null,"record":null}\n'
        self.assertEqual(answer(program, ["check", DOT_FILE, DOT_FILE]), Answer(1, report, b""))

    @for_each_program
    def test_standard_input_is_the_file_alone(self, program):
        # A certificate of that name is a file like any other.
        self.file("stdin", DOT_CERT)
        checked = answer(program, ["check", "stdin", "stdin"], DOT, cwd=self.folder)
        self.assertEqual(checked, Answer(0, DOT_REPORT, b""))
        other = tempfile.mkdtemp(dir=self.folder)
        self.assertEqual(answer(program, ["check", "stdin", "stdin"], DOT, cwd=other), CANNOT_READ)

    @for_each_program
    def test_a_report_that_cannot_be_written(self, program):
        for file in [DOT_FILE, SAMPLES / "held.wmf"]:
            with open("/dev/full", "wb") as full:
                words = [program, "check", file, self.certificate]
                ran = subprocess.run(words, stdout=full, stderr=subprocess.PIPE, check=False)
            self.assertEqual(Answer(ran.returncode, b"", ran.stderr), CANNOT_WRITE)


class Play(CommandTest):
    """`play FILE CERT W H`."""

    @for_each_program
    def test_the_image_goes_to_standard_output(self, program):
        shown = Answer(0, DOT_IMAGE, b"")
        self.assertEqual(answer(program, ["play", DOT_FILE, self.certificate, "4", "4"]), shown)
        self.assertEqual(answer(program, ["play", "stdin", self.certificate, "4", "4"], DOT), shown)

    @for_each_program
    def test_a_surface_above_the_bound_is_refused(self, program):
        for width, height in [("5", "4"), ("4", "5"), ("8192", "8192")]:
            told = answer(program, ["play", DOT_FILE, self.certificate, width, height])
            self.assertEqual(told, refused("SurfaceTooLarge"))

    @for_each_program
    def test_the_check_s_refusal_comes_first(self, program):
        other = self.file("other.cert", DOT_CERT[:12] + bytes(8) + DOT_CERT[20:])
        for width, height in [("4", "4"), ("5", "5")]:
            told = answer(program, ["play", DOT_FILE, other, width, height])
            self.assertEqual(told, refused("BudgetTooSmall"))
            told = answer(program, ["play", "stdin", other, width, height], DOT[:54])
            self.assertEqual(told, refused("NoEnd", 1))


# An image of 4 by 4 pixels, and the same with the dot's red pixel at (2,1).
PAGE = b"P6 # page\n4 4\t255\n" + bytes(range(100, 148)) + b"more"
PRINTED = b"P6\n4 4\n255\n" + bytes(range(100, 118)) + b"\xff\0\0" + bytes(range(121, 148))


class Over(CommandTest):
    """`over FILE CERT IMAGE`."""

    def over(self, program, image, certificate=DOT_CERT, file=DOT):
        """What the program answers that is to play a file over an image."""
        words = ["over", self.file("file", file), self.file("certificate", certificate), self.file("image", image)]
        return answer(program, words)

    @for_each_program
    def test_the_image_with_the_drawing_goes_to_standard_output(self, program):
        self.assertEqual(self.over(program, PAGE), Answer(0, PRINTED, b""))
        image = self.file("image", PAGE)
        self.assertEqual(answer(program, ["over", "stdin", self.certificate, image], DOT), Answer(0, PRINTED, b""))

    @for_each_program
    def test_each_input_comes_through_a_pipe(self, program):
        # A pipe is empty when it is read a second time.
        inputs = {"file": DOT, "certificate": DOT_CERT, "image": PAGE}
        for piped in inputs:
            paths = {name: self.file(name, given) for name, given in inputs.items()}
            os.remove(paths[piped])
            os.mkfifo(paths[piped])
            writer = threading.Thread(target=self.file, args=(piped, inputs[piped]), daemon=True)
            writer.start()
            self.assertEqual(answer(program, ["over", *paths.values()]), Answer(0, PRINTED, b""), piped)
            writer.join(60)
            os.remove(paths[piped])

    @for_each_program
    def test_a_file_that_saves_as_many_states_as_may_be(self, program):
        save = wmf_record(0x001E)
        file = placeable_file([save] * 256 + [DOT[40:]], right=i16(4), bottom=i16(4))
        told = answer(program, ["prepare", "stdin", "4", "4", "/dev/stdout"], file)
        # The bound, one write, 256 states, no slot, no line and no piece, and the entry of record 256: a point of the plane.
        self.assertEqual(told, Answer(0, b"MPC1" + u32(4, 4, 1, 0, 256, 0, 0, 0, 1, 256) + i32(2, 1, 2, 1), b""))
        self.assertEqual(self.over(program, PAGE, told.out, file), Answer(0, PRINTED, b""))

    @for_each_program
    def test_what_is_written_is_an_image_to_play_over(self, program):
        self.assertEqual(self.over(program, PRINTED), Answer(0, PRINTED, b""))

    @for_each_program
    def test_a_text_that_is_no_image_is_refused(self, program):
        whole = b"P6\n4 4\n255\n" + bytes(48)
        texts = [b"", b"P6", DOT, whole[:-1], b"P5" + whole[2:], b"P64" + whole[3:], whole.replace(b"255", b"254"), whole.replace(b"255", b"65535"),
                 b"P6\n0 4\n255\n", b"P6\n8193 1\n255\n" + bytes(3 * 8193)]
        for text in texts:
            self.assertEqual(self.over(program, text), refused("BadImage"), text[:20])

    @for_each_program
    def test_an_image_above_the_bound_is_refused(self, program):
        for width, height in [(5, 4), (4, 5), (8192, 1), (1, 8192)]:
            image = b"P6 %d %d 255 " % (width, height) + bytes(3 * width * height)
            self.assertEqual(self.over(program, image), refused("SurfaceTooLarge"))

    @for_each_program
    def test_the_check_s_refusal_comes_first(self, program):
        poor = DOT_CERT[:12] + bytes(8) + DOT_CERT[20:]
        for image in [PAGE, b"", b"P6 5 5 255 " + bytes(75)]:
            self.assertEqual(self.over(program, image, poor), refused("BudgetTooSmall"))
            self.assertEqual(self.over(program, image, poor, DOT[:54]), refused("NoEnd", 1))

    @for_each_program
    def test_an_image_that_cannot_be_read(self, program):
        for missing in ["/no/such/file", self.folder, ""]:
            # Each input is read before any is judged.
            for certificate in [self.certificate, DOT_FILE]:
                self.assertEqual(answer(program, ["over", DOT_FILE, certificate, missing]), CANNOT_READ, missing)


class Inputs(CommandTest):
    """What is read, in the order of the words."""

    # Commands, with the words for their file, their certificate and what follows.
    COMMANDS = [("check", []), ("play", ["4", "4"]), ("over", [DOT_FILE])]

    @for_each_program
    def test_inputs_that_cannot_be_read(self, program):
        long = self.file("long", b"")
        os.truncate(long, (1 << 28) + 1)
        for missing in ["/no/such/file", self.folder, "", long]:
            for command, sides in self.COMMANDS:
                told = answer(program, [command, DOT_FILE, missing, *sides])
                self.assertEqual(told, CANNOT_READ, missing)
                told = answer(program, [command, missing, self.certificate, *sides])
                self.assertEqual(told, CANNOT_READ, missing)

    @for_each_program
    def test_a_long_certificate_is_refused_and_not_cut(self, program):
        longer = self.file("longer", DOT_CERT)
        os.truncate(longer, 1 << 28)
        told = answer(program, ["play", DOT_FILE, longer, "4", "4"])
        self.assertEqual(told, refused("TrailingBytes"))

    @for_each_program
    def test_standard_input_is_read_before_the_certificate(self, program):
        reader, writer = os.pipe()
        os.write(writer, DOT)
        os.close(writer)
        words = [program, "check", "stdin", "/no/such/file"]
        ran = subprocess.run(words, stdin=reader, capture_output=True, check=False)
        self.assertEqual(Answer(ran.returncode, ran.stdout, ran.stderr), CANNOT_READ)
        self.assertEqual(os.read(reader, 1), b"")
        os.close(reader)

    @for_each_program
    def test_want_of_sides_or_files_is_wrong_usage(self, program):
        for line in ["prepare", "prepare stdin 4 4", "prepare stdin out 4 4", "prepare stdin 4 4 out more", "check stdin",
                     "check stdin cert 4", "play stdin cert", "play stdin cert 4", "play stdin 4 4", "play stdin cert 0 4",
                     "play stdin cert 4 8193", "play stdin cert 4 4 4", "prepare stdin 8193 4 out", "over stdin", "over stdin cert",
                     "over stdin cert image 4", "list", "list stdin 4"]:
            wrong = answer(program, line.split(), DOT, cwd=self.folder)
            self.assertEqual((wrong.status, wrong.out), (2, b""), line)
            self.assertEqual(wrong.err.count(b"error:"), 1, line)
            self.assertFalse(os.path.exists(os.path.join(self.folder, "out")), line)


class Help(unittest.TestCase):
    """What `metaplay --help` teaches."""

    @for_each_program
    def test_each_command_has_an_example(self, program):
        helped = answer(program, ["--help"])
        self.assertEqual((helped.status, helped.err), (2, b""))
        for command in ["show", "prepare", "check", "play", "over", "list"]:
            self.assertIn(f"\n  metaplay {command} ".encode(), helped.out)
            self.assertIn(b"Usage: metaplay " + command.encode(), answer(program, [command, "--help"]).out)
        self.assertIn(b"FAULTS.md", helped.out)

    @for_each_program
    def test_its_statuses_are_those_of_the_readme(self, program):
        told = re.findall(r"(?m)^  (\d)  ([^,\n]*)", answer(program, ["--help"]).out.decode())
        table = re.findall(r"(?m)^\| (\d) \| ([^|]*)", (ROOT / "README.md").read_text(encoding="utf-8"))
        self.assertEqual([status for status, _ in told], ["0", "1", "2", "3", "4"])
        self.assertEqual([status for status, _ in told], [status for status, _ in table])
        for (status, words), (_, meaning) in zip(told, table):
            self.assertIn(words, meaning, status)


class LargeCertificates(CommandTest):
    """Certificates of many entries."""

    @for_each_program
    def test_a_thousand_drawings_have_as_many_entries(self, program):
        file = self.file("many", many_pixels())
        output = os.path.join(self.folder, "many.cert")
        self.assertEqual(answer(program, ["prepare", file, "4", "4", output]), DONE)
        self.assertEqual(len(self.kept(output)), 40 + 20 * 1000)
        report = json.loads(answer(program, ["check", file, output]).out)
        self.assertEqual((report["drawings"], report["records"], report["writes"]), (1000, 1001, 1000))


def many_pixels():
    """The dot's file, with its pixel a thousand times."""
    return DOT[:40] + 1000 * DOT[40:54] + DOT[54:]


if __name__ == "__main__":
    unittest.main()
