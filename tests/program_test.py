"""The built program on what only a machine has: words that are no text, files, pipes, full disks and
little memory."""

import itertools
import os
import resource
import shutil
import socket
import struct
import subprocess
import tempfile
import unittest

from built import DOT, DOT_IMAGE, SAMPLES, Answer, answer, for_each_program
from metafile.scripts import WMF

DOT_FILE = SAMPLES / "dot.wmf"

NIL_FILE = SAMPLES / "nil.emf"

CANNOT_READ = Answer(3, b"", b"metaplay: cannot read\n")

CANNOT_WRITE = Answer(3, b"", b"metaplay: cannot write\n")


# The user that owns no file.
NOBODY = 65534


def as_nobody():
    """Takes a process the leave to read what its owner shut: the superuser may read all."""
    if os.getuid() == 0:
        os.setgroups([])
        os.setgid(NOBODY)
        os.setuid(NOBODY)


def with_little_memory():
    """Leaves a process 64 MiB of addresses."""
    resource.setrlimit(resource.RLIMIT_AS, (1 << 26, 1 << 26))


class Program(unittest.TestCase):
    @for_each_program
    def test_a_file_and_standard_input_show_the_same(self, program):
        shown = Answer(0, DOT_IMAGE, b"")
        self.assertEqual(answer(program, ["show", DOT_FILE, "4", "4"]), shown)
        self.assertEqual(answer(program, ["show", "stdin", "4", "4"], DOT), shown)

    @for_each_program
    def test_the_width_comes_before_the_height(self, program):
        image = b"P6\n4 2\n255\n" + b"\xff" * 7 + b"\0\0" + b"\xff" * 15
        shown = Answer(0, image, b"")
        self.assertEqual(answer(program, ["show", DOT_FILE, "4", "2"]), shown)
        self.assertEqual(answer(program, ["show", "stdin", "4", "2"], DOT), shown)

    @for_each_program
    def test_a_file_is_known_by_its_whole_name(self, program):
        with tempfile.TemporaryDirectory() as folder:
            os.mkdir(f"{folder}/sub")
            for name in ["dot.wmf", "stdin.wmf", "./stdin", "sub/stdin", "-", " a ", "STDIN"]:
                with open(f"{folder}/{name}", "wb") as file:
                    file.write(DOT)
                answered = answer(program, ["show", name, "4", "4"], b"no metafile", cwd=folder)
                self.assertEqual(answered, Answer(0, DOT_IMAGE, b""), name)

    @for_each_program
    def test_standard_input_is_left_alone_where_a_file_is_named(self, program):
        with open(DOT_FILE, "rb") as given:
            words = [program, "show", DOT_FILE, "4", "4"]
            ran = subprocess.run(words, stdin=given, capture_output=True, check=False)
            self.assertEqual(os.lseek(given.fileno(), 0, os.SEEK_CUR), 0)
        self.assertEqual(ran.stdout, DOT_IMAGE)

    @for_each_program
    def test_a_file_that_ends_next_to_a_piece_is_read_whole(self, program):
        # An input is read in pieces of 64 KiB.
        for piece, beside in itertools.product((1, 2, 64), (-1, 0, 1)):
            given = DOT.ljust(65_536 * piece + beside, b"\x0e")
            self.assertEqual(answer(program, ["show", "stdin", "4", "4"], given), Answer(0, DOT_IMAGE, b""), len(given))

    @for_each_program
    def test_a_long_file_is_refused_and_not_cut(self, program):
        # Bytes behind the end record are ignored, up to the longest file and the longest input.
        for length, wanted in [
            (1 << 26, Answer(0, DOT_IMAGE, b"")),
            ((1 << 26) + 1, Answer(1, b"", b"metaplay: TooLong\n")),
            (1 << 28, Answer(1, b"", b"metaplay: TooLong\n")),
            ((1 << 28) + 1, CANNOT_READ),
        ]:
            with tempfile.NamedTemporaryFile() as file:
                file.write(DOT)
                file.truncate(length)
                self.assertEqual(answer(program, ["show", file.name, "4", "4"]), wanted, length)

    @for_each_program
    def test_an_input_may_end_at_a_piece_or_beside_it(self, program):
        for length in [65535, 65536, 65537]:
            given = DOT.ljust(length, b"\0")
            self.assertEqual(len(given), length)
            with tempfile.NamedTemporaryFile() as file:
                file.write(given)
                file.flush()
                shown = Answer(0, DOT_IMAGE, b"")
                self.assertEqual(answer(program, ["show", file.name, "4", "4"]), shown, length)
            self.assertEqual(answer(program, ["show", "stdin", "4", "4"], given), shown, length)

    @for_each_program
    def test_a_record_across_two_pieces_is_played(self, program):
        # The pixel of the dot in white, as often as leaves the red one the bytes 65,532 to 65,545.
        white = b"\x07\0\0\0\x1f\x04\xff\xff\xff\0\x01\0\x02\0"
        given = DOT[:40] + 4678 * white + DOT[40:]
        self.assertEqual(len(given), 65552)
        shown = Answer(0, DOT_IMAGE, b"")
        self.assertEqual(answer(program, ["show", "stdin", "4", "4"], given), shown)

    @for_each_program
    def test_the_largest_surface_is_shown(self, program):
        with tempfile.TemporaryFile() as image:
            words = [program, "show", DOT_FILE, "8192", "8192"]
            ran = subprocess.run(words, stdout=image, stderr=subprocess.PIPE, check=False)
            self.assertEqual((ran.returncode, ran.stderr), (0, b""))
            self.assertEqual(os.fstat(image.fileno()).st_size, 17 + 3 * 8192 * 8192)

    @for_each_program
    def test_words_that_are_no_text_are_wrong_usage(self, program):
        refused = Answer(2, b"", b"metaplay: the command line is not UTF-8 text\n")
        self.assertEqual(answer(program, ["show", b"a\xff.wmf", "4", "4"]), refused)

    @for_each_program
    def test_help_goes_to_standard_output_and_usage_to_standard_error(self, program):
        helped = answer(program, ["--help"])
        self.assertEqual((helped.status, helped.err), (2, b""))
        self.assertIn(b"Usage: metaplay", helped.out)
        self.assertEqual(helped.out.count(b"Usage:"), 1)
        # A value that is out of range is told without the usage.
        lines = [
            ("", 1),
            ("show", 1),
            ("show stdin 4 4 4", 1),
            ("show -- stdin 4 4 x", 1),
            ("play", 1),
            ("--bands", 1),
            ("show stdin 4 8193", 0),
            ("show stdin x 4", 0),
        ]
        for line, usages in lines:
            wrong = answer(program, line.split(), DOT)
            self.assertEqual((wrong.status, wrong.out), (2, b""), line)
            self.assertEqual(wrong.err.count(b"Usage:"), usages, line)
            self.assertEqual(wrong.err.count(b"error:"), 1, line)
            self.assertTrue(wrong.err.endswith(b"\n"), line)

    @for_each_program
    def test_words_behind_two_hyphens_are_no_flags(self, program):
        shown = Answer(0, DOT_IMAGE, b"")
        self.assertEqual(answer(program, ["show", "--", "stdin", "4", "4"], DOT), shown)
        with tempfile.TemporaryDirectory() as folder:
            shutil.copy(DOT_FILE, f"{folder}/--help")
            answered = answer(program, ["show", "--", "--help", "4", "4"], cwd=folder)
        self.assertEqual(answered, shown)

    @for_each_program
    def test_what_cannot_be_read_is_refused(self, program):
        for file in ["/no/such/file", "/", ""]:
            self.assertEqual(answer(program, ["show", file, "4", "4"], DOT), CANNOT_READ, file)

    @for_each_program
    def test_what_may_not_be_read_is_refused(self, program):
        with tempfile.TemporaryDirectory() as folder:
            os.chmod(folder, 0o755)
            copy = shutil.copy(program, f"{folder}/metaplay")
            os.chmod(copy, 0o755)
            file = shutil.copy(DOT_FILE, f"{folder}/dot.wmf")
            words = ["show", file, "4", "4"]
            for mode, wanted in [(0o644, Answer(0, DOT_IMAGE, b"")), (0, CANNOT_READ)]:
                os.chmod(file, mode)
                self.assertEqual(answer(copy, words, DOT, preexec_fn=as_nobody), wanted, mode)

    @for_each_program
    def test_a_full_disk_cannot_be_written(self, program):
        with open("/dev/full", "wb") as full:
            words = [program, "show", DOT_FILE, "400", "400"]
            ran = subprocess.run(words, stdout=full, stderr=subprocess.PIPE, check=False)
        self.assertEqual(Answer(ran.returncode, b"", ran.stderr), CANNOT_WRITE)

    @for_each_program
    def test_a_reader_that_goes_away_cannot_be_written(self, program):
        reader, writer = os.pipe()
        os.close(reader)
        words = [program, "show", DOT_FILE, "400", "400"]
        ran = subprocess.run(words, stdout=writer, stderr=subprocess.PIPE, check=False)
        os.close(writer)
        self.assertEqual(Answer(ran.returncode, b"", ran.stderr), CANNOT_WRITE)

    @for_each_program
    def test_long_outputs_are_written_in_large_pieces(self, program):
        # Each write to such a socket is one message. They have nearly as many bytes as a buffer holds, on the average.
        given = WMF.file(WMF.records("3000x pixel 1 1"), 4, 0)
        for words, least in [(["list", "stdin"], 7_000), (["show", "stdin", "64", "2048"], 10_000)]:
            reader, writer = socket.socketpair(socket.AF_UNIX, socket.SOCK_SEQPACKET)
            with reader, writer, tempfile.TemporaryFile() as file:
                file.write(given)
                file.seek(0)
                with subprocess.Popen([program, *words], stdin=file, stdout=writer) as ran:
                    writer.close()
                    pieces = list(iter(lambda sent=reader: len(sent.recv(1 << 20)), 0))
                self.assertEqual(ran.returncode, 0)
                self.assertGreater(len(pieces), 10, words)
                self.assertGreaterEqual(sum(pieces) // len(pieces), least, words)

    @for_each_program
    def test_a_fault_of_standard_error_changes_no_status(self, program):
        for file, side, status in [("stdin", "4", 1), ("stdin", "0", 2), ("/", "4", 3)]:
            words = [program, "show", file, side, "4"]
            with open("/dev/full", "wb") as full:
                ran = subprocess.run(
                    words, input=b"", stdout=subprocess.PIPE, stderr=full, check=False
                )
            self.assertEqual((ran.returncode, ran.stdout), (status, b""), words)

    @for_each_program
    def test_little_memory_is_told(self, program):
        # A certificate of an empty file that asks for room for 1,048,576 lines.
        with tempfile.NamedTemporaryFile() as certificate:
            certificate.write(b"MPC1" + struct.pack("<9I", 1, 1, 0, 0, 0, 0, 1 << 20, 0, 0))
            certificate.flush()
            large = ["play", NIL_FILE, certificate.name, "1", "1"]
            self.assertEqual(answer(program, large), Answer(0, b"P6\n1 1\n255\n\xff\xff\xff", b""))
            answered = answer(program, large, preexec_fn=with_little_memory)
        self.assertEqual(answered, Answer(4, b"", b"metaplay: OutOfMemory\n"))
        small = answer(program, ["show", DOT_FILE, "4", "4"], preexec_fn=with_little_memory)
        self.assertEqual(small, Answer(0, DOT_IMAGE, b""))


if __name__ == "__main__":
    unittest.main()
