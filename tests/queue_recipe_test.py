"""The filter of CUPS in docs/recipes, called as a queue calls it: the page that it writes, the errors of a job, and that nothing of it stays."""

import re
import signal
import subprocess
import unittest
import zlib

from built import DOT, DOT_IMAGE, PROGRAMS, SAMPLES
from metafile.fields import i16, u16, u32
from metafile.files import EMF_END, WMF_END, emf_file, emf_pixel, placeable_file, wmf_pixel
from recipes_test import HELD_LINE, RECIPES, SLOW, RecipesTest, is_running, waited

FILTER = RECIPES / "metaplaytopdf"

# The pixels of the dot at 4 by 4.
DOT_PIXELS = DOT_IMAGE[-48:]

# A program that takes long, leaves its process id, and has something to do before it ends.
ENDING = "#!/bin/sh\ntrap 'echo >ended; exit' TERM\necho $$ >process\nwhile :; do sleep 0.1; done\n"


def pdf_page(data):
    """What a PDF of one image has: the box of its page, what that shows, the sides of the image, and its pixels. Each object is where the table says, and
    no byte is left over."""
    start = int(re.search(rb"\nstartxref\n(\d+)\n%%EOF\n\Z", data)[1])
    head = re.match(rb"xref\n0 6\n0000000000 65535 f \n((?:\d{10} 00000 n \n){5})trailer\n<</Size 6 /Root 1 0 R>>\nstartxref\n", data[start:])
    ends = [*(int(line[:10]) for line in head[1].splitlines()), start]
    assert data[: ends[0]] == b"%PDF-1.4\n"
    objects = [data[begin:end] for begin, end in zip(ends, ends[1:])]
    texts = [re.fullmatch(rb"%d 0 obj\n(.*)\nendobj\n" % number, text, re.S)[1] for number, text in enumerate(objects, 1)]
    assert texts[:2] == [b"<</Type /Catalog /Pages 2 0 R>>", b"<</Type /Pages /Kids [3 0 R] /Count 1>>"]
    box = re.fullmatch(rb"<</Type /Page /Parent 2 0 R /MediaBox \[(.*)\] /Contents 4 0 R /Resources <</XObject <</I 5 0 R>>>>>>", texts[2])[1]
    streams = [re.fullmatch(rb"<<(.*)/Length (\d+)>>\nstream\n(.*)\nendstream", text, re.S).groups() for text in texts[3:]]
    assert [int(length) for _, length, _ in streams] == [len(stream) for _, _, stream in streams]
    kind = rb"/Type /XObject /Subtype /Image /ColorSpace /DeviceRGB /BitsPerComponent 8 /Filter /FlateDecode /Width (\d+) /Height (\d+) "
    sides = tuple(map(int, re.fullmatch(kind, streams[1][0]).groups()))
    return box.decode(), streams[0][2].decode(), sides, zlib.decompress(streams[1][2])


def shown(width, height, sides, pixels):
    """What such a PDF has if the image fills a page of these points."""
    return f"0 0 {width} {height}", f"{width} 0 0 {height} 0 0 cm /I Do", sides, pixels


class QueueTest(RecipesTest):
    """The filter with the built program."""

    def job(self, options, *file, given=b"", **settings):
        """What the filter answers for a job with these options."""
        words = [FILTER, "7", "somebody", "a title", "1", options, *file]
        return self.run_words(*words, given=given, **{"METAPLAY": str(PROGRAMS[0])} | settings)

    def page(self, options, *file, **more):
        """The page of a job that is well."""
        status, out, err = self.job(options, *file, **more)
        self.assertEqual((status, err), (0, b""))
        return pdf_page(out)


class Pages(QueueTest):
    """The pages that are printed."""

    def test_a_page_has_the_size_of_the_drawing(self):
        # 4 units of 96 to an inch are 3 points, and 1.06 mm where the size is a whole number of hundredths: 106 * 72 / 2540 points.
        wanted = shown("3.005", "3.005", (4, 4), DOT_PIXELS)
        self.assertEqual(self.page("finishings=3 metaplay-side=4 number-up=1", "dot.wmf"), wanted)
        self.assertEqual(self.page("metaplay-side=4", given=DOT), wanted)
        self.assertEqual(self.page("metaplay-size=page metaplay-side=8 metaplay-side=4 metaplay-size=own", "dot.wmf"), wanted)
        box, _, sides, pixels = self.page("", "dot.wmf")
        self.assertEqual((box, sides, len(pixels)), ("0 0 3.005 3.005", (2400, 2400), 3 * 2400 * 2400))
        # A name that the program would take for standard input or for an option.
        for name in ("stdin", "-x"):
            (self.folder / name).write_bytes(DOT)
            self.assertEqual(self.page("metaplay-side=4", name), wanted)

    def test_the_picture_is_that_under_print(self):
        words = ["metaplay", "show", SAMPLES / "page.emf", "128", "128", "--profile"]
        core, fine = (self.run_words(*words, profile)[1].split(b"\n", 3)[3] for profile in ("core", "print"))
        _, _, sides, pixels = self.page("metaplay-side=128", str(SAMPLES / "page.emf"))
        self.assertEqual((sides, pixels == fine, pixels == core), ((128, 128), True, False))

    def test_a_page_may_have_other_proportions_than_the_units(self):
        # An EMF of 4 by 4 pixels, on a device with 4 pixels to a millimetre across and 8 down.
        pixel = emf_pixel(0, 0, (255, 0, 0))
        (self.folder / "flat.emf").write_bytes(emf_file([pixel, EMF_END], device=u32(4, 8)))
        dot = b"\xff\0\0" + b"\xff" * 45
        self.assertEqual(self.page("metaplay-side=4", "flat.emf"), shown("2.835", "1.417", (4, 4), dot))

    def test_without_a_size_or_by_an_option_the_page_is_as_large_as_can_be(self):
        largest = shown("14400.000", "14400.000", (4, 4), DOT_PIXELS)
        self.assertEqual(self.page("metaplay-side=4 metaplay-size=page", "dot.wmf"), largest)
        box, _, sides, _ = self.page("metaplay-side=4", str(SAMPLES / "small.wmf"))
        self.assertEqual((box, sides), ("0 0 14400.000 14400.000", (4, 4)))
        # 8 by 4 inches, also on a large page, and 800 by 400 inches, which are too many.
        for inch, options, width, height in [(1, "", "576.000", "288.000"), (1, "metaplay-size=page", "14400.000", "7200.000")]:
            file = placeable_file([wmf_pixel(1, 1, (0, 0, 255)), WMF_END], right=i16(8), inch=u16(inch))
            pixels = b"\xff" * 27 + b"\0\0\xff" + b"\xff" * 66
            self.assertEqual(self.page(f"metaplay-side=8 {options}", given=file), shown(width, height, (8, 4), pixels))
        wide = placeable_file([WMF_END], right=i16(800), bottom=i16(400), inch=u16(1))
        self.assertEqual(self.page("metaplay-side=2", given=wide), shown("14400.000", "7200.000", (2, 1), b"\xff" * 6))
        # A size that rounds to nothing is none.
        tiny = placeable_file([WMF_END], inch=u16(65535))
        self.assertEqual(self.page("metaplay-side=1", given=tiny), shown("14400.000", "14400.000", (1, 1), b"\xff" * 3))

    def test_a_page_of_the_whole_sheet_needs_no_information(self):
        program = self.folder / "old"
        program.write_text(f'#!/bin/sh\n[ "$1" = show ] || exit 2\nexec {PROGRAMS[0]} "$@"\n')
        program.chmod(0o755)
        told = self.job("metaplay-side=4 metaplay-size=page", "dot.wmf", METAPLAY=str(program))
        self.assertEqual(pdf_page(told[1])[2:], ((4, 4), DOT_PIXELS))
        told = self.job("metaplay-side=4", "dot.wmf", METAPLAY=str(program))
        self.assertEqual(told, (1, b"", b"ERROR: old ended with status 2\n"))


class Errors(QueueTest):
    """Jobs that nothing is printed of."""

    def program(self, text):
        """Settings with a script in place of the program."""
        path = self.folder / "slow"
        path.write_text(text)
        path.chmod(0o755)
        return {"METAPLAY": str(path)}

    def test_the_fault_of_a_file_is_the_error_of_its_job(self):
        for size in ("own", "page"):
            self.assertEqual(self.job(f"metaplay-size={size}", "held file.wmf"), (1, b"", b"ERROR: " + HELD_LINE))
        self.assertEqual(self.job("", given=b"text"), (1, b"", b"ERROR: metaplay: NotMetafile\n"))
        self.assertEqual(self.job("", "no file"), (1, b"", b"ERROR: metaplay: cannot read\n"))

    def test_wrong_options(self):
        # A side isn't taken from a file's name.
        (self.folder / "metaplay-side=4").write_bytes(b"")
        for side in ("*", "", "-1", "4.5", "²"):
            told = self.job(f"metaplay-side={side}", "dot.wmf")
            self.assertEqual(told, (1, b"", b"ERROR: metaplay-side is a number of pixels\n"))
        for seconds in ("1h", "0", "00", "100000", ""):
            told = self.job(f"metaplay-seconds={seconds}", "dot.wmf")
            self.assertEqual(told, (1, b"", b"ERROR: metaplay-seconds is a number from 1 to 99999\n"))
        for name, values in [("size", "own or page"), ("fix", "yes or no")]:
            told = self.job(f"metaplay-{name}=2", "dot.wmf")
            self.assertEqual(told, (1, b"", f"ERROR: metaplay-{name} is {values}\n".encode()))

    def test_a_program_that_is_missing_or_goes_wrong(self):
        self.assertEqual(self.job("", "dot.wmf", METAPLAY="/no/program"), (1, b"", b"ERROR: /no/program is missing\n"))
        told = self.job("metaplay-seconds=1", "dot.wmf", **self.program(SLOW))
        self.assertEqual(told, (1, b"", b"ERROR: the file takes more than 1 seconds\n"))
        for text, said in [
            ("exit 9", "slow ended with status 9"),
            ("kill -9 $$", "slow ended with status -9"),
            ("exit 0", "metaplay info wrote no report"),
            ("echo '{}'", "metaplay info wrote no report"),
            ("echo '{\"size\":null}'", "metaplay show wrote no image"),
        ]:
            self.assertEqual(self.job("", "dot.wmf", **self.program(f"#!/bin/sh\n{text}\n")), (1, b"", f"ERROR: {said}\n".encode()))
        # No line that it says is taken by CUPS for anything else than an error.
        told = self.job("", "dot.wmf", **self.program("#!/bin/sh\nprintf 'a\\r\\nSTATE: +x\\n\\n' >&2\nexit 1\n"))
        self.assertEqual(told, (1, b"", b"ERROR: metaplay info wrote no report\n"))
        told = self.job("metaplay-size=page", "dot.wmf", **self.program("#!/bin/sh\nprintf 'a\\r\\nSTATE: +x\\n\\n' >&2\nexit 1\n"))
        self.assertEqual(told, (1, b"", b"ERROR: a\nERROR: STATE: +x\n"))

    def test_a_full_disk_and_no_input(self):
        words = [FILTER, "7", "somebody", "a title", "1", "", "dot.wmf"]
        more = {"cwd": self.folder, "env": self.settings | {"METAPLAY": str(PROGRAMS[0])}, "timeout": 120, "check": False}
        with open("/dev/full", "wb") as full:
            ended = subprocess.run(words, stdout=full, stderr=subprocess.PIPE, **more)
        self.assertEqual((ended.returncode, ended.stderr), (1, b"ERROR: cannot write the page\n"))
        ended = subprocess.run(["sh", "-c", 'exec "$@" <&-', "sh", *words[:-1]], capture_output=True, **more)
        self.assertEqual((ended.returncode, ended.stdout, ended.stderr), (1, b"", b"ERROR: there is no standard input\n"))

    def test_a_signal_ends_it_and_the_program(self):
        rooms, process = self.folder / "rooms", self.folder / "process"
        rooms.mkdir()
        settings = self.settings | self.program(ENDING) | {"TMPDIR": str(rooms)}
        words = [FILTER, "7", "somebody", "a title", "1", "", "dot.wmf"]
        for number in (signal.SIGTERM, signal.SIGINT, signal.SIGHUP):
            for path in (process, self.folder / "ended"):
                path.unlink(missing_ok=True)
            with subprocess.Popen(words, cwd=self.folder, env=settings, start_new_session=True) as running:
                self.assertTrue(waited(lambda: process.exists() and process.read_text().endswith("\n")))
                self.assertEqual(len(list(rooms.iterdir())), 1)
                running.send_signal(number)
                self.assertEqual(running.wait(timeout=30), 128 + number)
            self.assertFalse(is_running(int(process.read_text())))
            self.assertEqual((list(rooms.iterdir()), (self.folder / "ended").exists()), ([], True))

    def test_a_program_gets_each_signal(self):
        text = "#!/usr/bin/python3 -I\nimport signal, sys\nsys.exit(str(signal.pthread_sigmask(signal.SIG_BLOCK, [])))\n"
        self.assertEqual(self.job("metaplay-size=page", "dot.wmf", **self.program(text)), (1, b"", b"ERROR: set()\n"))

    def test_a_program_that_goes_on_after_a_signal_is_killed(self):
        settings = self.program("#!/bin/sh\ntrap '' TERM\necho $$ >process\nwhile :; do sleep 0.1; done\n")
        told = self.job("metaplay-seconds=1", "dot.wmf", **settings)
        self.assertEqual(told, (1, b"", b"ERROR: the file takes more than 1 seconds\n"))
        self.assertFalse(is_running(int((self.folder / "process").read_text())))


if __name__ == "__main__":
    unittest.main()
