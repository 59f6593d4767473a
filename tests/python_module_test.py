"""The module for Python: it answers as the built program does, takes any buffer, and raises exceptions with the fault and the record."""

import array
import importlib.util
import mmap
import os
import re
import subprocess
import tempfile
import unittest

from built import DOT, ROOT, SAMPLES, answer
from c_library import folder
from c_library_test import CODES, HELD_OBJECT, NAMES, PROGRAM, certificate_of, shown
from commands_test import DOT_CERT
from packages import PYTHON

SIDES = WIDTH, HEIGHT = 60, 50

PLAYED = [name for name in NAMES if name != HELD_OBJECT]

WHEEL = (SAMPLES / "wheel.wmf").read_bytes()

# What Debian's Python prints of images as arrays and by Pillow: sizes, and whether their bytes are those of the program.
IMAGES = """
import pathlib, sys
sys.path.insert(0, sys.argv[1])
import metaplay
file, wanted = (pathlib.Path(it).read_bytes() for it in sys.argv[2:])
certificate = metaplay.prepare(file, 60, 50)
array, image = (call(file, certificate, 60, 50) for call in (metaplay.play_array, metaplay.play_image))
print(array.shape, array.dtype, array.flags.writeable, array.tobytes() == wanted)
print(image.size, image.mode, image.tobytes() == wanted)
array[:] = 0
metaplay.play(file, certificate, 60, 50, array)
print(array.tobytes() == wanted)
"""


# Whether the picture of a page, which its code made again, has the same pixels as the one beside the page.
SAME = """
import sys
from PIL import Image
made, kept = (Image.open(it).convert("RGB") for it in sys.argv[1:])
print(made.size == kept.size and made.tobytes() == kept.tobytes())
"""


def module():
    """The module, with the library that is installed for tests."""
    os.environ["METAPLAY_LIBRARY"] = str(folder() / "lib/libmetaplay.so.1")
    spec = importlib.util.spec_from_file_location("metaplay", ROOT / "python/metaplay.py")
    made = importlib.util.module_from_spec(spec)
    spec.loader.exec_module(made)
    return made


class Module(unittest.TestCase):
    """Its functions."""

    @classmethod
    def setUpClass(cls):
        cls.metaplay = module()

    def samples(self, name, *words):
        """The samples of the program's image."""
        return answer(PROGRAM, ["show", SAMPLES / name, *map(str, SIDES), *words]).out.split(b"\n255\n", 1)[1]

    def rejected(self, call, fault, record=None, kind=None):
        """Fails unless a call raises this fault."""
        with self.assertRaises(self.metaplay.Rejected) as raised:
            call()
        found = raised.exception
        self.assertEqual((found.fault, found.code, found.record, found.kind), (fault, CODES[fault], record, kind))
        return str(found)

    def test_it_declares_each_function_of_the_header(self):
        declared = re.findall(r"(?m)^metaplay_answer (metaplay_\w+)\(", (ROOT / "include/metaplay.h").read_text(encoding="utf-8"))
        self.assertEqual(sorted(self.metaplay.FUNCTIONS), sorted(declared))

    def test_samples_are_certified_and_played_as_by_the_program(self):
        metaplay = self.metaplay
        for name in PLAYED:
            given = (SAMPLES / name).read_bytes()
            for words, options in (([], {}), (["--profile", "print"], {"profile": "print"})):
                with self.subTest(name=name, words=words):
                    certificate = metaplay.prepare(given, *SIDES, **options)
                    self.assertEqual(certificate, certificate_of(given, *SIDES, *words))
                    self.assertIsNone(metaplay.check(given, certificate))
                    self.assertEqual(metaplay.certificate_terms(certificate)[1:], SIDES)
                    wanted = self.samples(name, *words)
                    self.assertTrue(metaplay.play(given, certificate, *SIDES) == wanted)
                    strip = bytearray(range(100)) * 20
                    metaplay.play_rows(given, certificate, *SIDES, 7, strip, count=3, stride=200)
                    for row in range(3):
                        self.assertEqual(strip[200 * row : 200 * row + 180], wanted[180 * (7 + row) : 180 * (8 + row)])
                        self.assertEqual(strip[200 * row + 180 : 200 * row + 200], bytes(range(80, 100)))
                    image = bytearray(b"\xff" * len(wanted))
                    metaplay.over(given, certificate, *SIDES, image)
                    self.assertTrue(image == wanted)
        words = ["prepare", SAMPLES / HELD_OBJECT, *map(str, SIDES)]
        allowed = metaplay.prepare((SAMPLES / HELD_OBJECT).read_bytes(), *SIDES, profile="print", allow=metaplay.Allow.HELD_DELETION)
        with tempfile.TemporaryDirectory() as room:
            answer(PROGRAM, [*words, f"{room}/made", "--profile", "print", "--allow", "held-deletion"])
            with open(f"{room}/made", "rb") as made:
                self.assertEqual(allowed, made.read())

    def test_each_buffer_is_read_and_written_in_place(self):
        metaplay = self.metaplay
        certificate, wanted = metaplay.prepare(WHEEL, *SIDES), self.samples("wheel.wmf")
        with (SAMPLES / "wheel.wmf").open("rb") as opened, mmap.mmap(opened.fileno(), 0, access=mmap.ACCESS_READ) as mapped:
            for given in (WHEEL, bytearray(WHEEL), memoryview(WHEEL), array.array("B", WHEEL), mapped):
                self.assertTrue(metaplay.play(given, certificate, *SIDES) == wanted, type(given))
        for held in (bytearray(len(wanted) + 5), array.array("B", bytes(len(wanted) + 5))):
            self.assertIs(metaplay.play(WHEEL, certificate, *SIDES, held), held)
            self.assertEqual(bytes(held), wanted + bytes(5))
        with self.assertRaises(BufferError):
            metaplay.play(WHEEL, certificate, *SIDES, bytes(len(wanted)))
        with self.assertRaises(TypeError):
            metaplay.check("text", certificate)

    def test_faults_have_names_and_records(self):
        metaplay = self.metaplay
        held = (SAMPLES / HELD_OBJECT).read_bytes()
        self.assertEqual(self.rejected(lambda: metaplay.prepare(b"", 4, 4), "NotMetafile"), "NotMetafile")
        self.assertEqual(self.rejected(lambda: metaplay.prepare(held, 4, 4), "HeldObject", 5), "HeldObject at record 5")
        unknown = DOT[:40] + b"\x03\0\0\0\x01\0" + DOT[40:]
        self.assertEqual(self.rejected(lambda: metaplay.prepare(unknown, 4, 4), "UnknownRecord", 0, 1), "UnknownRecord 1 at record 0")
        for side in (0, -1, 8193, 1 << 32, 1 << 70):
            for sides in ((side, 4), (4, side)):
                self.rejected(lambda sides=sides: metaplay.prepare(DOT, *sides), "BadBound")
                self.rejected(lambda sides=sides: metaplay.play(DOT, DOT_CERT, *sides), "BadBound")
                self.rejected(lambda sides=sides: metaplay.fitted_sides(DOT, *sides), "BadBound")
        self.rejected(lambda: metaplay.play(DOT, DOT_CERT, 5, 4), "SurfaceTooLarge")
        self.rejected(lambda: metaplay.certificate_terms(DOT_CERT[:-1]), "ShortCertificate")
        self.rejected(lambda: metaplay.prepare(DOT, 4, 4, profile="print", allow=metaplay.Allow(4)), "BadBound")
        with self.assertRaisesRegex(ValueError, "must have 48 bytes"):
            metaplay.play(DOT, DOT_CERT, 4, 4, bytearray(47))
        for options in ({"profile": "other"}, {"allow": metaplay.Allow.EMF_PLUS}):
            with self.assertRaisesRegex(ValueError, "^the profile is"):
                metaplay.prepare(DOT, 4, 4, **options)

    def test_sides_fit_the_frame(self):
        for name in NAMES:
            image = answer(PROGRAM, ["show", SAMPLES / name, "90", "70", "--fit"]).out
            if image:
                width, height = map(int, image.split(b"\n", 2)[1].split())
                self.assertEqual(self.metaplay.fitted_sides((SAMPLES / name).read_bytes(), 90, 70), (width, height), name)

    def test_the_code_of_the_page_makes_its_picture(self):
        code = re.search(r"```python\n(.*?)```", (ROOT / "docs/PYTHON.md").read_text(encoding="utf-8"), re.DOTALL)[1]
        with tempfile.TemporaryDirectory() as room:
            os.symlink(SAMPLES, f"{room}/samples")
            settings = {**os.environ, "PYTHONPATH": str(ROOT / "python")}
            subprocess.run([PYTHON, "-B", "-c", code], cwd=room, env=settings, check=True)
            words = [PYTHON, "-c", SAME, f"{room}/python.png", ROOT / "docs/python.png"]
            self.assertEqual(subprocess.run(words, capture_output=True, text=True, check=True).stdout, "True\n")

    def test_images_are_arrays_and_those_of_pillow(self):
        with tempfile.NamedTemporaryFile() as wanted:
            wanted.write(shown("wheel.wmf", *SIDES).out.split(b"\n255\n", 1)[1])
            wanted.flush()
            words = [PYTHON, "-B", "-c", IMAGES, ROOT / "python", SAMPLES / "wheel.wmf", wanted.name]
            ran = subprocess.run(words, capture_output=True, text=True, check=False)
        self.assertEqual(ran.stderr, "")
        self.assertEqual(ran.stdout, "(50, 60, 3) uint8 True True\n(60, 50) RGB True\nTrue\n")


if __name__ == "__main__":
    unittest.main()
