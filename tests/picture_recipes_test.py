"""The recipes that make pictures: to-png, and the delegate of ImageMagick. Which profile they choose, and their statuses."""

import os
import re
import shutil
import signal
import subprocess
import unittest

from built import DOT_IMAGE, SAMPLES
from recipes_test import HELD, HELD_LINE, RECIPES, SLOW, RecipesTest, is_running, needs, png_pixels, waited

TO_PNG = RECIPES / "to-png"

# A file whose picture isn't the same under both profiles, with a frame of 64 by 64 units.
PAGE = (SAMPLES / "page.emf").read_bytes()


def image_magick():
    """ImageMagick's command, if it is on the machine. Another program may go by its name."""
    for name in ("magick", "convert"):
        for path in filter(None, (shutil.which(name), shutil.which(name, path="/usr/bin"))):
            if subprocess.run([path, "--version"], capture_output=True).stdout.startswith(b"Version: ImageMagick"):
                return path
    return None


class Pictures(RecipesTest):
    """A folder with a file that looks otherwise under either profile."""

    def setUp(self):
        super().setUp()
        (self.folder / "page.emf").write_bytes(PAGE)
        (self.folder / "metaplay-to-png").symlink_to(TO_PNG)

    def image(self, width, height, profile):
        """The picture of that file: its sides and its samples."""
        words = ["metaplay", "show", "page.emf", width, height, "--fit", "--profile", profile]
        _, sides, _, pixels = self.run_words(*words)[1].split(b"\n", 3)
        return *map(int, sides.split()), pixels


@needs("pnmtopng")
class ToPng(Pictures):
    """The recipe to-png."""

    def picture(self, *words, given=b""):
        """The picture in a PNG that is written without a word."""
        status, out, err = self.run_words(TO_PNG, *words, given=given)
        self.assertEqual((status, err), (0, b""))
        return png_pixels(out)

    def test_a_picture_fits_into_its_sides(self):
        status, out, err = self.run_words(TO_PNG, "dot.wmf", "4", "4")
        self.assertEqual((status, out[:8]), (0, b"\x89PNG\r\n\x1a\n"), err)
        self.assertEqual(png_pixels(out), (4, 4, DOT_IMAGE[-48:]))
        # The picture is square, so it has only four of these eight columns.
        self.assertEqual(self.run_words(TO_PNG, "dot.wmf", "8", "4"), (0, out, b""))
        shutil.copy(self.folder / "dot.wmf", self.folder / "-x")
        self.assertEqual(self.run_words(TO_PNG, "-x", "4", "4"), (0, out, b""))

    def profile(self, *words):
        """The profile under which a picture is made: what the program is called with."""
        spy, calls = self.folder / "spy", self.folder / "calls"
        spy.write_text('#!/bin/sh\nprintf "%s\\n" "$*" >>calls\nexec metaplay "$@"\n')
        spy.chmod(0o755)
        calls.unlink(missing_ok=True)
        status, _, err = self.run_words(TO_PNG, *words, METAPLAY=str(spy))
        self.assertEqual((status, err), (0, b""))
        return re.findall(r" --fit --profile[ =](\w+)", calls.read_text())[-1]

    def test_a_picture_larger_than_the_frame_is_made_under_print(self):
        for width, height, profile in [
            ("64", "64", "core"),
            ("64", "65", "core"),
            ("200", "64", "core"),
            ("65", "65", "print"),
            ("65", "066", "print"),
            ("3", "3", "core"),
        ]:
            with self.subTest(width=width, height=height):
                self.assertEqual(self.profile("page.emf", width, height), profile)
                self.assertTrue(self.picture("page.emf", width, height) == self.image(width, height, profile))
        self.assertFalse(self.image("65", "65", "core") == self.image("65", "65", "print"))
        self.assertEqual(self.run_words(TO_PNG, "page.emf", "9" * 30, "65")[:2], (2, b""))

    def test_a_name_is_no_frame(self):
        for name in ('"frame":[1,1].emf', '"frame":[1,1]', "\\", "stdin.emf", 'a\n"frame":[1,1]'):
            (self.folder / name).write_bytes(PAGE)
            self.assertEqual((self.profile(name, "64", "64"), self.profile(name, "65", "65")), ("core", "print"))

    def test_the_caller_chooses_the_profile(self):
        for options, profile in [
            (["--profile", "core"], "core"),
            (["--profile=core"], "core"),
            (["--profile", "print"], "print"),
            # An allowance needs print.
            (["--allow", "held-deletion"], "print"),
            (["--allow=emf-plus"], "print"),
        ]:
            for side in ("64", "65"):
                self.assertEqual(self.profile("page.emf", side, side, *options), profile)
        self.assertTrue(self.picture("page.emf", "65", "65", "--profile", "core") == self.image("65", "65", "core"))
        for options in (["--allow", "emf-plus", "--profile", "core"], ["--profile", "paper"]):
            self.assertEqual(self.run_words(TO_PNG, "page.emf", "64", "64", *options)[:2], (2, b""))

    def test_what_can_be_read_once_is_read_once(self):
        large = self.image("65", "65", "print")
        self.assertTrue(self.picture("stdin", "65", "65", given=PAGE) == large)
        core = self.picture("stdin", "65", "65", "--profile", "core", given=PAGE)
        self.assertTrue(core == self.image("65", "65", "core"))
        os.mkfifo(self.folder / "pipe")
        with subprocess.Popen(["sh", "-c", "cat page.emf >pipe"], cwd=self.folder) as running:
            self.assertTrue(self.picture("pipe", "65", "65") == large)
            self.assertEqual(running.wait(timeout=60), 0)

    def test_statuses(self):
        for words in (["4", "4"], ["9", "9"], ["4", "4", "--profile", "print"]):
            self.assertEqual(self.run_words(TO_PNG, "held file.wmf", *words), (1, b"", HELD_LINE))
        self.assertEqual(self.run_words(TO_PNG, "stdin", "4", "4", given=HELD.read_bytes()), (1, b"", HELD_LINE))
        self.assertEqual(self.run_words(TO_PNG, "stdin", "4", "4"), (1, b"", b"metaplay: NotMetafile\n"))
        self.assertEqual(self.run_words(TO_PNG, "dot.wmf", "4"), (2, b"", b"usage: to-png FILE W H [OPTION...]\n"))
        self.assertEqual(self.run_words(TO_PNG, "dot.wmf", "4x", "4")[:2], (2, b""))
        for name in ("no file", "."):
            self.assertEqual(self.run_words(TO_PNG, name, "4", "4"), (3, b"", b"metaplay: cannot read\n"))
        self.assertEqual(self.run_words(TO_PNG, "dot.wmf", "4", "4", TMPDIR="/no folder")[:2], (3, b""))
        self.assertEqual(self.run_words(TO_PNG, "dot.wmf", "4", "4", METAPLAY="/no/program")[:2], (127, b""))
        with open("/dev/full", "wb") as full:
            words = [TO_PNG, "dot.wmf", "4", "4"]
            ended = subprocess.run(words, stdout=full, stderr=subprocess.DEVNULL, cwd=self.folder, env=self.settings, timeout=120, check=False)
        self.assertEqual(ended.returncode, 3)

    def test_a_signal_to_the_shell_alone_ends_it_and_the_program(self):
        program, rooms, process = self.folder / "slow", self.folder / "rooms", self.folder / "process"
        program.write_text(SLOW)
        program.chmod(0o755)
        rooms.mkdir()
        settings = self.settings | {"METAPLAY": str(program), "TMPDIR": str(rooms)}
        # The program runs for the frame, and for the picture.
        for options in ([], ["--profile", "core"]):
            process.unlink(missing_ok=True)
            words = [TO_PNG, "dot.wmf", "4", "4", *options]
            with subprocess.Popen(words, cwd=self.folder, env=settings, start_new_session=True) as running:
                self.assertTrue(waited(lambda: process.exists() and process.read_text().endswith("\n")))
                running.send_signal(signal.SIGTERM)
                self.assertEqual(running.wait(timeout=30), 143)
            self.assertTrue(waited(lambda: not is_running(int(process.read_text()))))
            self.assertEqual(list(rooms.iterdir()), [])


@needs("pnmtopng")
@unittest.skipUnless(image_magick(), "ImageMagick is not on this machine")
class ImageMagick(Pictures):
    """The delegate of ImageMagick."""

    def converted(self, name):
        """What ImageMagick makes of a file: its status, the image, and what it says."""
        return self.run_words(image_magick(), name, "ppm:-", MAGICK_CONFIGURE_PATH=str(RECIPES))

    def test_a_picture_of_1024_pixels(self):
        status, out, err = self.converted("metaplay:dot.wmf")
        # The pixel (2,1) of 4 by 4 is the one at (512,256) of 1,024 by 1,024.
        place = 3 * (256 * 1024 + 512)
        rows = b"\xff" * (place + 1) + b"\0\0" + b"\xff" * (3 * 1024 * 1024 - place - 3)
        self.assertEqual((status, out == b"P6\n1024 1024\n255\n" + rows), (0, True), err)

    def test_a_rejected_file(self):
        status, out, err = self.converted("metaplay:held file.wmf")
        self.assertEqual((status != 0, out), (True, b""))
        self.assertIn(HELD_LINE, err)

    def test_the_prefix_says_the_profile(self):
        fine, core = (self.image("1024", "1024", profile)[2] for profile in ("print", "core"))
        self.assertFalse(fine == core)
        for prefix, wanted in [("metaplay", fine), ("metaplay-core", core), ("metaplay-print", fine)]:
            status, out, err = self.converted(f"{prefix}:page.emf")
            self.assertEqual((status, out == b"P6\n1024 1024\n255\n" + wanted), (0, True), err)


if __name__ == "__main__":
    unittest.main()
