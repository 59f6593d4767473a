"""The recipes of docs/recipes/ where they fix a file first, by METAPLAY_FIXUP or by an option of the filter."""

import json
import os
import pathlib
import shutil
import signal
import subprocess
import unittest

from built import DOT, ROOT, SAMPLES
from metafile.fields import i32, u32
from metafile.files import emf_record
from metafile.scripts import EMF
from queue_recipe_test import pdf_page, shown
from recipe_commands import commands
from recipes_test import HELD_LINE, RECIPES, SLOW, RecipesTest, has_command, is_running, needs, png_pixels, waited

# A file that is rejected and can be fixed: an ellipse (EMR_ELLIPSE, [MS-EMF] 2.3.5.5), at record 1.
ELLIPSE = EMF.file([emf_record(42, i32(1, 1, 6, 6))], 8, 1)

ELLIPSE_LINE = b"metaplay: Unsupported 42 at record 1\n"

# A file of text in a face that no machine has (EMR_EXTCREATEFONTINDIRECTW, EMR_SELECTOBJECT, EMR_SMALLTEXTOUT, [MS-EMF] 2.3.7.8, 2.3.8.5, 2.3.5.37).
FACE = u32(1) + i32(-8, 0, 0, 0, 400) + bytes(8) + "No Such Face".encode("utf-16-le").ljust(64, b"\0")
TEXT = EMF.file([emf_record(82, FACE), emf_record(37, u32(1)), emf_record(108, i32(0, 0) + u32(2, 0x300, 1, 0, 0) + b"ab\0\0")], 8, 2)

TEXT_LINE = b"metaplay-fixup: MissingFont (No Such Face) at record 3\n"


def has_fixup():
    """Whether the libraries of the fix-up are on the machine."""
    return subprocess.run(["/usr/bin/python3", "-c", "import freetype, PIL"], capture_output=True).returncode == 0


@unittest.skipUnless(has_fixup(), "python3-freetype or python3-pil is not on this machine")
class FixedFirst(RecipesTest):
    """Each recipe where it fixes a file first: one that is rejected as it is, one that needs nothing, and one that the fix-up rejects."""

    def setUp(self):
        super().setUp()
        (self.folder / "metaplay-fixup").symlink_to(ROOT / "fixup" / "metaplay-fixup")
        for name, data in [("ellipse.emf", ELLIPSE), ("text.emf", TEXT)]:
            (self.folder / name).write_bytes(data)
        fix = self.folder / "metaplay-fix"
        fix.write_text('#!/bin/sh\nexec metaplay-fixup "$@"\n')
        fix.chmod(0o755)
        self.fixing = {"METAPLAY_FIXUP": str(fix)}

    def fixed_image(self, side):
        """The picture of the ellipse after the fix-up: the samples of each pixel."""
        self.assertEqual(self.run_words("metaplay-fixup", "ellipse.emf", "by hand.emf")[0], 0)
        return self.run_words("metaplay", "show", "by hand.emf", side, side, "--profile", "print")[1]

    @needs("pnmtopng")
    def test_to_png(self):
        self.assertEqual(self.run_words(RECIPES / "to-png", "ellipse.emf", "16", "16"), (1, b"", ELLIPSE_LINE))
        status, out, err = self.run_words(RECIPES / "to-png", "ellipse.emf", "16", "16", **self.fixing)
        self.assertEqual((status, err), (0, b""))
        width, height, pixels = png_pixels(out)
        self.assertEqual((width, height), (16, 16))
        self.assertEqual(sorted(set(pixels)), [0, 255])
        self.assertEqual(b"P6\n16 16\n255\n" + pixels, self.fixed_image("16"))
        self.assertEqual(self.run_words(RECIPES / "to-png", "stdin", "16", "16", given=ELLIPSE, **self.fixing), (0, out, b""))
        self.assertEqual(self.run_words(RECIPES / "to-png", "text.emf", "16", "16", **self.fixing), (1, b"", TEXT_LINE))
        status, out, err = self.run_words(RECIPES / "to-png", "held file.wmf", "16", "16", **self.fixing)
        self.assertEqual((status, out, err), (1, b"", HELD_LINE))
        # Further words are options of `metaplay show`, with the fix-up and without it.
        allowed = self.run_words(RECIPES / "to-png", "held file.wmf", "16", "16", "--allow", "held-deletion", **self.fixing)
        self.assertEqual((allowed[0], allowed[2]), (0, b""))
        rules = ["--profile", "print", "--allow", "held-deletion"]
        self.assertEqual(self.run_words(RECIPES / "to-png", "held file.wmf", "16", "16", *rules), allowed)

    def test_the_filter_of_cups(self):
        job = [RECIPES / "metaplaytopdf", "7", "somebody", "a title", "1"]
        settings = {"METAPLAY": str(self.folder / "metaplay")}
        size = "metaplay-side=16"
        self.assertEqual(self.run_words(*job, size, "ellipse.emf", **settings), (1, b"", b"ERROR: " + ELLIPSE_LINE))
        self.assertEqual(self.run_words(*job, f"{size} metaplay-fix=no", "ellipse.emf", **settings), (1, b"", b"ERROR: " + ELLIPSE_LINE))
        # The frame has 8 by 8 units, each 25 hundredths of a millimetre.
        page = shown("5.669", "5.669", (16, 16), self.fixed_image("16")[13:])
        for words, given in [((f"{size} metaplay-fix=yes", "ellipse.emf"), b""), ((f"metaplay-fix=yes {size}",), ELLIPSE)]:
            status, out, err = self.run_words(*job, *words, given=given, **settings)
            self.assertEqual((status, pdf_page(out), err), (0, page, b""))
        self.assertEqual(self.run_words(*job, "metaplay-fix=yes", "text.emf", **settings), (1, b"", b"ERROR: " + TEXT_LINE))
        self.assertEqual(self.run_words(*job, "metaplay-fix=2", "text.emf", **settings), (1, b"", b"ERROR: metaplay-fix is yes or no\n"))
        (self.folder / "metaplay-fix").unlink()
        told = self.run_words(*job, "metaplay-fix=yes", "ellipse.emf", **settings)
        self.assertEqual(told, (1, b"", f"ERROR: {self.folder / 'metaplay-fix'} is missing\n".encode()))

    @needs("xargs", "find")
    def test_a_folder(self):
        if not has_command("certify"):
            self.skipTest("the program has no command certify")
        _, fixed = commands("One file, and fixing a folder first")
        drawings = self.folder / "drawings"
        drawings.mkdir()
        for name in ("ellipse.emf", "text.emf", "dot.wmf"):
            shutil.copy(self.folder / name, drawings)
        for _ in range(2):
            # The second time the fixed files and their certificates are there.
            status, _, err = self.run_words("sh", "-c", fixed)
            lines = map(json.loads, (self.folder / "checked.jsonl").read_bytes().splitlines())
            lines = {line["file"].removeprefix("drawings/"): line for line in lines}
            accepted = {"ellipse.emf.fixed": True, "dot.wmf.fixed": True, "text.emf": None}
            self.assertEqual((status, {name: line["accepted"] for name, line in lines.items()}, err), (123, accepted, b""))
            self.assertEqual(lines["text.emf"]["error"], TEXT_LINE.decode().strip())
            self.assertTrue((drawings / "ellipse.emf.fixed.mpc").exists())
        # What needs nothing stays as it is.
        self.assertEqual((drawings / "dot.wmf.fixed").read_bytes(), DOT)
        # A certificate of what was fixed before is left, unless it is to be replaced.
        (drawings / "ellipse.emf").write_bytes((SAMPLES / "polygons.emf").read_bytes())
        words = [RECIPES / "check-file", "2400", "2400", "--profile", "print"]
        status, out, _ = self.run_words(*words, "drawings/ellipse.emf", **self.fixing)
        self.assertEqual((status, json.loads(out)["error"]), (3, "the certificate's name is taken"))
        self.assertEqual(self.run_words(*words, "--replace", "drawings/ellipse.emf", **self.fixing)[0], 0)
        # A fixed file that isn't a plain file is neither read nor written.
        (drawings / "dot.wmf.fixed").unlink()
        os.mkfifo(drawings / "dot.wmf.fixed")
        status, out, _ = self.run_words(*words, "drawings/dot.wmf", **self.fixing)
        self.assertEqual((status, json.loads(out)["error"]), (3, "drawings/dot.wmf.fixed is not a plain file"))

    @needs("git", "xargs")
    def test_a_hook_of_git(self):
        rooms = self.folder / "rooms"
        rooms.mkdir()
        settings = self.fixing | {"TMPDIR": str(rooms)}
        self.assertEqual(self.run_words(RECIPES / "pre-commit", "ellipse.emf")[0], 1)
        self.assertEqual(self.run_words(RECIPES / "pre-commit", "dot.wmf", "ellipse.emf", **settings), (0, b"", b""))
        told = self.run_words(RECIPES / "pre-commit", "ellipse.emf", "text.emf", **settings)
        self.assertEqual(told, (1, b"", TEXT_LINE + b"pre-commit: rejected: text.emf\n"))
        told = self.run_words(RECIPES / "pre-commit", "held file.wmf", **settings)
        self.assertEqual(told, (1, b"", HELD_LINE + b"pre-commit: rejected: held file.wmf\n"))
        status, _, err = self.run_words(RECIPES / "pre-commit", "dot.wmf", METAPLAY_FIXUP="no-program", TMPDIR=str(rooms))
        self.assertEqual((status, b"because the fix-up ended with status 127: dot.wmf" in err), (1, True), err)
        self.assertEqual(list(rooms.iterdir()), [])
        git = ["git", "-c", "user.name=a", "-c", "user.email=a@b"]
        self.run_words(*git, "init", "-q")
        self.run_words(*git, "add", "ellipse.emf", "dot.wmf")
        self.assertEqual(self.run_words(RECIPES / "pre-commit", "--all", **settings), (0, b"", b""))
        self.assertEqual(self.run_words(RECIPES / "pre-commit", "--all")[0], 1)

    def test_a_signal_to_the_shell_alone_ends_it_and_the_fixing(self):
        program, rooms, process = self.folder / "slow", self.folder / "rooms", self.folder / "process"
        program.write_text(SLOW)
        program.chmod(0o755)
        rooms.mkdir()
        settings = self.settings | {"METAPLAY": str(self.folder / "metaplay"), "METAPLAY_FIXUP": str(program), "TMPDIR": str(rooms)}
        for words in (["metaplaytopdf", "7", "somebody", "a title", "1", "metaplay-fix=yes", "dot.wmf"], ["to-png", "dot.wmf", "4", "4"]):
            process.unlink(missing_ok=True)
            with subprocess.Popen([RECIPES / words[0], *words[1:]], cwd=self.folder, env=settings, start_new_session=True) as running:
                self.assertTrue(waited(lambda: process.exists() and process.read_text().endswith("\n")))
                running.send_signal(signal.SIGTERM)
                self.assertEqual(running.wait(timeout=30), 143)
            self.assertTrue(waited(lambda: not is_running(int(process.read_text()))))
            self.assertEqual(list(rooms.iterdir()), [])

    def test_fixing_ends_in_time(self):
        program = self.folder / "slow"
        program.write_text(SLOW)
        program.chmod(0o755)
        job = [RECIPES / "metaplaytopdf", "7", "somebody", "a title", "1", "metaplay-fix=yes metaplay-seconds=1", "dot.wmf"]
        told = self.run_words(*job, METAPLAY=str(self.folder / "metaplay"), METAPLAY_FIXUP=str(program))
        self.assertEqual(told, (1, b"", b"ERROR: the file takes more than 1 seconds\n"))

    @unittest.skipUnless(pathlib.Path("/usr/share/fonts/truetype/liberation").is_dir(), "fonts-liberation is not on this machine")
    def test_the_script_with_the_fonts_of_the_house(self):
        words = [RECIPES / "fix", ROOT / "samples" / "rejected" / "label.emf", "fixed.emf"]
        self.assertEqual(self.run_words(*words, "--strokes"), (0, b"", b""))
        self.assertEqual(self.run_words("metaplay", "show", "fixed.emf", "64", "48", "--profile", "print")[0], 0)


if __name__ == "__main__":
    unittest.main()
