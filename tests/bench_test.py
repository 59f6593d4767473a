"""The measurements of bench/, which no gate runs: each of their subjects is there, the fix-up is called for many files, and the files of work show the
same in both formats, but for rectangles, whose last row and column WMF leaves out."""

import itertools
import pathlib
import subprocess
import sys
import tempfile
import unittest

from built import PROGRAMS, ROOT, answer
from fixed_recipes_test import has_fixup

sys.path.append(str(ROOT / "bench"))

import exports  # noqa: E402
import fixing  # noqa: E402
import fixup  # noqa: E402
import work  # noqa: E402

SIDE = "64"

RECTANGLES = "2,000 hatched rectangles"


class Bench(unittest.TestCase):
    """Subjects and files."""

    def test_each_subject_is_told(self):
        told = subprocess.run([ROOT / "bench" / "run", "--help"], capture_output=True, text=True, check=True).stdout
        for subject in ("work", "exports", "layers", "wide-pens", "growth", "files", "shapes", "painting", "bitmaps", "paths", "machine", "fixup", "records", "points", "certificates"):
            self.assertIn(subject, told)

    def shown(self, files):
        """The pictures of files, by their keys."""
        shown = {}
        for key, pieces in files:
            with tempfile.NamedTemporaryFile() as file:
                file.writelines(pieces())
                file.flush()
                answered = answer(PROGRAMS[0], ["show", file.name, SIDE, SIDE])
            self.assertEqual((answered.status, answered.err), (0, b""), key)
            shown[key] = answered.out
        return shown

    @unittest.skipUnless(has_fixup(), "python3-freetype or python3-pil is not on this machine")
    def test_files_are_fixed_by_many(self):
        with tempfile.TemporaryDirectory() as folder:
            room = pathlib.Path(folder)
            (room / "given").mkdir()
            files = {"one": fixup.ellipses, "two": fixup.turned, "three": fixup.texts}
            for name, records in files.items():
                (room / "given" / name).write_bytes(fixup.made(itertools.islice(records(), 20)))
            rejected = fixing.fix(sorted(files), room / "given", room / "fixed", [])
            # Without fonts text is rejected, and the others play.
            self.assertEqual(rejected, {"three": ("MissingFont", "MissingFont (Arial) at record 3")})
            for name in ("one", "two"):
                words = ["show", room / "fixed" / name, SIDE, SIDE, "--profile", "print"]
                self.assertEqual(answer(PROGRAMS[0], words).status, 0, name)
            self.assertEqual(len(fixing.fix_seconds(sorted(files), room / "given", room / "timed", [])), 3)

    def test_each_exported_file_draws_something(self):
        shown = self.shown(exports.files())
        self.assertEqual(len(shown), 20)
        for key, image in shown.items():
            self.assertGreater(len(set(image[-3 * int(SIDE) ** 2 :])), 1, key)

    def test_both_formats_show_the_same(self):
        shown = self.shown(work.files())
        for (form, name, page), image in shown.items():
            with self.subTest(form=form, name=name, page=page):
                self.assertEqual(image == shown["WMF", name, page], form == "WMF" or name != RECTANGLES)
                self.assertEqual(image == shown["WMF", work.EMPTY, work.FRAME], name == work.EMPTY)


if __name__ == "__main__":
    unittest.main()
