"""Manual pages: `mandoc` finds nothing wrong with them, their lines are short, and each has the date on which its text changed last."""

import pathlib
import shutil
import subprocess
import sys
import tempfile
import unittest
from unittest import mock

from built import ROOT

sys.path.insert(0, str(ROOT / "packaging"))

import manual_texts  # noqa: E402

PAGES = [ROOT / "packaging/metaplay.1", ROOT / "packaging/metaplay-fixup.1"]


class Pages(unittest.TestCase):
    """The pages that are installed."""

    @unittest.skipUnless(shutil.which("mandoc"), "mandoc is not on this machine")
    def test_mandoc_finds_nothing(self):
        ran = subprocess.run(["mandoc", "-T", "lint", *PAGES], stdout=subprocess.PIPE, stderr=subprocess.STDOUT, text=True, check=False)
        self.assertEqual((ran.returncode, ran.stdout), (0, ""))

    def test_their_lines_are_short(self):
        for page in PAGES:
            # Examples have their own lines.
            texts = [line for line in page.read_text("utf-8").splitlines() if not line.startswith((".", "  "))]
            self.assertEqual([line for line in texts if len(line.encode()) > 80], [])
            self.assertGreater(len(texts), 50)

    def test_each_has_a_date(self):
        for page in PAGES:
            found = manual_texts.TITLE.match(page.read_text("utf-8"))
            self.assertEqual(found and found[1], page.stem.upper().replace("-", "\\-"))


class Texts(unittest.TestCase):
    """What pages are made by."""

    def test_no_line_begins_with_a_sign_of_roff(self):
        text = "x" * 70 + " .dots 'quotes' - a\\b"
        self.assertEqual(manual_texts.wrapped(text), "x" * 70 + " .dots\n\\&'quotes' \\- a\\eb")
        self.assertEqual(manual_texts.wrapped(".a"), "\\&.a")
        self.assertEqual(manual_texts.roff("a\n.b\n'c"), "a\n\\&.b\n\\&'c")

    def test_a_long_word_stays_whole(self):
        self.assertEqual(manual_texts.wrapped(f"a {'b-' * 60} c"), "a\n" + "b\\-" * 60 + "\nc")

    def test_a_page_has_the_date_of_its_last_change(self):
        with tempfile.TemporaryDirectory() as folder, mock.patch.object(manual_texts, "today", lambda: "2031-02-03"):
            path = pathlib.Path(folder, "a.1")
            for before, text, wanted in ((None, "one", "2031-02-03"), ("2030-01-01", "one", "2030-01-01"), ("2030-01-01", "two", "2031-02-03")):
                if before:
                    path.write_text(f".TH A\\-B 1 {before}\none\n")
                manual_texts.write(path, manual_texts.title("a-b", manual_texts.date_of(path)) + f"{text}\n")
                self.assertEqual(path.read_text(), f".TH A\\-B 1 {wanted}\n{text}\n")

    def test_only_the_title_is_a_date(self):
        with tempfile.TemporaryDirectory() as folder, mock.patch.object(manual_texts, "today", lambda: "2031-02-03"):
            path = pathlib.Path(folder, "a.bash")
            text = "# a\n.TH A 1 2030-01-01\n"
            manual_texts.write(path, text)
            self.assertEqual((path.read_text(), manual_texts.date_of(path)), (text, "2031-02-03"))


if __name__ == "__main__":
    unittest.main()
