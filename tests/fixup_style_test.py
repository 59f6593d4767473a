"""The sources of the fix-up, of its tests, of its manual page and of the recipes in Python are formatted, without a warning, and rightly typed."""

import os
import subprocess
import tempfile
import unittest

from packages import PYTHON
from run import FIXUP

# Where the sources are, from their folder.
SOURCES = [
    *["metaplay-fixup", "metaplay_fixup", "metaplay_verify", "tests"],
    *["../packaging/manual_texts.py", "../packaging/make_fixup_manual.py"],
    "../docs/recipes/metaplaytopdf",
]

# The length of a line is that of fixup/.flake8.
LENGTH = "120"


class Style(unittest.TestCase):
    """Three programs that judge sources. None of them writes into their folder."""

    def judge(self, module, *words):
        """Fails if a program, as a module of Python, finds something wrong."""
        with tempfile.TemporaryDirectory() as cache:
            settings = {**os.environ, "BLACK_CACHE_DIR": cache}
            words = [PYTHON, "-m", module, *words, *SOURCES]
            ran = subprocess.run(words, cwd=FIXUP, stdout=subprocess.PIPE, stderr=subprocess.STDOUT, text=True, env=settings, check=False)
        self.assertEqual(ran.returncode, 0, ran.stdout)

    def test_black_changes_nothing(self):
        self.judge("black", "--check", "--line-length", LENGTH)

    def test_flake8_has_no_warning(self):
        self.assertIn(f"max-line-length = {LENGTH}\n", (FIXUP / ".flake8").read_text(encoding="utf-8"))
        self.judge("flake8")

    def test_mypy_finds_no_wrong_type(self):
        # Each program is a module of its own, not the main one.
        self.judge("mypy", "--strict", "--scripts-are-modules", "--cache-dir", os.devnull)


if __name__ == "__main__":
    unittest.main()
