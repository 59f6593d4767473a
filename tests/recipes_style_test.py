"""The recipes in Python, and the module for Python, are formatted, without a warning, rightly typed and short; the recipes in shell have no warning
where shellcheck is installed."""

import ast
import os
import subprocess
import tempfile
import unittest

from built import ROOT
from packages import PYTHON
from recipes_test import RECIPES, needs
from run import FIXUP

# As for the fix-up.
LENGTH = "120"

MOST_LINES, MOST_OF_A_FUNCTION = 300, 40


def sources(*begins):
    """The recipes whose text begins so."""
    return sorted(path for path in RECIPES.iterdir() if path.read_text(encoding="utf-8").startswith(begins))


PYTHONS = [*sources("#!/usr/bin/python3", '"""'), ROOT / "python/metaplay.py"]

SHELLS = sources("#!/bin/sh\n")


class Style(unittest.TestCase):
    """Programs that judge sources. None of them writes into their folder."""

    def judge(self, words, paths):
        """Fails if a program finds something wrong."""
        with tempfile.TemporaryDirectory() as cache:
            settings = {**os.environ, "BLACK_CACHE_DIR": cache}
            ran = subprocess.run([*words, *paths], cwd=RECIPES, stdout=subprocess.PIPE, stderr=subprocess.STDOUT, text=True, env=settings, check=False)
        self.assertEqual(ran.returncode, 0, ran.stdout)

    def test_black_changes_nothing(self):
        self.judge([PYTHON, "-m", "black", "--check", "--line-length", LENGTH], PYTHONS)

    def test_flake8_has_no_warning(self):
        self.judge([PYTHON, "-m", "flake8", "--config", FIXUP / ".flake8"], PYTHONS)

    def test_mypy_finds_no_wrong_type(self):
        self.judge([PYTHON, "-m", "mypy", "--strict", "--scripts-are-modules", "--cache-dir", os.devnull], PYTHONS)

    @needs("shellcheck")
    def test_shellcheck_has_no_warning(self):
        self.judge(["shellcheck"], SHELLS)

    def test_files_and_functions_are_short(self):
        self.assertEqual([path.name for path in PYTHONS], ["metaplaytopdf", "report", "report_page.py", "report_texts.py", "summary", "metaplay.py"])
        for path in PYTHONS:
            text = path.read_text(encoding="utf-8")
            functions = [node for node in ast.walk(ast.parse(text)) if isinstance(node, ast.FunctionDef)]
            self.assertEqual([it.name for it in functions if it.end_lineno - it.lineno >= MOST_OF_A_FUNCTION], [], path.name)
            self.assertLess(text.count("\n"), MOST_LINES, path.name)


if __name__ == "__main__":
    unittest.main()
