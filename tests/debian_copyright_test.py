"""The copyright of Debian packages: the page NOTICES, which points to Debian's copy of the Apache License in place of its terms."""

import pathlib
import re
import subprocess
import unittest

from built import ROOT
from notices_test import page

COMMON = pathlib.Path("/usr/share/common-licenses/Apache-2.0")

POINTER = f"The Apache License, Version 2.0: its terms are in\n{COMMON}.\n"

# The terms of the Apache License, from its name to their end.
TERMS = re.compile(r"(?ms)^ *Apache License$.*?^ *END OF TERMS AND CONDITIONS\n")

SCRIPT = '. "$1/packaging/copyright.sh"; point_to_common'


def pointed(text):
    """A text as the copyright of a package has it."""
    return subprocess.run(["sh", "-euc", SCRIPT, "sh", ROOT], input=text, stdout=subprocess.PIPE, text=True, check=True).stdout


@unittest.skipUnless(COMMON.exists(), "this isn't Debian, which has the terms")
class Copyright(unittest.TestCase):
    """Texts with terms, and without."""

    def setUp(self):
        self.terms = TERMS.search(COMMON.read_text("ascii"))[0]

    def test_terms_become_a_pointer(self):
        self.assertEqual(pointed(f"before\n{self.terms}\nafter\n{self.terms}"), f"before\n{POINTER}\nafter\n{POINTER}")

    def test_lines_may_be_broken_elsewhere(self):
        words = " ".join(self.terms.split()).removeprefix("Apache License ").removesuffix(" END OF TERMS AND CONDITIONS")
        self.assertEqual(pointed(f"  Apache License\n{words}\n END OF TERMS AND CONDITIONS\nafter\n"), f"{POINTER}after\n")

    def test_other_terms_stay(self):
        for old, new in (("perpetual,", "temporary,"), ("Definitions.", ""), ("worldwide,", "worldwide, or so,")):
            other = self.terms.replace(old, new, 1)
            self.assertNotEqual(other, self.terms)
            self.assertEqual(pointed(f"{other}after\n{self.terms}"), f"{other}after\n{POINTER}")
        cut = re.sub(r" *END OF TERMS AND CONDITIONS\n", "", self.terms)
        for text in (cut, "Do as you like.\n", "", " an Apache License\n"):
            self.assertEqual(pointed(text), text)

    def test_a_page_has_no_terms(self):
        for file in ("program", "library"):
            text = page(file)
            found = TERMS.findall(text)
            self.assertGreater(len(found), 0)
            self.assertEqual(pointed(text), TERMS.sub(POINTER, text))


if __name__ == "__main__":
    unittest.main()
