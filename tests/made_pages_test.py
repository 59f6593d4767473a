"""The pages that docs/make_pages.py makes are fresh, and a public contract cites no definition without a comment."""

import sys
import unittest

from built import ROOT

sys.path.insert(0, str(ROOT / "docs"))

from make_pages import cited, comments, stale  # noqa: E402
from page_names import crates  # noqa: E402


class MadePages(unittest.TestCase):
    """The two pages, and the comments that they take."""

    def test_that_each_page_is_fresh(self):
        self.assertEqual(stale(), [], "docs/make_pages.py writes them")

    def test_that_each_definition_that_a_public_contract_cites_has_a_comment(self):
        bare = set()
        for crate, files in cited(crates()).items():
            for file, names in files.items():
                said = comments(ROOT / "crates" / crate / "specs" / f"{file}.antt")
                bare |= {f"{name} of {crate}: {file}" for name in names if not said.get(name)}
        self.assertEqual(bare, set())


if __name__ == "__main__":
    unittest.main()
