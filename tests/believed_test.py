"""The numbers of definitions that README says its promises rest on are those that docs/believed.py counts."""

import pathlib
import re
import sys
import tempfile
import unittest

from built import ROOT

sys.path.append(str(ROOT / "docs"))

from believed import CALLS, CHECK, all_counts, believed, counted, of_contracts, read  # noqa: E402

README = re.sub(r"\s+", " ", (ROOT / "README.md").read_text(encoding="utf-8"))

SPECS = """-- A word, and what it is made of.
use Rattle.std.specs.Prelude.{ℕ}
use Rattle.lower.specs.declared.kind.Kind.{Kind}

-- the first
abbrev pub first : ℕ
first = second

-- the second
abbrev second : ℕ
second = 1

-- one that the contract doesn't lead to
abbrev pub third : Kind → ℕ
third kind = second
"""

CODE = """ghost use Rattle.lower.specs.Numbers.{first, third};

/// Its contract names the first.
pub fn call(count: usize) -> usize
    requires { count < 3 }
    ensures { result ≡ first }
{
    third()
}

fn inner() -> usize
    ensures { result ≡ third kind }
{
    1
}
"""


class Believed(unittest.TestCase):
    """The page, and the script on a repository that is made up."""

    def test_the_page_has_the_counts(self):
        counts = {name: (f"{count.definitions:,}", f"{count.lines:,}") for name, count in all_counts(ROOT)[0].items()}
        image = r"P6 text rest on ([\d,]+) of them, or ([\d,]+) lines\. "
        others = r"Soundness and the answer of `check` rest on ([\d,]+), and all promises above together on ([\d,]+) "
        told = re.search(image + others, README)
        self.assertEqual(told.group(1, 2), counts["the image, its writes and its P6 text"])
        self.assertEqual(told[3], counts["soundness and the answer of check"][0])
        self.assertEqual(told[4], counts["all promises"][0])

    def test_the_calls_are_those_of_the_promises(self):
        promises = README.split("## What is promised")[1].split("## ")[0]
        named = set(re.findall(r"`(\w+)`", promises))
        calls = {name for names in CALLS.values() for name in names}
        code = "".join(path.read_text(encoding="utf-8") for path in ROOT.glob("crates/*/src/**/*.rt"))
        self.assertEqual({name for name in named if re.search(rf"(?m)^ *pub (?:extern \"C\" )?fn {name}\b", code)}, calls)
        self.assertEqual(CHECK, {"preflight_cert": ["check"]})

    def test_a_contract_leads_to_what_it_names(self):
        with tempfile.TemporaryDirectory() as folder:
            for name, text in (("specs/Numbers.antt", SPECS), ("src/lib.rt", CODE)):
                path = pathlib.Path(folder, "crates/lower", name)
                path.parent.mkdir(parents=True)
                path.write_text(text, encoding="utf-8")
            root = pathlib.Path(folder)
            files = {("lower", "Numbers"): read("lower", root / "crates/lower/specs/Numbers.antt")}
            roots = of_contracts(root, files, {"lower": ["call"]})
            self.assertEqual([it.name for it in roots], ["first"])
            self.assertEqual(counted(*believed(files, roots)), (2, 4, 0))
            with self.assertRaises(AssertionError):
                of_contracts(root, files, {"lower": ["inner"]})


if __name__ == "__main__":
    unittest.main()
