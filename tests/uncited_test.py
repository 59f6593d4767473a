"""No definition stands in specs/ without need, and the script that finds such definitions finds them."""

import pathlib
import tempfile
import unittest

from uncited import ROOT, uncited

LOWER = """-- Two numbers.
use Rattle.std.specs.Prelude.{ℕ}

-- a number that code names
abbrev pub named : ℕ
named = below

-- a number that the first one needs
abbrev below : ℕ
below = 1

-- a number that nothing needs, but by its own words
abbrev pub lonely : ℕ → ℕ
lonely n = lonely n

-- numbers that need each other
abbrev pub left : ℕ
left = right

abbrev pub right : ℕ
right = left

-- a record by its field, and a type by a case
pub record Given (n : ℕ) : Type 0 where
  pub field : n ≡ named

pub data Kind : Type 0 where
  plain : Kind
  odd : ℕ → Kind

module _ (n : ℕ) where
  -- numbers in a block of their own
  abbrev pub inner : ℕ
  inner = n

  abbrev pub spare : ℕ
  spare = n
"""

UPPER = """-- Numbers of another crate.
use Rattle.lower.specs.Numbers.{inner, odd}

-- a name that stands in a comment alone: lonely
abbrev pub lonely : ℕ
lonely = inner

-- a record that nothing needs names a definition
pub record Idle : Type 0 where
  pub kind : odd 1
"""

CODE = """ghost use Rattle.lower.specs.Numbers.{
    Given, named,
};
ghost use Rattle.upper.specs.More.lonely;
"""

PROOF = """use Rattle.lower.specs.Numbers.{odd as strange}
"""


class Uncited(unittest.TestCase):
    """Definitions of this repository, and of one that is made up."""

    def test_each_definition_is_needed(self):
        self.assertEqual([f"{block.crate}: {block.name}" for block in uncited(ROOT)], [])

    def found(self, **changed):
        """What isn't needed in the repository below, of which some files are changed."""
        files = {"lower/specs/Numbers.antt": LOWER, "upper/specs/More.antt": UPPER, "upper/src/lib.rt": CODE, "upper/proofs/Lemmas.antt": PROOF}
        names = dict(zip(("lower", "upper", "code", "proof"), files, strict=True))
        files |= {names[name]: text for name, text in changed.items()}
        with tempfile.TemporaryDirectory() as folder:
            for name, text in files.items():
                path = pathlib.Path(folder, "crates", name)
                path.parent.mkdir(parents=True, exist_ok=True)
                path.write_text(text, encoding="utf-8")
            return [(block.module, block.line, block.name) for block in uncited(pathlib.Path(folder))]

    def test_what_nothing_needs_is_found(self):
        lower = [("Numbers", 13, "lonely"), ("Numbers", 17, "left"), ("Numbers", 20, "right"), ("Numbers", 36, "spare")]
        self.assertEqual(self.found(), [*lower, ("More", 9, "Idle")])

    def test_a_name_counts_only_where_it_is_imported(self):
        kind = ("Numbers", 27, "Kind")
        self.assertIn(kind, self.found(proof="-- odd\n"))
        self.assertNotIn(kind, self.found(proof=PROOF))
        self.assertIn(("More", 5, "lonely"), self.found(code=CODE.replace("More.lonely", "Others.lonely")))
        self.assertNotIn(("More", 9, "Idle"), self.found(proof="use Rattle.upper.specs.More.{Idle}\n"))


if __name__ == "__main__":
    unittest.main()
