"""How long clauses are and how many parameters functions have, against the limits of this repository, and what measures them."""

import unittest

from clause_lengths import clauses, clauses_in, functions, functions_in

# At most so many clauses are longer than so many characters.
MOST_CLAUSES = {120: 100, 200: 0}

# The crates whose functions have at most five parameters, and the functions that may have more, each with the reason.
CRATES = ("painting", "player")
FIXED = {
    "play_bands": "its callers' form is fixed: allocator, checked file, two sides, first row, writer",
    "play_bands_to": "the same, for a writer that counts",
}

SOURCE = """impl<'a, T: Table<'a>> Machine<'a, T> {
    /// Plays (a, b). ensures { nothing }
    pub(crate) fn play<F: Fn(u8, u8) -> bool>(
        &mut self,
        pair: (u8, u8), // one, two
        test: F,
        map: BTreeMap<u8, u8>,
    ) -> Result<(), Fault>
        requires { some { inner } }
        ensures plays { first
            ≡ second }
    {
        self.all(1, 2)
    }

    fn named(&'a self) {}

    fn declared(self)
        ensures { one };

    fn given(self)
        ensures { one }
    {}
}

fn free() -> u8 {
    0
}
"""


class Measures(unittest.TestCase):
    """What is measured of a text."""

    def test_a_clause_runs_to_its_closing_brace_and_its_lines_are_joined(self):
        wanted = ["requires { some { inner } }", "ensures plays { first ≡ second }", "ensures { one }", "ensures { one }"]
        self.assertEqual([clause for _, clause in clauses_in(SOURCE)], [f"        {clause}" for clause in wanted])

    def test_parameters_are_counted_without_self_and_commas_in_types(self):
        self.assertEqual([(it.name, it.parameters) for it in functions_in(SOURCE)], [("play", 3), ("named", 0), ("declared", 0), ("given", 0), ("free", 0)])

    def test_a_function_s_lines_include_its_contract(self):
        self.assertEqual([it.lines for it in functions_in(SOURCE)], [12, 1, 2, 3, 3])


class Limits(unittest.TestCase):
    """The limits of this repository."""

    def test_few_clauses_are_long(self):
        found = clauses()
        for length, most in MOST_CLAUSES.items():
            long = [it.place for it in found if it.measure > length]
            self.assertLessEqual(len(long), most, f"longer than {length}: {long}")

    def test_functions_that_paint_and_play_have_few_parameters(self):
        wide, _ = functions()
        self.assertEqual({it.name for it in wide if it.crate in CRATES}, set(FIXED))


if __name__ == "__main__":
    unittest.main()
