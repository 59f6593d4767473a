"""What tries the mutants in edits/, without the prover: the names of functions, what a refusal is, and rounds."""

import pathlib
import unittest

from edit_functions import changed_functions, functions, named_functions, pairs, unproved
from edit_rounds import Edit, beside, parts_of, placed_in, rounds_of
from edit_verdicts import function_of, is_refused, refused

ROOT = pathlib.Path(__file__).resolve().parent.parent

# A small crate in the formatter's layout: a type with calls of its own and of a trait, in another file than the type too.
SOURCES = {
    "src/lib.rt": """mod sides;
pub use sides::Side;

pub const LIMIT: i32 = 8;

pub trait Half {
    fn half(self) -> i32;
}

pub fn twice(side: i32) -> i32 {
    side * 2
}
""",
    "src/sides.rt": """use crate::Half;

pub struct Side {
    length: i32,
}

pub(crate) enum Kind {}

impl Side {
    pub const fn new(length: i32) -> Side {
        Side { length }
    }

    fn area(self) -> i32 {
        self.length * self.length
    }
}

impl Half for Side {
    fn half(self) -> i32 {
        self.length / 2
    }
}

impl<'a, T: Half + Fn(i32) -> i32> From<&'a T> for Kind {
    fn from(it: &'a T) -> Kind {
        unmade(it)
    }
}
""",
    "src/sides/areas.rt": """use super::Side;

impl Side {
    fn doubled(self) -> i32 {
        self.area() + self.area()
    }
}

fn of_none() -> i32 {
    0
}
""",
}


def edit(name, path, old, new, functions):
    """An edit of one pair, that changes these functions."""
    return Edit(name, f"file: {path}\nold: {old}\nnew: {new}\n", functions)


class FunctionNames(unittest.TestCase):
    """Functions have the names that the prover gives them."""

    def names(self, path):
        """The names of the functions of a file of the small crate, which is called shapes."""
        return [it.name for it in functions("shapes", SOURCES, path)]

    def test_a_function_of_the_top_has_no_module(self):
        """A function of lib.rt stands in the crate, and a trait's in the trait."""
        self.assertEqual(self.names("src/lib.rt"), ["shapes::Half::half", "shapes::twice"])

    def test_calls_stand_in_their_types(self):
        """A type's calls are named by the type, those of a trait's impl by type and trait, without what stands in brackets."""
        wanted = ["Side::new", "Side::area", "SideHalf::half", "KindFrom::from"]
        self.assertEqual(self.names("src/sides.rt"), [f"shapes::sides::{name}" for name in wanted])

    def test_a_call_stands_where_its_type_does(self):
        """A call of a type that is declared in another file has the modules of that file."""
        self.assertEqual(self.names("src/sides/areas.rt"), ["shapes::sides::Side::doubled", "shapes::sides::areas::of_none"])


class ChangedFunctions(unittest.TestCase):
    """The functions that an edit changes, and whether it changes anything else."""

    def changed(self, *rows):
        """What an edit with these rows changes in the small crate."""
        return changed_functions("shapes", "\n".join(rows) + "\n", SOURCES)

    def test_a_text_in_a_body_changes_that_function(self):
        """The function round the text is the one that is changed, once, whatever else the edit changes."""
        rows = ["file: src/lib.rt", "old: side * 2", "new: side", "old: twice(side", "new: twice(edge"]
        self.assertEqual(self.changed(*rows), (["shapes::twice"], False))

    def test_an_edit_may_change_functions_of_two_files(self):
        """Each pair belongs to the file named last before it."""
        rows = ["file: src/lib.rt", "old: * 2", "new: * 3", "file: src/sides.rt", "old: / 2", "new: / 3"]
        self.assertEqual(self.changed(*rows), (["shapes::twice", "shapes::sides::SideHalf::half"], False))

    def test_a_constant_stands_in_no_function(self):
        """What stands between functions is told apart, beside a function too."""
        rows = ["file: src/lib.rt", "old: i32 = 8", "new: i32 = 9", "old: * 2", "new: * 3"]
        self.assertEqual(self.changed(*rows), (["shapes::twice"], True))

    def test_an_edit_may_name_its_functions(self):
        """A line 'function:' names one, and is no part of a pair."""
        text = "file: src/lib.rt\nfunction: shapes::twice\nold: i32 = 8\nnew: i32 = 9\n"
        self.assertEqual(named_functions(text), ["shapes::twice"])
        self.assertEqual(list(pairs(text)), [("src/lib.rt", "i32 = 8", "i32 = 9")])

    def test_a_new_text_may_be_empty(self):
        """A line 'new:' without a text takes the old text away, and one space behind the colon isn't part of it."""
        text = "file: src/lib.rt\nold: a\nnew:\nold: b\nnew:  c\n"
        self.assertEqual(list(pairs(text)), [("src/lib.rt", "a", ""), ("src/lib.rt", "b", " c")])


class Unproved(unittest.TestCase):
    """The texts in which the prover leaves other functions than those that are asked."""

    def test_others_are_left(self):
        """Each other function has the attribute on a line of its own, as far in as the function, and no body. A trait's functions stay."""
        texts, others = unproved("shapes", SOURCES, ["shapes::sides::Side::area"])
        twice = "#[tactic(none)]\npub fn twice(side: i32) -> i32 {\n    unreachable!()\n}"
        self.assertEqual(texts["src/lib.rt"], SOURCES["src/lib.rt"].replace("pub fn twice(side: i32) -> i32 {\n    side * 2\n}", twice))
        self.assertIn("    #[tactic(none)]\n    fn half(self) -> i32 {\n        unreachable!()\n    }\n}\n", texts["src/sides.rt"])
        self.assertIn("\n\n    fn area(self) -> i32 {\n        self.length * self.length\n    }\n}\n", texts["src/sides.rt"])
        self.assertEqual(texts["src/sides.rt"].count("tactic"), 3)
        every = {it.name for path in SOURCES for it in functions("shapes", SOURCES, path)}
        self.assertEqual(others, every - {"shapes::sides::Side::area", "shapes::Half::half"})

    def test_a_body_that_has_to_stay_stays(self):
        """The compiler may run a `const fn`, and functions of a cycle have to call one another."""
        texts, _ = unproved("shapes", SOURCES, [])
        self.assertIn("    #[tactic(none)]\n    pub const fn new(length: i32) -> Side {\n        Side { length }\n    }\n", texts["src/sides.rt"])
        text = "#[cycle(parity)]\nfn even(n: u8) -> bool\n    ensures { result ≡ n }\n{\n    odd(n)\n}\n"
        texts, _ = unproved("shapes", {"src/lib.rt": text}, [])
        self.assertEqual(texts, {"src/lib.rt": text.replace("fn even", "#[tactic(none)]\nfn even")})

    def test_a_contract_stays(self):
        """The body begins after it."""
        text = "fn one(\n    n: u8,\n) -> u8\n    requires { n ≡ 1 }\n    ensures { result ≡ n }\n{\n    match n {\n        1 => 1,\n    }\n}\n"
        texts, _ = unproved("shapes", {"src/lib.rt": text}, [])
        self.assertEqual(texts, {"src/lib.rt": f"#[tactic(none)]\n{text[: text.index('    match')]}    unreachable!()\n}}\n"})

    def test_an_attribute_about_the_proof_is_replaced(self):
        """The prover takes no second one. Others may stand before the function."""
        text = "/// One.\n#[tactic(using(one))]\n#[inline]\npub fn one() {}\n\n/// Two.\n#[inline]\nfn two() {}\n"
        texts, others = unproved("shapes", {"src/lib.rt": text}, [])
        left = text.replace("#[tactic(using(one))]\n", "").replace("pub fn one", "#[tactic(none)]\npub fn one").replace("fn two", "#[tactic(none)]\nfn two")
        self.assertEqual((texts, others), ({"src/lib.rt": left}, {"shapes::one", "shapes::two"}))


class Verdicts(unittest.TestCase):
    """What the prover's line says of a function by itself."""

    def test_a_proved_function_is_not_refused(self):
        """Neither is one that is proved, or of which something else is said."""
        self.assertFalse(is_refused("proved"))
        self.assertFalse(is_refused("foreign"))

    def test_an_open_goal_is_a_refusal(self):
        """A goal that isn't proved is a reason of the function's own."""
        self.assertTrue(is_refused("no proof: expected answers in ./proofs/twice/Answers.antt; `search` did not prove `returns`"))
        self.assertTrue(is_refused("not proved"))

    def test_an_error_in_an_answer_is_a_refusal(self):
        """So is an error in what its proof files say."""
        self.assertTrue(is_refused("not proved: proofs/twice/Answers.antt has an error"))
        self.assertTrue(is_refused("not proved; it calls `shapes::half`, which is not proved"))

    def test_a_call_alone_is_no_refusal(self):
        """A function that only calls others that aren't proved has no reason of its own."""
        self.assertFalse(is_refused("no proof: it calls `shapes::twice`, which is not proved"))
        waits = "the borrow checker's part in its proof is not made yet: a call of `shapes::twice`, which has no proof: help: prove it first, and .."
        self.assertFalse(is_refused(f"no proof: {waits}"))
        both = "no proof: it calls `shapes::twice` and `shapes::half`, which are not proved; it passes the block `Half`, which is not proved"
        self.assertFalse(is_refused(both))

    def test_a_call_hides_no_open_goal(self):
        """A function that calls one that isn't proved and has an open goal too is refused, in either order."""
        call, goal = "it calls `shapes::twice`, which is not proved", "`search` did not prove `returns-in-Text`"
        self.assertTrue(is_refused(f"no proof: {call}; {goal}"))
        self.assertTrue(is_refused(f"no proof: {goal}; {call}"))

    def test_a_closure_is_in_a_function(self):
        """The prover names a closure by its function and by the call that it is given to."""
        self.assertEqual(function_of("shapes::sides::fn::retire::retain"), "shapes::sides::retire")
        self.assertEqual(function_of("shapes::fn::words::map_err+FnOnce::call_once"), "shapes::words")
        self.assertEqual(function_of("shapes::sides::Side::new"), "shapes::sides::Side::new")

    def test_functions_are_told_from_other_lines(self):
        """Only lines of functions count, each by its name."""
        lines = [
            "src/lib.rt:3:5: error: fn shapes::half: not proved",
            "fn shapes::twice: proved",
            "fn shapes::sides::Side::new: no proof: `search` did not prove `returns`",
            "fn shapes::sides::Side::area: no proof: it calls `shapes::sides::Side::new`, which is not proved",
            "only=3 proved=1",
        ]
        self.assertEqual(refused("\n".join(lines)), {"shapes::sides::Side::new"})


class Rounds(unittest.TestCase):
    """Edits that are judged together."""

    texts = {"src/lib.rt": "one two three two_and_more four"}

    def edits(self, *rows):
        """Edits of the file by their old text, their new text, and the function that they change."""
        return [edit(old, "src/lib.rt", old, new, (function,)) for old, new, function in rows]

    def named(self, rounds):
        """The names of the edits of each round."""
        return [[it.name for it in this.edits] for this in rounds]

    def test_an_edit_needs_its_place_once(self):
        """A text that stands twice or not at all is no place."""
        twice, none = self.edits(("two", "2", "f"), ("five", "5", "f"))
        self.assertIsNone(placed_in(self.texts, twice))
        self.assertIsNone(placed_in(self.texts, none))

    def test_edits_of_different_functions_stand_together(self):
        """Their texts are all in the round's."""
        (this,) = rounds_of(self.edits(("one", "1", "f"), ("four", "4", "g")), self.texts)
        self.assertEqual(this.texts, {"src/lib.rt": "1 two three two_and_more 4"})

    def test_no_function_is_changed_twice_in_a_round(self):
        """A second edit of a function waits for the next round, and a later one of another goes to the first."""
        edits = self.edits(("one", "1", "f"), ("three", "3", "f"), ("four", "4", "g"))
        self.assertEqual(self.named(rounds_of(edits, self.texts)), [["one", "four"], ["three"]])

    def test_texts_that_clash_stand_apart(self):
        """An edit whose place another one of the round has taken waits, and so does one that would find two places."""
        taken = self.edits(("three", "3", "f"), ("three two", "32", "g"))
        self.assertEqual(self.named(rounds_of(taken, self.texts)), [["three"], ["three two"]])
        swapped = self.edits(("one", "four", "f"), ("four", "one", "g"))
        self.assertEqual(self.named(rounds_of(swapped, self.texts)), [["one"], ["four"]])

    def test_an_edit_whose_text_another_one_brings_comes_first(self):
        """An edit whose old text another one of the round writes somewhere else is placed before that one."""
        (this,) = rounds_of(self.edits(("one", "four", "f"), ("four", "4", "g")), self.texts)
        self.assertEqual([it.name for it in this.edits], ["four", "one"])
        self.assertEqual(this.texts, {"src/lib.rt": "four two three two_and_more 4"})

    def test_parts_have_about_as_many_functions_each(self):
        """Edits of one function stand in one part, those that are tried alone in the last, and each in exactly one."""
        rows = [("b1", "b"), ("a1", "a"), ("a2", "a"), ("c1", "c"), ("d1", "d"), ("e1", "e")]
        edits = [edit(name, "src/lib.rt", "one", "1", (function,)) for name, function in rows]
        alone = edit("alone", "src/lib.rt", "one", "1", ())._replace(is_alone=True)
        names = [[it.name for it in part] for part in parts_of([alone, *edits], 3)]
        self.assertEqual(names, [["a1", "a2", "b1", "c1"], ["d1", "e1", "alone"]])
        self.assertEqual([[it.name for it in part] for part in parts_of(edits, 5)], [["a1", "a2", "b1", "c1", "d1", "e1"]])
        self.assertEqual([[it.name for it in part] for part in parts_of([alone], 5)], [["alone"]])

    def test_a_round_keeps_what_stood_before_it(self):
        """The functions that a round doesn't change stay as the round before left them."""
        first, second = rounds_of(self.edits(("one", "1", "f"), ("four", "4", "g"), ("three", "3", "f")), self.texts)
        whole = beside(second, first.edits, self.texts)
        self.assertEqual(self.named([whole]), [["three", "four"]])
        self.assertEqual(whole.texts, {"src/lib.rt": "one two 3 two_and_more 4"})


class Places(unittest.TestCase):
    """The edits of this repository, as they stand."""

    def sources(self, crate):
        """The texts of a crate's files by their paths in it."""
        folder = ROOT / "crates" / crate
        return {str(path.relative_to(folder)): path.read_text(encoding="utf-8") for path in folder.glob("src/**/*.rt")}

    def test_each_edit_finds_its_place(self):
        """Each old text stands once in its file, and something is changed."""
        for crate in sorted(it for it in (ROOT / "edits").iterdir() if it.is_dir()):
            sources = self.sources(crate.name)
            for path in sorted(crate.iterdir()):
                with self.subTest(edit=f"{crate.name}/{path.name}"):
                    texts = placed_in(sources, Edit(path.stem, path.read_text(encoding="utf-8"), ()))
                    self.assertEqual(path.suffix, ".edit")
                    self.assertIsNotNone(texts)
                    self.assertNotEqual(texts, sources)


if __name__ == "__main__":
    unittest.main()
