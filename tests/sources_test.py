"""Each function that can give up is in refusals_made.txt, with a checksum of its body and a reason for each line that gives up.

No contract rejects a function that runs out of memory, or can't read or write, at one size only, nor one that reads a file's records once
more than it must, or divides where it needn't. So a change to any of them is reported here, until someone has reviewed it.
`python3 -B tests/sources_test.py --missing` prints how the list and the sources differ. `--update` writes the list anew: reasons stay where
their lines are unchanged, and the others must be written by hand.
"""

import hashlib
import pathlib
import re
import sys
import unittest
from typing import NamedTuple

from built import CRATES
from refusal_places import Body, Line, attributes, bodies, constants, names_of, out_of_layout, without_comments

LIST = pathlib.Path(__file__).with_name("refusals_made.txt")

REASON = "because: "

HEAD = """# Where the sources give up, and why it is right: each function that does, each function between the system and the proved calls, and the
# attributes, constants and imports of their files, with a checksum of all its lines. A reason is that of the line above it. tests/sources_test.py
# compares.
"""

# Functions between the system and the proved calls: no clause can know which words, names and bytes the system gives, so each
# is listed, whether it gives up or not.
BETWEEN = [
    "commands::input::read_input",
    "commands::inputs::certificate_of",
    "commands::inputs::file_of",
    "commands::inputs::image_of",
    "commands::inputs::read_file",
    "commands::inputs::read_inputs",
    "commands::inputs::read_named",
    "commands::output::NamedOutput::append",
    "commands::output::NamedOutput::beside",
    "commands::output::NamedOutput::flush",
    "commands::output::NamedOutput::link",
    "commands::output::NamedOutput::open",
    "commands::output::NamedOutput::open_new",
    "commands::output::NamedOutput::remove_first_name",
    "commands::output::NamedOutput::rename",
    "commands::output::NamedOutput::store",
    "commands::output::NamedOutput::sync",
    "commands::output_path::OutputPath::new",
    "commands::output_path::OutputPath::set",
    "commands::output_path::what_has_name",
    "commands::plain_file::read_plain",
    "commands::playing::band_pixels",
    "commands::program::perform",
    "commands::program::run",
    "commands::program::run_task",
    "commands::program::run_words",
    "commands::reporting::line",
    "commands::same_file::are_of_one_file",
    "commands::same_file::compared",
    "commands::storing::how_to_store",
    "commands::storing::store_text",
    "commands::storing::why_unstored",
    "commands::words::has_right_marks",
    "commands::words::push_replacements",
    "commands::words::read_word",
    "commands::words::read_words",
    "commands::words::with_mark",
    "meta_main::main",
]


class Known(NamedTuple):
    """A function as it is listed: a checksum of its body, and the lines that have reasons, in order, each with these."""

    checksum: str
    reasons: tuple

    def by_line(self):
        """The reasons of each line by its text; where a text stands twice, in order."""
        found = {}
        for text, reasons in self.reasons:
            found.setdefault(text, []).append(reasons)
        return found


def checksum(body):
    """A checksum of all lines of a body."""
    return hashlib.sha256("\n".join(line.text for line in body.lines).encode()).hexdigest()[:16]


def sources_of(crate):
    """The sources of a crate by their paths in its folder. Tests stand in crates of their own."""
    paths = [path.relative_to(crate) for path in sorted((crate / "src").rglob("*.rt"))]
    return {str(path): (crate / path).read_text() for path in paths}


def crates_of_code():
    """The crates, those of tests left out."""
    return [crate for crate in sorted(CRATES.iterdir()) if (crate / "src").is_dir() and not re.fullmatch(r"\w+_tests|test_\w+", crate.name)]


def with_names(crate, sources):
    """The bodies of a crate to be listed, and the attributes, constants and names of their files."""
    found = [it for it in bodies(crate, sources) if it.is_listed() or it.function in BETWEEN]
    names = {it.function for it in found}
    return found + attributes(crate, sources, names) + constants(crate, sources, names) + names_of(crate, sources, names)


def all_bodies():
    """The bodies to be listed of all crates."""
    return [it for crate in crates_of_code() for it in with_names(crate.name, sources_of(crate))]


# Another name for what is told where the sources give up, under which a place would not be found.
ALIAS = re.compile(
    r"(?m)^ *(?:pub(?:\([^)]*\))? )?(?:use [^;]*\b(?:OutOfMemory|CannotRead|WriteFault|InputFault) as |"
    r"(?:const|static|type) [^;]*\b(?:OutOfMemory|CannotRead|WriteFault|InputFault)\b)[^\n]*"
)


# What would make a body, or such a fault, that isn't read here.
HIDING = re.compile(
    r"\bmacro_rules!|\br#*\"|\binclude!|\bDefault for\b|"
    r"\bDefault\b[^)\n]*\)\]\s*(?:pub(?:\([^)]*\))? )?(?:struct|enum) (?:OutOfMemory|WriteFault|InputFault|Refusal|Answer)\b"
)

# Comparing, copying and letting go are derived: no clause says what they do where they are written by hand, and tests compare by them.
BY_HAND = re.compile(
    r"\bimpl(?:<[^{]*?>)? (?:PartialEq|Eq|PartialOrd|Ord|Hash|Clone|Copy|Drop)\b[^{;]*? for\b|\bManuallyDrop\b|\bleak\b"
    r"|\bmem::forget\b|\bmem::\{[^}]*\bforget\b|(?<!\.)(?<!fn )\bforget\("
)


def aliases(text):
    """The lines of a source file that give such a fault another name."""
    return [it[0].strip() for it in ALIAS.finditer(text)]


def listed(text):
    """The functions of a list by their names, in blocks separated by empty lines."""
    found = {}
    for block in text.split("\n\n"):
        lines = [line for line in block.splitlines() if line and not line.startswith("#")]
        if lines:
            name, _, known = lines[0].partition(" ")
            found[name] = Known(known, reasons_of(line.strip() for line in lines[1:]))
    return found


def reasons_of(lines):
    """The lines of a block that aren't reasons, each with the reasons that follow it."""
    found = []
    for line in lines:
        if line.startswith(REASON.rstrip()):
            found[-1][1].append(line.removeprefix(REASON.rstrip()).strip())
        else:
            found.append((line, []))
    return tuple((text, tuple(filter(None, reasons))) for text, reasons in found)


def with_reasons(body, known):
    """The lines of a body, each with its reasons."""
    by_line = known.by_line() if known else {}
    return [(line, by_line[text].pop(0) if by_line.get(text := line.text.strip()) else ()) for line in body.lines]


def unreasoned(body, known):
    """The lines of a body that want a reason and have none, and a line for a body that has none at all."""
    lines = with_reasons(body, known)
    bare = [line.text.strip() for line, reasons in lines if line.wants_reason() and not reasons]
    return bare if bare or any(reasons for _, reasons in lines) or not body.gives_up() else ["no line has a reason"]


def complaint(made, known):
    """How the list differs from the sources."""
    said = [f"{name} is listed, but nothing in it gives up, or it isn't there" for name in known.keys() - {it.function for it in made}]
    for body in made:
        here = known.get(body.function)
        if here is None:
            said.append(f"{body.function} isn't listed")
        elif here.checksum != checksum(body):
            said.append(f"{body.function} has changed")
        else:
            said += [f"{body.function} has no reason for: {line}" for line in unreasoned(body, here)]
    return "\n".join(said)


def block(body, known):
    """A function as the list has it: its checksum, and its lines that have a reason or want one."""
    lines = [f"{body.function} {checksum(body)}"]
    for line, reasons in with_reasons(body, known):
        if reasons or line.wants_reason():
            lines += [f"    {line.text.strip()}", *[f"    {REASON}{reason}".rstrip() for reason in reasons or ("",)]]
    return "\n".join(lines) + "\n"


def renewed(made, known):
    """The list of these functions, with the reasons of the lines that were listed with the same text."""
    return HEAD + "\n" + "\n".join(block(body, known.get(body.function)) for body in made)


class Sources(unittest.TestCase):
    """The sources of this repository."""

    def test_each_function_that_gives_up_is_listed_with_its_reasons(self):
        found = complaint(all_bodies(), listed(LIST.read_text()))
        self.assertFalse(found, f"{LIST.name} isn't what the sources have.\n\n{found}")

    def test_each_function_between_is_there(self):
        names = [it.function for it in all_bodies()]
        self.assertEqual([name for name in BETWEEN if name not in names], [])

    def test_no_fault_has_another_name(self):
        crates = [crate for crate in CRATES.iterdir() if (crate / "src").is_dir()]
        found = [line for crate in crates for text in sources_of(crate).values() for line in aliases(text)]
        self.assertEqual(found, [])

    def test_no_text_is_made_elsewhere(self):
        # What a macro writes, and what a fault is by default, no list of bodies would show.
        found = [it[0] for crate in crates_of_code() for text in sources_of(crate).values() for it in HIDING.finditer(text)]
        self.assertEqual(found, [])
        made = ["macro_rules! full {\n", "impl Default for Fault {\n", "#[derive(Clone, Default)]\npub(crate) enum InputFault {\n"]
        self.assertEqual([len(HIDING.findall(text)) for text in made], [1, 1, 1])
        self.assertEqual(HIDING.findall("#[derive(Clone, Default)]\npub struct Span {\n"), [])

    def test_nothing_stands_where_no_body_is_read(self):
        found = [line for crate in crates_of_code() for text in sources_of(crate).values() for line in out_of_layout(text)]
        self.assertEqual(found, [])
        hidden = [
            "fn a()\n    ensures { b } { if c { return d; }\n{\n    e\n}\n",
            "fn a() { if c { return d; }\n{\n    e\n}\n",
            "fn a() {\n    e\n} /// What follows.\nfn b() {\n}\n",
        ]
        self.assertEqual([len(out_of_layout(text)) for text in hidden], [1, 1, 1])
        self.assertEqual(out_of_layout("/// What it is.\nfn a()\n    ensures b { c\n        (λ d. e) }\n{\n    f\n}\nfn b() {}\n"), [])

    def test_nothing_is_compared_or_let_go_by_hand(self):
        crates = [crate for crate in CRATES.iterdir() if (crate / "src").is_dir()]
        found = [it[0] for crate in crates for text in sources_of(crate).values() for it in BY_HAND.finditer(without_comments(text))]
        self.assertEqual(found, [])
        made = ["impl PartialEq for Refusal {", "impl<'a> PartialOrd<Op<'a>> for Op<'a> {", "impl<T: Copy> Clone for Held<T> {", "mem::forget(table)"]
        self.assertEqual([len(BY_HAND.findall(text)) for text in made], [1, 1, 1, 1])
        self.assertEqual(BY_HAND.findall("impl fmt::Display for Fault {"), [])

    def test_another_name_is_found(self):
        self.assertEqual(len(aliases("use crate::room::OutOfMemory as Full;\n")), 1)
        self.assertEqual(len(aliases("use crate::{fault::InputFault as F, b};\n")), 1)
        self.assertEqual(len(aliases("    pub(crate) const FULL: Fault = Fault::OutOfMemory;\n")), 1)
        self.assertEqual(len(aliases("type Told = Result<(), WriteFault>;\n")), 1)
        self.assertEqual(aliases("use span_fill::{OutOfMemory, RowBuf};\nErr(OutOfMemory)\n"), [])

    def test_the_list_is_no_trifle(self):
        # The sources have many a place: a reader of sources that finds none would find fault with nothing.
        self.assertGreater(sum(line.wants_reason() for it in all_bodies() for line in it.lines), 50)


# A source file, in which every sort of place stands.
SOURCE = '''//! A file.

use crate::status::{DONE, REFUSED};

/// Answers OutOfMemory, as the comment says.
pub fn room(
    count: usize,
) -> Result<(), OutOfMemory>
    requires { count ≤ 2 ^ 20 }
    ensures { IfErr result (λ fault. fault ≡ OutOfMemory) }
{
    if count <= self.room {
        return Ok(());
    }
    grow(&mut self.lines, count)?;
    match self.lines.reserve(count) {
        Ok(()) => Ok(()),
        Err(_) => Err(OutOfMemory),
    }
}

impl Answer {
    /// A status.
    fn status(&self, err: &mut E) -> u8 {
        let Ok(text) = self.text() else {
            report(err, "cannot read");
            return 3;
        };
        if text.is_empty() {
            REFUSED
        } else {
            DONE
        }
    }

    /// How many.
    fn count(&self) -> usize {
        self.count
    }
}
'''

# The lines of its functions that are listed.
ROOM = """if count <= self.room {
    return Ok(());
}
grow(&mut self.lines, count)?;
match self.lines.reserve(count) {
    Ok(()) => Ok(()),
    Err(_) => Err(OutOfMemory),
}"""
STATUS = """let Ok(text) = self.text() else {
    report(err, "cannot read");
    return 3;
};
if text.is_empty() {
    REFUSED
} else {
    DONE
}"""
USE = "use crate::status::{DONE, REFUSED};"


def short_sum(lines):
    """The first 16 digits of the SHA-256 of these lines."""
    return hashlib.sha256(lines.encode()).hexdigest()[:16]


# How they are listed.
LISTED = f"""crate::file::room {short_sum(ROOM)}
    grow(&mut self.lines, count)?;
    because: the lines need memory.
    Err(_) => Err(OutOfMemory),
    because: the allocator is out of memory.

crate::file::Answer::status {short_sum(STATUS)}
    report(err, "cannot read");
    because: it is reported.
    return 3;
    because: no text.
    REFUSED
    because: the text is empty.

crate::file::use {short_sum(USE)}
"""

# Changes that give up at one size, some of them under a turned name, and some that drop a report.
CHANGES = [
    ("    if count <= self.room {\n", "    if count == 4099 {\n        return Err(OutOfMemory);\n    }\n    if count <= self.room {\n"),
    ("    if count <= self.room {\n", "    let count = if count == 4099 { 1 << 58 } else { count };\n    if count <= self.room {\n"),
    ("self.lines.reserve(count)", "self.lines.reserve(count + 1_048_576)"),
    ("grow(&mut self.lines, count)", "grow(&mut self.lines, 2 * count)"),
    ("        Ok(()) => Ok(()),\n", "        Ok(()) if count == 7 => Err(OutOfMemory),\n        Ok(()) => Ok(()),\n"),
    ("if text.is_empty() {", "if text.is_empty() || text.len() == 196_608 {"),
    ("let Ok(text) = self.text() else", "let Ok(text) = self.text().filter(is_short) else"),
    ('report(err, "cannot read");', 'if odd {\n                report(err, "cannot read");\n            }'),
    ('            report(err, "cannot read");\n', ""),
    ("            DONE\n", "            if odd { REFUSED } else { DONE }\n"),
    ("            DONE\n", "            if odd {\n                4\n            } else {\n                DONE\n            }\n"),
    ("        self.count\n", "        if self.count == 7 {\n            self.lines.reserve(1 << 40);\n        }\n        self.count\n"),
    ("{DONE, REFUSED};", "{DONE as REFUSED, REFUSED as DONE};"),
    ("{DONE, REFUSED};", "{DONE, REFUSED};\nuse crate::wide::grow;"),
    ("{DONE, REFUSED};", "{DONE, REFUSED};\n\nmod wide;"),
    ("        self.count\n", "        self.lines.extend_from_within(..);\n        self.count\n"),
    ("fn count(&self) -> usize {", "fn count(&self) -> Result<usize, AllocError> {"),
    ("fn count(&self) -> usize {", "fn count(&self, alloc: Global) -> usize {"),
    ("        self.count\n", "        let quote = '\"'; // \"\n        self.lines.reserve(1 << 40);\n        self.count\n"),
    ("        self.count\n", "        self.lines.reserve/* \" */(1 << 40);\n        self.count\n"),
    ("        self.count\n", "        self.lines.reserve::<>(1 << 40);\n        self.count\n"),
    ("        self.count\n", "        let more = Lines::reserve;\n        more(self.lines, 1 << 40);\n        self.count\n"),
    ("        self.count\n", "        if odd { return Err(fmt::Error); }\n        self.count\n"),
    ("        self.count\n", "        let spare = [0u8; 4_000_000];\n        self.count\n"),
    ("        self.count\n", "        self.count.wrapping_div(self.room)\n"),
    ("        self.count\n", "        while self.rest >= 8 && self.count < 600 {\n            self.skip();\n        }\n        self.count\n"),
    ("    if count <= self.room {\n", "    let count = odd(count);\n    fn odd(n: usize) -> usize\n        requires { n ≤ 9 }\n    {\n        n\n    }\n    if count <= self.room {\n"),
]

# Changes of what gives nothing up.
OTHERS = [
    ("as the comment says", "where the writer fails by a WriteFault"),
    ("fault ≡ OutOfMemory)", "fault ≡ OutOfMemory) ⊎ WriteFault"),
    ("        self.count\n", "        self.times += 1;\n        self.count\n"),
]


def read(text):
    """The bodies of a source file that are listed, and what its names stand for."""
    return with_names("crate", {"src/file.rt": text})


class Reading(unittest.TestCase):
    """Bodies that are read of a source file, and compared with a list."""

    def test_each_function_that_gives_up_is_read_whole(self):
        self.assertEqual(complaint(read(SOURCE), listed(LISTED)), "")

    def test_each_change_of_giving_up_is_told(self):
        for old, new in CHANGES:
            with self.subTest(new=new):
                self.assertEqual(SOURCE.count(old), 1)
                self.assertTrue(complaint(read(SOURCE.replace(old, new)), listed(LISTED)))

    def test_nothing_else_is_told(self):
        for old, new in OTHERS:
            with self.subTest(new=new):
                self.assertEqual(SOURCE.count(old), 1)
                self.assertEqual(complaint(read(SOURCE.replace(old, new)), listed(LISTED)), "")

    def test_each_line_that_gives_up_wants_a_reason(self):
        for reason in [line for line in LISTED.splitlines() if REASON in line]:
            with self.subTest(reason=reason):
                self.assertIn("has no reason", complaint(read(SOURCE), listed(LISTED.replace(reason + "\n", ""))))
        self.assertIn("isn't there", complaint(read(SOURCE), listed(LISTED + "\ncrate::file::other 0\n    DONE\n")))
        self.assertIn("isn't listed", complaint(read(SOURCE), listed(LISTED.partition("\n\n")[2])))

    def test_the_constants_of_their_files_are_read(self):
        room = "const ROOM: usize = 128;"
        sources = {"src/lines.rt": f"/// Room.\n{room}\n\nfn line() -> u8 {{\n    1\n}}\n", "src/other.rt": f"pub {room}\n"}
        self.assertEqual(constants("crate", sources, {"crate::lines::line"}), [Body("crate::lines::const", (Line(room, False),))])

    def test_constants_of_several_lines_are_read(self):
        text = 'const HELP: &str = "Status:\n  3  an input; or an output";\n'
        sources = {"src/help.rt": f"{text}\nfn line() -> u8 {{\n    1\n}}\n", "src/sizes.rt": "const SIDES: [u32; 2] = [\n    1,\n    [2; 1],\n];\nfn a() {}\n"}
        (help_text,), (sides,) = (constants("crate", sources, {f"crate::{name}"})[0].lines for name in ("help::line", "sizes::a"))
        self.assertEqual(help_text.text, 'const HELP: &str = "Status:⏎  3  an input; or an output";')
        self.assertEqual(sides.text, "const SIDES: [u32; 2] = [⏎    1,⏎    [2; 1],⏎];")

    def test_attributes_are_read(self):
        text = '#![tactic(auto)]\n\n/// A fault.\n#[derive(Error)]\npub enum Fault {\n    /// Full.\n    #[error("full")]\n    Full,\n}\n\n'
        text += "#[inline(never)]\n#[tactic(auto)]\nfn room() -> u8 {\n    1\n}\n"
        (found,) = attributes("crate", {"src/room.rt": text}, {"crate::room::room"})
        self.assertEqual([line.text for line in found.lines], ["#[derive(Error)] pub enum Fault {", '#[error("full")] Full,', "#[inline(never)] fn room() -> u8 {"])

    def test_a_list_is_read_as_it_is_written(self):
        self.assertEqual(renewed(read(SOURCE), listed(LISTED)), HEAD + "\n" + LISTED)
        bare = renewed(read(SOURCE), listed(LISTED.replace("because: it is reported.", "because:")))
        self.assertIn('report(err, "cannot read")', complaint(read(SOURCE), listed(bare)))


if __name__ == "__main__":
    if sys.argv[1:] == ["--missing"]:
        print(complaint(all_bodies(), listed(LIST.read_text())))
    elif sys.argv[1:] == ["--update"]:
        LIST.write_text(renewed(all_bodies(), listed(LIST.read_text())))
    else:
        unittest.main()
