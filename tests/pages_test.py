"""Pages name nothing that isn't there: each name between backticks is one of the sources, of the definitions, of a crate, a library or a file."""

import re
import unittest

from built import ROOT
from page_names import crates, libraries, quoted, without_blocks

PAGES = ["README.md", "docs/PROMISES.md", "docs/LAYERS.md", "docs/DECISIONS.md", "docs/TESTS.md"]

# Words that are neither names of this repository nor files of it.
OTHERS = {
    "--allow": "an option of the command line",
    "--allow emf-plus": "an option of the command line",
    "--allow held-deletion": "an option of the command line",
    "--bands ROWS": "an option of the command line",
    "--fit": "an option of the command line",
    "--profile core": "an option of the command line",
    "--profile print": "an option of the command line",
    "--replace": "an option of the command line",
    "--version": "an option of the command line",
    "-V": "an option of the command line",
    "crates/meta_main/out/meta_main": "the built program",
    "#": "a sign of pictures",
    "?": "an operator",
    "apt-get": "a program",
    "apt-get install python3-freetype python3-pil": "a command line of Debian's",
    "black": "a program",
    "dpkg-query": "a program",
    "flake8": "a program",
    "mypy": "a program",
    "mypy --strict": "a command line",
    "shellcheck": "a program",
    "py3compile": "a program of Debian's",
    "python3-typeshed": "a package of Debian's",
    "/usr/bin/python3": "Debian's Python",
    "Display": "a trait of the toolchain's",
    "From": "a trait of the toolchain's",
    "assert_eq!": "a macro of the toolchain's",
    "CC": "a variable that packagers set",
    "DESTDIR": "a variable that packagers set",
    "LDFLAGS": "a variable that packagers set",
    "DEBFULLNAME": "a variable that packagers set",
    "DEBEMAIL": "a variable that packagers set",
    "dpkg-deb": "a program",
    "lintian": "a program",
    "mandoc": "a program",
    "SOURCE_DATE_EPOCH": "a variable that packagers set",
    "ldconfig": "a program",
    "NOTICES": "a page that is made when it is installed",
    "Global": "a type of the toolchain's",
    "cannot read": "what standard error tells",
    "cannot write": "what standard error tells",
    "ar": "a program",
    "c++": "a program",
    "cc": "a program",
    "install": "a word of the launcher",
    "libmetaplay.a": "a file that is made of the proved library",
    "LD_LIBRARY_PATH": "ld.so(8)",
    "PKG_CONFIG_PATH": "pkg-config(1)",
    "lib": "a folder of what is installed",
    "metaplay-fixup": "the fix-up",
    "lib/pkgconfig": "a folder of what is installed",
    "~/.local/bin": "a folder of what is installed",
    "METAPLAY_1": "the version of the shared library's names",
    "malloc": "a call of the C library's",
    "proofs/": "a folder of each crate",
    "nm": "a program",
    "make_deb": "a command of a packager",
    "packaging/make_deb FOLDER": "a command of a packager",
    "packaging/make_fixup_deb FILE": "a command of a packager",
    "python3": "a program",
    "readelf": "a program",
    "realloc": "a call of the C library's",
    "rattle-kit-13f logic dac8208d650f15bf": "a version of the toolchain",
    "requires": "a word of contracts",
    "rt": "a program",
    "rt version": "a program",
    "serde_json": "a library",
    "specs/": "a folder of each crate",
    "try": "a word of the launcher",
    "uninstall": "a word of the launcher",
    "valgrind": "a program",
}

# What a line that tells something, or a command line, begins with.
TOLD = re.compile(r"metaplay:? ")

CRATES = crates()

# The words of the command line: each stands by itself in the sources of the commands.
WORDS = {
    word
    for crate in ("command_lines", "commands")
    for text in CRATES[crate].sources.values()
    for word in re.findall(r'"([a-z]+)"', text)
}

# The options and the faults of the fix-up.
FIXUP = {
    name
    for source, pattern in (("command_line", r'"(--[a-z-]+)"'), ("faults", r'(?m)^    (\w+) = "'))
    for name in re.findall(pattern, (ROOT / "fixup" / "metaplay_fixup" / f"{source}.py").read_text(encoding="utf-8"))
}


def text_of(page):
    """The text of a page."""
    return (ROOT / page).read_text(encoding="utf-8")


def files_known():
    """The files that a page may name alone, or by their place in a crate, and mutants, whose names are those of files."""
    crates = [path for part in ("src", "specs", "proofs") for folder in (ROOT / "crates").glob(f"*/{part}") for path in folder.rglob("*")]
    names = {it.name for it in crates} | {"/".join(it.parts[-2:]) for it in crates}
    others = {it.name for folder in ("samples", "tests", "docs", "fixup") for it in (ROOT / folder).rglob("*")}
    return names | others | {it.stem for it in (ROOT / "edits").glob("*/*.edit")}


def is_known(name, files):
    """Whether a word of a page is a name of the sources or definitions, or of a file."""
    plain = re.sub(r"<.*>", "", name)
    if name in OTHERS or name in WORDS or name in FIXUP or TOLD.match(name) or plain in {*CRATES, *sum(libraries().values(), [])}:
        return True
    if re.fullmatch(r"\w+::\w+", plain):
        owner, member = plain.split("::")
        owner = next((it.aliases[owner] for it in CRATES.values() if owner in it.aliases), owner)
        return any((owner, member) in it.members for it in CRATES.values()) or (owner in CRATES and member in CRATES[owner].code)
    return any(plain in it.names for it in CRATES.values()) or (ROOT / plain).exists() or plain in files


class Names(unittest.TestCase):
    """The names on the pages."""

    def test_that_each_name_is_there(self):
        files = files_known()
        files |= {it.stem for it in (ROOT / "crates").glob("*/specs/*.antt")}
        for page in PAGES:
            unknown = {name for name in quoted(text_of(page)) if not is_known(name, files)}
            self.assertEqual(unknown, set(), page)

    def test_that_each_other_word_is_on_a_page(self):
        self.assertEqual(OTHERS.keys() - {name for page in PAGES for name in quoted(text_of(page))}, set())


class Layers(unittest.TestCase):
    """The page of layers."""

    def test_that_each_crate_has_a_row_and_each_of_tests_a_word(self):
        text = without_blocks(text_of("docs/LAYERS.md"))
        in_rows = set(re.findall(r"`(\w+)`", " ".join(re.findall(r"(?m)^\| (`[^|]*) \|", text))))
        tests = {name for name in CRATES if name.endswith("_tests") or name.startswith("test_")}
        layers = {name for name in CRATES if not name.startswith("example_")} - tests
        self.assertEqual(in_rows & CRATES.keys(), layers)
        self.assertEqual(tests - set(quoted(text)), set())
        numbers = {3: "three", 4: "four", 5: "five", 6: "six"}
        self.assertIn(f"{len(layers)} crates, and {numbers[len(tests)]} of tests", text.split("\n")[2])


if __name__ == "__main__":
    unittest.main()
