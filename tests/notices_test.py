"""The page NOTICES: it names each library of the toolchain that is linked, and no other, and has each licence text once."""

import pathlib
import re
import shutil
import subprocess
import unittest

from built import ROOT
from launcher_folder import InstallFolder

# The toolchain of this machine.
KIT = pathlib.Path(shutil.which("rt")).resolve().parent.parent

SCRIPT = 'root=$1; shift; say() { echo "metaplay: $*" >&2; }; . "$root/launcher/program.sh"; . "$root/launcher/notices.sh"; write_notices "$@"'


def page(*files):
    """The page for these files of this repository."""
    words = ["sh", "-euc", SCRIPT, "sh", ROOT, *files]
    return subprocess.run(words, stdout=subprocess.PIPE, text=True, check=True).stdout


def below(crate):
    """The libraries of the toolchain below a crate: std, those that crates.txt names, and those that the toolchain says that they use."""
    lines = re.findall(r"(?m)^(\w+)(?: staticlib)?:(.*)$", (ROOT / "crates.txt").read_text("ascii"))
    uses = {name: words.split() for name, words in lines}
    found, names = set(), [crate, "std"]
    while names:
        name = names.pop()
        if name not in found:
            found.add(name)
            names += uses[name] if name in uses else re.findall(r"(?m)^dep (\w+)$", (KIT / f"rlibs/{name}.rlib/format").read_text("ascii"))
    return found - uses.keys()


def named(text):
    """The libraries that a page names: those with licence files, each with the numbers of their texts, and the others."""
    head, _, rest = text.partition("----")
    rows = re.findall(r"(?m)^(\w+): (.* \[\d+\])$", head)
    bare = re.search(r"the libraries ([\w, ]+), and the C code of", " ".join(head.split()))[1]
    return {name: re.findall(r"(\S+) \[(\d+)\]", files) for name, files in rows}, set(re.split(r", | and ", bare)), rest


class Page(unittest.TestCase):
    """The page of this repository, with the toolchain of this machine."""

    def compare(self, text, crates):
        """Checks that a page has the libraries below these crates, and the texts of their licence files."""
        licensed, bare, rest = named(text)
        wanted = set().union(*map(below, crates))
        files = {name: sorted(path.name for path in (KIT / "rattle" / name).glob("LICENSE*")) for name in wanted}
        self.assertEqual(bare, {name for name in wanted if not files[name]})
        self.assertEqual({name: [file for file, _ in its] for name, its in licensed.items()}, {name: its for name, its in files.items() if its})
        texts = dict(re.findall(r"(?ms)^-{40}\n\[(\d+)\]\n\n(.*?)\n(?=-{40}\n|\Z)", "-" * 4 + rest))
        for name, its in licensed.items():
            for file, number in its:
                self.assertEqual(texts[number], (KIT / "rattle" / name / file).read_text("utf-8"), (name, file))
        self.assertEqual(len(set(texts.values())), len(texts))
        self.assertEqual({number for its in licensed.values() for _, number in its}, texts.keys())

    def test_both_files_have_the_libraries_below_them(self):
        self.compare(page("program", "library"), ["meta_main", "metaplay_c"])
        self.compare(page("program"), ["meta_main"])
        self.compare(page("library"), ["metaplay_c"])

    def test_the_program_has_parsers_that_the_library_has_not(self):
        program, library = (set().union(*named(page(it))[:2]) for it in ("program", "library"))
        self.assertLessEqual({"clap", "strsim", "serde_json", "serde", "sha2", "hex", "thiserror", "std", "core", "libc"}, program)
        self.assertEqual({"clap", "serde_json", "sha2"} & library, set())
        self.assertIn("byteorder", library)

    def test_the_archives_of_c_code_are_those_that_are_linked(self):
        self.assertIn("C code of liblibc_c.a and libos_c.a.", " ".join(page("program").split()))
        self.assertIn("C code of liblibc_c.a.", " ".join(page("library").split()))

    def test_a_library_has_no_other_file_about_rights(self):
        for name in below("meta_main") | below("metaplay_c"):
            others = [it.name for it in (KIT / "rattle" / name).iterdir() if re.match("(?i)notice|copy|authors|patents|licence|unlicense", it.name)]
            self.assertEqual(others, [], name)


# The page of a small toolchain.
SMALL = """\
metaplay itself has no licence yet: its owner chooses one. Until then, ask the
owner before you pass it on.

These parts of the Rattle toolchain are linked into it, and have no licence
file: the libraries deep and std, and the C code of liblibc_c.a and libos_c.a.
Ask the toolchain's owner before you pass a binary on.

These libraries of the toolchain are linked into it too, and have licence
files. Their texts follow, each of them once.

aside: LICENSE-A [1], LICENSE-B [2]
mid: LICENSE [2]

----------------------------------------
[1]

Say our name.

----------------------------------------
[2]

Do as you like,
  but ask.

"""


class Small(InstallFolder):
    """A toolchain with four libraries, one of which nothing stands on."""

    def setUp(self):
        super().setUp()
        self.write("crates.txt", "low: mid\ntest_of_low: low unused\nmeta_main: low aside\nmetaplay_c staticlib: low\n")
        self.add_to_kit("mid", ["deep", "std"], {"LICENSE": "Do as you like,\n  but ask.\n", "README.md": "mid"})
        self.add_to_kit("aside", ["std"], {"LICENSE-B": "Do as you like,\n  but ask.\n", "LICENSE-A": "Say our name.\n"})
        self.add_to_kit("unused", ["std"], {"LICENSE": "Not this one.\n"})
        self.add_to_kit("deep", ["std"], {"README.md": "deep"})

    def test_the_page_is_installed_whole(self):
        self.is_installed(["low", "meta_main", "low", "metaplay_c"])
        self.assertEqual((self.prefix / "share/doc/metaplay/NOTICES").read_text(), SMALL)

    def test_without_a_library_of_the_toolchain_nothing_is_installed(self):
        shutil.rmtree(self.folder / "rlibs/deep.rlib")
        status, out, err = self.call("install", str(self.prefix))
        self.assertEqual((status, out, err.splitlines()[-1]), (3, "", f"metaplay: cannot read {self.folder}/rlibs/deep.rlib/format"))
        self.assertFalse(self.prefix.exists())


if __name__ == "__main__":
    unittest.main()
