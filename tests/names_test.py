"""Files by odd names: the file that is shown is the one whose name is given, sign by sign."""

import os
import tempfile
import unittest

from answers import shown
from built import DOT, DOT_IMAGE, Answer, answer, for_each_program
from metafile.fields import BLUE
from metafile.files import WMF_END, placeable_file, wmf_pixel

CANNOT_READ = Answer(3, b"", b"metaplay: cannot read\n")

SHOWN = Answer(0, DOT_IMAGE, b"")

# What stands in files of other names: another picture.
OTHER = placeable_file([wmf_pixel(0, 0, BLUE), WMF_END])

OTHER_SHOWN = shown({(0, 0): BLUE})

# Signs that a name may have, of one byte: the slash parts folders, and the zero byte ends a word.
SIGNS = [chr(code) for code in range(1, 128) if chr(code) != "/"]

# Signs of more bytes: letters, one of them in two ways, spaces, marks without a width, and one of four bytes.
WIDE_SIGNS = ["é", "e\u0301", "ß", "\u0130", "日", "\u00a0", "\u2003", "\u3000", "\u200b", "\u202e", "\ufeff", "\ufffd", "😀"]

# The longest name of a file, in bytes.
LONGEST = 255


def around(sign):
    """Names with a sign in front, behind, amid, on both sides, and twice at each end."""
    return [f"{sign}a", f"a{sign}", f"a{sign}b", f"{sign}a{sign}", f"{sign}{sign}a", f"a{sign}{sign}"]


def is_name(name):
    """Whether a file may have this name."""
    return 0 < len(name.encode()) <= LONGEST and name not in (".", "..") and "/" not in name


def nearby(name):
    """The names that a reader might take in a name's place: cut by a sign, trimmed, grown, or in other letters."""
    cut = [name[1:], name[:-1], name[1:-1], name[:1], name.split(name[0])[-1]]
    trimmed = [name.strip(signs) for signs in (None, ".", "\"'", name[0], name[-1])] + [name.lstrip(), name.rstrip()]
    grown = [f"{name}.wmf", f" {name}", f"{name} ", f"{name}."]
    others = [name.swapcase(), name.lower(), name.upper(), name.replace("\\", ""), name.replace("a", "", 1)]
    return sorted({near for near in cut + trimmed + grown + others if is_name(near)} - {name})


def words_of(name):
    """The command lines that show a file: one whose name begins with a hyphen stands behind two."""
    plain = [] if name.startswith("-") else [["show", name, "4", "4"]]
    return [*plain, ["show", "--", name, "4", "4"]]


class Names(unittest.TestCase):
    """Files by odd names in folders of their own, among files of other names."""

    def check(self, program, names, near=nearby):
        """Each file is shown by its name, and is not there where only those of other names are. Standard input isn't read."""
        for name in names:
            with tempfile.TemporaryDirectory() as folder, self.subTest(name=name):
                for other in near(name):
                    with open(f"{folder}/{other}", "wb") as file:
                        file.write(OTHER)
                for words in words_of(name):
                    self.assertEqual(answer(program, words, OTHER, cwd=folder), CANNOT_READ, words)
                with open(f"{folder}/{name}", "wb") as file:
                    file.write(DOT)
                for words in words_of(name):
                    self.assertEqual(answer(program, words, OTHER, cwd=folder), SHOWN, words)

    @for_each_program
    def test_names_with_each_sign_of_one_byte(self, program):
        self.check(program, [name for sign in SIGNS for name in around(sign) if is_name(name)])

    @for_each_program
    def test_names_with_signs_of_more_bytes(self, program):
        self.check(program, [name for sign in WIDE_SIGNS for name in [sign, *around(sign)]])

    @for_each_program
    def test_names_of_one_sign_alone(self, program):
        names = [sign * count for sign in SIGNS for count in (1, 2, 3, 8)]
        self.check(program, [name for name in names if is_name(name)])

    @for_each_program
    def test_long_names(self, program):
        signs = ["a", ".", " ", "é", "日", "😀"]
        self.check(program, [sign * (length // len(sign.encode())) for sign in signs for length in (254, 255)])
        self.check(program, ["a" * length for length in range(8, LONGEST, 8)])

    @for_each_program
    def test_names_like_that_of_standard_input(self, program):
        around_it = [name for sign in SIGNS for name in (f"{sign}stdin", f"stdin{sign}")]
        others = ["STDIN", "Stdin", "stdIn", "stdi", "tdin", "stdinn", "sstdin", "stdin.wmf", "stdin\u00a0", "\ufeffstdin"]
        self.check(program, [name for name in [*around_it, *others] if is_name(name)])

    @for_each_program
    def test_standard_input_has_its_name_alone(self, program):
        # A file of that name is shown by another name of its own.
        with tempfile.TemporaryDirectory() as folder:
            with open(f"{folder}/stdin", "wb") as file:
                file.write(OTHER)
            for name in ["./stdin", ".//stdin", f"{folder}/stdin", f"../{os.path.basename(folder)}/stdin"]:
                self.assertEqual(answer(program, ["show", name, "4", "4"], DOT, cwd=folder), OTHER_SHOWN, name)
            self.assertEqual(answer(program, ["show", "stdin", "4", "4"], DOT, cwd=folder), SHOWN)
            self.assertEqual(answer(program, ["show", "--", "stdin", "4", "4"], DOT, cwd=folder), SHOWN)

    @for_each_program
    def test_names_that_mean_more_elsewhere(self, program):
        # To a shell, a reader of addresses, another system.
        schemes = [f"{scheme}:{rest}" for scheme in ("file", "http", "data", "C", "FILE") for rest in ("a", ",a", "a.wmf", "stdin")]
        escapes = ["%20", "a%20b", "%61", "a%2Fb", "a+b", "&amp;", "\\x61", "\\u0061", "a%00"]
        others = ["~", "~a", "~root", "$HOME", "${HOME}", "%HOME%", "`a`", "$(a)", "a*", "a?", "[a]", "{a,b}", "@a", "a;b", "a|b", "a#b", "NUL", "CON", "a?b=c"]
        self.check(program, [*schemes, *escapes, *others])

    @for_each_program
    def test_names_in_folders_of_odd_names(self, program):
        for sign in SIGNS + WIDE_SIGNS:
            for name in filter(is_name, [f"{sign}a", f"a{sign}"]):
                with tempfile.TemporaryDirectory() as folder, self.subTest(name=name):
                    os.mkdir(f"{folder}/{name}")
                    with open(f"{folder}/{name}/{name}", "wb") as file:
                        file.write(DOT)
                    for path in [f"{name}/{name}", f"./{name}//{name}", f"{folder}/{name}/{name}"]:
                        self.assertEqual(answer(program, ["show", "--", path, "4", "4"], OTHER, cwd=folder), SHOWN, path)


if __name__ == "__main__":
    unittest.main()
