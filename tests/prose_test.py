"""Prose is easy to read: lines, paragraphs and sentences are short, and words are common. This reads README, the pages of docs/ and bench/, the
text of `--help` and the documentation of public items. Tables and code are left out.
"""

import re
import unittest

from built import CRATES, ROOT

LINE, PARAGRAPH, SENTENCE = 120, 120, 45

# Words of a private dialect, each with what the field says.
DIALECT = {
    "told": "reported, returned",
    "tells": "reports, returns, says",
    "behind": "after",
    "in front of": "before",
    "lent": "borrowed",
    "lends": "borrows out, returns a borrow",
    "refused": "rejected",
    "refuses": "rejects",
    "refusal": "rejection",
    "least box": "bounding box",
    "room": "capacity, memory",
    "deed": "action",
    "wrong body": "mutant",
    "wrong bodies": "mutants",
    "slip": "mistake, regression",
    "is led": "moves",
    "all the same": "nevertheless",
    "want of": "lack of",
    "looked at": "read, checked",
    "by itself": "separately",
}

# Where one of these words is the name of something that is fixed: the sixth field of a listing is `refused`.
FIXED = re.compile(r"`[^`]*`")


PAGES = [ROOT / "README.md", ROOT / "bench" / "README.md", *sorted((ROOT / "docs").glob("*.md"))]

# The texts of `--help`.
HELP = CRATES / "command_lines" / "src" / "declared.rt"


def help_texts():
    """The paragraphs of the texts of `--help`, each a list of lines. Examples are code."""
    for text in re.findall(r'"((?:[^"\\]|\\.)*)"', HELP.read_text(encoding="utf-8")):
        yield from paragraphs(re.sub(r"(?m)^  metaplay .*$", "", text))


def paragraphs(page):
    """The paragraphs of a page's prose: lines of tables, code, headings and comments are left out, and each item of a list is a paragraph."""
    text = re.sub(r"(?ms)^```.*?^```$", "\n", page)
    text = re.sub(r"(?m)^(?:\||#|<!--|!\[).*$", "\n", text)
    for block in re.split(r"\n\s*\n|\n(?=\s*(?:[-*]|\d+\.) )", text):
        lines = [line for line in block.split("\n") if line.strip()]
        if lines:
            yield lines


def documentation(path):
    """The documentation of the public items of a source file, each a list of lines."""
    for lines, item in re.findall(r"((?:^ *///.*\n)+)(?: *#\[.*\n)* *(pub )?", path.read_text(encoding="utf-8"), re.M):
        if item:
            yield [line.strip().removeprefix("///").strip() for line in lines.splitlines()]


def sentences(lines):
    """The sentences of a paragraph."""
    text = re.sub(r"\[([^\]]*)\]\([^)]*\)", r"\1", " ".join(line.strip() for line in lines))
    return [it for it in re.split(r"(?<=[.:;?!])\s+", text) if it]


def faults(lines):
    """What is wrong with a paragraph."""
    words = " ".join(lines).split()
    if any(len(line) > LINE for line in lines):
        yield f"a line of {max(map(len, lines))} characters"
    if len(words) > PARAGRAPH:
        yield f"{len(words)} words"
    for sentence in sentences(lines):
        if len(sentence.split()) > SENTENCE:
            yield f"a sentence of {len(sentence.split())} words"
    plain = FIXED.sub("", " ".join(lines)).lower()
    for word in DIALECT:
        if re.search(rf"\b{word}\b", plain):
            yield f"'{word}': {DIALECT[word]}"


class Prose(unittest.TestCase):
    """The prose of this repository."""

    def check(self, where, found):
        """Fails where one of these paragraphs has a fault."""
        wrong = [f"{lines[0][:60]}: {it}" for lines in found for it in faults(lines)]
        self.assertEqual(wrong, [], where)

    def test_pages_are_easy_to_read(self):
        for page in PAGES:
            with self.subTest(page=page.name):
                self.check(page.name, paragraphs(page.read_text(encoding="utf-8")))

    def test_help_is_easy_to_read(self):
        self.check("--help", help_texts())

    def test_documentation_is_easy_to_read(self):
        for path in sorted(CRATES.glob("*/src/**/*.rt")):
            with self.subTest(path=path.relative_to(CRATES)):
                self.check(path.name, documentation(path))

    def test_each_sort_of_fault_is_found(self):
        word = "word "
        self.assertEqual(list(faults(["A short line."])), [])
        self.assertEqual(list(faults(["x" * 121])), ["a line of 121 characters"])
        self.assertEqual(list(faults([word * 10 + "end."] * 11)), ["121 words"])
        self.assertEqual(list(faults([word * 20] * 2 + [word * 6])), ["a sentence of 46 words"])
        self.assertEqual(list(faults(["It is behind it."])), ["'behind': after"])
        self.assertEqual(list(faults(["It is `refused`."])), [])

    def test_tables_and_code_are_left_out(self):
        page = "One.\n\n```sh\nbehind\n```\n\n| told | behind |\n|---|---|\n\n- Two.\n- Three\n  lines.\n"
        self.assertEqual(list(paragraphs(page)), [["One."], ["- Two."], ["- Three", "  lines."]])


if __name__ == "__main__":
    unittest.main()
