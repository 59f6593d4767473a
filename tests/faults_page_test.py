"""docs/FAULTS.md has each row of the table of faults once, under whose fault it is, and no other."""

import re
import unittest

from built import ROOT

PAGE = (ROOT / "docs" / "FAULTS.md").read_text(encoding="utf-8")

# A row of the table of faults: the name twice, its code, and whether it lies in a record.
DEFINED = re.compile(r'(?m)^fault_row (\(Record )?\(?(\w+)(?: kind\))?\)? = row (\d+) \(codes "(\w+)"\)$')

ROW = re.compile(r"(?m)^\| (\d+) \| `(\w+)` \|")

# Whose fault each code is, by the headings of the page.
WHOSE = {
    "The file: how it begins": range(1, 6),
    "The file: where a record ends": range(10, 14),
    "The file: what a record says": range(14, 20),
    "The file: a bitmap in a record": range(20, 23),
    "The file: objects, saved states and the clip": range(23, 31),
    "The file: what a record draws": [*range(31, 38), 46, 48],
    "The certificate": [*range(6, 10), 38, 39, 47, 40, 41],
    "The size": [42],
    "The image": [43],
    "The machine": [44, 45],
}


def defined():
    """The rows of the table of faults: the code of each name, and whether it lies in a record."""
    text = (ROOT / "crates" / "draw_ops" / "specs" / "FaultTable.antt").read_text(encoding="utf-8")
    return {name: (int(code), lies != "") for lies, _, code, name in DEFINED.findall(text)}


def parts():
    """The headings of the page, each with the text below it."""
    split = re.split(r"(?m)^## (.*)$", PAGE)
    return list(zip(split[1::2], split[2::2], strict=True))


def sections():
    """The rows of the page by their headings."""
    return {heading: ROW.findall(text) for heading, text in parts()}


class Faults(unittest.TestCase):
    """The page beside the table."""

    def test_each_fault_has_one_row_with_its_code(self):
        rows = [(name, int(code)) for code, name in ROW.findall(PAGE)]
        self.assertEqual(sorted(rows), sorted((name, code) for name, (code, _) in defined().items()))
        self.assertEqual(len(rows), 48)

    def test_each_name_stands_once_between_backticks(self):
        quoted = re.findall(r"`(\w+)`", PAGE)
        self.assertEqual([name for name in defined() if quoted.count(name) != 1], [])

    def test_each_row_stands_under_whose_fault_it_is(self):
        told = {heading: [int(code) for code, _ in rows] for heading, rows in sections().items()}
        self.assertEqual(told, {heading: list(codes) for heading, codes in WHOSE.items()})

    def test_the_faults_that_lie_in_a_record_are_those_that_the_page_says(self):
        codes = sorted(code for code, lies in defined().values() if lies)
        self.assertEqual(codes, [*range(10, 40), 46, 47, 48])
        self.assertIn("for the faults 10 to 39 and 46 to 48, the record", PAGE)

    def test_each_row_has_every_column(self):
        # Those of a file say too whether the fix-up mends it.
        for heading, text in parts():
            columns = 6 if heading.startswith("The file: ") else 5
            rows = [line for line in text.splitlines() if ROW.match(line)]
            self.assertEqual([line for line in rows if not re.fullmatch(rf"\|(?: [^|]+ \|){{{columns}}}", line)], [])

    def test_the_advice_is_to_fix_a_file_exactly_where_that_helps(self):
        for heading, text in parts():
            for row in (line.split(" | ") for line in text.splitlines() if ROW.match(line)):
                if heading.startswith("The file: "):
                    self.assertEqual(row[4].startswith("Fix the file"), row[3] != "no", row[1])


if __name__ == "__main__":
    unittest.main()
