"""docs/FIXUP.md says what the fix-up does: its records, faults, options, families, dashes and limits are those of fixup/. Its picture is fresh, and its
example runs."""

import importlib
import json
import pathlib
import re
import subprocess
import sys
import tempfile
import unittest

from answers import refused
from built import PROGRAMS, ROOT, SAMPLES, answer
from fixed_recipes_test import has_fixup

sys.path[:0] = [str(ROOT / "docs"), str(SAMPLES / "rejected")]

PAGE = (ROOT / "docs" / "FIXUP.md").read_text(encoding="utf-8")

LABEL = SAMPLES / "rejected" / "label.emf"

LIBERATION = pathlib.Path("/usr/share/fonts/truetype/liberation")

NAME = re.compile(r"\b(?:META|EMR)_\w+")


def rows(heading):
    """The rows of the first table after a heading or another text of the page, cell by cell."""
    part = PAGE[PAGE.index(heading) :].split("\n\n|", 1)[1].split("\n\n", 1)[0]
    return [[cell.strip() for cell in line.strip("|").split("|")] for line in part.splitlines()[2:]]


@unittest.skipUnless(has_fixup(), "python3-freetype or python3-pil is not on this machine")
class FixupPage(unittest.TestCase):
    """The page beside the sources."""

    @classmethod
    def setUpClass(cls):
        """What the sources say."""
        words = ["/usr/bin/python3", "-B", ROOT / "tests" / "fixup_facts.py"]
        cls.facts = json.loads(subprocess.run(words, capture_output=True, check=True).stdout)

    def test_each_fault_of_its_own_has_a_row(self):
        others = set(re.findall(r"(?m)^\| \d+ \| `(\w+)` \|", (ROOT / "docs" / "FAULTS.md").read_text(encoding="utf-8")))
        own = [name for name in self.facts["faults"] if name not in others]
        self.assertEqual([row[0].strip("`") for row in rows("These are the fix-up's own faults")], own)

    def test_each_option_has_a_row(self):
        help_text = subprocess.run([ROOT / "fixup" / "metaplay-fixup", "--help"], capture_output=True, text=True).stdout
        options = set(re.findall(r"(?m)^ +(--[a-z-]+)", help_text))
        self.assertGreater(len(options), 15)
        self.assertEqual(set(re.findall(r"--[a-z-]+", " ".join(row[0] for row in rows("## Options")))), options)

    def test_each_record_that_rejects_a_file_has_a_place(self):
        on_page = NAME.findall(" ".join(map(" ".join, rows("These can't be replaced"))))
        self.assertEqual(sorted(on_page), self.facts["unsupported"])

    def test_each_record_that_is_replaced_is_one_that_the_sources_know(self):
        on_page = set(NAME.findall(" ".join(map(" ".join, rows("## What each record becomes")))))
        self.assertEqual(on_page - set(self.facts["handled"]), set())
        self.assertGreater(len(on_page), 45)

    def test_the_faces_have_their_families(self):
        on_page = {face: wanted.split(", ") for faces, wanted, _ in rows("Nothing asks fontconfig") for face in faces.split(", ")}
        for face, wanted in on_page.items():
            found = self.facts["families"][face.lower()]
            self.assertEqual([it for it in found if it != self.facts["substitutes"].get(face.lower())], [it.lower() for it in wanted], face)
        families = {family.lower() for wanted in on_page.values() for family in wanted}
        self.assertEqual(self.facts["families"].keys() - {face.lower() for face in on_page} - families, set())

    def test_the_dashes_have_their_lengths(self):
        on_page = [[[int(number) for number in re.findall(r"\d+", cell)] for cell in row[1:]] for row in rows("but not their lengths")]
        self.assertEqual(on_page, self.facts["dashes"])

    def test_the_limits_are_those_of_the_sources(self):
        self.assertEqual(self.facts["limits"], [60, 2 << 30, 64 << 20, 64 << 20, 20_000])
        text = " ".join(PAGE.split())
        self.assertIn("60 seconds of processor time, 2 GiB of memory, and 64 MiB for each output", text)
        self.assertIn("20,000 points, a font 64 MiB", text)


class Example(unittest.TestCase):
    """The file of the page, its picture, and its example."""

    def test_the_file_is_what_its_script_makes(self):
        self.assertEqual(LABEL.read_bytes(), importlib.import_module("make_label").label())

    def test_it_is_rejected_as_the_page_says(self):
        for profile in ("core", "print"):
            answered = answer(PROGRAMS[0], ["show", LABEL, "512", "384", "--profile", profile])
            self.assertEqual(answered, refused("Unsupported 84", 16))
        self.assertIn("metaplay: Unsupported 84 at record 16\n", PAGE)

    @unittest.skipUnless(has_fixup() and LIBERATION.is_dir(), "what the fix-up needs, or fonts-liberation, is not on this machine")
    def test_the_example_runs_and_the_picture_is_fresh(self):
        command = re.search(r"(?m)^\$ metaplay-fixup (.*)$", PAGE)[1].split()
        with tempfile.TemporaryDirectory() as folder:
            words = [ROOT / "fixup" / "metaplay-fixup", ROOT / command[0], pathlib.Path(folder, command[1]), *command[2:]]
            self.assertEqual(subprocess.run(words, capture_output=True).returncode, 0)
            shown = answer(PROGRAMS[0], ["show", words[2], "512", "384", "--profile", "print"])
        self.assertEqual((shown.status, shown.err), (0, b""))
        make_sheet = importlib.import_module("make_sheet")
        self.assertEqual(make_sheet.SHEET.read_bytes(), make_sheet.sheet(), "docs/make_sheet.py writes it")


if __name__ == "__main__":
    unittest.main()
