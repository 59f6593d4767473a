"""The report: its lines, and its schema."""

import hashlib
import json
import os
import unittest
from pathlib import Path
from typing import Any

import jsonschema

from metaplay_fixup.output import Action
from metaplay_fixup.text import Choice
from metaplay_fixup.version import VERSION

from .command_case import PLAIN, CommandCase, text_file
from .made_fonts import OTHER, A, MadeFont, write_font
from .oracle import SAMPLES, emf_file, emf_record, emf_script, i16, i32, placeable_file, u32, wmf_record, wmf_script
from .emf_records import world
from .text_records import font, text

SCHEMA = json.loads((Path(__file__).resolve().parents[1] / "report.schema.json").read_text("utf-8"))
VALIDATOR = jsonschema.Draft202012Validator(SCHEMA)

NOT_TEXT = dict.fromkeys(
    ("box", "choice", "code_page", "face", "fallbacks", "font", "made_slant", "own_widths", "style", "text")
)


def sha256(data: bytes) -> str:
    """The digest in hexadecimal."""
    return hashlib.sha256(data).hexdigest()


class Reports(CommandCase):
    """Reports of files, each line of which the schema allows."""

    @property
    def name(self) -> str:
        """The name of the file that is converted."""
        return str(self.folder / "a")

    def report(self, data: bytes, *words: str) -> list[dict[str, Any]]:
        """The lines of the report of a file that is converted."""
        source, report = self.file("a", data), self.folder / "report"
        ran = self.run_command(source, self.out, "--fonts", self.fonts, "--report", report, *words)
        self.assertEqual((ran.status, ran.error), (0, ""))
        return self.lines_of(report)

    def lines_of(self, report: Path) -> list[dict[str, Any]]:
        """The lines of a report."""
        lines = report.read_text("ascii").splitlines(keepends=True)
        values: list[dict[str, Any]] = [json.loads(line) for line in lines]
        for line, value in zip(lines, values):
            VALIDATOR.validate(value)
            self.assertEqual(line, json.dumps(value, sort_keys=True, separators=(",", ":")) + "\n")
        return values

    def test_nothing_replaced(self) -> None:
        digest = sha256(PLAIN)
        self.assertEqual(
            self.report(PLAIN),
            [
                {
                    "converted": digest,
                    "emf_plus": False,
                    "file": self.name,
                    "fonts": [],
                    "original": digest,
                    "version": VERSION,
                }
            ],
        )

    def test_emf_plus(self) -> None:
        """The last line says whether the converted file still holds EMF+."""
        data = emf_file([emf_record(70, u32(8) + b"EMF+abcd"), emf_record(42, i32(1, 1, 9, 9))])
        curve, last = self.report(data)
        self.assertEqual((curve["action"], last["emf_plus"]), ("curve", True))
        dropped, curve, last = self.report(data, "--drop-emf-plus")
        self.assertEqual((dropped["action"], curve["action"], last["emf_plus"]), ("EMF+", "curve", False))
        self.assertEqual(self.report(emf_file([emf_record(70, u32(8) + b"EMF-abcd")]))[0]["emf_plus"], False)
        # A comment of a WMF that would be one of EMF+ in an EMF: of 70 words, with the signature at byte 12.
        wmf = placeable_file([wmf_record(0x0626, i16(15, 130) + b"abEMF+".ljust(130, b"\0"))])
        self.assertEqual(self.report(wmf)[0]["emf_plus"], False)

    def test_text(self) -> None:
        """The em of 20 makes the letter a square of half of that: from (20, 30 + 18 - 10), since the ascent is 18."""
        data = text_file("A")
        record, last = self.report(data)
        expected = {
            "action": "outlines",
            "box": [20, 38, 30, 48],
            "choice": "family",
            "code_page": None,
            "face": "Squares",
            "fallbacks": [],
            "file": self.name,
            "font": "Squares",
            "kind": "EMR_EXTTEXTOUTW",
            "made_slant": False,
            "own_widths": True,
            "record": 4,
            "style": "Regular",
            "text": "A",
        }
        self.assertEqual(record, expected)
        used = {
            "choices": ["family"],
            "family": "Squares",
            "permission": 0,
            "sha256": sha256((self.fonts / "squares.ttf").read_bytes()),
            "style": "Regular",
        }
        result = sha256(self.out.read_bytes())
        expected = {
            "converted": result,
            "emf_plus": False,
            "file": self.name,
            "fonts": [used],
            "original": sha256(data),
            "version": VERSION,
        }
        self.assertEqual(last, expected)

    def test_blank_text(self) -> None:
        """No font was chosen, and nothing is covered."""
        record, last = self.report(text_file(" "))
        nothing = ("box", "font", "made_slant", "own_widths", "style")
        self.assertEqual((record["action"], record["choice"], record["text"]), ("blank", "none", " "))
        self.assertEqual([record[name] for name in nothing], [None] * 5)
        self.assertEqual(last["fonts"], [])

    def test_other_records(self) -> None:
        """A world and a curve have nothing of text."""
        data = emf_file([world(2, 0, 0, 2, 0, 0), emf_record(42, i32(1, 1, 9, 9))])
        *records, _ = self.report(data)
        expected = [
            {**NOT_TEXT, "action": "world", "file": self.name, "kind": "EMR_SETWORLDTRANSFORM", "record": 1},
            {**NOT_TEXT, "action": "curve", "file": self.name, "kind": "EMR_ELLIPSE", "record": 2},
        ]
        self.assertEqual(records, expected)

    def test_bytes(self) -> None:
        """Text of WMF is read by a code page, which is reported; with distances no widths are the font's own."""
        make = wmf_record(0x02FB, i16(-20, 0, 0, 0, 400) + b"\0\0\0\1\0\0\0\0" + b"Squares\0")
        string = wmf_record(0x0A32, i16(30, 20, 1, 0) + b"A\0" + i16(12))
        data = placeable_file([*wmf_script("back_mode 1"), make, *wmf_script("select 0"), string])
        record, _ = self.report(data)
        self.assertEqual(
            (record["kind"], record["code_page"], record["own_widths"]), ("META_EXTTEXTOUT", "cp1252", False)
        )
        record, _ = self.report(data, "--code-page", "1253")
        self.assertEqual(record["code_page"], "cp1253")

    def test_choices_of_a_font(self) -> None:
        """A font that was chosen in several ways has them all; a fallback is one of the ways."""
        write_font(self.fonts, "others.ttf", MadeFont("Others", characters={0x41: A, 0x43: OTHER}, permission=4))
        write_font(self.fonts, "unused.ttf", MadeFont("Unused"))
        records = [*emf_script("back_mode 1"), *font(-20), text("AC", 20, 30)]
        create = emf_record(
            82, u32(2) + i32(-20, 0, 0, 0, 400) + bytes(8) + "Nowhere".encode("utf-16-le").ljust(64, b"\0")
        )
        records += [create, emf_record(37, u32(2)), text("C", 60, 30)]
        rules = ("--fallback=Unused", "--fallback=Others", "--map=Nowhere=Others")
        first, second, last = self.report(emf_file(records), *rules)
        self.assertEqual((first["font"], first["fallbacks"], second["choice"]), ("Squares", ["Others"], "map"))
        found = [(entry["family"], entry["choices"], entry["permission"]) for entry in last["fonts"]]
        self.assertEqual(found, [("Squares", ["family"], 0), ("Others", ["fallback", "map"], 4)])

    def test_choices_of_each_style(self) -> None:
        """A family's bold font has its own ways: a map chose it, and the face's name the other."""
        write_font(self.fonts, "bold.ttf", MadeFont("Squares", "Bold", weight=700, selection=0x20))
        create = emf_record(
            82, u32(2) + i32(-20, 0, 0, 0, 700) + bytes(8) + "Nowhere".encode("utf-16-le").ljust(64, b"\0")
        )
        records = [*emf_script("back_mode 1"), *font(-20), text("A", 20, 30), create, emf_record(37, u32(2))]
        *_, last = self.report(emf_file([*records, text("A", 60, 30)]), "--map=Nowhere=Squares")
        found = [(entry["style"], entry["choices"]) for entry in last["fonts"]]
        self.assertEqual(found, [("Regular", ["family"]), ("Bold", ["map"])])

    def test_characters(self) -> None:
        """The report is ASCII, whatever the text has."""
        write_font(self.fonts, "wide.ttf", MadeFont("Foreign", characters={0xE9: A, 0x1F600: A, 0x22: A}))
        data = emf_file([*emf_script("back_mode 1"), *font(-20), text('é"\U0001f600', 20, 30)])
        # The count of the record is that of characters; here one of them has two code units.
        data = data.replace("\U0001f600".encode("utf-16-le"), "é\0".encode("utf-16-le"))
        record, _ = self.report(data, "--map=Squares=Foreign")
        self.assertEqual(record["text"], 'é"é')

    def test_strokes(self) -> None:
        """A line with a flat end of 4 units: replaced only if that is asked for."""
        pen = [emf_record(95, u32(1, 0, 0, 0, 0, 0x10200, 4, 0, 0, 0, 0)), emf_record(37, u32(1))]
        data = emf_file([*pen, *emf_script("polyline 10 10 30 10")])
        self.assertEqual(len(self.report(data)), 1)
        self.assertEqual(self.out.read_bytes(), data)
        record, _ = self.report(data, "--strokes")
        expected = {**NOT_TEXT, "action": "stroke", "file": self.name, "kind": "EMR_POLYLINE", "record": 3}
        self.assertEqual(record, expected)

    def test_folder(self) -> None:
        """One report has the lines of all files that are written, in the order of the command line."""
        target, report = self.folder / "target", self.folder / "report"
        target.mkdir()
        files = [self.file("b.emf", text_file("A")), self.file("a.wmf", PLAIN), self.file("d.emf", text_file("AB"))]
        bad, words = self.file("c.emf", text_file("C")), ("--out-dir", target, "--fonts", self.fonts)
        ran = self.run_command(*files[:2], bad, files[2], *words, "--report", report)
        self.assertEqual(ran.status, 1)
        lines = self.lines_of(report)
        wanted = [str(file) for file in (files[0], files[0], files[1], files[2], files[2])]
        self.assertEqual([line["file"] for line in lines], wanted)
        self.assertEqual([line.get("text") for line in lines], ["A", None, None, "AB", None])
        digests = [line["converted"] for line in lines if "converted" in line]
        self.assertEqual(digests, [sha256((target / file.name).read_bytes()) for file in files])

    def test_folder_of_one_file(self) -> None:
        """A call with one file has the lines that the file has alone."""
        (target := self.folder / "target").mkdir()
        alone, report = self.report(text_file("A")), self.folder / "report"
        words = ("--out-dir", target, "--fonts", self.fonts, "--report", report)
        self.assertEqual(self.run_command(self.folder / "a", *words).status, 0)
        self.assertEqual(self.lines_of(report), alone)

    def test_name_in_another_encoding(self) -> None:
        """Bytes that aren't UTF-8 become question marks."""
        source, report = os.fsdecode(os.fsencode(self.folder) + b"/\xff.wmf"), self.folder / "report"
        Path(source).write_bytes(PLAIN)
        self.assertEqual(self.run_command(source, self.out, "--report", report).status, 0)
        (line,) = self.lines_of(report)
        self.assertEqual(line["file"], f"{self.folder}/?.wmf")

    def test_samples(self) -> None:
        for path in sorted(SAMPLES.glob("*.[ew]mf")):
            if path.stem not in ("nil",):
                self.report(path.read_bytes())


class Schema(unittest.TestCase):
    """The schema itself."""

    def test_is_a_schema(self) -> None:
        jsonschema.Draft202012Validator.check_schema(SCHEMA)

    def test_names(self) -> None:
        """It has all actions and choices that the program has."""
        properties = SCHEMA["$defs"]["record"]["properties"]
        self.assertEqual(properties["action"]["enum"], [action.value for action in Action])
        self.assertEqual(properties["choice"]["enum"], [*(choice.value for choice in Choice), None])

    def test_rejects(self) -> None:
        """Lines that no report has: without a key, with another one, with values of another type."""
        good: dict[str, object] = {**NOT_TEXT, "action": "curve", "file": "a", "kind": "EMR_ELLIPSE", "record": 2}
        self.assertTrue(VALIDATOR.is_valid(good))
        changes: list[dict[str, object]] = [{"record": -1}, {"record": "2"}, {"action": "x"}, {"box": [1, 2, 3]}]
        changes += [{"new": 1}, {"text": 3}]
        for change in changes:
            self.assertFalse(VALIDATOR.is_valid({**good, **change}), change)
        for name in good:
            self.assertFalse(VALIDATOR.is_valid({key: good[key] for key in good if key != name}), name)


if __name__ == "__main__":
    unittest.main()
