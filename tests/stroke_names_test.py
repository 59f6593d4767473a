"""The count of files that name strokes, nibs, landings and sizes of entries: what a file names, and what doesn't count."""

import unittest

from stroke_names import FAMILIES, families_of, files_now, namings, table


class Families(unittest.TestCase):
    """What files name."""

    def names(self, text, path="player/src/drawing.rt"):
        """The families that a text names."""
        return families_of(path, text)

    def test_names_of_today_and_of_tomorrow_count_alike(self):
        for family, texts in {
            "pixels": ["in_stroke", "on_line", "in_wide_stroke"],
            "shapes": ["round_rectangle p q edges", "on_lines outline", "stroke_of outline", "use {Outline, along}"],
            "layers": ["strokes_of mark", "figures_stroked", "stroked_with"],
            "painting": ["stroke_box(", "stroke_lines(", "Part::Lines", "fn stroke(", "&Stroke"],
            "rows": ["begin.stroke_rows", "stroking nib"],
            "draws": ["Some(Draw {", "raise_edges(2)", "self.drew("],
            "pens": ["Pen::Solid { colour }", "is_wide", "nib_of", "Nib"],
            "landings": ["land(&map", "land_pair(", "fits(extent", "plane_extent", "off_plane_fault"],
            "entries": ["ENTRY_SIZE", "use {entries_in, entry_size}"],
            "cells": ["box_cells", "layer_cells", "layers_budget", "layer_budget"],
        }.items():
            for text in texts:
                with self.subTest(text=text):
                    self.assertIn(family, self.names(text))

    def test_operations_and_other_words_do_not_count(self):
        for text in ("stroke_path", "stroke_and_fill_path", "Painting::Stroke", "island(", "benefits(", "drawn", "Mark::Lines", "20", "plain_layers_of", "plane_box(map"):
            with self.subTest(text=text):
                self.assertEqual(self.names(text), [])

    def test_comments_do_not_count(self):
        self.assertEqual(self.names("// stroke_box\nfn f() {} // in_stroke"), [])
        self.assertEqual(self.names("-- in_stroke", "player/proofs/Lib.antt"), [])

    def test_the_path_of_an_import_does_not_count(self):
        self.assertEqual(self.names("use crate::stroke_rows::{Rows, put};\nghost use Rattle.painting.specs.stroke_lines.{Ends};"), [])
        self.assertEqual(self.names("use crate::stroking::{stroke_box};"), ["painting"])
        self.assertEqual(self.names("use Rattle.painting.proofs.stroke_rows.enter.Goals as goal", "painting/proofs/A.antt"), [])
        self.assertEqual(self.names("use Rattle.span_fill.specs.stroke_rows.{in_stroke, Line}", "painting/proofs/A.antt"), ["pixels"])

    def test_a_bare_20_is_an_entry_s_size_where_certificates_are_read(self):
        self.assertEqual(self.names("drop 20 bytes", "preflight_cert/proofs/EntryLemmas.antt"), ["entries"])
        self.assertEqual(self.names("ENTRY_SIZE + 20", "preflight_cert/specs/Entries.antt"), ["entries"])
        self.assertEqual(self.names("number_at bytes 20 4; self.entry_size", "preflight_cert/proofs/EntryLemmas.antt"), [])


class Counts(unittest.TestCase):
    """What is counted of this repository."""

    def test_tests_and_examples_are_left_out(self):
        files = {path: "in_stroke" for path in ("player/src/a.rt", "play_tests/src/a.rt", "example_calls/src/main.rt", "player/specs/A.antt")}
        self.assertEqual([it.path for it in namings(files)], ["player/specs/A.antt", "player/src/a.rt"])
        self.assertEqual(table(namings(files)).split("\n")[-1].split(), ["all", "1", "1", "0", "2"])

    def test_each_family_has_files(self):
        found = namings(files_now())
        self.assertEqual({it.name for it in FAMILIES} - {name for it in found for name in it.families}, set())


if __name__ == "__main__":
    unittest.main()
