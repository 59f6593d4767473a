"""The conversion of one file, in the process of the test."""

import os
import sys
import unittest
from unittest import mock

from metaplay_fixup.catalogue import Catalogue
from metaplay_fixup.command_line import CommandLine, read_command_line
from metaplay_fixup.fixed import ONE
from metaplay_fixup.layer import FontLayer
from metaplay_fixup.one_file import LONGEST_INPUT, Results, convert_file, empty_file
from metaplay_fixup.statuses import Ending, Status

from .command_case import PLAIN, CommandCase, text_file


class OneFile(CommandCase):
    """What a file is converted by, and what it becomes."""

    def setUp(self) -> None:
        super().setUp()
        self.results = Results(empty_file("converted"), empty_file("report"))
        self.addCleanup(os.close, self.results.converted)
        self.addCleanup(os.close, self.results.report)

    def asked(self, *words: str) -> CommandLine:
        """The value of words that ask for the conversion of a file."""
        asked = read_command_line(["file", "out", *words])
        assert isinstance(asked, CommandLine)
        return asked

    def convert(self, source: str, *words: str) -> None:
        """Converts a file with the fonts of the folder."""
        convert_file(source, self.asked(*words), Catalogue.of_folders([self.fonts]), self.results)

    def test_layer(self) -> None:
        """The tolerance is an eighth of a pixel at the bound: 100 device units have 8 * 512 or 8 * 8,192 of these."""
        source = str(self.file("a.emf", text_file("A")))
        for bound, tolerance in ((512, 100 * ONE // 4096), (8192, 100 * ONE // 65536)):
            with mock.patch("metaplay_fixup.one_file.FontLayer", side_effect=FontLayer) as layer:
                self.convert(source, "--bound", str(bound), "--code-page", "1250")
            self.assertEqual(layer.call_args[0][1:], (tolerance, "cp1250"))

    def test_report(self) -> None:
        """It is only made if it is asked for."""
        source = str(self.file("a.wmf", PLAIN))
        self.convert(source)
        self.assertEqual(os.fstat(self.results.report).st_size, 0)
        self.convert(source, "--report", "report")
        self.assertGreater(os.fstat(self.results.report).st_size, 0)

    def test_longest_standard_input(self) -> None:
        """The same length as of a file: 268,435,456 bytes are too many for a metafile, one more can't be read."""
        source = self.file("a.wmf", PLAIN)
        for size, status, line in (
            (LONGEST_INPUT, Status.REJECTED, "TooLong"),
            (LONGEST_INPUT + 1, Status.FAILED, "cannot read"),
        ):
            os.truncate(source, size)
            with open(source, encoding="latin-1") as stream, mock.patch.object(sys, "stdin", stream):
                with self.assertRaises(Ending) as raised:
                    self.convert("stdin")
            self.assertEqual((raised.exception.status, raised.exception.line), (status, line))

    def test_standard_input_that_cannot_be_read(self) -> None:
        """A folder, and none at all."""
        for stream in (None, mock.Mock(**{"buffer.read.side_effect": IsADirectoryError})):
            with mock.patch.object(sys, "stdin", stream), self.assertRaises(Ending) as raised:
                self.convert("stdin")
            self.assertEqual((raised.exception.status, raised.exception.line), (Status.FAILED, "cannot read"))

    def test_full_memory(self) -> None:
        """The result doesn't fit into the memory that the system has."""
        with open("/dev/full", "wb") as full:
            results = Results(full.fileno(), full.fileno())
            with self.assertRaises(Ending) as raised:
                convert_file(str(self.file("a.wmf", PLAIN)), self.asked(), Catalogue(), results)
        self.assertEqual((raised.exception.status, raised.exception.line), (Status.OUT_OF_MEMORY, "OutOfMemory"))


if __name__ == "__main__":
    unittest.main()
