"""The shared library as the loader sees it: the names of the header with their version, nothing to write to after loading, and the caller's options."""

import os
import pathlib
import re
import subprocess
import tempfile
import unittest

import archive
from built import ROOT
from launcher_folder import InstallFolder

HEADER = (ROOT / "include/metaplay.h").read_text("ascii")

# The names that the header declares.
DECLARED = sorted(set(re.findall(r"(?m)^metaplay_answer (metaplay_\w+)\(", HEADER)))


def said(option, library):
    """What readelf prints about a library."""
    return subprocess.run(["readelf", "-W", option, library], capture_output=True, text=True, check=True, env={**os.environ, "LC_ALL": "C"}).stdout


def defined(library):
    """The names that it defines for others."""
    rows = [line.split() for line in said("--dyn-syms", library).splitlines() if re.match(r" *\d+:", line)]
    return sorted(row[7] for row in rows if row[4] != "LOCAL" and row[6] != "UND")


class Installed(unittest.TestCase):
    """The library of this repository."""

    @classmethod
    def setUpClass(cls):
        archive.have_built()
        folder = tempfile.TemporaryDirectory()
        cls.addClassCleanup(folder.cleanup)
        prefix = pathlib.Path(folder.name)
        subprocess.run([ROOT / "metaplay", "install", prefix], check=True)
        cls.library = prefix / "lib/libmetaplay.so.1"

    def test_each_name_of_the_header_has_the_version(self):
        self.assertEqual(len(DECLARED), HEADER.count("\nmetaplay_answer metaplay_"))
        self.assertEqual(defined(self.library), sorted(["METAPLAY_1", *(f"{name}@@METAPLAY_1" for name in DECLARED)]))

    def test_nothing_can_be_written_to_after_loading(self):
        self.assertRegex(said("-d", self.library), r"\(FLAGS\) +BIND_NOW\n")
        self.assertRegex(said("-d", self.library), r"\(FLAGS_1\) +Flags: NOW\n")
        self.assertIn(" GNU_RELRO ", said("-l", self.library))
        self.assertRegex(said("-l", self.library), r" GNU_STACK .* RW  ")


class Linked(InstallFolder):
    """A library with one function."""

    def test_the_linker_gets_the_callers_options(self):
        self.settings["LDFLAGS"] = "-Wl,--build-id=0x0123abcd -Wl,-z,lazy,-z,norelro"
        self.is_installed(["low", "meta_main", "low", "metaplay_c"])
        library = self.prefix / "lib/libmetaplay.so.1"
        self.assertIn("Build ID: 0123abcd\n", said("-n", library))
        # None of them takes ours back.
        self.assertIn("BIND_NOW", said("-d", library))
        self.assertIn("GNU_RELRO", said("-l", library))
        self.assertEqual(defined(library), ["METAPLAY_1", "metaplay_none@@METAPLAY_1"])

    def test_a_program_runs_that_was_linked_before_names_had_versions(self):
        self.is_installed(["low", "meta_main", "low", "metaplay_c"])
        old, program = self.folder / "old/libmetaplay.so.1", self.folder / "program"
        old.parent.mkdir()
        subprocess.run(["cc", "-shared", "-Wl,-soname,libmetaplay.so.1", "-o", old, self.kit / "metaplay_none.o"], check=True)
        source = "void metaplay_none(void);\nint main(void) { metaplay_none(); return 7; }\n"
        subprocess.run(["cc", "-x", "c", "-", "-x", "none", old, "-o", program], input=source, text=True, check=True)
        self.assertNotIn("METAPLAY_1", said("--dyn-syms", program))
        for folder in (old.parent, self.prefix / "lib"):
            ran = subprocess.run([program], capture_output=True, text=True, check=False, env={**os.environ, "LD_LIBRARY_PATH": str(folder)})
            self.assertEqual((ran.returncode, ran.stderr), (7, ""))


if __name__ == "__main__":
    unittest.main()
