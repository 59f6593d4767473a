"""The Debian package of metaplay-fixup: what is in it, what it needs, and that its program runs."""

import os
import pathlib
import shutil
import subprocess
import tempfile
import unittest

from built import ROOT
from fixup_files import FIXUP_FILES, SAMPLE
from launcher_folder import files_in

MAKER = ROOT / "packaging/make_fixup_deb"

SETTINGS = {"DEBFULLNAME": "Some Packager", "DEBEMAIL": "packager@example.com", "SOURCE_DATE_EPOCH": "1700000000"}

# Where Debian has what `metaplay install` puts elsewhere.
MOVED = {
    "share/man/man1/metaplay-fixup.1": "share/man/man1/metaplay-fixup.1.gz",
    "share/zsh/site-functions/_metaplay-fixup": "share/zsh/vendor-completions/_metaplay-fixup",
}

WANTED = {MOVED.get(name, name): is_program for name, is_program in FIXUP_FILES.items()} | {"share/doc/metaplay-fixup/changelog.gz": False}


@unittest.skipUnless(shutil.which("dpkg-deb"), "dpkg-deb is not on this machine")
class Package(unittest.TestCase):
    """A package that nothing is built for."""

    def setUp(self):
        folder = tempfile.TemporaryDirectory()
        self.addCleanup(folder.cleanup)
        self.folder = pathlib.Path(folder.name)
        self.package = self.folder / "fixup.deb"

    def make(self, mask=0o022):
        """The bytes of the package as it is made under an umask."""
        subprocess.run([MAKER, self.package], check=True, env={**os.environ, **SETTINGS}, umask=mask)
        return self.package.read_bytes()

    def said(self, *words):
        """What dpkg-deb prints about it."""
        return subprocess.run(["dpkg-deb", words[0], self.package, *words[1:]], capture_output=True, text=True, check=True).stdout

    def test_it_is_the_same_whatever_the_umask(self):
        first = self.make()
        for mask in (0o077, 0o002):
            self.assertTrue(self.make(mask) == first, oct(mask))

    def test_its_files_and_modes(self):
        self.make()
        self.said("-x", self.folder / "whole")
        self.assertEqual(files_in(self.folder / "whole/usr"), WANTED)
        modes = {line.split()[0] for line in self.said("-c").splitlines()}
        self.assertEqual(modes, {"drwxr-xr-x", "-rwxr-xr-x", "-rw-r--r--", "lrwxrwxrwx"})

    def test_what_it_needs(self):
        self.make()
        self.assertEqual(self.said("-f", "Package", "Architecture").split("\n")[:2], ["Package: metaplay-fixup", "Architecture: all"])
        version = self.said("-f", "Version").strip()
        self.assertEqual(self.said("-f", "Depends"), f"metaplay (>= {version}), python3 (>= 3.11), python3-freetype, python3-pil\n")

    def test_its_program_runs(self):
        self.make()
        self.said("-x", self.folder / "a whole")
        program, source, target = self.folder / "a whole/usr/bin/metaplay-fixup", self.folder / "source.wmf", self.folder / "target.wmf"
        source.write_bytes(SAMPLE)
        self.assertEqual(subprocess.run([program, source, target], capture_output=True, check=True).stderr, b"")
        self.assertEqual(target.read_bytes(), SAMPLE)
        self.assertEqual(files_in(self.folder / "a whole/usr"), WANTED)

    def test_debian_compiles_its_modules_and_removes_that(self):
        self.make()
        self.said("-e", self.folder / "control")
        for name, words in (("postinst", "py3compile -p metaplay-fixup /usr/share/metaplay/fixup"), ("prerm", "py3clean -p metaplay-fixup")):
            self.assertIn(words, (self.folder / "control" / name).read_text())

    @unittest.skipUnless(shutil.which("lintian"), "lintian is not on this machine")
    def test_lintian_finds_only_that_the_licence_is_not_chosen_yet(self):
        self.make()
        told = subprocess.run(["lintian", "--allow-root", self.package], capture_output=True, text=True, check=False).stdout
        self.assertEqual([line for line in told.splitlines() if line.startswith("E:")], ["E: metaplay-fixup: no-copyright-file"])


if __name__ == "__main__":
    unittest.main()
