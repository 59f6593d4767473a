"""`metaplay install` and `metaplay uninstall`: what they put where, and that nothing is left. The manual page and the completions say what the
program's help says."""

import os
import pathlib
import re
import shutil
import subprocess
import sys
import tempfile
import unittest

import archive
from built import DOT, DOT_IMAGE, PROGRAMS, ROOT, Answer, answer
from fixup_files import COMPILED, FIXUP_FILES
from launcher_folder import files_in

sys.path.insert(0, str(ROOT / "packaging"))

from make_manual import commands, long_options, stale  # noqa: E402

LAUNCHER = ROOT / "metaplay"

# Where the files of the program and of the library are installed, by their places below the prefix, and whether they are programs.
INSTALLED = {
    "bin/metaplay": True,
    "share/man/man1/metaplay.1": False,
    "share/bash-completion/completions/metaplay": False,
    "share/zsh/site-functions/_metaplay": False,
    "share/fish/vendor_completions.d/metaplay.fish": False,
    "include/metaplay.h": False,
    "lib/libmetaplay.a": False,
    "lib/libmetaplay.so": False,
    "lib/libmetaplay.so.1": False,
    "lib/pkgconfig/metaplay.pc": False,
    **dict.fromkeys((f"share/doc/metaplay/{name}" for name in ("FAULTS.md", "FIXUP.md", "FORMATS.md", "PIXELS.md", "RECIPES.md")), False),
    **dict.fromkeys((f"share/doc/metaplay/{name}" for name in ("NOTICES", "certify.schema.json", "fixup.png", "info.schema.json")), False),
    **{f"share/metaplay/recipes/{it.name}": os.access(it, os.X_OK) for it in (ROOT / "docs/recipes").iterdir()},
    **{f"share/metaplay/{it.relative_to(ROOT)}": False for it in (ROOT / "samples").rglob("*.[ew]mf")},
}


# The same with those of the fix-up.
ALL_INSTALLED = INSTALLED | FIXUP_FILES | COMPILED


def launched(*words, **environment):
    """What the launcher answers."""
    ran = subprocess.run([LAUNCHER, *words], capture_output=True, env={**os.environ, **environment}, check=False)
    return Answer(ran.returncode, ran.stdout, ran.stderr)


class Installation(unittest.TestCase):
    """Files that are installed."""

    @classmethod
    def setUpClass(cls):
        archive.have_built()

    def setUp(self):
        self.folder = pathlib.Path(tempfile.mkdtemp())
        self.addCleanup(shutil.rmtree, self.folder)

    def test_each_file_is_installed_and_removed(self):
        prefix = self.folder / "a b/usr"
        self.assertEqual(launched("install", str(prefix)), Answer(0, b"", b""))
        self.assertEqual(files_in(prefix), ALL_INSTALLED)
        self.assertEqual(answer(prefix / "bin/metaplay", ["show", "stdin", "4", "4"], DOT), Answer(0, DOT_IMAGE, b""))
        (prefix / "bin/other").write_text("")
        self.assertEqual(launched("uninstall", str(prefix)), Answer(0, b"", b""))
        self.assertEqual(files_in(prefix), {"bin/other": False})
        self.assertFalse((prefix / "share/metaplay").exists())
        self.assertFalse((prefix / "share/doc/metaplay").exists())
        told = f"metaplay: nothing was installed below {prefix}\n"
        self.assertEqual(launched("uninstall", str(prefix)), Answer(0, b"", told.encode()))

    def test_a_link_of_an_installed_page_leads_to_another_one(self):
        self.assertEqual(launched("install", str(self.folder)), Answer(0, b"", b""))
        pages = self.folder / "share/doc/metaplay"
        links = {name for page in pages.glob("*.md") for name in re.findall(r"\]\(([^)#]+)", page.read_text("utf-8"))}
        self.assertEqual(sorted(links - {it.name for it in pages.iterdir()}), [])

    def test_the_filter_runs_the_installed_program(self):
        self.assertEqual(launched("install", "/a b", DESTDIR=str(self.folder)), Answer(0, b"", b""))
        text = (self.folder / "a b/share/metaplay/recipes/metaplaytopdf").read_text()
        self.assertIn('\nPROGRAM = "/a b/bin/metaplay"\n', text)

    def test_a_folder_in_place_of_a_file_is_status_3(self):
        for place in ("bin/metaplay", "lib/libmetaplay.so"):
            (self.folder / place / "inner").mkdir(parents=True)
            told = f"metaplay: {self.folder}/{place} is a folder\n"
            self.assertEqual(launched("install", str(self.folder)), Answer(3, b"", told.encode()))
            self.assertEqual(files_in(self.folder), {})
            shutil.rmtree(self.folder / place)

    def test_what_is_not_ours_stays(self):
        self.assertEqual(launched("install", str(self.folder)), Answer(0, b"", b""))
        link, program = self.folder / "lib/libmetaplay.so", self.folder / "bin/metaplay"
        for path in (link, program):
            path.unlink()
        link.write_text("another")
        (program / "inner").mkdir(parents=True)
        told = launched("uninstall", str(self.folder))
        self.assertEqual((told.status, told.out), (3, b""))
        self.assertEqual(files_in(self.folder), {"lib/libmetaplay.so": False})

    def test_a_compiler_may_have_options(self):
        self.assertEqual(launched("install", str(self.folder), CC="cc -O2"), Answer(0, b"", b""))
        told = b"metaplay: install needs no-compiler, which is not on the PATH\n"
        self.assertEqual(launched("install", str(self.folder), CC="no-compiler -O2"), Answer(3, b"", told))

    def test_installing_needs_the_tools_that_link(self):
        folder = self.folder / "tools"
        folder.mkdir()
        for name in ("sh", "readlink", "sed", "awk", "find", "sha256sum", "sort", "xargs", "cut", "cat", "head", "mv", "dirname", "rt", "python3", "env"):
            (folder / name).symlink_to(shutil.which(name))
        told = launched("install", str(self.folder / "usr"), PATH=str(folder))
        self.assertEqual(told, Answer(3, b"", b"metaplay: install needs ar, which is not on the PATH\n"))

    @unittest.skipUnless(shutil.which("pkg-config"), "pkg-config is not on this machine")
    def test_a_program_is_built_with_the_installed_library(self):
        prefix, program = self.folder / "a b#c", self.folder / "show"
        self.assertEqual(launched("install", str(prefix)), Answer(0, b"", b""))
        settings = {**os.environ, "PKG_CONFIG_PATH": f"{prefix}/lib/pkgconfig", "LD_LIBRARY_PATH": f"{prefix}/lib"}
        words = 'eval "cc \\"\\$1\\" $(pkg-config --cflags --libs "metaplay >= 1.0") -o \\"\\$2\\""'
        subprocess.run(["sh", "-ec", words, "sh", ROOT / "examples/show.c", program], check=True, env=settings)
        ran = subprocess.run([program, ROOT / "samples/dot.wmf", "4", "4"], capture_output=True, check=True, env=settings)
        self.assertEqual(ran.stdout, DOT_IMAGE)

    def test_a_package_is_made_below_destdir(self):
        self.assertEqual(launched("install", "/usr/", DESTDIR=str(self.folder)), Answer(0, b"", b""))
        self.assertEqual(files_in(self.folder / "usr"), ALL_INSTALLED)
        self.assertEqual(launched("uninstall", "/usr", DESTDIR=str(self.folder)), Answer(0, b"", b""))
        self.assertEqual(files_in(self.folder), {})

    def test_wrong_words_install_nothing(self):
        usage = b"metaplay: usage: metaplay install PREFIX, or metaplay uninstall PREFIX; PREFIX is an absolute path, but not /\n"
        for words in ([], [""], ["/"], ["//"], ["usr"], [str(self.folder), "more"]):
            for name in ("install", "uninstall"):
                self.assertEqual(launched(name, *words, DESTDIR=str(self.folder)), Answer(2, b"", usage), (name, words))
        told = b"metaplay: PREFIX can't have a quote, a line feed, or one of $ ` \\ & | } in it, since installed files name it\n"
        for sign in "\"'\n$`\\&|}":
            self.assertEqual(launched("install", f"{self.folder}/a{sign}b"), Answer(2, b"", told), sign)
        self.assertEqual(files_in(self.folder), {})

    def test_a_folder_that_cannot_be_written_is_status_3(self):
        (self.folder / "bin").write_text("")
        told = launched("install", str(self.folder))
        self.assertEqual((told.status, told.out), (3, b""))
        self.assertIn(b"bin", told.err)


class Made(unittest.TestCase):
    """The manual page and the completions."""

    def test_they_are_fresh(self):
        self.assertEqual(stale(PROGRAMS[0]), [], "packaging/make_manual.py writes them")

    def test_bash_completes_commands_options_and_files(self):
        rows = [
            (["pre"], ["prepare"]),
            (["play", "--b"], ["--bands"]),
            (["show", "-"], ["--fit", "--profile", "--allow", "--help"]),
            (["list", "--profile", ""], ["core", "print"]),
            (["info", "--allow", "e"], ["emf-plus"]),
        ]
        for words, wanted in rows:
            count = len(words)
            script = f'. "$1"; shift; COMP_WORDS=(metaplay "$@"); COMP_CWORD={count}; _metaplay; printf "%s\\n" "${{COMPREPLY[@]}}"'
            ran = subprocess.run(["bash", "-c", script, "bash", ROOT / "packaging/metaplay.bash", *words], capture_output=True, text=True, check=True)
            self.assertEqual(ran.stdout.split(), wanted, words)

    @unittest.skipUnless(shutil.which("zsh"), "zsh is not on this machine")
    def test_zsh_completes_commands_and_options(self):
        script = f"""
            _describe() {{ print -rl -- ${{(P)2}} }}
            _arguments() {{ print -rl -- "$@" }}
            compadd() {{ print -rl -- "${{@:2}}" }}
            completed() {{ words=("$@"); CURRENT=$#; . {ROOT}/packaging/_metaplay }}
            completed metaplay ""
            for it in {" ".join(it.name for it in commands(PROGRAMS[0]))}; do completed metaplay $it --; done
        """
        ran = subprocess.run(["zsh", "-fc", script], capture_output=True, text=True, check=True)
        wanted = [f"{it.name}:{it.about}" for it in commands(PROGRAMS[0])] + ["help", "--help", "--version"]
        for it in commands(PROGRAMS[0]):
            values = {"profile": ":value:(core print)", "allow": ":value:(held-deletion emf-plus)"}
            options = [(name, f"--{name}[{about}]" + values.get(name, ":number" * takes)) for name, about, takes in long_options(it)]
            wanted += ["*" * (name == "allow") + option for name, option in options] + ["*:file:_files"]
        self.assertEqual((ran.stdout.splitlines(), ran.stderr), (wanted, ""))

    def test_the_manual_has_each_command_and_each_fault(self):
        page = (ROOT / "packaging/metaplay.1").read_text(encoding="utf-8")
        for command in commands(PROGRAMS[0]):
            self.assertIn(f".SS {command.name}", page)
        self.assertEqual(page.count("\n.TP\n.B "), len([line for line in page.splitlines() if line == ".TP"]))
        self.assertIn(".B NibTooWide\n46. ", page)


if __name__ == "__main__":
    unittest.main()
