"""Installed pages name only what is installed: in links, between backticks and in command lines."""

import glob
import pathlib
import re
import shlex
import subprocess
import unittest

from built import ROOT
from launcher_folder import InstallFolder

# The files of the repository, from its root.
FILES = subprocess.run(["git", "ls-files", "-z"], cwd=ROOT, stdout=subprocess.PIPE, text=True, check=True).stdout.strip("\0").split("\0")

FOLDERS = {name.partition("/")[0] for name in FILES if "/" in name}

BLOCK = re.compile(r"(?ms)^```\w*\n(.*?)^```$")


def commands(page):
    """The command lines on a page, each as its words: all lines of a block of shell, and those after a prompt."""
    for kind, block in re.findall(r"(?ms)^```(\w*)\n(.*?)^```$", page):
        text = block.replace("\\\n", " ")
        lines = [text] if kind == "sh" else re.findall(r"(?m)^\$ (.*(?:\n> .*)*)", text)
        yield from (shlex.split(line.replace("\n> ", "\n"), comments=True) for line in lines)


def names(page):
    """The names on a page: where links lead to, the words between backticks, and those of command lines."""
    prose = BLOCK.sub("", page)
    found = [target for target in re.findall(r"\]\(([^)#]+)", prose) if "://" not in target]
    for quoted in re.findall(r"`([^`]+)`", prose):
        # What isn't a command line for a shell is one word.
        try:
            found += shlex.split(quoted)
        except ValueError:
            found.append(quoted)
    for words in commands(page):
        found += [part for word in words for part in [word, *word.split()]]
    return found


class Pages(InstallFolder):
    """The pages of an installation."""

    def wrong(self, page):
        """The names on a page of files that aren't installed."""
        installed = {it.name for it in self.prefix.rglob("*")}
        # A word without a dot may mean something else.
        own = {it for name in FILES if "." in (it := pathlib.PurePath(name).name)}
        for name in names(page):
            if name.startswith(f"{self.prefix}/"):
                if not glob.glob(glob.escape(str(self.prefix)) + name.removeprefix(str(self.prefix))):
                    yield name
            elif name.split("/")[0] in FOLDERS and "/" in name or pathlib.PurePath(name).name in own - installed:
                yield name

    def check(self, prefix):
        """Checks the pages of an installation below a prefix."""
        self.prefix = prefix
        self.is_installed(["low", "meta_main", "low", "metaplay_c"])
        pages = {path.name: path.read_text("utf-8") for path in (prefix / "share/doc/metaplay").glob("*.md")}
        self.assertEqual(sorted(pages), ["FAULTS.md", "FIXUP.md", "FORMATS.md", "PIXELS.md", "RECIPES.md"])
        for name, page in pages.items():
            self.assertEqual(list(self.wrong(page)), [], name)
        named = [it for page in pages.values() for it in names(page)]
        for name in ("recipes/to-png", "recipes/report.css", "samples/held.wmf", "samples/rejected/label.emf"):
            self.assertIn(f"{prefix}/share/metaplay/{name}", named)

    def test_an_installation_where_programs_are(self):
        self.check(self.folder / "usr")

    def test_a_folder_whose_name_a_shell_would_change(self):
        self.check(self.folder / "an *?[a-z] (é);#~ <folder>")

    def test_names_that_are_wrong_are_found(self):
        self.prefix.mkdir()
        (self.prefix / "there.emf").write_text("")
        page = f"[A](README.md) `docs/a`, `launcher/record`\n\n```sh\na \\\n  samples/b {self.prefix}/there.emf {self.prefix}/no.emf\n```\n\n"
        page += "```\n$ c bench/d |\n> cat tests/e\nout docs/f\n```\n\n`DECISIONS.md`, `drawing.emf`, [b](https://a.example/README.md), docs/g, `it's docs/h`\n"
        wrong = ["README.md", "docs/a", "launcher/record", "DECISIONS.md", "samples/b", f"{self.prefix}/no.emf", "bench/d", "tests/e"]
        self.assertEqual(list(dict.fromkeys(self.wrong(page))), wrong)


if __name__ == "__main__":
    unittest.main()
