"""The hook of docs/recipes, before commits of git and in a build: which files it names, its settings, and files that Git LFS keeps elsewhere."""

import os
import shutil
import subprocess
import unittest

from built import DOT
from metafile.fields import u32
from metafile.files import EMF_END, emf_file, emf_record
from recipes_test import HELD, HELD_LINE, RECIPES, RecipesTest, needs

HOOK = RECIPES / "pre-commit"

GIT = ["git", "-c", "user.name=a", "-c", "user.email=a@b", "-c", "init.defaultBranch=main"]

# What Git LFS keeps in place of a file, and what stands for one that isn't here.
POINTER = b"version https://git-lfs.github.com/spec/v1\noid sha256:%s\nsize 94\n"

NOT_HERE = "pre-commit: not checked, because it is a pointer of Git LFS, and what that stands for isn't here: {}\n"

# In place of `git lfs`: a pointer names a file of the folder `kept`. As `git lfs smudge` does if it is told to skip files, it may write the pointer.
SMUDGE = """#!/bin/sh
name=$(sed -n 's/^oid sha256://p' | head -n 1)
if [ -n "${LFS_SKIPS-}" ]; then
    printf 'version https://git-lfs.github.com/spec/v1\\noid sha256:%s\\nsize 94\\n' "$name"
else
    exec cat "kept/$name"
fi
"""


def rejected(*names):
    """What is said of files that have the fault of `held.wmf`."""
    return b"".join(HELD_LINE + f"pre-commit: rejected: {name}\n".encode() for name in names)


@needs("git", "xargs")
class HookTest(RecipesTest):
    """A repository whose hook is the recipe."""

    def setUp(self):
        super().setUp()
        # No settings of the user, and no room that isn't removed.
        self.settings |= {"HOME": str(self.folder), "XDG_CONFIG_HOME": str(self.folder), "GIT_CONFIG_NOSYSTEM": "1"}
        for name in [it for it in self.settings if it.startswith("GIT_CONFIG_") and it != "GIT_CONFIG_NOSYSTEM"]:
            del self.settings[name]
        (self.folder / "rooms").mkdir()
        self.settings["TMPDIR"] = str(self.folder / "rooms")
        self.git("init", "-q")
        shutil.copy(HOOK, self.folder / ".git" / "hooks" / "pre-commit")

    def tearDown(self):
        self.assertEqual(list((self.folder / "rooms").iterdir()), [])

    def git(self, *words, **settings):
        """Has git do something, which is well."""
        status, out, err = self.run_words(*GIT, *words, **settings)
        self.assertEqual((status, err), (0, b""))
        return out

    def commit(self, *words, **settings):
        """What is said of a commit, and whether it is made."""
        status, _, err = self.run_words(*GIT, *words, "commit", "-q", "-m", "a message", **settings)
        return status == 0, err

    def hook(self, *words, **settings):
        """What the script answers to these words: its status and what it says."""
        status, out, err = self.run_words(HOOK, *words, **settings)
        self.assertEqual(out, b"")
        return status, err


class Commits(HookTest):
    """Commits, and all that a repository has."""

    def test_a_commit_without_a_fault_is_made(self):
        self.git("add", "dot.wmf")
        self.assertEqual(self.commit(), (True, b""))
        # Without the program nothing is committed.
        shutil.copy(self.folder / "dot.wmf", self.folder / "next.emf")
        self.git("add", "next.emf")
        self.assertEqual(self.commit(METAPLAY="no-program"), (False, b"pre-commit: no-program is missing\n"))
        self.assertEqual(self.commit(), (True, b""))

    def test_each_rejected_file_is_named(self):
        # Names in capital letters count, and those of other files don't.
        for name in ("a.wmf", "b.WMF", "c.Emf", "d.txt", "f.wmf"):
            shutil.copy(HELD, self.folder / name)
        shutil.copy(self.folder / "dot.wmf", self.folder / "e.wmf")
        self.git("add", "--", "a.wmf", "b.WMF", "c.Emf", "d.txt", "e.wmf")
        told = rejected("a.wmf", "b.WMF", "c.Emf")
        self.assertEqual(self.commit(), (False, told))
        self.assertEqual((self.hook(), self.hook("--all")), ((1, told), (1, told)))
        self.git("rm", "-q", "--cached", "b.WMF")
        self.assertEqual(self.hook(), (1, rejected("a.wmf", "c.Emf")))
        self.assertEqual(
            self.hook("f.wmf", "dot.wmf", "no\x1bfile", "a.wmf", "no file.emf"),
            (
                1,
                rejected("f.wmf") + b"pre-commit: cannot read: no?file\n" + rejected("a.wmf") + b"pre-commit: cannot read: no file.emf\n",
            ),
        )
        # What is in the index counts.
        shutil.copy(self.folder / "dot.wmf", self.folder / "a.wmf")
        self.assertEqual(self.hook(), (1, rejected("a.wmf", "c.Emf")))
        self.git("add", "a.wmf")
        self.assertEqual(self.hook(), (1, rejected("c.Emf")))

    def test_a_link_is_no_metafile(self):
        (self.folder / "link.wmf").symlink_to("held file.wmf")
        self.git("add", "link.wmf")
        self.assertEqual(self.commit(), (True, b""))
        self.assertEqual(self.hook("--all"), (0, b""))
        self.assertEqual(self.hook("dot.wmf", "link.wmf"), (1, rejected("link.wmf")))
        # A file that takes a link's place is looked at, however git is called.
        (self.folder / "link.wmf").unlink()
        (self.folder / "link.wmf").write_bytes(HELD.read_bytes())
        self.git("add", "link.wmf")
        for word in ("--literal-pathspecs", "--glob-pathspecs", "--no-pager"):
            self.assertEqual(self.commit(word), (False, rejected("link.wmf")))

    def test_the_folder_at_hand_does_not_matter(self):
        (self.folder / "below").mkdir()
        self.git("add", "held file.wmf", "dot.wmf")
        # A setting of git doesn't hide a file of another folder, and a name has no control characters where it is shown.
        odd = "a\\n::b\x1b[1m\n\x9bä.wmf"
        shutil.copy(HELD, self.folder / odd)
        self.git("add", odd)
        self.git("config", "diff.relative", "true")
        told = (1, b"", rejected("a\\n::b?[1m??ä.wmf", "held file.wmf"))
        for words in ("", " --all"):
            self.assertEqual(self.run_words("sh", "-c", f"cd below && {HOOK}{words}"), told)

    def test_what_cannot_be_read_fails(self):
        # Where git lists no file because it fails, so does the script.
        for words in ([], ["--all"]):
            status, err = self.hook(*words, GIT_DIR="/no folder")
            self.assertEqual((status, bool(err)), (1, True))
        told = (1, b"metaplay: cannot read\npre-commit: not checked, because metaplay ended with status 3: .\n")
        self.assertEqual(self.hook("."), told)
        # An object that is gone.
        self.git("add", "dot.wmf")
        number = self.git("rev-parse", ":dot.wmf").decode().strip()
        (self.folder / ".git" / "objects" / number[:2] / number[2:]).unlink()
        status, err = self.hook("--all")
        self.assertEqual((status, err.splitlines()[-1]), (1, b"pre-commit: not checked, because git can't read it: dot.wmf"))
        # No room for a file.
        self.assertEqual(self.hook("dot.wmf", TMPDIR="/no folder")[0], 1)
        # A file may have the name of an option.
        (self.folder / "-x").write_bytes(HELD.read_bytes())
        self.assertEqual(self.hook("-x"), (1, rejected("./-x")))


class Settings(HookTest):
    """Settings of git."""

    def test_the_profile(self):
        # An EMF file with a comment that begins with EMF+, and nothing else, is rejected under print alone.
        (self.folder / "plus.emf").write_bytes(emf_file([emf_record(70, u32(8) + b"EMF+" + u32(0)), EMF_END]))
        fix = self.folder / "fix"
        fix.write_text('#!/bin/sh\ncat >"$2"\n')
        fix.chmod(0o755)
        self.git("add", "plus.emf")
        fine, plus = (0, b""), (1, b"metaplay: EmfPlusAlone at record 2\npre-commit: rejected: plus.emf\n")
        # The setting, and what is said without a script that fixes files, and with one.
        for profile, said, fixed in [(None, fine, plus), ("core", fine, fine), ("print", plus, plus)]:
            if profile:
                self.git("config", "--replace-all", "metaplay.profile", profile)
            for words in ([], ["--all"], ["plus.emf"]):
                self.assertEqual(self.hook(*words), said)
                self.assertEqual(self.hook(*words, METAPLAY_FIXUP=str(fix)), fixed)
        # The last one counts, as for git.
        self.git("config", "--add", "metaplay.profile", "core")
        self.assertEqual(self.commit(), (True, b""))

    def test_allowances(self):
        self.git("add", "held file.wmf")
        self.git("config", "metaplay.profile", "print")
        self.assertEqual(self.commit(), (False, rejected("held file.wmf")))
        self.git("config", "--add", "metaplay.allow", "emf-plus")
        self.assertEqual(self.hook("--all"), (1, rejected("held file.wmf")))
        self.git("config", "--add", "metaplay.allow", "held-deletion")
        self.assertEqual((self.hook("--all"), self.hook("held file.wmf")), ((0, b""), (0, b"")))
        # An allowance needs print, which is then the profile.
        self.git("config", "metaplay.profile", "core")
        told = (1, b"pre-commit: metaplay.allow needs the print profile\n")
        self.assertEqual((self.hook("--all"), self.hook("dot.wmf")), (told, told))
        self.git("config", "--unset", "metaplay.profile")
        self.assertEqual(self.commit(), (True, b""))

    def test_wrong_settings(self):
        self.git("add", "dot.wmf")
        for value in ("paper", "Print", "print core", "*"):
            self.git("config", "metaplay.profile", value)
            self.assertEqual(self.hook("--all"), (1, b"pre-commit: metaplay.profile is core or print\n"))
        self.git("config", "metaplay.profile", "print")
        for value in ("all", "held-deletion=1", "*"):
            self.git("config", "metaplay.allow", value)
            self.assertEqual(self.hook("--all"), (1, b"pre-commit: metaplay.allow is held-deletion or emf-plus\n"))
        with open(self.folder / ".git" / "config", "a", encoding="utf-8") as config:
            config.write("[metaplay\n")
        status, err = self.hook("dot.wmf")
        self.assertEqual((status, err.splitlines()[-1]), (1, b"pre-commit: git can't read its settings"))

    def test_without_git_files_are_looked_at(self):
        tools = self.folder / "tools"
        tools.mkdir()
        for name in ("sh", "metaplay", "head", "tr", "sed", "mktemp", "rm"):
            (tools / name).symlink_to(shutil.which(name, path=self.settings["PATH"]))
        self.assertEqual(self.hook("dot.wmf", PATH=str(tools)), (0, b""))
        self.assertEqual(self.hook("held file.wmf", PATH=str(tools)), (1, rejected("held file.wmf")))
        self.assertEqual(self.hook("--all", PATH=str(tools))[0], 1)


class LargeFiles(HookTest):
    """Files that Git LFS keeps elsewhere, with a script in its place."""

    def setUp(self):
        super().setUp()
        smudge = self.folder / "smudge"
        smudge.write_text(SMUDGE)
        smudge.chmod(0o755)
        (self.folder / "kept").mkdir()
        (self.folder / "kept" / "good").write_bytes(DOT)
        (self.folder / "kept" / "held").write_bytes(HELD.read_bytes())
        self.git("config", "filter.lfs.clean", "cat")
        self.git("config", "filter.lfs.smudge", str(smudge))
        self.git("config", "filter.lfs.required", "true")
        (self.folder / ".gitattributes").write_text("*.wmf filter=lfs -text\n")

    def add(self, **names):
        """Adds files as Git LFS would: pointers, by their names without the ending."""
        for name, stands_for in names.items():
            (self.folder / f"{name}.wmf").write_bytes(POINTER % stands_for.encode())
        self.git("add", *(f"{name}.wmf" for name in names))

    def test_what_a_pointer_stands_for_is_read(self):
        self.add(one="good", two="held", three="held")
        self.assertEqual(self.commit(), (False, rejected("three.wmf", "two.wmf")))
        self.assertEqual(self.hook("--all"), (1, rejected("three.wmf", "two.wmf")))
        self.git("rm", "-q", "--cached", "two.wmf", "three.wmf")
        self.assertEqual(self.commit(), (True, b""))

    def test_what_is_not_here_fails(self):
        self.add(one="good", two="gone", three="held")
        status, err = self.hook("--all")
        said = [line for line in err.splitlines() if line.startswith(b"pre-commit: ")]
        gone = b"pre-commit: not checked, because git can't read it: two.wmf"
        self.assertEqual((status, said), (1, [b"pre-commit: rejected: three.wmf", gone]))
        self.assertFalse(self.commit()[0])
        # If the filter needn't work, or leaves the pointer, or if there is none, the pointer comes.
        pointers = "".join(map(NOT_HERE.format, ("one.wmf", "three.wmf", "two.wmf"))).encode()
        self.assertEqual(self.hook("--all", LFS_SKIPS="yes"), (1, pointers))
        self.assertEqual(self.commit(LFS_SKIPS="yes"), (False, pointers))
        self.git("config", "filter.lfs.required", "false")
        status, err = self.hook("--all")
        self.assertEqual((status, err.endswith(NOT_HERE.format("two.wmf").encode())), (1, True))
        self.git("config", "--remove-section", "filter.lfs")
        self.assertEqual(self.hook("--all"), (1, pointers))

    def test_a_pointer_in_place_of_a_file(self):
        (self.folder / "one.wmf").write_bytes(POINTER % b"good")
        self.assertEqual(self.hook("one.wmf", "dot.wmf"), (1, NOT_HERE.format("one.wmf").encode()))
        # The fix-up isn't asked.
        self.assertEqual(self.hook("one.wmf", METAPLAY_FIXUP="true"), (1, NOT_HERE.format("one.wmf").encode()))
        os.mkfifo(self.folder / "pipe.wmf")
        with subprocess.Popen(["sh", "-c", "cat dot.wmf >pipe.wmf"], cwd=self.folder) as running:
            self.assertEqual(self.hook("pipe.wmf"), (0, b""))
            self.assertEqual(running.wait(timeout=60), 0)


if __name__ == "__main__":
    unittest.main()
