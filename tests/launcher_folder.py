"""A folder with the launcher. A script stands in for the toolchain, since a real build takes half an hour."""

import contextlib
import os
import pathlib
import shutil
import signal
import subprocess
import tempfile
import time
import unittest

from built import ROOT

# The toolchain's command. It writes down each call of a build, and waits as long as the file `seconds` says. A program that it builds prints the
# source.
RT = """#!/bin/sh
kit=$(dirname "$0")/../kit
case $1 in
    version) cat "$kit/version"; exit ;;
    try) sleep "$(cat "$kit/seconds")"; echo "tried $*"; exit ;;
esac
echo "$(basename "$PWD")" >>"$kit/calls"
[ -e "$kit/says" ] && cat "$kit/says"
own=$kit/seconds.$(basename "$PWD")
if [ -e "$own" ]; then sleep "$(cat "$own")"; else sleep "$(cat "$kit/seconds")"; fi
[ -e "$kit/fails" ] && exit 1
[ -e "$kit/changes" ] && echo "// changed" >>../low/src/lib.rt
if [ "$1" = run ]; then
    { echo '#!/bin/sh'; echo "echo $(cat src/main.rt)"; } >out/meta_main
    chmod +x out/meta_main
elif [ -e "$kit/archive" ]; then
    mkdir -p out && cp "$kit/archive" "out/lib$(basename "$PWD").a"
fi
exit 0
"""

CRATES = {"low/src/lib.rt": "low\n", "low/proofs/Lib.antt": "proof\n", "meta_main/src/main.rt": "first\n", "metaplay_c/src/lib.rt": "library\n"}

CRATES_TXT = "# The lowest.\nlow:\ntest_of_low: low\nmeta_main: low\n# For C.\nmetaplay_c staticlib: low\n"


def files_in(folder):
    """The places of the files in a folder, and whether they are programs."""
    found = [it for it in pathlib.Path(folder).rglob("*") if it.is_file()]
    return {str(it.relative_to(folder)): os.access(it, os.X_OK) for it in found}


class Folder(unittest.TestCase):
    """A folder with the launcher, three small crates and a toolchain."""

    def setUp(self):
        folder = tempfile.TemporaryDirectory(ignore_cleanup_errors=True)
        self.addCleanup(folder.cleanup)
        self.folder = pathlib.Path(folder.name)
        self.root = self.folder / "a folder"
        self.kit = self.folder / "kit"
        for path in (self.root, self.kit, self.folder / "bin"):
            path.mkdir()
        shutil.copy(ROOT / "metaplay", self.root)
        shutil.copytree(ROOT / "launcher", self.root / "launcher")
        for name, text in CRATES.items():
            self.write(f"crates/{name}", text)
        self.write("crates.txt", CRATES_TXT)
        self.write("CHANGELOG.md", "# Changelog\n\n## 2.3.4\n\n## 2.3.3\n")
        self.write("samples/dot.wmf", "")
        (self.folder / "bin/rt").write_text(RT)
        (self.folder / "bin/rt").chmod(0o755)
        (self.kit / "version").write_text("first kit\n")
        (self.kit / "seconds").write_text("0")
        self.settings = {**os.environ, "PATH": f"{self.folder}/bin:{os.environ['PATH']}"}
        self.without = {**os.environ, "PATH": "/usr/bin:/bin"}

    def write(self, name, text):
        """A file in the folder."""
        (self.root / name).parent.mkdir(parents=True, exist_ok=True)
        (self.root / name).write_text(text)

    def begin(self, *words, root=None, settings=None):
        """A running launcher, in a group of processes of its own."""
        streams = dict.fromkeys(("stdout", "stderr"), subprocess.PIPE)
        words = [(root or self.root) / "metaplay", *words]
        return subprocess.Popen(words, env=settings or self.settings, stdin=subprocess.DEVNULL, text=True, start_new_session=True, **streams)

    def call(self, *words, **how):
        """The launcher's status, its output, and its messages."""
        run = self.begin(*words, **how)
        out, err = run.communicate(timeout=60)
        return run.returncode, out, err

    def calls(self):
        """The crates that the toolchain was called for, in order, since the last time."""
        path = self.kit / "calls"
        names = path.read_text().split() if path.exists() else []
        path.unlink(missing_ok=True)
        return names

    def report_often(self):
        """Has the launcher report each second."""
        program = self.root / "launcher/program.sh"
        text = program.read_text()
        self.assertIn("\nmost_silent=30\n", text)
        program.write_text(text.replace("\nmost_silent=30\n", "\nmost_silent=1\n"))

    def is_building(self):
        """Whether the toolchain still runs."""
        name = f"\0{self.folder}/bin/rt\0".encode()
        for process in pathlib.Path("/proc").glob("[0-9]*/cmdline"):
            # (a process may end meanwhile)
            with contextlib.suppress(OSError):
                if name in process.read_bytes():
                    return True
        return False

    def kill_group(self, group):
        """Kills what is left of a group of processes."""
        with contextlib.suppress(ProcessLookupError):
            os.killpg(group, signal.SIGKILL)

    def wait_for(self, is_there):
        """Waits until something is there."""
        end = time.monotonic() + 20
        while not is_there() and time.monotonic() < end:
            time.sleep(0.05)
        self.assertTrue(is_there())

    def is_run(self, text, built, **how):
        """Checks that a call runs the program, which prints this text, after builds of these crates."""
        status, out, err = self.call("list", "x", **how)
        self.assertEqual((status, out, self.calls()), (0, f"{text}\n", built), err)
        return err


class InstallFolder(Folder):
    """A folder whose launcher installs, with a library for C that has one function, and a toolchain whose only library is std."""

    def setUp(self):
        super().setUp()
        for name in ("packaging", "include", "docs", "fixup", "samples"):
            shutil.copytree(ROOT / name, self.root / name, dirs_exist_ok=True)
        self.add_to_kit("std", [], {})
        (self.root / "metaplay-fixup").symlink_to("fixup/metaplay-fixup")
        (self.folder / "c").mkdir()
        for name, path in [("metaplay_none", self.kit / "archive"), ("kit_none", self.folder / "c/liblibc_c.a")]:
            subprocess.run(["cc", "-x", "c", "-c", "-", "-o", self.kit / f"{name}.o"], input=f"void {name}(void) {{}}", text=True, check=True)
            subprocess.run(["ar", "rcs", path, self.kit / f"{name}.o"], check=True)
        self.prefix = self.folder / "installed"

    def add_to_kit(self, name, uses, licences):
        """The toolchain has a library of this name, which uses others, and has these licence files."""
        for folder, files in ((f"rlibs/{name}.rlib", {"format": "".join(f"dep {it}\n" for it in uses)}), (f"rattle/{name}", licences)):
            (self.folder / folder).mkdir(parents=True)
            for file, text in files.items():
                (self.folder / folder / file).write_text(text)

    def is_installed(self, built):
        """Checks that an installation goes well, after builds of these crates."""
        status, out, err = self.call("install", str(self.prefix))
        self.assertEqual((status, out, self.calls()), (0, "", built), err)
