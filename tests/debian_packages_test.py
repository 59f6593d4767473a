"""The Debian packages of the program, of the library for C, and of the module for Python: what is in each, what it needs, and that it works."""

import gzip
import os
import pathlib
import re
import shutil
import subprocess
import tempfile
import unittest

import archive
from built import DOT, DOT_IMAGE, ROOT, Answer, answer
from fixup_package_test import WANTED
from launcher_folder import files_in

MAKER = ROOT / "packaging/make_deb"

SETTINGS = {"DEBFULLNAME": "Some Packager", "DEBEMAIL": "packager@example.com", "SOURCE_DATE_EPOCH": "1700000000"}

TOOLS = ["dpkg-deb", "strip", "objdump"]

LIBRARIES = "lib/x86_64-linux-gnu"

VERSION = re.search(r"(?m)^## ([\d.]+)$", (ROOT / "CHANGELOG.md").read_text("utf-8"))[1]

MODULE = ROOT / "python/metaplay.py"

# The names that the header declares.
DECLARED = sorted(set(re.findall(r"(?m)^metaplay_answer (metaplay_\w+)\(", (ROOT / "include/metaplay.h").read_text("ascii"))))

# What each package has below usr, and whether it is a program.
FILES = {
    "metaplay": {
        "bin/metaplay": True,
        "share/man/man1/metaplay.1.gz": False,
        "share/lintian/overrides/metaplay": False,
        "share/bash-completion/completions/metaplay": False,
        "share/zsh/vendor-completions/_metaplay": False,
        "share/fish/vendor_completions.d/metaplay.fish": False,
        **dict.fromkeys((f"share/doc/metaplay/{name}.md" for name in ("FAULTS", "FIXUP", "FORMATS", "PIXELS", "RECIPES")), False),
        **dict.fromkeys((f"share/doc/metaplay/{name}" for name in ("certify.schema.json", "fixup.png", "info.schema.json")), False),
        **{f"share/metaplay/recipes/{it.name}": os.access(it, os.X_OK) for it in (ROOT / "docs/recipes").iterdir()},
        **{f"share/metaplay/{it.relative_to(ROOT)}": False for it in (ROOT / "samples").rglob("*.[ew]mf")},
    },
    "libmetaplay1": {f"{LIBRARIES}/libmetaplay.so.1": False},
    "libmetaplay-dev": {f"{LIBRARIES}/{name}": False for name in ("libmetaplay.a", "pkgconfig/metaplay.pc")} | {"include/metaplay.h": False},
    "python3-metaplay": {"lib/python3/dist-packages/metaplay.py": False},
}

# The packages that have linked code, and so licences.
LINKED = ["metaplay", "libmetaplay1", "libmetaplay-dev"]

NAMES = [*LINKED, *["python3-metaplay"] * MODULE.exists()]


def make(folder, root=ROOT, words=(), **how):
    """Makes the packages of a clone in a folder."""
    subprocess.run([*words, root / "packaging/make_deb", folder], check=True, env={**os.environ, **SETTINGS}, **how)


@unittest.skipUnless(all(map(shutil.which, TOOLS)), "the tools of Debian's packages are not on this machine")
class Packages(unittest.TestCase):
    """The packages of this repository, and all their files in one folder."""

    @classmethod
    def setUpClass(cls):
        archive.have_built()
        folder = tempfile.TemporaryDirectory()
        cls.addClassCleanup(folder.cleanup)
        cls.folder = pathlib.Path(folder.name)
        cls.made, cls.whole = cls.folder / "made", cls.folder / "whole"
        make(cls.made)
        for name in NAMES:
            subprocess.run(["dpkg-deb", "-x", cls.path(name), cls.whole], check=True)

    @classmethod
    def path(cls, name):
        """A package."""
        return cls.made / f"{name}_{VERSION}_{'all' if name.startswith('python3') else 'amd64'}.deb"

    def said(self, name, *words):
        """What dpkg-deb prints about a package."""
        return subprocess.run(["dpkg-deb", words[0], self.path(name), *words[1:]], capture_output=True, text=True, check=True).stdout

    def field(self, name, field):
        """A field of a package's control file."""
        return self.said(name, "-f", field).strip()

    def test_each_package_is_made(self):
        self.assertEqual(sorted(it.name for it in self.made.iterdir()), sorted(self.path(name).name for name in NAMES))

    def test_their_files_and_modes(self):
        for name in NAMES:
            with self.subTest(name=name), tempfile.TemporaryDirectory() as whole:
                subprocess.run(["dpkg-deb", "-x", self.path(name), whole], check=True)
                # A link to a file of another package leads nowhere here.
                own = [f"share/doc/{name}/changelog.gz", *[f"share/doc/{name}/copyright"] * (name in LINKED)]
                self.assertEqual(files_in(f"{whole}/usr"), FILES[name] | dict.fromkeys(own, False))
                modes = {line.split()[0] for line in self.said(name, "-c").splitlines()}
                self.assertEqual(modes - {"drwxr-xr-x", "-rw-r--r--"}, {"metaplay": {"-rwxr-xr-x"}, "libmetaplay-dev": {"lrwxrwxrwx"}}.get(name, set()))
        self.assertEqual(os.readlink(self.whole / f"usr/{LIBRARIES}/libmetaplay.so"), "libmetaplay.so.1")

    def test_no_file_is_in_two_packages(self):
        files = [[line.split()[5] for line in self.said(name, "-c").splitlines() if line[0] != "d"] for name in NAMES]
        files.append([f"./usr/{name}" for name in WANTED])
        self.assertEqual(len(set().union(*files)), sum(map(len, files)))

    def test_what_they_need(self):
        for name, file in (("metaplay", "bin/metaplay"), ("libmetaplay1", f"{LIBRARIES}/libmetaplay.so.1")):
            said = subprocess.run(["readelf", "-V", self.whole / "usr" / file], capture_output=True, text=True, check=True).stdout
            newest = max((tuple(map(int, it.split("."))) for it in re.findall(r"GLIBC_([\d.]+)", said)))
            self.assertEqual(self.field(name, "Depends"), f"libc6 (>= {'.'.join(map(str, newest))}), sse4.2-support")
        self.assertEqual(self.field("libmetaplay-dev", "Depends"), f"libmetaplay1 (= {VERSION})")
        self.assertEqual({self.field(name, "Multi-Arch") for name in ("libmetaplay1", "libmetaplay-dev")}, {"same"})

    def test_what_other_packages_need_of_the_library(self):
        said = [line.split() for line in self.said("libmetaplay1", "-I", "symbols").splitlines()[2:]]
        self.assertEqual([(name, version) for name, version in said], [(f"{it}@METAPLAY_1", VERSION) for it in ["METAPLAY_1", *DECLARED]])
        self.assertEqual(self.said("libmetaplay1", "-I", "shlibs"), f"libmetaplay 1 libmetaplay1 (>= {VERSION})\n")
        self.assertEqual(self.said("libmetaplay1", "-I", "triggers"), "activate-noawait ldconfig\n")

    def test_the_program_runs(self):
        self.assertEqual(answer(self.whole / "usr/bin/metaplay", ["show", "stdin", "4", "4"], DOT), Answer(0, DOT_IMAGE, b""))

    @unittest.skipUnless(shutil.which("pkg-config"), "pkg-config is not on this machine")
    def test_a_program_is_built_and_run_with_the_library(self):
        folder, program = self.whole / "usr" / LIBRARIES, self.folder / "show"
        settings = {**os.environ, "PKG_CONFIG_LIBDIR": f"{folder}/pkgconfig", "PKG_CONFIG_SYSROOT_DIR": str(self.whole), "LD_LIBRARY_PATH": str(folder)}
        settings |= {"PKG_CONFIG_ALLOW_SYSTEM_CFLAGS": "1", "PKG_CONFIG_ALLOW_SYSTEM_LIBS": "1"}
        said = subprocess.run(["pkg-config", "--cflags", "--libs", "metaplay"], capture_output=True, text=True, check=True, env=settings).stdout
        self.assertEqual(said.split(), [f"-I{self.whole}/usr/include", f"-L{folder}", "-lmetaplay"])
        subprocess.run(["cc", ROOT / "examples/show.c", *said.split(), "-o", program], check=True, env=settings)
        ran = subprocess.run([program, ROOT / "samples/dot.wmf", "4", "4"], capture_output=True, check=True, env=settings)
        self.assertEqual(ran.stdout, DOT_IMAGE)

    @unittest.skipUnless(MODULE.exists(), "there is no module for Python")
    def test_the_module_needs_the_library(self):
        self.assertEqual(self.field("python3-metaplay", "Depends"), f"libmetaplay1 (>= {VERSION}), python3")
        self.assertEqual(self.field("python3-metaplay", "Suggests"), "python3-numpy, python3-pil")
        self.assertIn("py3compile -p python3-metaplay;", self.said("python3-metaplay", "-I", "postinst"))
        self.assertIn("py3clean -p python3-metaplay\n", self.said("python3-metaplay", "-I", "prerm"))

    def test_the_changelog_has_the_version_and_the_date(self):
        # SOURCE_DATE_EPOCH, as date(1) writes it.
        date = "Tue, 14 Nov 2023 22:13:20 +0000"
        for name in NAMES:
            said = gzip.decompress((self.whole / f"usr/share/doc/{name}/changelog.gz").read_bytes()).decode()
            self.assertEqual(re.findall(r"^\w+ \(([\d.]+)\) .*\n -- (.*)  (.*)\n\Z", said, re.S), [(VERSION, "Some Packager <packager@example.com>", date)])

    def test_they_are_the_same_from_another_clone(self):
        other = self.folder / "another clone"
        for name in ("metaplay", "metaplay-fixup", "crates.txt", "CHANGELOG.md"):
            other.mkdir(exist_ok=True)
            shutil.copy2(ROOT / name, other / name, follow_symlinks=False)
        for name in ("launcher", "packaging", "include", "docs", "fixup", "samples", *["python"] * MODULE.exists()):
            shutil.copytree(ROOT / name, other / name)
        shutil.copytree(ROOT / "crates", other / "crates", ignore=shutil.ignore_patterns("out"))
        for name, file in (("meta_main", "meta_main"), ("metaplay_c", "libmetaplay_c.a")):
            (other / f"crates/{name}/out").mkdir()
            for it in (file, "built.sums", "built.list"):
                shutil.copy2(ROOT / f"crates/{name}/out/{it}", other / f"crates/{name}/out/{it}")
        for count, mask in enumerate((0o077, 0o002)):
            made = self.folder / f"other {count}"
            make(made, other, ["taskset", "-c", str(min(os.sched_getaffinity(0)))] * count, umask=mask)
            for name in NAMES:
                self.assertTrue((made / self.path(name).name).read_bytes() == self.path(name).read_bytes(), (name, oct(mask)))

    @unittest.skipUnless(shutil.which("lintian"), "lintian is not on this machine")
    def test_lintian_finds_only_that_the_licence_is_not_chosen_yet(self):
        words = ["lintian", "--allow-root", "--display-info", "--pedantic", *map(self.path, NAMES)]
        said = subprocess.run(words, stdout=subprocess.PIPE, text=True, check=False).stdout
        self.assertEqual(said.splitlines(), ["E: python3-metaplay: no-copyright-file"] * MODULE.exists())


class Wrong(unittest.TestCase):
    """Calls that make no package, and build nothing."""

    def setUp(self):
        folder = tempfile.TemporaryDirectory()
        self.addCleanup(folder.cleanup)
        self.folder = pathlib.Path(folder.name)

    def ended(self, name, *words, **settings):
        """What a maker answers with these settings."""
        environment = {key: value for key, value in ({**os.environ, **SETTINGS} | settings).items() if value is not None}
        words = [ROOT / "packaging" / name, *words]
        ran = subprocess.run(words, cwd=self.folder, stdin=subprocess.DEVNULL, capture_output=True, text=True, check=False, env=environment)
        self.assertEqual(list(self.folder.glob("a*")), [])
        return ran.returncode, ran.stdout, ran.stderr

    def test_wrong_words(self):
        for name, called in (("make_deb", "FOLDER"), ("make_fixup_deb", "FILE")):
            for words in ([], [""], ["--help"], ["a", "b"]):
                self.assertEqual(self.ended(name, *words), (2, "", f"usage: {name} {called}\n"))

    def test_without_a_maintainer(self):
        for name in ("make_deb", "make_fixup_deb"):
            for settings in ({"DEBFULLNAME": None}, {"DEBEMAIL": ""}):
                told = f"{name}: DEBFULLNAME and DEBEMAIL must be the maintainer's name and address\n"
                self.assertEqual(self.ended(name, "a", **settings), (2, "", told))

    def test_without_a_tool(self):
        (self.folder / "tools").mkdir()
        for name in ("sh", "dirname", "readlink", "sed", "awk", "mktemp", "rm", "date", "head", "cat", "find"):
            (self.folder / "tools" / name).symlink_to(shutil.which(name))
        for name in ("make_deb", "make_fixup_deb"):
            told = f"{name}: packing needs dpkg-deb, which is not on the PATH\n"
            self.assertEqual(self.ended(name, "a", PATH=str(self.folder / "tools")), (3, "", told))


if __name__ == "__main__":
    unittest.main()
