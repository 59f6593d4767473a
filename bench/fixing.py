"""The fix-up on many files: the fonts of Debian's packages, how it is asked, and what it says of each file."""

import pathlib
import re
import subprocess
import sys
from typing import NamedTuple

from writers import ROOT

FIXUP = ROOT / "fixup" / "metaplay-fixup"

# What runs the fix-up and tells the time of each file.
TIMES = ROOT / "bench" / "fixup_times.py"

# The packages whose fonts are taken, whatever else is installed.
PACKAGES = ["fonts-liberation", "fonts-crosextra-carlito", "fonts-crosextra-caladea", "fonts-urw-base35", "fonts-dejavu-core"]

ENDINGS = {".otf", ".ttf"}

STAND_INS = ["--instead", "Liberation Sans", "--fallback", "DejaVu Sans"]
ON_WHITE = ["--alpha", "white"]

# How it is asked: with these fonts alone, which are as wide as those that many files name, or with others where none of them serves.
WAYS: dict[str, list[str]] = {"fonts of equal widths": [], "stand-ins": [*STAND_INS, *ON_WHITE]}

# How many files are given to one call.
MOST_FILES = 200

# How often each file is timed.
RUNS = 3

# A line on standard error: the program, the file, and how its conversion ended, which begins with a name.
LINE = re.compile(r"metaplay-fixup: (\S+): ((\w+).*)")


class Rejected(NamedTuple):
    """A file that isn't fixed: the name of the fault, and all that is said of it."""

    fault: str
    line: str


def link_fonts(folder: pathlib.Path) -> int:
    """Links the fonts of the packages, and answers how many there are."""
    listed = subprocess.run(["dpkg", "-L", *PACKAGES], capture_output=True, text=True)
    if listed.returncode != 0:
        sys.exit(f"fonts are missing (apt-get install {' '.join(PACKAGES)})")
    fonts = sorted({path for path in map(pathlib.Path, listed.stdout.splitlines()) if path.suffix in ENDINGS})
    folder.mkdir()
    for path in fonts:
        (folder / path.name).symlink_to(path)
    return len(fonts)


def fix(names: list[str], given: pathlib.Path, out: pathlib.Path, options: list[str]) -> dict[str, Rejected]:
    """Fixes files of a folder into another one, which is made, and answers those that are rejected, by their names. Any other end of the program ends
    this one too."""
    out.mkdir()
    rejected = {}
    for start in range(0, len(names), MOST_FILES):
        words = [str(FIXUP), "--out-dir", str(out), *names[start : start + MOST_FILES], *options]
        ended = subprocess.run(words, cwd=given, stdin=subprocess.DEVNULL, capture_output=True, text=True)
        for line in ended.stderr.splitlines():
            found = LINE.fullmatch(line)
            if found is None:
                sys.exit(f"the fix-up said: {ended.stderr}")
            rejected[found[1]] = Rejected(found[3], found[2])
    if sorted(rejected.keys() | {path.name for path in out.iterdir()}) != sorted(names):
        sys.exit("the fix-up left a file out")
    return rejected


def fix_seconds(names: list[str], given: pathlib.Path, out: pathlib.Path, options: list[str]) -> list[float]:
    """The least processor seconds that each of these files takes in some runs, when all are given to one call."""
    out.mkdir()
    words = ["/usr/bin/python3", str(TIMES), "--out-dir", str(out), *names, *options]
    taken: dict[str, float] = {}
    for _ in range(RUNS):
        told = subprocess.run(words, cwd=given, stdin=subprocess.DEVNULL, capture_output=True, text=True).stdout
        for seconds, name in (line.split(" ", 1) for line in told.splitlines()):
            taken[name] = min(float(seconds), taken.get(name, float(seconds)))
    return list(taken.values())
