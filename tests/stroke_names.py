#!/usr/bin/env python3
"""Counts the files of crates that name what a wide pen changes: a stroke, the place of its nib, an entry's size, or a landing.

    stroke_names.py               counts the files as they stand
    stroke_names.py --at COMMIT   counts those of a commit
    stroke_names.py --list        lists the files too, each with its families

A file counts once for each family that it names, and once in all. Comments don't count, and of an import only what it brings counts, not the path
to it. Crates of tests and examples are left out: a test that strokes decides nothing. Each family has the names of today and those that may take
their place, so that counts before and after a change can be compared.
"""

import argparse
import collections
import io
import pathlib
import re
import subprocess
import sys
import tarfile
from typing import NamedTuple

ROOT = pathlib.Path(__file__).resolve().parent.parent

PARTS = ("src", "specs", "proofs")

OF_TESTS = re.compile(r"\w+_tests|test_\w+|example_\w+")

COMMENT = {".rt": re.compile(r"//[^\n]*"), ".antt": re.compile(r"--[^\n]*")}

# The path of an import, up to the names that it brings. That of a function's own goals brings none.
PATH = {".rt": re.compile(r"\buse (?:[\w-]+(?:::|\.))+(?=\w+;|\{)"), ".antt": re.compile(r"\buse (?:[^\s.{}]+\.)+(?=\{)|\buse \S+ as \w+")}


class Family(NamedTuple):
    """Names with one meaning: what it is called, what its files have in common, and the pattern of its names."""

    name: str
    meaning: str
    pattern: re.Pattern


def family(name, meaning, *names):
    """A family of these names, each a pattern."""
    return Family(name, meaning, re.compile("|".join(names)))


FAMILIES = [
    family("pixels", "They say which pixels a stroke has.", r"\b(in_stroke|in_wide_stroke|on_line|on_wide_line)\b"),
    family("shapes", "They tell a stroked shape from others.", r"\b(along_figures|round_rectangle|on_lines|stroke_of)\b", r"\buse \{[^}\n]*\bOutline\b[^}\n]*\b(along|round)\b"),
    family("layers", "They say which layers of a drawing are strokes.", r"\b(strokes_of|outlines_of|stroked|stroked_with|figures_stroked)\b"),
    family("painting", "They choose how a stroke is painted, or paint it.", r"\bstroke_(?!path\b|and_fill_path\b|rows?\b|of\b|count\b|cells\b)\w+", r"\bfn stroke\b|\.stroke\.", r"\bPart::Lines\b", r"\bstruct Stroke\b|\bStroke (::|\{)|&(mut )?Stroke\b"),
    family("rows", "They gather the rows of a stroke.", r"\b(stroke_rows?|stroking)\b"),
    family("draws", "They make a drawing of a step, or raise the needs of one.", r"\bDraw \{", r"\b(raise_edges|drew)\b"),
    family("pens", "They know what a pen has, so what its nib is made of.", r"\bPen::Solid\b", r"\b(is_wide|pen_of|pen_meant|\w*[nN]ib\w*)\b"),
    family("landings", "They decide whether points land on a surface, and where.", r"\b(place_fault|off_plane_fault|plane_extent|landed_box|land_\w+|fits_place)\b", r"\b(land|fits)\("),
    family("entries", "They know how many bytes an entry of a certificate has.", r"\bENTRY_SIZE\b", r"\buse \{[^}\n]*\bentry_size\b", r"\bentry_size : "),
    family("cells", "They count the pixels that a layer or its box has.", r"\b(box_cells|layers?_budget|layer_cells|fill_cells|stroke_cells|wide_cells|(layer|plain|outline|fill|stroke)_count)\b"),
]

# In this crate the size of an entry stands as a bare number too, beside the place of a head's field with the same number.
ENTRY_CRATE, ENTRY_SIZE = "preflight_cert", re.compile(r"[-+*/<≤=] 20\b|\b20 [-+*≤]|\b(drop|take|entries_in) 20\b")


class Naming(NamedTuple):
    """A file that names something: its path below crates/, its part of a crate, and its families."""

    path: str
    part: str
    families: list


def files_now():
    """The texts of all files of crates by their paths below crates/."""
    crates = ROOT / "crates"
    found = [path for part in PARTS for path in crates.glob(f"*/{part}/**/*") if path.suffix in COMMENT]
    return {path.relative_to(crates).as_posix(): path.read_text(encoding="utf-8") for path in found}


def files_at(commit):
    """The same of a commit."""
    packed = subprocess.run(["git", "-C", ROOT, "archive", commit, "crates"], check=True, stdout=subprocess.PIPE).stdout
    with tarfile.open(fileobj=io.BytesIO(packed)) as archive:
        found = [it for it in archive if it.isfile() and pathlib.PurePosixPath(it.name).suffix in COMMENT]
        return {it.name.removeprefix("crates/"): archive.extractfile(it).read().decode() for it in found}


def families_of(path, text):
    """The families that a file names."""
    kind = pathlib.PurePosixPath(path).suffix
    text = PATH[kind].sub("use ", COMMENT[kind].sub("", text))
    found = [it.name for it in FAMILIES if it.pattern.search(text)]
    is_bare = path.startswith(f"{ENTRY_CRATE}/") and ENTRY_SIZE.search(text)
    return [*found, "entries"] if is_bare and "entries" not in found else found


def namings(files):
    """The files that name something, in order of their paths."""
    found = []
    for path in sorted(files):
        crate, part = path.split("/")[:2]
        if part in PARTS and not OF_TESTS.fullmatch(crate):
            found.append(Naming(path, part, families_of(path, files[path])))
    return [it for it in found if it.families]


def row(name, its):
    """A row of the table: a name, how many files there are of each part, and in all."""
    count = collections.Counter(it.part for it in its)
    return f"{name:10}" + "".join(f"{number:8}" for number in [*(count[part] for part in PARTS), len(its)])


def table(found):
    """The counts of files by families and in all."""
    head = f"{'':10}" + "".join(f"{part:>8}" for part in [*PARTS, "all"])
    rows = [f"{row(it.name, [one for one in found if it.name in one.families])}   {it.meaning}" for it in FAMILIES]
    return "\n".join([head, *rows, row("all", found)])


def main():
    """Prints the counts, and answers the status."""
    words = argparse.ArgumentParser(description=__doc__, formatter_class=argparse.RawDescriptionHelpFormatter)
    words.add_argument("--at", metavar="COMMIT")
    words.add_argument("--list", action="store_true")
    asked = words.parse_args()
    found = namings(files_at(asked.at) if asked.at else files_now())
    print("\n".join([*([f"{it.path}: {', '.join(it.families)}" for it in found] if asked.list else []), table(found)]))
    return 0


if __name__ == "__main__":
    sys.exit(main())
