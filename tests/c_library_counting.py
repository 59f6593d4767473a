"""Instructions of programs that use the library for C, and drawings that they are counted on."""

import random
import re
import subprocess

from metafile.scripts import WMF


def small_drawings(width, height):
    """Small triangles all over a surface: each is painted in one band or two."""
    chance, records = random.Random(38), WMF.records("solid_brush 0 0x206040; select 0")
    for _ in range(10_000):
        x, y = chance.randrange(width - 6), chance.randrange(height - 6)
        records.append(WMF.step("polygon", x, y, x + 5, y + 1, x + 2, y + 5))
    return WMF.file(records, (width, height), 0)


def instructions(words):
    """The instructions of one run, and what it writes."""
    counted = ["valgrind", "--tool=callgrind", "--callgrind-out-file=/dev/null", *map(str, words)]
    ended = subprocess.run(counted, env={}, capture_output=True, check=True)
    return int(re.search(rb"Collected : (\d+)", ended.stderr)[1]), ended.stdout
