"""What it costs to prepare and to check the certificate of a file, beside reading its records, at 1,024 a side: a program of
bench/programs/, as those of reading.py."""

import itertools
import random
import re
import subprocess

from reading import built
from shapes import FRAME
from timing import Row
from writers import EMF, WMF

# As many records as a file has at most, less the end.
RECORDS = 1_048_575

# The points of the largest drawing.
POINTS = 1_048_576

SMALL = "pixel 2 1; line 6 5; {} 0 0 4 0 4 4 0 4"


def small_records(form, script):
    """A file of small drawings, as many as it may have."""
    given = form.records(SMALL.format(script))
    return form.file([], FRAME, 0)[: -len(form.end)] + b"".join(itertools.islice(itertools.cycle(given), RECORDS - 1)) + form.end


def large_polygon():
    """A file of one polygon with as many points as it may have, all near the top, so that few rows are painted."""
    chance = random.Random(1)
    places = [chance.randrange(side) for _ in range(POINTS) for side in (FRAME, 4)]
    return EMF.file([EMF.step("short_polygon", *places)], FRAME, 0)


def seconds_of(file):
    """The seconds of reading, preparing and checking a file, the least of five runs."""
    told = subprocess.run([built("certificates_bench")], input=file, stdout=subprocess.PIPE, check=True).stdout.decode()
    return {word: int(number) / 1e9 for word, number in re.findall(r"(\w+)=(\d+)", told)}


def rows(bench):
    """Preparing and checking a record of a million, and a point of a million."""
    for form, script in ((WMF, "polygon"), (EMF, "short_polygon")):
        taken = seconds_of(small_records(form, script))
        for word in ("prepare", "check"):
            each, read = taken[word] * 1e9 / RECORDS, taken["read"] * 1e9 / RECORDS
            yield Row(f"{word}: a small drawing of {form.name}", "ns", each, read, "its record read", goal=60 + read)
    taken = seconds_of(large_polygon())
    for word in ("prepare", "check"):
        each, read = taken[word] * 1e9 / POINTS, taken["read"] * 1e9 / POINTS
        yield Row(f"{word}: a point of a polygon", "ns", each, read, "its record read", goal=2.0)
