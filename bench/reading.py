"""What crates cost by themselves: reading records, and points in place. Both are programs of bench/programs/, which the
toolchain proves and builds over copies of the crates in bench/out/, the libraries that stand there included: where the
crates are built that takes half a minute each, and else as long as their proofs."""

import itertools
import random
import re
import shutil
import subprocess
import sys

from timing import Row
from writers import EMF, ROOT, WMF

OUT = ROOT / "bench" / "out"

# The crates that a program stands on, and what its line in crates.txt names.
NEEDED = {
    "certificates_bench": (
        [
            *("mapping", "point_views", "dib_views", "draw_ops", "wmf_records", "emf_records", "meta_headers", "object_tables"),
            *("raster_ops", "dc_stack", "span_fill", "preflight_cert"),
        ],
        "preflight_cert meta_headers draw_ops",
    ),
    "points_bench": (["mapping", "point_views"], "mapping point_views byteorder"),
    "records_bench": (
        ["mapping", "point_views", "dib_views", "draw_ops", "wmf_records", "emf_records"],
        "wmf_records emf_records draw_ops point_views mapping",
    ),
}

RECORDS = 1_000_000


def sources(name):
    """What a program is made of."""
    folders = [ROOT / "crates" / crate for crate in NEEDED[name][0]]
    files = [path for folder in folders for part in ("src", "specs", "proofs") for path in (folder / part).rglob("*")]
    return [ROOT / "bench" / "programs" / f"{name}.rattle", *filter(lambda path: path.is_file(), files)]


def lines_of(name):
    """The lines of crates.txt for a program and the crates below it, as they stand in the repository's own."""
    told = [line.split(":") for line in (ROOT / "crates.txt").read_text().splitlines() if re.match("[a-z]", line)]
    crates, libraries = NEEDED[name]
    return [f"{crate}:{rest}" for crate, rest in told if crate in crates] + [f"{name}: {libraries}"]


def copy(name):
    """Copies what a program is made of, and the libraries that are built, into a repository of its own."""
    root = OUT / name
    shutil.rmtree(root, ignore_errors=True)
    for crate in NEEDED[name][0]:
        for part in ("src", "specs", "proofs", "out/rlib"):
            if (ROOT / "crates" / crate / part).is_dir():
                shutil.copytree(ROOT / "crates" / crate / part, root / "crates" / crate / part)
    (root / "crates" / name / "src").mkdir(parents=True)
    shutil.copy(ROOT / "bench" / "programs" / f"{name}.rattle", root / "crates" / name / "src" / "main.rt")
    shutil.copy(ROOT / "HANDLES", root / "HANDLES")
    (root / "crates.txt").write_text("\n".join(lines_of(name)) + "\n")


def built(name):
    """Where a program is, built where it isn't or where its sources are newer."""
    crate = OUT / name / "crates" / name
    program = crate / "out" / name
    if not program.is_file() or any(path.stat().st_mtime > program.stat().st_mtime for path in sources(name)):
        copy(name)
        ended = subprocess.run(["rt", "run"], cwd=crate, stdin=subprocess.DEVNULL, capture_output=True, text=True)
        if ended.returncode != 0:
            sys.exit(f"{name} could not be built:\n{(ended.stdout + ended.stderr)[-2000:]}")
    return program


# A pixel, a move, a line, a pen and a polygon of four points. The files have no headers.
KINDS = "pixel 2 1; move 4 3; line 6 5; pen 0; {} 0 0 4 0 4 4 0 4"

FORMS = [(WMF, KINDS.format("polygon")), (EMF, KINDS.format("short_polygon"))]

# The goals of nanoseconds a record.
GOALS = {"in turn": 25, "in any order": 40}


def records_rows(bench):
    """The reading of a million records, in turn and in any order, beside a loop over their heads alone."""
    program = built("records_bench")
    for (form, script), (order, goal) in itertools.product(FORMS, GOALS.items()):
        records, chance = form.records(script), random.Random(1)
        turns = itertools.cycle(records) if order == "in turn" else iter(lambda: chance.choice(records), None)
        given = b"".join(itertools.islice(turns, RECORDS - 1)) + form.end
        told = subprocess.run([program], input=given, stdout=subprocess.PIPE, check=True).stdout.decode()
        steps, nanoseconds, heads = (int(re.search(rf"{word}=(\d+)", told)[1]) for word in ("steps", "ns", "heads"))
        subject = f"a record of {form.name} read, {order}"
        yield Row(subject, "ns", nanoseconds / steps, heads / steps, "its head alone", goal)


def points_rows(bench):
    """The sum of 65,536 points through a view, beside that of a plain slice of them."""
    told = subprocess.run([built("points_bench")], stdout=subprocess.PIPE, check=True).stdout.decode()
    view, plain = (int(re.search(rf"{word}=(\d+)", told)[1]) / 65_536 for word in ("view", "slice"))
    yield Row("a point read in place, of 65,536", "ns", view, plain, "in a plain slice")
