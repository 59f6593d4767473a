"""Files under the print profile whose instructions are counted: each file that is counted under core, and some of which points land in parts of a
unit, or selected objects are deleted."""

import random

from instruction_files import Counted
from writers import EMF

PRINT = ("--profile", "print")


def named_print(name):
    """The name under the print profile of what has this name under core."""
    return f"{name}, print"


def under_print(made):
    """The maker of a file, under the print profile."""
    return lambda: made()._replace(options=PRINT)


def points_in_two_parts(exponent):
    """Lists so far from the origin, before and behind it, on a frame whose units have two parts: a distance of 2^25 times the extent takes 45 bits."""
    chance, width, height = random.Random(28), 1 << 19, 16
    records = EMF.records(f"map_mode 8; window_extent {3 << 19} {3 << 19}; viewport_extent {1 << 20} {1 << 20}")
    for _ in range(20):
        below = [chance.choice((-1, 1)) * ((1 << exponent) + chance.randrange(1 << exponent)) for _ in range(10_000)]
        records.append(EMF.step("polyline", 0, 0, *below))
    return Counted(EMF.file(records, (width, height), 16), 64, 1, options=PRINT)


def near_points_in_two_parts():
    """Lists whose products fit 45 bits."""
    return points_in_two_parts(23)


def far_points_in_two_parts():
    """Lists whose products don't."""
    return points_in_two_parts(26)


def held_deletions():
    """Deletions of a selected pen while a long path is open, and nearly as many states are saved as may be. The first takes it from all of them, the
    others from the current one."""
    records = EMF.records("pen 0; select 0") + [EMF.step("save")] * 255
    records += [EMF.step("begin_path"), *EMF.records("line 3 4; line 60 9") * 15_000]
    records += EMF.records("delete 0; pen 0; select 0; pixel 5 5") * 4_000
    return Counted(EMF.file(records, 64, 16), 64, 64, options=(*PRINT, "--allow", "held-deletion"))


PARTS = {
    "100,000 near points in two parts a unit": near_points_in_two_parts,
    "100,000 far points in two parts a unit": far_points_in_two_parts,
    "4,000 held deletions in a full state": held_deletions,
}
