"""Files of some megabytes whose first fault is at their beginning, one for each record that is rejected: whoever reads on behind it takes much longer."""

import functools
from collections.abc import Callable, Iterator

from fault_records import CASES, Case
from instruction_files import Counted, noise
from refused_files import white
from writers import EMF, SRCCOPY, WMF, u32

COMMANDS = ["show", "check", "prepare"]

SIDE = 64

# The side of the largest surface, and of an image that is large.
LARGEST, IMAGE_SIDE = 8_192, 1_024


def generous(side: int) -> bytes:
    """A certificate for surfaces of this side that allows as much as there may be, and has no entry."""
    return b"MPC1" + u32(side, side, 0, 1, 256, 65_535, 1 << 20, 1 << 16, 0)


GENEROUS = generous(SIDE)

# Faults behind which the records are listed too, and faults that are told too.
LISTED, TOLD = ["UnknownRecord", "BadDib", "HeldObject"], ["Unsupported", "BadValue", "OffPlane"]

# Faults of files that are given a large surface, by commands.
LARGE = {"show": "HeldObject", "prepare": "BadParams", "play": "NoSuchHandle", "over": "ZeroExtent"}


@functools.cache
def behind(name: str) -> list[bytes]:
    """What lies behind a fault in the format of this name: lists of many points, bitmaps, objects, and short records."""
    form = WMF if name == WMF.name else EMF
    points = [nth * 2_654_435_761 % SIDE for nth in range(20_000)]
    blit = form.step("stretch_dib", SRCCOPY, 0, 0, SIDE, SIDE, 0, 0, 256, 256, str(noise(256, 24)))
    records = [form.step(name, *points) for name in ("polygon", "polyline") * 4] + [blit] * 4
    records += form.records("solid_pen 0 0x8040; solid_brush 1 0x206040; save; select 0; select 1; rectangle 1 1 60 60; restore -1; delete 0; delete 1") * 200
    return records + form.records("pixel 1 1; move 2 2; line 60 9; rectangle 1 1 9 9") * 1_500


def rejected(case: Case, command: str) -> Counted:
    """The file of a case, given to a command."""
    given = case.form.file([*case.made(), *behind(case.form.name)], SIDE, 16)
    certificate = GENEROUS if command == "check" else b""
    return Counted(given, SIDE, SIDE, command=command, status=0 if command == "list" else 1, certificate=certificate)


def on_a_large_surface(case: Case, command: str) -> Counted:
    """The same on a large surface or over a large image, neither of which is made."""
    side = IMAGE_SIDE if command == "over" else LARGEST
    made = rejected(case, command)._replace(width=side, height=side)
    if command == "play":
        return made._replace(certificate=generous(side), bands=side)
    return made._replace(certificate=generous(side), image=white(side)) if command == "over" else made


def commands() -> Iterator[tuple[Case, str]]:
    """Each case with a command by turns, and some with others."""
    for nth, case in enumerate(CASES):
        yield case, COMMANDS[nth % len(COMMANDS)]
    for faults, command in ((LISTED, "list"), (TOLD, "info")):
        for fault in faults:
            yield next(case for case in CASES if case.fault == fault and case.form is EMF), command


def makers() -> Iterator[tuple[str, Callable[[], Counted]]]:
    """The name and the maker of each file."""
    for case, command in commands():
        yield f"{case.fault} first, {case.name}, {case.form.name}, {command}", functools.partial(rejected, case, command)
    for command, fault in LARGE.items():
        case = next(case for case in CASES if case.fault == fault)
        yield f"{case.fault} first on a large surface, {case.form.name}, {command}", functools.partial(on_a_large_surface, case, command)


FILES = dict(makers())
