"""Certificates and images that are rejected by their first bytes, or at the first drawing, with much behind these in them or in the file."""

import functools
from collections.abc import Callable, Iterator

from fault_files import SIDE, behind
from instruction_files import Counted
from refused_files import DOT, OF_DOT
from writers import EMF, WMF, i32, u32

# How many drawings a file has, and the entries of a certificate of it.
DRAWINGS = 10_000


@functools.cache
def dots() -> bytes:
    """A file of 10,000 pixels in one place."""
    return WMF.file([WMF.step("pixel", 1, 1)] * DRAWINGS, SIDE, 0)


def wide_lines() -> bytes:
    """A wide line, and much behind it."""
    return EMF.file([*EMF.records("styled_pen 0 0 9 0x8040; select 0; line 9 9"), *behind("EMF")], SIDE, 16)


def saved() -> bytes:
    """Such a file of pixels, where a state is saved first."""
    return WMF.file([WMF.step("save"), *[WMF.step("pixel", 1, 1)] * DRAWINGS], SIDE, 0)


def entry(record: int, *box: int) -> bytes:
    """The entry of a drawing."""
    return u32(record) + i32(*(box or (1, 1, 1, 1)))


def certificate(first: bytes, mark: bytes = b"MPC1", begin: int = 1, **changes: int) -> bytes:
    """The certificate of 10,000 pixels, of which another is the first, some numbers of its head changed."""
    head = {"width": SIDE, "height": SIDE, "writes": DRAWINGS, "high": 0, "depth": 0, "slots": 0, "edges": 1, "pieces": 0, "count": DRAWINGS} | changes
    return mark + u32(*head.values()) + first + b"".join(entry(begin + nth) for nth in range(DRAWINGS - 1))


RIGHT = entry(0)

CERTIFICATES: dict[str, Callable[[], tuple[bytes, bytes]]] = {
    "NotCertificate first, another mark": lambda: (dots(), certificate(RIGHT, b"MPC4")),
    "NotCertificate first, no bytes": lambda: (dots(), b"MPC"),
    "ShortCertificate first, 39 bytes": lambda: (dots(), certificate(RIGHT)[:39]),
    "ShortCertificate first, a million entries": lambda: (dots(), certificate(RIGHT, count=1_000_000)),
    "BadBound first, no width": lambda: (dots(), certificate(RIGHT, width=0)),
    "BadBound first, a height of 8,193": lambda: (dots(), certificate(RIGHT, height=8_193)),
    "BadBound first, 257 saved states": lambda: (dots(), certificate(RIGHT, depth=257)),
    "BadBound first, 65,536 slots": lambda: (dots(), certificate(RIGHT, slots=65_536)),
    "BadBound first, too many points": lambda: (dots(), certificate(RIGHT, edges=(1 << 20) + 1)),
    "BadBound first, too many pieces": lambda: (dots(), certificate(RIGHT, pieces=(1 << 16) + 1)),
    "BadBound first, too many entries": lambda: (dots(), certificate(RIGHT, count=(1 << 20) + 1)),
    "BadBound first, an allowance of 4": lambda: (dots(), b"MPC3" + u32(4) + certificate(RIGHT)[4:]),
    "TrailingBytes first, no entries": lambda: (dots(), certificate(RIGHT, count=0)),
    "WrongEntry first, another record": lambda: (dots(), certificate(entry(9))),
    "WrongEntry first, no entries": lambda: (dots(), certificate(b"", count=0)[:40]),
    "BoxTooSmall first, a box without a point": lambda: (dots(), certificate(entry(0, 0, 0, -1, -1))),
    "BoxTooSmall first, a box beside a pixel": lambda: (dots(), certificate(entry(0, 2, 1, 2, 1))),
    "NibTooSmall first, a wide line": lambda: (wide_lines(), certificate(entry(3, 0, 0, 9, 9), slots=1, edges=2)),
    "NeedTooSmall, a state that is saved first": lambda: (saved(), certificate(entry(1), begin=2)),
    "BudgetTooSmall, no writes": lambda: (dots(), certificate(RIGHT, writes=0)),
}

IMAGES: dict[str, Callable[[], bytes]] = {
    "BadImage first, a grey image": lambda: b"P5 1000 1000 255\n" + bytes(1_000_000),
    "BadImage first, samples up to 65,535": lambda: b"P6 600 600 65535\n" + bytes(6 * 360_000),
    "BadImage first, 8,193 columns": lambda: b"P6 8193 80 255\n" + bytes(3 * 8_193 * 80),
    "BadImage first, no rows": lambda: b"P6 600 0 255\n" + bytes(1_000_000),
    "BadImage first, a row too few": lambda: b"P6 600 600 255\n" + bytes(3 * 600 * 599),
    "SurfaceTooLarge first, an image": lambda: b"P6 600 600 255\n" + bytes(3 * 600 * 600),
}


def checked(made: Callable[[], tuple[bytes, bytes]]) -> Counted:
    """A file and a certificate that isn't its own."""
    given, wrong = made()
    return Counted(given, SIDE, SIDE, command="check", status=1, certificate=wrong)


def over(made: Callable[[], bytes]) -> Counted:
    """A file that is played over what it can't be played over."""
    return Counted(DOT, 4, 4, command="over", status=1, certificate=OF_DOT, image=made())


def makers() -> Iterator[tuple[str, Callable[[], Counted]]]:
    """The name and the maker of each file."""
    for name, made in CERTIFICATES.items():
        yield f"{name}, check", functools.partial(checked, made)
    for name, image in IMAGES.items():
        yield f"{name}, over", functools.partial(over, image)


FILES = dict(makers())
