#!/usr/bin/env python3
"""Makes docs/fixup.png: on the left the records of samples/rejected/label.emf that play as they are, on the right the file after the fix-up.

    docs/make_sheet.py           writes the picture
    docs/make_sheet.py --check   says if the picture isn't what it would write, and then ends with 1

It takes the built program, and the fonts of Debian's package fonts-liberation.
"""

import itertools
import pathlib
import struct
import subprocess
import sys
import tempfile
import zlib

ROOT = pathlib.Path(__file__).resolve().parent.parent
sys.path[:0] = [str(ROOT / "tests"), str(ROOT / "samples" / "rejected")]

import make_label  # noqa: E402
from built import PROGRAMS  # noqa: E402
from metafile.pictures import emf_picture  # noqa: E402

SHEET = ROOT / "docs" / "fixup.png"
LABEL = ROOT / "samples" / "rejected" / "label.emf"
FIXUP = ROOT / "fixup" / "metaplay-fixup"
FONTS = pathlib.Path("/usr/share/fonts/truetype/liberation")

WIDTH, HEIGHT = make_label.WIDTH, make_label.HEIGHT

# White columns between the two pictures.
GAP = b"\xff\xff\xff" * 8


def rejected() -> set[int]:
    """The numbers of the records that the program rejects, by its listing."""
    listed = subprocess.run([PROGRAMS[0], "list", LABEL], capture_output=True, text=True).stdout
    return {int(line.split("\t")[0]) for line in listed.splitlines() if line.split("\t")[5] == "refused"}


def playable() -> bytes:
    """The file without these records. The header is record 0."""
    left_out = rejected()
    kept = [record for number, record in enumerate(make_label.records(), start=1) if number not in left_out]
    return emf_picture(WIDTH, HEIGHT, kept, handles=make_label.STAMP + 1)


def fixed(folder: pathlib.Path) -> bytes:
    """The file after the fix-up, with its dashes."""
    out = folder / "fixed.emf"
    subprocess.run([*map(str, (FIXUP, LABEL, out)), "--strokes", "--fonts", str(FONTS)], check=True)
    return out.read_bytes()


def rows(file: bytes) -> list[bytes]:
    """The rows of a file's picture, three bytes a pixel."""
    words = [str(PROGRAMS[0]), "show", "stdin", str(WIDTH), str(HEIGHT), "--profile", "print"]
    shown = subprocess.run(words, input=file, capture_output=True, check=True).stdout
    pixels = shown[-3 * WIDTH * HEIGHT :]
    return [pixels[at : at + 3 * WIDTH] for at in range(0, len(pixels), 3 * WIDTH)]


def chunk(kind: bytes, data: bytes) -> bytes:
    """A chunk of PNG."""
    return struct.pack(">I", len(data)) + kind + data + struct.pack(">I", zlib.crc32(kind + data))


def png(lines: list[bytes]) -> bytes:
    """A PNG of rows of at most sixteen colours, four bits a pixel."""
    pixels = [[line[at : at + 3] for at in range(0, len(line), 3)] for line in lines]
    palette = sorted(set(itertools.chain.from_iterable(pixels)))
    number = {colour: place for place, colour in enumerate(palette)}
    packed = b"".join(b"\0" + bytes(number[one] << 4 | number[other] for one, other in zip(line[::2], line[1::2])) for line in pixels)
    head = struct.pack(">IIBBBBB", len(pixels[0]), len(pixels), 4, 3, 0, 0, 0)
    chunks = [chunk(b"IHDR", head), chunk(b"PLTE", b"".join(palette)), chunk(b"IDAT", zlib.compress(packed, 9)), chunk(b"IEND", b"")]
    return b"\x89PNG\r\n\x1a\n" + b"".join(chunks)


def sheet() -> bytes:
    """Both pictures, side by side."""
    with tempfile.TemporaryDirectory() as folder:
        after = fixed(pathlib.Path(folder))
    return png([one + GAP + other for one, other in zip(rows(playable()), rows(after), strict=True)])


def main() -> int:
    """Does what the command line asks for."""
    if sys.argv[1:] != ["--check"]:
        SHEET.write_bytes(sheet())
        return 0
    if SHEET.read_bytes() == sheet():
        return 0
    print("docs/fixup.png isn't fresh: docs/make_sheet.py writes it")
    return 1


if __name__ == "__main__":
    sys.exit(main())
