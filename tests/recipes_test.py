"""What the tests of recipes share: a folder with the program, and what a command answers there. Each recipe is tried where the program that it is for
is on the machine and the built program has the command that it calls."""

import os
import pathlib
import shutil
import struct
import subprocess
import tempfile
import time
import unittest
import zlib

from built import DOT, PROGRAMS, ROOT, SAMPLES

RECIPES = ROOT / "docs" / "recipes"

HELD = SAMPLES / "held.wmf"

HELD_LINE = b"metaplay: HeldObject at record 5\n"

# A program that takes long, and leaves its process id.
SLOW = "#!/bin/sh\necho $$ >process; exec sleep 60\n"


def waited(test):
    """Whether this becomes true within some seconds."""
    for _ in range(1000):
        if test():
            return True
        time.sleep(0.01)
    return False


def is_running(process):
    """Whether there is a process with this id."""
    try:
        os.kill(process, 0)
    except ProcessLookupError:
        return False
    return True


def has_command(name):
    """Whether the built program has a command."""
    ended = subprocess.run([PROGRAMS[0], name, "--help"], stdin=subprocess.DEVNULL, capture_output=True, text=True)
    return f" {name} " in ended.stdout


def needs(*names):
    """A test that is tried where these programs are on the machine."""
    missing = [name for name in names if not shutil.which(name)]
    return unittest.skipIf(missing, f"not on this machine: {', '.join(missing)}")


def png_pixels(data):
    """The sides and the pixels of a PNG, of red, green and blue or of colours from a palette, in rows that are stored as they are or by the row above."""
    parts, at = {}, 8
    while at < len(data):
        length, kind = struct.unpack_from(">I4s", data, at)
        parts[kind] = parts.get(kind, b"") + data[at + 8 : at + 8 + length]
        at += 12 + length
    width, height, depth, colours = struct.unpack_from(">IIBB", parts[b"IHDR"])
    bits = depth * (3 if colours == 2 else 1)
    stored, size, above, pixels = zlib.decompress(parts[b"IDAT"]), (width * bits + 7) // 8, b"", []
    for y in range(height):
        way, row = stored[y * (size + 1)], stored[y * (size + 1) + 1 :][:size]
        row = row if way == 0 else undone(way, row, above or bytes(size), max(bits // 8, 1))
        above = row
        if colours == 2:
            pixels += [row[3 * x : 3 * x + 3] for x in range(width)]
        else:
            places = "".join(f"{byte:08b}" for byte in row)
            pixels += [parts[b"PLTE"][3 * int(places[x * bits : (x + 1) * bits], 2) :][:3] for x in range(width)]
    return width, height, b"".join(pixels)


def undone(way, row, above, step):
    """A row of a PNG without its filter: what was taken away of the byte before, of the one above, or of both."""
    made = bytearray()
    for place, byte in enumerate(row):
        left, up = made[place - step] if place >= step else 0, above[place]
        corner = above[place - step] if place >= step else 0
        nearest = min((left, up, corner), key=lambda one: abs(left + up - corner - one))
        made.append((byte + (0, left, up, (left + up) // 2, nearest)[way]) % 256)
    return bytes(made)


class RecipesTest(unittest.TestCase):
    """Tests of recipes, in a folder of their own."""

    def setUp(self):
        """A folder with the program by its name, and files."""
        folder = tempfile.TemporaryDirectory()
        self.addCleanup(folder.cleanup)
        self.folder = pathlib.Path(folder.name)
        (self.folder / "metaplay").symlink_to(PROGRAMS[0])
        (self.folder / "dot.wmf").write_bytes(DOT)
        (self.folder / "held file.wmf").write_bytes(HELD.read_bytes())
        self.settings = {**os.environ, "PATH": f"{self.folder}:{os.environ['PATH']}"}
        self.settings.pop("METAPLAY", None)
        self.settings.pop("METAPLAY_FIXUP", None)

    def run_words(self, *words, given=b"", **settings):
        """What a command answers in that folder."""
        ended = subprocess.run(words, input=given, capture_output=True, cwd=self.folder, env=self.settings | settings, timeout=120)
        return ended.returncode, ended.stdout, ended.stderr


class Page(unittest.TestCase):
    """The page of recipes."""

    def test_each_script_is_on_the_page_and_is_there(self):
        page = (ROOT / "docs" / "RECIPES.md").read_text(encoding="utf-8")
        named = {word.rpartition("/")[2] for word in page.replace("`", " ").split() if "docs/recipes/" in word} - {"", "recipes"}
        self.assertEqual(named, {path.name for path in RECIPES.iterdir()})


if __name__ == "__main__":
    unittest.main()
