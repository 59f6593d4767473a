"""The command lines of docs/RECIPES.md, as the tests run them, and a folder of files that they run on."""

import json
import re

from built import DOT, ROOT, SAMPLES
from metafile.scripts import WMF
from recipes_test import HELD, RECIPES

# A file that is rejected, since it has text (META_EXTTEXTOUT, [MS-WMF] 2.3.3.5).
TEXT = WMF.file([WMF.record(0x0A32)], 8, 0)

# The files of the folder `drawings`, and the verdict of each.
DRAWINGS = {
    "dot.wmf": (DOT, True),
    "below/HELD file.WMF": (HELD.read_bytes(), False),
    "below/polygons.emf": ((SAMPLES / "polygons.emf").read_bytes(), True),
    "text.wmf": (TEXT, False),
    'quoted "name" <b>.wmf': (DOT, True),
    "two\nlines 'of' $HOME.emf": ((SAMPLES / "small.emf").read_bytes(), True),
}


def commands(heading):
    """The blocks of command lines below a heading of the page, with the recipes of this repository."""
    page = (ROOT / "docs" / "RECIPES.md").read_text(encoding="utf-8")
    section = page.split(f"\n## {heading}\n")[1].split("\n## ")[0]
    return [block.replace("docs/recipes/", f"{RECIPES}/") for block in re.findall(r"(?ms)^```sh\n(.*?)^```$", section)]


def draw(folder):
    """Makes the folder `drawings` below a folder, with a FIFO and a link, which aren't certified."""
    for name, (data, _) in DRAWINGS.items():
        path = folder / "drawings" / name
        path.parent.mkdir(parents=True, exist_ok=True)
        path.write_bytes(data)
    (folder / "drawings" / "link.wmf").symlink_to("dot.wmf")


def verdicts(lines):
    """The verdicts of lines of `certify` by the names of their files. Each file has one line."""
    reports = [json.loads(line) for line in lines.splitlines()]
    names = [report["file"].removeprefix("drawings/") for report in reports]
    if len(set(names)) != len(names):
        raise AssertionError(f"files with several lines: {names}")
    return {name: report["accepted"] for name, report in zip(names, reports)}


WANTED = {name: is_accepted for name, (_, is_accepted) in DRAWINGS.items()}
