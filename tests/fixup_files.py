"""What is installed of metaplay-fixup, and a file that it converts without a font."""

import subprocess

from built import ROOT
from packages import PYTHON

FOLDER = "share/metaplay/fixup"

# The program's modules: each is a package's name and its own.
MODULES = [f"{package}/{it.stem}" for package in ("metaplay_fixup", "metaplay_verify") for it in sorted((ROOT / "fixup" / package).glob("*.py"))]

# The files by their places below the prefix, and whether they are programs. The first is a link.
FIXUP_FILES = {
    "bin/metaplay-fixup": True,
    f"{FOLDER}/metaplay-fixup": True,
    **{f"{FOLDER}/{it}.py": False for it in MODULES},
    "share/man/man1/metaplay-fixup.1": False,
    "share/bash-completion/completions/metaplay-fixup": False,
    "share/zsh/site-functions/_metaplay-fixup": False,
    "share/fish/vendor_completions.d/metaplay-fixup.fish": False,
    "share/doc/metaplay/report.schema.json": False,
}

# What Debian's Python names a compiled module after.
TAG = subprocess.run([PYTHON, "-c", "import sys; print(sys.implementation.cache_tag)"], stdout=subprocess.PIPE, text=True, check=True).stdout.strip()

# What is compiled when they are installed.
COMPILED = {f"{FOLDER}/{package}/__pycache__/{name}.{TAG}.pyc": False for package, name in (it.split("/") for it in MODULES)}

# A file that is converted to itself, since all of it plays.
SAMPLE = (ROOT / "samples/dot.wmf").read_bytes()
