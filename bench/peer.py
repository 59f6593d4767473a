"""A peer: the GDI of wine, by the program of peers/gdi.c, where a compiler for Windows and wine are there."""

import contextlib
import os
import shutil
import subprocess
import sys

from writers import ROOT

SOURCE = ROOT / "bench" / "peers" / "gdi.c"

OUT = ROOT / "bench" / "out"

PROGRAM = OUT / "gdi.exe"

COMPILER = "x86_64-w64-mingw32-gcc"

# What starts a program of 64 bits. Debian has it beside the PATH: its command `wine` is a shell script, which would be timed too.
LOADERS = ["wine64", "/usr/lib/wine/wine64"]

NAME = "wine's GDI"

# Where wine keeps what it needs, which it makes the first time, without asking for what the peer doesn't need.
SETTINGS = {"WINEPREFIX": str(OUT / "wine"), "WINEDEBUG": "-all", "WINEDLLOVERRIDES": "mscoree,mshtml,winemenubuilder.exe="}


def loader():
    """What starts a program of Windows, if there is anything."""
    return next(filter(None, map(shutil.which, LOADERS)), None)


def build():
    """Compiles the program where it isn't there, or older than its source."""
    OUT.mkdir(exist_ok=True)
    if not PROGRAM.is_file() or PROGRAM.stat().st_mtime < SOURCE.stat().st_mtime:
        words = [COMPILER, "-std=c99", "-O2", "-o", str(PROGRAM), str(SOURCE), "-lgdi32"]
        if subprocess.run(words).returncode != 0:
            sys.exit(f"{SOURCE} could not be compiled")


def show(path, width, height=None):
    """The command that shows a file by the peer: of Windows' paths, drive Z has the whole system's."""
    return [loader(), str(PROGRAM), f"Z:{path}", str(width), str(width if height is None else height)]


@contextlib.contextmanager
def running():
    """What answers the peer's command, while the server and the services run that all programs under wine share, so that no run starts them; or
    nothing, where there is no peer."""
    if shutil.which(COMPILER) is None or loader() is None:
        print(f"no peer: {COMPILER} or wine64 isn't there", file=sys.stderr)
        yield None
        return
    build()
    (OUT / "wine").mkdir(exist_ok=True)
    os.environ.update(SETTINGS)
    subprocess.run(["wineserver", "-p"], check=True)
    subprocess.run([loader(), "wineboot"], stdout=subprocess.DEVNULL, stderr=subprocess.DEVNULL)
    try:
        yield show
    finally:
        subprocess.run(["wineserver", "-k"])
