"""The archive of the library for C, which `rt ci` proves and doesn't build: built once, and recorded for the launcher."""

import fcntl
import pathlib
import subprocess

from built import ROOT
from edit_trials import rt
from edits import build_libraries

CRATE = "metaplay_c"

RECORD = [ROOT / "launcher/record", "--library"]


def is_recorded():
    """Whether the archive is there, built from the sources as they are."""
    words = 'root=$1 && . "$1/launcher/program.sh" && choose_library && is_fresh'
    return subprocess.run(["sh", "-uc", words, "sh", ROOT], check=False).returncode == 0


def are_left(crate):
    """Whether the libraries below a crate are there as `rt ci` leaves them, however old they are: those that it kept are older than the sources."""
    return all(pathlib.Path(it.rlib, "format").exists() and not pathlib.Path(it.rlib, "stamp").exists() for it in crate.below())


def build():
    """Has the archive proved and built over the libraries that `rt ci` leaves."""
    crate = next(it for it in rt.rtlib.crates_below(str(ROOT)) if it.name == CRATE)
    if not are_left(crate) and not build_libraries(crate):
        raise AssertionError("the libraries below can't be built")
    sources = subprocess.run(RECORD, capture_output=True, text=True, check=True).stdout.strip()
    words = crate.words(["--jobs", "1"], keeps=False)
    words = [rt.rtlib.RATTLE, "build", *words, "--toolchain", f"{rt.rtlib.KIT}/toolchain", "--backend", "llvm", "-o", f"out/lib{CRATE}.a"]
    ran = subprocess.run([*rt.rtlib.guarded(), *words], cwd=crate.folder, stdout=subprocess.PIPE, stderr=subprocess.STDOUT, text=True, check=False)
    if ran.returncode or "\nlogic=proved " not in ran.stdout:
        raise AssertionError(ran.stdout)
    subprocess.run([*RECORD, sources], check=True)


def have_built():
    """Has the archive built, unless it is there. Several processes may ask for it at a time."""
    made = ROOT / "crates" / CRATE / "out"
    made.mkdir(exist_ok=True)
    with (made / "lock").open("w") as lock:
        fcntl.flock(lock, fcntl.LOCK_EX)
        if not is_recorded():
            build()
