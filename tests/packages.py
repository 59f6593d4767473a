"""The Debian packages that the tests of the fix-up need: which of them are missing, and what is done about it.

Debian's modules are those of its own interpreter, so the fix-up and its tests run by that: `PYTHON`.
"""

import os
import shutil
import subprocess

# Debian's interpreter.
PYTHON = "/usr/bin/python3"

# What the fix-up and the module for Python import, what the fix-up's tests import, what judges sources (mypy reads the types of others in
# python3-typeshed), and the fonts of its tests.
PACKAGES = [
    *["python3", "python3-freetype", "python3-numpy", "python3-pil"],
    *["python3-fonttools", "python3-jsonschema"],
    *["black", "flake8", "mypy", "python3-typeshed"],
    *["fonts-crosextra-caladea", "fonts-crosextra-carlito", "fonts-dejavu-core", "fonts-liberation", "fonts-urw-base35"],
]

# An installation asks nothing, takes no more than it must, and waits for another one to end.
INSTALL = ["apt-get", "install", "--no-install-recommends"]

HOW = ["-qq", "-y", "-o", "DPkg::Lock::Timeout=600"]


def missing():
    """The packages that aren't installed, in the order of the list."""
    words = ["dpkg-query", "-W", "-f", "${Package} ${db:Status-Status}\\n", *PACKAGES]
    ran = subprocess.run(words, stdout=subprocess.PIPE, stderr=subprocess.DEVNULL, text=True, check=False)
    return [name for name in PACKAGES if f"{name} installed" not in ran.stdout.splitlines()]


def is_done(words):
    """Whether a command of apt-get passes. What it says is shown only if it doesn't."""
    settings = {**os.environ, "DEBIAN_FRONTEND": "noninteractive"}
    streams = {"stdin": subprocess.DEVNULL, "stdout": subprocess.PIPE, "stderr": subprocess.STDOUT}
    ran = subprocess.run(words, **streams, text=True, errors="replace", env=settings, check=False)
    if ran.returncode:
        print(ran.stdout, end="", flush=True)
    return ran.returncode == 0


def install(names):
    """Whether these packages are installed now. A list of packages that can't be brought up to date is used as it is."""
    print(f"gate: installs {' '.join(names)}", flush=True)
    is_done(["apt-get", "update", *HOW])
    return is_done([*INSTALL, *HOW, *names]) and not missing()


def have_installed():
    """The status: 0 if all packages are there in the end. Root has those installed that are missing; others are told how."""
    if not shutil.which("dpkg-query"):
        print(f"gate: this isn't Debian, whose packages the tests need: {' '.join(PACKAGES)}", flush=True)
        return 1
    names = missing()
    if not names or os.geteuid() == 0 and install(names):
        return 0
    print(f"gate: packages are missing; as root: {' '.join([*INSTALL, *names])}", flush=True)
    return 1
