"""What the built programs take from the C library, beside the table in SECURITY.md."""

import re
import subprocess
import unittest

from built import PROGRAMS, ROOT

# What the linker adds to any program: weak symbols that nothing defines, and the end of the C library.
LINKED = {"_ITM_deregisterTMCloneTable", "_ITM_registerTMCloneTable", "__cxa_finalize", "__gmon_start__"}


def undefined(program):
    """The names that a program takes from libraries, each with its version."""
    lines = subprocess.run(["nm", "--dynamic", "--undefined-only", program], capture_output=True, text=True, check=True).stdout.splitlines()
    return [line.split()[-1] for line in lines]


def imported(program):
    """The names of the functions that a program takes from libraries."""
    return {name.partition("@")[0] for name in undefined(program)} - LINKED


def least_glibc(program):
    """The oldest version of glibc with which a program runs."""
    found = [re.search(r"@GLIBC_(\d+)\.(\d+)", name) for name in undefined(program)]
    return max(tuple(map(int, it.groups())) for it in found if it)


class Imports(unittest.TestCase):
    def test_the_page_has_all_that_is_imported(self):
        page = (ROOT / "SECURITY.md").read_text(encoding="utf-8")
        table = page.partition("| for | functions |")[2].partition("\n\n")[0]
        named = set(re.findall(r"`(\w+)`", table))
        self.assertEqual(imported(PROGRAMS[0]), named)
        # The other compiler's program copies memory by itself.
        self.assertLessEqual(imported(PROGRAMS[1]), named)

    def test_the_page_has_the_glibc_that_they_need(self):
        page = " ".join((ROOT / "README.md").read_text(encoding="utf-8").split())
        said = tuple(map(int, re.search(r"with glibc (\d+)\.(\d+) or newer", page).groups()))
        self.assertEqual(max(map(least_glibc, PROGRAMS)), said)


if __name__ == "__main__":
    unittest.main()
