"""Runs of a program whose allocations are refused in turn: the first in one run, the second in the next, and so on to the last."""

import itertools
import os
import pathlib
import subprocess
import tempfile
import unittest

from built import answer


class RefusedGrowthTest(unittest.TestCase):
    """Tests that refuse allocations, by a library that is loaded before the C library."""

    @classmethod
    def setUpClass(cls):
        """Builds that library."""
        room = tempfile.TemporaryDirectory()
        cls.addClassCleanup(room.cleanup)
        cls.library = f"{room.name}/fail_growth.so"
        cls.mark = pathlib.Path(f"{room.name}/refused")
        source = pathlib.Path(__file__).with_name("fail_growth.c")
        build = ["cc", "-O2", "-Wall", "-Wextra", "-Werror", "-shared", "-fPIC"]
        subprocess.run([*build, "-o", cls.library, source, "-ldl"], check=True)

    def refused(self, number, program, words, given=b""):
        """What the program answers where its growth of this number is refused, or None where it doesn't come so far."""
        self.mark.unlink(missing_ok=True)
        refusal = {
            "LD_PRELOAD": self.library,
            "REFUSE_GROWTH": str(number),
            "REFUSED_GROWTH": str(self.mark),
        }
        answered = answer(program, words, given, env={**os.environ, **refusal})
        return answered if self.mark.exists() else None

    def under_refusals(self, program, words, given=b""):
        """What the program answers where its first growth is refused, and its second, and so on to its last."""
        for number in itertools.count(1):
            answered = self.refused(number, program, words, given)
            if answered is None:
                return
            yield number, answered
