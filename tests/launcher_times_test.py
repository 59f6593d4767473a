"""The times that the launcher says: what is still to come of a build. Its crates are those of the program, a script takes the place of the toolchain,
and time goes twenty times as fast: `date` and `sleep` are scripts too."""

import hashlib
import re
import time
import unittest

from built import ROOT
from launcher_folder import Folder

FAST = 20

# A clock that goes faster, and `sleep`, which is over sooner.
SCRIPTS = {
    "date": f"#!/bin/sh\necho $(($(/usr/bin/date +%s%N) * {FAST} / 1000000000))\n",
    "sleep": f'#!/bin/sh\nexec /usr/bin/sleep "$(echo "$1" | awk \'{{ print $1 / {FAST} }}\')"\n',
}

SPAN = re.compile(r"about (\d+) (s|min) to come")


def crates():
    """The crates of the program, each with its seconds by the launcher's table."""
    return {name: int(seconds) for name, seconds in (line.split() for line in (ROOT / "launcher/seconds").read_text("ascii").splitlines())}


class Times(Folder):
    """A build of all crates of the program, which take other times than the table says."""

    def setUp(self):
        super().setUp()
        for name, text in SCRIPTS.items():
            (self.folder / "bin" / name).write_text(text)
            (self.folder / "bin" / name).chmod(0o755)
        self.write("crates.txt", (ROOT / "crates.txt").read_text("ascii"))
        for name in crates():
            self.write(f"crates/{name}/src/lib.rt", name)

    def lines(self, factor, spread):
        """Builds, and gives the lines about crates that are built, each with the seconds that were still to come. A crate takes so many times what the
        table says, and up to so much more or less, by its name."""
        for name, seconds in crates().items():
            chance = hashlib.sha256(name.encode()).digest()[0] / 255
            (self.kit / f"seconds.{name}").write_text(str(seconds * factor * (1 + spread * (2 * chance - 1))))
        found = []
        with self.begin("list", "x") as run:
            for line in run.stderr:
                found.append((time.monotonic(), line))
            self.assertEqual(run.stdout.read(), "first\n")
        end = time.monotonic()
        return [((end - at) * FAST, line) for at, line in found if " proved and built in " in line]

    def test_from_the_third_crate_on_what_is_to_come_is_right_up_to_a_third(self):
        lines = self.lines(0.2, 0.3)
        self.assertEqual(len(lines), len(crates()))
        wrong = []
        for left, line in lines[2:-1]:
            number, unit = SPAN.search(line).groups()
            said = int(number) * (60 if unit == "min" else 1)
            # What the launcher itself does takes up to two real seconds on a busy machine.
            if abs(said - left) > left / 3 + 2 * FAST:
                wrong.append((round(left), line))
        self.assertEqual(wrong, [])
        self.assertNotIn("to come", lines[-1][1])


if __name__ == "__main__":
    unittest.main()
