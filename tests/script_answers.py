"""What the built programs answer to files whose records scripts tell."""

import unittest

from answers import refused, shown
from built import answer
from metafile.fields import RED
from metafile.scripts import HANDLES, SIDE


def picture(rows):
    """The answer that shows rows of pixels, apart by white space: `#` is red, and `.` white."""
    rows = rows.split()
    drawn = {(x, y): RED for y, row in enumerate(rows) for x, mark in enumerate(row) if mark == "#"}
    return shown(drawn, len(rows[0]), len(rows))


def pixels(places):
    """The answer that shows red pixels at these places."""
    return shown(dict.fromkeys(places, RED), SIDE, SIDE)


class StateTest(unittest.TestCase):
    """What a program answers to files whose records scripts tell."""

    def answer(self, program, form, script, frame=SIDE, surface=(SIDE, SIDE), handles=HANDLES):
        """The program's answer to a file of these records on a surface."""
        given = form.file(form.records(script), frame, handles)
        return answer(program, ["show", "stdin", *map(str, surface)], given)

    def check(self, program, form, script, wanted, **file):
        """The program's answer is the wanted one."""
        with self.subTest(form=form.name, script=script[:200], **file):
            self.assertEqual(self.answer(program, form, script, **file), wanted)

    def check_cases(self, program, form, cases, **file):
        """Of each case's records, which draw nothing, the last has the case's fault; where it has
        none, all are accepted."""
        for script, fault in cases:
            last = form.first + len(form.records(script)) - 1
            wanted = pixels([]) if fault is None else refused(fault, last)
            self.check(program, form, script, wanted, **file)


class PictureTest(StateTest):
    """What a program answers to files that draw red pixels everywhere."""

    def check_pictures(self, program, forms, pictures, frame=6, surface=(6, 6)):
        """Behind records, red pixels everywhere show the picture that the clip lets through."""
        for form in forms:
            for records, rows in pictures.items():
                file = {"frame": frame, "surface": surface}
                self.check(program, form, f"{records}; paint", picture(rows), **file)
