"""Hostile files and certificates, made at random from a fixed seed, in the built programs: each command ends within limits of memory and time, and
answers what the player in Python says of the same bytes. `tests/fuzz.py` tries as many more as one likes."""

import unittest

from hostile.pool import try_all

# How many cases there are. Of these so many at least are accepted with their certificates, and refused.
CASES = 6_000
ACCEPTED, REFUSED = CASES // 5, CASES // 2

SEED = "gate"


class Hostile(unittest.TestCase):
    """Many cases."""

    def test_each_command_answers_as_the_reference_does(self):
        batches = list(try_all(SEED, CASES))
        wrong = [str(one) for _, found in batches for one in found]
        self.assertEqual(wrong[:5], [], f"the first of {len(wrong)} batches in which there are some")
        self.assertIn(sum(accepted for accepted, _ in batches), range(ACCEPTED, CASES - REFUSED))


if __name__ == "__main__":
    unittest.main()
