"""Each growth of the crates' own tests refused in turn. Only the tests that take either answer run so: those named `.._under_failed_growth`."""

import re
import unittest

from built import CRATES, answer
from refused_growth import RefusedGrowthTest


class CrateTestsGrowth(RefusedGrowthTest):
    """The programs of the crates' tests."""

    def test_the_crates_answer_a_refusal_or_as_ever(self):
        # Tests with this name take either answer of the calls that they make, and no third one.
        tried = []
        for program in sorted(CRATES.glob("*/out/*_tests")):
            listed = answer(program, ["--list"]).out.decode()
            for name in re.findall(r"(\S*_under_failed_growth): test", listed):
                tried.append(name)
                answers = list(self.under_refusals(program, [name]))
                self.assertTrue(answers, f"{name} takes no memory")
                for number, answered in answers:
                    with self.subTest(test=name, number=number):
                        self.assertEqual(answered.status, 0, answered.err)
        self.assertGreaterEqual(len(tried), 6, tried)


if __name__ == "__main__":
    unittest.main()
