"""The same input and the same fonts give the same texts in every run."""

from __future__ import annotations

import os
import subprocess
import sys
import unittest
from pathlib import Path

ROOT = Path(__file__).parent.parent


class RepeatedRuns(unittest.TestCase):
    """Runs as programs of their own."""

    def test_hash_seeds(self) -> None:
        digests = {_digest(seed) for seed in ("0", "1", "4242")}
        self.assertEqual(len(digests), 1)
        self.assertEqual({len(digest.strip()) for digest in digests}, {64})


def _digest(seed: str) -> str:
    environment = {**os.environ, "PYTHONHASHSEED": seed}
    command = [sys.executable, "-m", "tests.laid_digest"]
    return subprocess.run(command, cwd=ROOT, env=environment, check=True, capture_output=True, text=True).stdout


if __name__ == "__main__":
    unittest.main()
