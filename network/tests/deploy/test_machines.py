"""What OPERATING.md says of three machines, run line by line as far as files are stored (`machines` runs all of it)."""
import os
import subprocess
import unittest

from support.harness import HERE
from walrus.network.peers.engine import find_program


class Machines(unittest.TestCase):
    @unittest.skipUnless(os.access(find_program(), os.X_OK), "the program is not built")
    def test_three_machines_are_set_up_from_nothing_by_the_page(self) -> None:
        words = [str(HERE / "machines"), "--short", "--delay", "0.01", "--loss", "0"]
        ran = subprocess.run(words, capture_output=True, text=True, timeout=300)
        if ran.stdout.startswith("skipped: "):
            self.skipTest(ran.stdout.strip())
        self.assertEqual(ran.returncode, 0, ran.stdout + ran.stderr)
        self.assertIn("\nOK: ", ran.stdout)
