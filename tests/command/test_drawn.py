"""The drawn samples are what samples/draw.py makes."""

import subprocess
import sys
import unittest

from expected import CAPTURE, COMPANION, REPLAY, SAMPLES, SCENES
from harness import CommandTest


class Drawn(CommandTest):
    def test_files_are_as_drawn(self):
        subprocess.run([sys.executable, "-B", str(SAMPLES / "draw.py"), str(self.room)], check=True)
        for path in (CAPTURE, REPLAY, COMPANION):
            self.assertEqual((self.room / path.name).read_bytes(), path.read_bytes(), path.name)

    def test_every_refusal_of_a_lister_is_there(self):
        self.assertEqual({drawn.refusal for drawn in SCENES}, {0, 2, 3, 5})


if __name__ == "__main__":
    unittest.main()
