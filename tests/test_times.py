"""What tools/times reads from what the gate noted down."""

import contextlib
import io
import pathlib
import tempfile
import unittest
from unittest import mock

import tool

times = tool.load("times")

LOG = """0 == logic
9 rt: logic proved
9 rt: logic: trying its must-fail edits (2)
9 rt: hash is kept: an earlier run on this machine proved the same files over the same libraries
30 rt: peer proved
31 rt: peer: its tests are proved
44 rt: wire proved
60 rt: must-fail logic/wrong_1.edit: refused, as it must be: ./proofs/is_outside/Answers.antt:12:13: error
60 rt: must-fail logic/wrong_2.edit: refused, as it must be: ./proofs/is_outside/Answers.antt:8:39: error
60 rt: must-fail wire/wrong_1.edit: BAD EDIT: an 'old:' text is in src/lib.rt 0 times, and not once
61 rt: circle ran, and wrote what its file stdout has
62 5 passed, 1 failed
"""


class Times(unittest.TestCase):
    def told(self, log):
        with tempfile.TemporaryDirectory() as room:
            (pathlib.Path(room) / "crates.txt").write_text("logic:\nhash: logic\npeer: logic\nwire: logic peer hash\n")
            (pathlib.Path(room) / "log").write_text(log)
            with mock.patch.object(times, "TOP", pathlib.Path(room)), contextlib.redirect_stdout(io.StringIO()) as out:
                self.assertEqual(times.main([f"{room}/log"]), 0)
        return out.getvalue().splitlines()

    def test_the_table(self):
        rows = "| logic | 9 | 9 | 2 |", "| hash | 9 | kept | 0 |", "| peer | 30 | 21 | 0 |", "| wire | 44 | 14 | 1 |"
        self.assertEqual(self.told(LOG)[2:6], list(rows))
        self.assertEqual(self.told(LOG)[-1], "all proved at 44 s, 3 edits told of at 60 s")

    def test_a_run_that_proved_nothing(self):
        self.assertEqual(self.told("0 rt: stopped\n")[-1], "all proved at 0 s, 0 edits told of at 0 s")

    def test_wrong_usage(self):
        with contextlib.redirect_stderr(io.StringIO()):
            self.assertEqual(times.main([]), 2)


if __name__ == "__main__":
    unittest.main()
