"""What tools/bench times is what the program `measure` is tested on."""

import pathlib
import unittest

import tool

TOP = pathlib.Path(__file__).resolve().parent.parent
bench = tool.load("bench")


class Jobs(unittest.TestCase):
    def test_every_job_is_tested_in_every_way(self):
        tested = (TOP / "crates/measure/stdin").read_text().splitlines()
        for first, again in [*bench.CALLS.values(), bench.EVERY]:
            for letter in "pvPV":
                self.assertIn(f"{letter}40 {first}{bench.NOTHING}{again}", tested)

    def test_turns_are_those_before_the_star_the_star_and_those_behind_it(self):
        way = bench.Way("in place", [], "p")
        self.assertEqual(bench.job(way, "hs", "x", 10), b"p13 hs*x\n")
        self.assertEqual(bench.job(way, "h", "siac", 10), b"p42 h*siac\n")


if __name__ == "__main__":
    unittest.main()
