"""The files that the program `ready` is run on are what ready.py says."""

import pathlib
import unittest

import ready
import rules

CRATE = pathlib.Path(__file__).resolve().parent.parent / "crates" / "ready"


class Ready(unittest.TestCase):
    def test_the_script(self):
        self.assertEqual((CRATE / "stdin").read_bytes(), b"".join(ready.records()))

    def test_the_lines(self):
        self.assertEqual((CRATE / "stdout").read_text().splitlines(), ready.lines())

    def test_which_counts_it_tells(self):
        lines = ready.lines()
        for told in ("none", *range(65)):
            self.assertIn(f"ready {told}", lines)

    def test_without_the_counts_it_is_circle(self):
        own = [line for line in ready.lines() if not line.startswith("ready ")]
        self.assertEqual(own, rules.text(b"".join(ready.records())).splitlines())
        self.assertEqual(len(ready.lines()), 2 * len(own))

    def test_which_lines_it_tells_them_of(self):
        """Each word of circle's, bad and cut too, and the numbers that the story is about."""
        told = {tuple(line.split()[:2]) for line in ready.lines()[::2] if line[0] != "{"}
        expected = {("none",), ("bad",), ("cut",), ("waiting",), ("send", "71")}
        expected |= {("open", number) for number in ("0", "11", "13")}
        expected |= {("submit", number) for number in ("0", "1", "41", "42")}
        expected |= {("deliver", number) for number in ("0", "1", "27", "28", "29")}
        expected |= {("commit", number) for number in ("0", "51", "52")}
        expected |= {("stalled", "0"), ("stalled", "4"), ("ended", "1"), ("ended", "2")}
        self.assertEqual(expected - told, set())


if __name__ == "__main__":
    unittest.main()
