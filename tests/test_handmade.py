"""The files that the program `handmade` is run on are what handmade.py says."""

import pathlib
import unittest

import handmade
import rules

CRATE = pathlib.Path(__file__).resolve().parent.parent / "crates" / "handmade"


class Handmade(unittest.TestCase):
    def test_the_script(self):
        self.assertEqual((CRATE / "stdin").read_bytes(), b"".join(handmade.records()))

    def test_the_lines(self):
        self.assertEqual((CRATE / "stdout").read_text().splitlines(), list(handmade.lines()))

    def test_what_is_ready_of_the_windows(self):
        told = [rules.ready_line(rules.ready(made)) for made in handmade.windows()]
        expected = [64, 64, 40, 0, 11, 3, 3, 1, 64, "none"]
        self.assertEqual(told, [f"ready {ticks}" for ticks in expected])

    def test_what_is_ready_of_the_sessions(self):
        """Only the ring of strangers holds a frame of every seat."""
        told = [rules.ready(made) for made in handmade.sessions()]
        expected = [rules.Answer(0, "", (ticks,)) for ticks in (0, 0, 0, 0, 0, 0, 0, 0, 1, 0)]
        self.assertEqual(told, [*expected, rules.Answer(rules.BAD_STATE)])

    def test_where_the_ready_lines_stand(self):
        """Behind all else: for each session one, and then one after each line of the script."""
        script = len(list(handmade.records()))
        asked = len([*handmade.sessions(), *handmade.windows()])
        found = list(handmade.lines())
        places = [at for at, line in enumerate(found) if line.startswith("ready ")]
        first, each = len(found) - asked * (1 + 2 * script), range(0, 1 + 2 * script, 2)
        expected = [first + turn * (1 + 2 * script) + at for turn in range(asked) for at in each]
        self.assertEqual(places, expected)
        self.assertEqual(found[first - 8 : first], ["20"] * 8)


if __name__ == "__main__":
    unittest.main()
