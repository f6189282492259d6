"""What docs/RULES.md points at is there: definitions, laws, functions, tests, files; and so are the wrong programs and
the parts of other papers that any paper names."""

import pathlib
import re
import sys
import tempfile
import unittest

TOP = pathlib.Path(__file__).resolve().parent.parent
sys.path.insert(0, str(TOP / "tools"))

from lib import source  # noqa: E402

PAGE = TOP / "docs" / "RULES.md"
NAMED = re.compile(r"`([A-Za-z_]\w*(?:::\w+)*::[a-z_]\w*)`")
PLACED = re.compile(r"((?:`[^`]+`(?: and |, | )*)+)(?:of|in) ([a-z_]+/(?:specs|proofs|src)/[\w/]+\.(?:antt|rt))")


def cells():
    """What stands below each sentence, unwrapped, with the number of its first line."""
    for entry in re.finditer(r"^  - .*(?:\n    .*)*", PAGE.read_text(), re.M):
        yield PAGE.read_text().count("\n", 0, entry.start()) + 1, " ".join(entry.group().removeprefix("  - ").split())


def has(text, name):
    return re.search(rf"(?<![\w'·-]){re.escape(name)}(?![\w'·-])", text) is not None


def functions(crates):
    """Each function of crates, given by their folders, as f, Type::f or module::f, and with its crate before it."""
    names = {(crate.name, function.name) for crate in crates for function in source.of_crate(crate)}
    return {name for _, name in names} | {f"{crate}::{name}" for crate, name in names}


class Rules(unittest.TestCase):
    def test_names_stand_in_the_files_they_are_said_to(self):
        count = 0
        for at, cell in cells():
            for names, file in PLACED.findall(cell):
                path = TOP / "crates" / file
                self.assertTrue(path.is_file(), f"line {at}: {file}")
                for name in re.findall("`([^`]+)`", names):
                    count += 1
                    self.assertTrue(has(path.read_text(), name), f"line {at}: no {name} in {file}")
        self.assertGreater(count, 300)

    def test_functions_are_there(self):
        known, count = functions(TOP.glob("crates/*")), 0
        for at, cell in cells():
            for name in NAMED.findall(cell):
                count += 1
                self.assertTrue(name in known or name.startswith("std::"), f"line {at}: no function {name}")
        self.assertGreater(count, 80)

    def test_wrong_programs_are_there(self):
        known = {
            f"{path.parent.parent.name}/{name}"
            for path in TOP.glob("crates/*/must-fail/*.edit")
            for name in re.findall(r"^# (\w+): \S+ at ", path.read_text(), re.M)
        }
        count = 0
        for page in sorted(TOP.glob("docs/**/*.md")):
            for run in re.findall(r"wrong programs? ((?:\w+/\w+(?:, | and )?)+)", " ".join(page.read_text().split())):
                for name in re.findall(r"\w+/\w+", run):
                    count += 1
                    self.assertTrue(name in known, f"{page.name}: no wrong program {name}")
        self.assertGreater(count, 80)

    def test_tests_are_there(self):
        known = {name for path in TOP.glob("tests/test_*.py") for name in re.findall(r"def (test_\w+)", path.read_text())}
        for at, cell in cells():
            for name in re.findall(r"`(test_\w+)`", cell):
                self.assertTrue(name in known, f"line {at}: no test {name}")

    def test_files_are_there(self):
        for at, cell in cells():
            for file in re.findall(r"(?<![\w/])((?:docs|tools|tests|oracle)/[\w.-]+)", cell):
                self.assertTrue((TOP / file.rstrip(".")).exists(), f"line {at}: {file}")
            for file in re.findall(r"(?<![\w/])([a-z_]+/(?:specs|proofs|src)/[\w/+-]+\.(?:antt|rt))", cell):
                self.assertTrue((TOP / "crates" / file).is_file(), f"line {at}: {file}")


class Parts(unittest.TestCase):
    def test_parts_that_a_paper_sends_to_are_there(self):
        count = 0
        for page in sorted([*TOP.glob("*.md"), *TOP.glob("docs/**/*.md")]):
            text = " ".join(page.read_text().split())
            for name, part, point in re.findall(r'(docs/[A-Z]+\.md)`?, (?:"([^"]+)"|open point (\d+))', text):
                count += 1
                head = rf"\#+ {re.escape(part)}$|- \*\*{re.escape(part)}[.*]" if part else rf"{point}\. \*\*"
                found = re.search(f"^(?:{head})", (TOP / name).read_text(), re.M)
                self.assertTrue(found, f"{page.name}: no {part or point} in {name}")
        self.assertGreater(count, 15)


class Names(unittest.TestCase):
    def test_which_functions_a_crate_has(self):
        text = "impl<'a> Set<'a> {\n    pub(crate) fn add() {\n    }\n}\n/*\nfn none() {\n*/\nextern \"C\" fn take() {}\n"
        with tempfile.TemporaryDirectory() as room:
            crate = pathlib.Path(room) / "box"
            (crate / "src").mkdir(parents=True)
            for file in "lib", "sets":
                (crate / "src" / f"{file}.rt").write_text(text)
            names = {"Set::add", "take", "sets::Set::add", "sets::take"}
            self.assertEqual(functions([crate]), names | {f"box::{name}" for name in names})

    def test_which_names_are_looked_for(self):
        self.assertEqual(NAMED.findall("`take`, `Set::add`, `box::sets::take`, `box::Set::add`, `Refusal::FromSelf`"),
                         ["Set::add", "box::sets::take", "box::Set::add"])


if __name__ == "__main__":
    unittest.main()
