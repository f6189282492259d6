"""What tools/refusals takes for a refusal and what not, and what it checks."""

import contextlib
import io
import pathlib
import tempfile
import unittest
from unittest import mock

import tool

refusals = tool.load("refusals")
crates = refusals.crates

SOURCE = """impl Set {
    pub fn add(self) -> Set
    {
        self
    }
}

fn take(n: u8) -> u8
{
    if n > 8 {
        return 8;
    }
    n
}

const MOST: u8 = 8;

pub(crate) fn one() -> u8 { 1 }

impl<'a> Reader<'a> {
    #[unsafe(no_mangle)]
    pub extern "C" fn rest(
        self,
    ) -> u8 {
        // fn none() {
        b'}'
    }
}
"""
# The function of each line.
OWNERS = [None, *["Set::add"] * 4, None, None, *["take"] * 7, None, None, None, "one", None, None,
          *["Reader::rest"] * 7, None]


class Refusals(unittest.TestCase):
    def setUp(self):
        room = tempfile.TemporaryDirectory()
        self.addCleanup(room.cleanup)
        self.crate = pathlib.Path(room.name) / "crates" / "box"
        (self.crate / "src" / "sets").mkdir(parents=True)
        for file in "lib", "sets", "sets/small":
            (self.crate / "src" / f"{file}.rt").write_text(SOURCE)

    def judged(self, where, place, *lines, beside=()):
        """What is amiss with a wrong answer at WHERE, PLACE, given what the checker said. Its file has answers for the
        same function at the places `beside`."""
        log = "\n".join(lines)
        wrong = refusals.Wrong("x", where, place, "fact")
        return refusals.judged("box", wrong, [place, *beside], refusals.first_words(self.crate, log), log)

    def refused(self, words, *lines):
        """What is amiss where the checker says this of `take`, at the place that was to be refused."""
        said = f"./proofs/take/Answers.antt:9:1: error: `returns`: {words}", *lines
        return self.judged("take", "returns", *said, "fn box::take: not proved")

    def astray(self, where, *replaces):
        """The text that a wrong answer at WHERE replaces elsewhere."""
        wrong = refusals.Wrong("x", where, "returns", "fact")
        wrong.replaces = list(replaces)
        with mock.patch.object(refusals, "TOP", self.crate.parent.parent):
            return refusals.astray("box", wrong)

    def test_a_fact_that_fails_in_a_proof(self):
        said = (
            "./proofs/Set/add/Answers.antt:9:1: error: `returns-then-n-gt-8`: give a proof of that",
            "fn box::Set::add: not proved",
        )
        self.assertIsNone(self.judged("Set::add", "returns-then-n-gt-8", *said))
        self.assertIn("refused at returns-then-n-gt-8", self.judged("Set::add", "returns", *said))

    def test_several_of_one_function(self):
        said = (
            "./proofs/take/Answers.antt:9:1: error: `returns`: give a proof of that",
            "./proofs/take/Answers.antt:12:1: error: `returns-then-n-gt-8`: `foo` is not in scope",
            "./proofs/take/Answers.antt:12:9: error: `returns-then-n-gt-8`: give a proof of that",
            "fn box::take: not proved",
        )
        self.assertIsNone(self.judged("take", "returns", *said, beside=["returns-then-n-gt-8"]))
        self.assertIn("for its shape", self.judged("take", "returns-then-n-gt-8", *said, beside=["returns"]))
        for beside in ["returns-else-n-gt-8"], ["returns-then-n-gt-8", "returns-else-n-gt-8"], ["returns"]:
            self.assertIn("is to be refused at", self.judged("take", "returns", *said, beside=beside))
        self.assertIn("is to be refused at",
                      self.judged("take", "returns", said[0], said[-1], beside=["returns-then-n-gt-8"]))

    def test_a_fact_that_no_search_finds(self):
        said = (
            "note: src/lib.rt:8:1: it is not proved that what the function ensures holds (`returns`)",
            "fn box::take: no proof: expected answers in ./proofs/take/Answers.antt; `search` did not prove `returns`",
        )
        self.assertIsNone(self.judged("take", "returns", *said))
        self.assertIn("nothing is said", self.judged("Set::add", "returns", *said))

    def test_what_follows_from_another_does_not_count(self):
        said = (
            "./proofs/take/Answers.antt:9:1: error: `take-spec`: `close` was not admitted, so this cannot be checked",
            "fn box::take: not proved; it calls ..",
        )
        self.assertIn("nothing is said", self.judged("take", "take-spec", *said))

    def test_a_missing_name_is_no_fact(self):
        for words in (
            "record `c` has no field `wide`",
            "`foo` is not in scope",
            "module `m` has no `Tie` that can be named from here",
            "`x` is no name",
            "an operand is missing",
        ):
            self.assertIn("for its shape", self.refused(words), words)

    def test_how_a_term_is_shown_is_no_missing_name(self):
        for shown in (
            "`c.x` is not in scope here, so what is shown does not paste back as it stands",
            "it is `next` elsewhere, and it cannot be named here",
        ):
            self.assertIsNone(self.refused("give a proof of that", "  expected type `a ≡ b`", f"  {shown}"), shown)

    def test_a_limit_of_a_tactic_is_no_fact(self):
        for words in (
            "`omega` stopped at a bound of its own",
            "`rw` broke off: the call's work took more than 400,000 steps. It stopped while computing",
            "`search`: no proof of `g` was found. It stopped when its count of 4,000 was spent",
            "`search`: no proof of `g` was found. The search with them broke off: it may take 4,000 steps",
            "the use of the laws of constructors was broken off, since that had taken its 250,000 steps",
            "`omega` was tried too, and was given up after 4,000 steps",
        ):
            self.assertIn("for its shape", self.refused(words), words)

    def test_how_deep_a_search_went_is_no_limit(self):
        for depth in "1 lemma deep", "5 lemmas deep", "12 lemmas deep":
            words = f"`search`: no proof of `g` was found. It stopped {depth}, with lemmas still to try"
            self.assertIsNone(self.refused(words), words)
            self.assertIn("for its shape", self.refused(words + ". A last search broke off: it may take 4,000 steps"))

    def test_the_whole_message_counts(self):
        cc = "list the missing equation with its arguments, or rewrite by `rw` or `simp`"
        self.assertIsNone(self.refused(cc, "  `cc` does not join `a`", "  to `b`"))
        self.assertIn("`met a bound`", self.refused(cc, "  `cc` met a bound of its own before `a`", "  and `b`"))
        self.assertIn("`has no field`", self.refused("record `c`", "  has no field `wide`"))
        self.assertIn("`broke off`", self.refused("`search`: no proof of `g`", "  was found. A search broke", "  off"))

    def test_what_comes_after_the_message_does_not_count(self):
        for note in (
            "./proofs/take/Answers.antt:7:1: note: a trial run was refused too: `cc` met a bound of its own",
            "./proofs/take/Answers.antt:12:1: error: `returns-then-n-gt-8`: `foo` is not in scope",
            "  `cc` met a bound of its own",
        ):
            said = "give a proof of that", "  and `a ≡ b`", "  is none"
            self.assertIsNone(self.refused(*said, "note: and so on", note), note)

    def test_terms_say_nothing(self):
        self.assertIsNone(self.refused("the two types differ only where one has `has no field`", "  and `broke off`"))

    def test_a_limit_of_a_search_that_rattle_made(self):
        said = "note: src/lib.rt:8:1: it is not proved that what the function ensures holds (`returns`)"
        note = "note: what antt said of a `search` in the proof that rattle made: src/lib.rt:8:4: `returns`: no"
        left = "fn box::take: no proof: expected answers in ./proofs/take/Answers.antt; `search` did not prove `returns`"
        tried = "  proof of `g` was found. It stopped 5 lemmas deep"
        self.assertIsNone(self.judged("take", "returns", said, note, tried, left))
        broken = self.judged("take", "returns", said, note, tried + ". A last search broke off", left)
        self.assertIn("`broke off`", broken)

    def test_a_function_that_is_proved_all_the_same(self):
        said = "./proofs/take/Answers.antt:9:1: error: `aside`: give a proof of that", "fn box::take: proved"
        self.assertIn("proved all the same", self.judged("take", "aside", *said))

    def test_whose_line_it_is(self):
        lines = range(1, len(OWNERS) + 1)
        self.assertEqual(len(OWNERS), len(SOURCE.splitlines()))
        self.assertEqual([refusals.owner(self.crate, "src/lib.rt", line) for line in lines], OWNERS)
        for file, module in ("sets", "sets::"), ("sets/small", "sets::small::"):
            owners = [refusals.owner(self.crate, f"src/{file}.rt", line) for line in lines]
            self.assertEqual(owners, [name and module + name for name in OWNERS])

    def test_whose_line_it_is_in_a_trait(self):
        blocks = "pub trait Of", "trait Of: Size", "impl Of for Set", "impl Of<sets::Bad> for Set", "impl Of for ()"
        names = "Of", "Of", "SetOf", "SetOfBad", "UnitOf"
        for block, name in zip(blocks, names):
            text = f"{block} {{\n    ghost of = {{ λ x'. x' }};\n\n    fn of(self) -> u8 {{\n        1\n    }}\n}}\n"
            (self.crate / "src" / "lib.rt").write_text(text)
            owners = [refusals.owner(self.crate, "src/lib.rt", line) for line in range(1, 8)]
            self.assertEqual(owners, [None] * 3 + [f"{name}::of"] * 3 + [None], block)

    def test_a_function_that_an_edit_puts_on_a_line(self):
        edit = self.crate / "wrong.edit"
        edit.write_text("file: src/lib.rt\nold: impl Set {\n"
                        "new: impl Set { pub fn add(self) -> Set { Set } } struct Other; impl Other {\n")
        made = refusals.made_by(self.crate, edit)
        self.assertEqual(refusals.owner(self.crate, "src/lib.rt", 1, made), "Set::add")
        self.assertEqual(refusals.owner(self.crate, "src/lib.rt", 3, made), "Other::add")
        said = "note: src/lib.rt:1:1: it is not proved that it holds (`returns`)"
        self.assertEqual(list(refusals.first_words(self.crate, said, made)), ["Set::add"])
        self.assertEqual((self.crate / "src" / "lib.rt").read_text(), SOURCE)

    def test_an_edit_is_made_whole_or_not_at_all(self):
        edit, lib = self.crate / "wrong.edit", self.crate / "src" / "lib.rt"
        edit.write_text("file: src/lib.rt\nold: return 8\nnew: return 9\nold: not there\nnew: x\n")
        self.assertEqual(refusals.apply(self.crate, edit), "not there stands in src/lib.rt 0 times")
        self.assertEqual(lib.read_text(), SOURCE)
        edit.write_text("file: src/lib.rt\nold: return 8\nnew: return 9\nold: return 9\nnew: return 7\n")
        self.assertIsNone(refusals.apply(self.crate, edit))
        self.assertEqual(lib.read_text(), SOURCE.replace("return 8", "return 7"))

    def test_a_text_in_another_function_than_it_says(self):
        texts = ("Set::add", "        self\n"), ("take", "    n\n"), ("one", "{ 1 }"), ("Reader::rest", "b'}'")
        for where, old in texts:
            self.assertIsNone(self.astray(where, ("src/lib.rt", old)), old)
            self.assertEqual(self.astray("other", ("src/lib.rt", old)), old)
            self.assertIsNone(self.astray(f"sets::{where}", ("src/sets.rt", old)), old)
            self.assertEqual(self.astray(where, ("src/sets.rt", old)), old)
        self.assertEqual(self.astray("take", ("src/lib.rt", "return 8"), ("src/lib.rt", "{ 1 }")), "{ 1 }")
        self.assertEqual(self.astray("take", ("src/lib.rt", "not there")), "not there")

    def test_a_text_in_no_function_may_stand_for_any(self):
        self.assertIsNone(self.astray("take", ("src/lib.rt", "const MOST: u8 = 8;")))

    def test_a_fact_that_fails_in_a_module(self):
        for file in "Answers", "Invariants", "Proof":
            proof = f"./proofs/sets/take/{file}.antt:9:1: error: `returns`: give a proof of that"
            self.assertIsNone(self.judged("sets::take", "returns", proof, "fn box::sets::take: not proved"))
        proof = "./proofs/sets/take/Answers.antt:9:1: error: `returns`: give a proof of that"
        self.assertIsNone(self.judged("sets::take", "returns", proof, "fn box::sets::take: not proved"))
        said = "note: src/sets.rt:13:5: it is not proved that a sum fits (`sum`)", "fn box::sets::take: no proof: .."
        self.assertIsNone(self.judged("sets::take", "sum", *said))
        self.assertIn("nothing is said", self.judged("take", "sum", *said))

    def test_only_the_first_error_counts(self):
        said = (
            "./proofs/take/Answers.antt:3:1: error: `first`: `foo` is not in scope",
            "./proofs/take/Answers.antt:9:1: error: `returns`: give a proof of that",
            "fn box::take: not proved",
        )
        self.assertIn("refused at first", self.judged("take", "returns", *said))

    def test_a_law_that_fails(self):
        said = "./proofs/Laws.antt:9:1: error: `one`: give a proof of that", "fn box::take: no proof"
        self.assertIsNone(self.judged("proofs/Laws.antt", "one", *said))
        self.assertIn("refused at one", self.judged("proofs/Laws.antt", "two", *said))
        self.assertIn("nothing is said", self.judged("take", "one", *said))

    def by_line(self, *said):
        """What is amiss where `rt ci` says this of a file that has wrong answers for `take` and for `Set::add`."""
        found = [refusals.Wrong("x", where, place, "fact") for where, place in (
            ("take", "returns-then-n-gt-8"), ("Set::add", "returns"))]
        return refusals.judged_by_line(self.crate, found, "".join(said))

    def test_what_rt_ci_says_of_an_edit(self):
        for said in (
            "./proofs/take/Answers.antt:9:1: error: `returns-then-n-gt-8`: give a proof of that",
            "./proofs/Set/add/Answers.antt:9:1: error: `returns`: give a proof of that",
            "note: src/lib.rt:9:1: it is not proved that what the function ensures holds (`returns-then-n-gt-8`); the",
            "note: src/lib.rt:9:1: it is not proved that what the function ensures ho",
            "./proofs/one/Answers.antt:9:1: error: `returns`: give a proof of that",
            "./proofs/Laws.antt:9:1: error: `returns`: give a proof of that",
            "note: src/lib.rt:19:1: it is not proved that what the function ensures holds (`returns`)",
        ):
            self.assertIsNone(self.by_line("refused, as it must be: ", said), said)

    def test_what_rt_ci_says_of_another_place(self):
        for said in (
            "./proofs/take/Answers.antt:9:1: error: `returns`: give a proof of that",
            "./proofs/Set/add/Answers.antt:9:1: error: `returns-then-n-gt-8`: give a proof of that",
            "note: src/lib.rt:9:1: it is not proved that what the function ensures holds (`returns`); the",
        ):
            self.assertIn("is refused first at", self.by_line("refused, as it must be: ", said), said)
        for said in "", ": ", ": something else":
            self.assertIn("it is refused, and not for a fact", self.by_line("refused, as it must be", said), said)

    def test_what_rt_ci_says_of_an_edit_that_shows_nothing(self):
        at = "./proofs/take/Answers.antt:9:1: error: `returns-then-n-gt-8`: "
        for said in (
            "BAD EDIT: an 'old:' text is in src/lib.rt 0 times, and not once",
            "NOT REFUSED: the crate is still proved with this edit",
            "NOT TRIED: its check was killed, most likely for memory",
            f"refused, as it must be (only because a proof file names what is gone): {at}`foo` is not in scope",
            f"refused, as it must be (only by a limit of the prover, which gave no verdict): {at}antt ran out of stack",
            f"refused, as it must be: {at}`foo` is not in scope",
            f"refused, as it must be: {at}`omega` stopped at a bound of its own",
        ):
            self.assertIsNotNone(self.by_line(said), said)


EDIT = """# Two wrong answers.

# nothing_is_taken: take at returns: the number is taken
file: src/lib.rt
old:     n
new:     0

# nine: take at returns-then-n-gt-8: eight is the most
old: return 8;
new: return 9;
"""
BASE = "box: low\nlow:\n# a comment\nhigh staticlib: box low hex\n"


class Checks(unittest.TestCase):
    """The whole tool, on a repository with one crate, whose checks are made up."""

    def setUp(self):
        self.top = pathlib.Path(self.enter(tempfile.TemporaryDirectory()))
        for name, text in {
            "crates.txt": BASE, "crates/box/src/lib.rt": SOURCE, "crates/low/src/lib.rt": "",
            "crates/high/src/lib.rt": "", "crates/box/must-fail/wrong_1.edit": EDIT, "crates/box/out/kept": "",
        }.items():
            (self.top / name).parent.mkdir(parents=True, exist_ok=True)
            (self.top / name).write_text(text)
        self.enter(mock.patch.object(refusals, "TOP", self.top))
        self.enter(mock.patch.object(refusals, "KEPT", self.top / "kept"))
        self.enter(mock.patch.object(refusals, "kit", lambda: b"kit"))
        self.enter(mock.patch.object(refusals, "check", self.check))
        self.checked, self.says = [], [
            "./proofs/take/Answers.antt:9:1: error: `returns`: give a proof of that",
            "./proofs/take/Answers.antt:12:1: error: `returns-then-n-gt-8`: give a proof of that",
            "fn box::take: not proved", "logic=not-proved",
        ]

    def enter(self, context):
        entered = context.__enter__()
        self.addCleanup(context.__exit__, None, None, None)
        return entered

    def check(self, crate, room):
        """As rt check: it refuses what is not the text of the repository."""
        text = (room / "crates" / crate / "src" / "lib.rt").read_text()
        self.checked.append((sorted(path.name for path in (room / "crates").iterdir()), text))
        return ("logic=proved", 0) if text == SOURCE else ("\n".join(self.says), 1)

    def run_on(self, *words):
        out, err = io.StringIO(), io.StringIO()
        with contextlib.redirect_stdout(out), contextlib.redirect_stderr(err):
            return refusals.main(list(words)), out.getvalue(), err.getvalue()

    def test_each_answer_is_made_and_judged(self):
        well = 0, "refusals: 2 wrong answers in 1 edits, each refused at its own place\n", ""
        self.assertEqual(self.run_on(), well)
        edited = SOURCE.replace("    n\n", "    0\n").replace("return 8;", "return 9;")
        self.assertEqual(self.checked, [(["box", "low"], SOURCE), (["box", "low"], edited)])
        self.assertEqual(self.run_on("box"), well)
        none = "refusals: 0 wrong answers in 0 edits, each refused at its own place\n"
        self.assertEqual(self.run_on("low"), (0, none, ""))

    def test_what_is_listed(self):
        status, out, _ = self.run_on("--list", "box")
        self.assertEqual(status, 0)
        self.assertIn("box/nine: take: eight is the most\n    at returns-then-n-gt-8: give a proof of that\n", out)

    def test_an_answer_that_is_not_refused(self):
        del self.says[1]
        status, out, err = self.run_on()
        self.assertEqual((status, out), (1, ""))
        self.assertIn("box/nine, in wrong_1.edit: its function is to be refused at", err)

    def test_a_check_that_comes_to_no_verdict(self):
        self.says = ["src/lib.rt:9:1: error[mismatched-types]: expected u8"]
        self.assertIn("its check came to no verdict", self.run_on()[2])

    def test_an_edit_that_cannot_be_made(self):
        (self.top / "crates/box/must-fail/wrong_1.edit").write_text(EDIT.replace("return 8", "return 7"))
        self.assertIn("return 7; stands in src/lib.rt 0 times", self.run_on()[2])

    def test_a_crate_that_is_not_proved(self):
        with mock.patch.object(refusals, "check", lambda crate, room: ("logic=not-proved", 1)):
            status, out, err = self.run_on()
        self.assertEqual((status, out), (1, ""))
        self.assertIn("box/nine, in wrong_1.edit: nothing is said of it", err)

    def test_what_a_check_said_is_kept_until_a_file_changes(self):
        for change, checks in (
            (None, 2), (None, 0), ("crates/box/must-fail/wrong_1.edit", 2), (None, 0), ("crates/low/src/lib.rt", 2),
            ("crates.txt", 2), ("crates/high/src/lib.rt", 0), ("crates/box/out/kept", 0),
        ):
            if change:
                with open(self.top / change, "a") as file:
                    file.write("# \n")
            self.checked.clear()
            self.assertEqual(self.run_on()[0], 0, change)
            self.assertEqual(len(self.checked), checks, change)

    def test_nothing_is_left_but_what_the_checks_said(self):
        before = set(self.top.rglob("*"))
        self.run_on()
        kept = self.top / "kept"
        self.assertEqual(set(self.top.rglob("*")) - before, {kept, kept / "box", kept / "box" / "wrong_1.said"})

    def test_by_what_rt_ci_printed(self):
        at = "./proofs/take/Answers.antt:9:1: error: `returns`: give a proof"
        line = f"rt: must-fail box/wrong_1.edit: refused, as it must be: {at}"
        log = self.top / "log"
        log.write_text(f"rt: box proved\n{line}\n1 passed, 0 failed\n")
        well = "refusals: 2 wrong answers in 1 edits, of each edit the first refusal is for a fact\n"
        self.assertEqual(self.run_on("--said", str(log)), (0, well, ""))
        self.assertEqual(self.checked, [])
        log.write_text("rt: box proved\n")
        self.assertEqual(self.run_on("--said", str(log)), (1, "", "refusals: box/wrong_1: it was not tried\n"))

    def test_wrong_usage(self):
        self.assertEqual(self.run_on("none")[0], 2)
        self.assertEqual(self.run_on("--list", "--said", "log")[0], 2)

    def test_which_crates_lie_below(self):
        leans = crates.listed(BASE)
        self.assertEqual(leans, {"box": ["low"], "low": [], "high": ["box", "low"]})
        self.assertEqual([crates.below(name, leans) for name in ("high", "box", "low")],
                         [["box", "high", "low"], ["box", "low"], ["low"]])


if __name__ == "__main__":
    unittest.main()
