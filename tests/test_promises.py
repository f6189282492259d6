"""What tools/promises takes for a function's contract, and what it fails on."""

import contextlib
import io
import pathlib
import re
import tempfile
import unittest
from unittest import mock

import tool

promises = tool.load("promises")

ASKS = "requires { x < 9 }"
GIVES = "ensures { result ≡ x }"

BARE = "pub fn bare(x: u8) -> u8 {\n    x\n}\n\n"
GIVING = f"pub fn giving(x: u8) -> u8\n    {GIVES}\n{{\n    x\n}}\n\n"
ASKING = f"pub fn asking(x: u8) -> u8\n    {ASKS}\n    {GIVES}\n{{\n    x\n}}\n\n"
ONLY_ASKING = f"pub fn only_asking(x: u8) -> u8\n    {ASKS}\n{{\n    x\n}}\n\n"

# A trait whose law says what is given, and what else a trait may hold; a type that has that law, and one that has none.
TRAIT = f"""trait Giver {{
    ghost of: {{ Self → ℕ }};
    ghost past: {{ ℕ → ℕ }} = {{ λ n'. n' }};
    const MOST: u8;

    fn giving(self) -> u8
        {GIVES};

    fn bare(self) -> u8;

    fn made(self) -> u8 {{
        1
    }}
}}

"""
LAW = "ghost of = { λ _. 1 }"
LAWFUL = f"impl Giver for Set {{\n    {LAW};\n\n    fn giving(self) -> u8 {{\n        1\n    }}\n}}\n\n"
LAWLESS = "impl Giver for Bad {\n    fn giving(self) -> u8 {\n        1\n    }\n}\n\n"


@contextlib.contextmanager
def tree(files):
    """A folder with these files, as {path: text}."""
    with tempfile.TemporaryDirectory() as room:
        for path, text in files.items():
            (pathlib.Path(room) / path).parent.mkdir(parents=True, exist_ok=True)
            (pathlib.Path(room) / path).write_text(text)
        yield pathlib.Path(room)


def contracts(text, file="src/lib.rt", **others):
    """The clauses of each public function of a crate `box` that has one file, or others beside it."""
    files = {file: text, **{f"src/{name}.rt": text for name, text in others.items()}}
    with tree({f"box/{path}": text for path, text in files.items()}) as room:
        return {name: [clause.text for clause in f.clauses] for name, f in promises.public([room / "box"])}


class Heads(unittest.TestCase):
    """Each layout of a head, in front of a function whose contract must not be taken for this one's."""

    def has(self, clauses, head):
        """`f`, whose text begins with `head` and goes on behind the brace of its body, has these clauses."""
        self.assertEqual(contracts(f"{head}\n    x\n}}\n\n{GIVING}"), {"box::f": clauses, "box::giving": [GIVES]})

    def test_brace_on_a_line_of_its_own(self):
        self.has([], "pub fn f(x: u8) -> u8\n{")
        self.has([GIVES], f"pub fn f(x: u8) -> u8\n    {GIVES}\n{{")
        self.has([ASKS, GIVES], f"pub fn f(x: u8) -> u8\n    {ASKS}\n    {GIVES}\n{{")

    def test_brace_at_the_end_of_the_head(self):
        self.has([], "pub fn f(x: u8) -> u8 {")
        self.has([], "pub fn f() {")
        self.has([GIVES], f"pub fn f(x: u8) -> u8 {GIVES} {{")
        self.has([GIVES], f"pub fn f(x: u8) -> u8\n    {GIVES} {{")

    def test_body_on_the_line_of_the_head(self):
        self.assertEqual(contracts("pub fn f() -> u8 { 1 }\n" + GIVING), {"box::f": [], "box::giving": [GIVES]})

    def test_parameters_over_several_lines(self):
        self.has([], "pub fn f(\n    x: u8,\n    y: u8,\n) -> u8 {")
        self.has([], "pub fn f(\n    x: u8,\n    y: u8,\n) {")
        self.has([], "pub fn f(\n    x: u8,\n) -> u8\n{")
        self.has([GIVES], f"pub fn f(\n    x: u8,\n) -> u8\n    {GIVES}\n{{")

    def test_marks_in_the_types_of_a_head(self):
        self.has([], "pub fn f<'a>(x: &'a [u8; 4], y: [[u8; 2]; 2]) -> [u8; 4] {")
        self.has([GIVES], f"pub fn f(x: [u8; script::HEADER]) -> [u8; 4]\n    {GIVES}\n{{")
        self.has([GIVES], f"pub fn f(x: [u8; {{4}}]) -> [u8; {{4}}]\n    {GIVES}\n{{")

    def test_a_clause_with_braces_in_it(self):
        clause = "ensures { result ≡ record { a = x; b = g {n = 2} x } }"
        self.has([clause], f"pub fn f(x: u8) -> Pair\n    {clause}\n{{")
        self.has([clause, GIVES], f"pub fn f(x: u8) -> Pair\n    {clause}\n    {GIVES}\n{{")

    def test_a_clause_over_several_lines(self):
        first = ["ensures { let n = x + 1 in", "    result ≡ record {", "        a = n", "    } }"]
        second = ["ensures", "{", "    result ≡ x", "}"]
        written = "\n".join(f"    {line}" for line in first + second)
        self.has(["\n".join(first), "\n".join(second)], f"pub fn f(x: u8) -> Pair\n{written}\n{{")

    def test_named_clauses(self):
        named = ["requires low { 1 ≤ x }", "requires high { x < 9 }", "ensures within { result ≤ x }",
                 "ensures found { result ≡ x }"]
        written = "\n".join(f"    {clause}" for clause in named)
        self.has(named, f"pub fn f(x: u8) -> u8\n{written}\n{{")

    def test_clauses_of_memory(self):
        for clause in "requires* { x ∗ y }", "ensures* { x ∗ ⌜ result ≡ y ⌝ }", "ensures* kept { x }":
            self.has([clause, GIVES], f"pub fn f(x: u8) -> u8\n    {clause}\n    {GIVES}\n{{")

    def test_a_ghost_value(self):
        self.has(["ghost top: { ℕ }", GIVES], f"pub fn f(x: u8) -> u8\n    ghost top: {{ ℕ }}\n    {GIVES}\n{{")

    def test_code_in_a_clause(self):
        sizes = "<[u8; {4}] as Ord>", "<[u8; b'}' as usize] as Ord>", '<[u8; b"}{{".len()] as Ord>'
        for code in *sizes, "<Set<'a> as Ord>":
            clause = f"ensures {{ result ≡ ⟦{code}⟧.cmp x x }}"
            self.has([clause], f"pub fn f(x: u8) -> u8\n    {clause}\n{{")

    def test_comments_and_texts_in_a_clause(self):
        comments = "-- a } brace\n", "--}\n", '-- a " quote\n', "{- a } brace -}", "{- a } {- { -} brace } -}"
        for said in *comments, '+ codes "}" x', "+ one--two x", "+ x' + b' + y'", "+ x // {n} y":
            clause = f"ensures {{ result ≡ x {said}}}"
            self.has([clause], f"pub fn f(x: u8) -> u8\n    {clause}\n{{")

    def test_comments_in_a_head(self):
        self.has([], "pub fn f(x: u8) -> u8 // a { brace\n    // ensures { nothing }\n{")
        self.has([], "pub fn f(x: u8) -> u8 /* ensures { /* nor */ this } */ {")
        self.has([GIVES], f"pub fn f(x: u8) -> u8\n    // }} ensures\n    {GIVES}\n    // that's {{ all\n{{")

    def test_a_function_in_a_comment_is_none(self):
        self.has([], "// pub fn g() {\n/// pub fn h()\n/* pub fn i() { /* pub fn j() */ */\npub fn f() {")

    def test_what_a_body_holds(self):
        for text in ("// a { brace, and /* no comment", "/* } /* } */ } */",
                     "if x == 1 {\n        return S { a: 1 };\n    }",
                     'let a = b"} pub fn g() {\\" }";', 'let a = br#"" }"#;', 'let a = br"\\"; // "',
                     "let a = [b'}', b'\\'', b'\"', b'\\x7b'];", "let a = ['}', '\\'', '\"', '\\u{7b}'];",
                     'println!(rt; "\\"{a}\\" }}")?;', "let a: &'a [&'b u8] = g::<'a, 'b>();"):
            self.has([], f"pub fn f(x: u8) -> u8 {{\n    {text}")

    def test_exported_functions(self):
        self.has([], '#[unsafe(no_mangle)]\npub extern "C" fn f(x: u8) -> u8 {')
        self.has([GIVES], f'#[unsafe(no_mangle)]\npub extern "C" fn f(x: u8) -> u8\n    {GIVES}\n{{')
        self.has([], "pub const fn f(x: u8) -> u8 {")

    def test_only_what_other_crates_can_call_counts(self):
        for reach in "", "pub(crate) ", "pub(super) ", 'extern "C" ':
            self.assertEqual(contracts(f"{reach}fn f() {{\n}}\n\n{GIVING}"), {"box::giving": [GIVES]}, reach)

    def test_names_in_blocks(self):
        for block, name in (
            ("impl Set {", "Set"), ("impl<'a> Reader<'a> {", "Reader"), ("impl crate::sets::Set {", "Set"),
            ("mod sets {", "sets"), ("pub mod sets {", "sets"), ("pub(crate) mod sets {", "sets"),
            ("#[cfg(x)]\nmod sets {\nimpl Set {", "sets::Set"),
            ("impl Numbered for Set {", "SetNumbered"), ("impl From<sets::Bad> for Set {", "SetFromBad"),
        ):
            closed = "}\n" * block.count("{")
            self.assertEqual(
                contracts(f"{block}\n{BARE}{GIVING}{closed}{GIVING}"),
                {f"box::{name}::bare": [], f"box::{name}::giving": [GIVES], "box::giving": [GIVES]}, block)

    def test_names_in_files(self):
        modules = {"lib": "", "main": "", "sets": "sets::", "sets/small": "sets::small::", "sets/lib": "sets::lib::"}
        for file, module in modules.items():
            self.assertEqual(contracts(BARE, f"src/{file}.rt"), {f"box::{module}bare": []}, file)

    def test_what_stands_between_functions(self):
        for item in ("#![tactic(auto)]", "ghost use Rattle.std.specs.Prelude.{◌//◌, ◌≤◌, b'};", "use a::{b, c};",
                     "mod sets;", "#[tactic(auto, using(crate::proofs::Laws::one), unfolding(crate::specs::Set::of))]",
                     "#[derive(Clone, Copy)]",
                     "const S: Set = Set { a: [0; 4] };", "pub struct Pair(pub [u8; 4], u8);",
                     "pub enum E { A { x: u8 }, B }", "#[repr(C)]\npub struct Two {\n    pub a: [u8; 2],\n}"):
            self.has([], f"{item}\npub fn f() {{")
        self.assertEqual(contracts('extern "C" {\n    pub fn c(to: &mut [u8; 4]) -> isize;\n}\n' + BARE + GIVING),
                         {"box::c": [], "box::bare": [], "box::giving": [GIVES]})

    def test_a_text_that_ends_too_soon(self):
        for text in ("pub fn f() {", "pub fn f()\n    ensures { result ≡ x\n{\n}\n", "impl Set {\n", "pub fn f()",
                     "/* ", "}\n"):
            with self.assertRaisesRegex(ValueError, "box/src/lib.rt: line [12]: "):
                contracts(text)


class Traits(unittest.TestCase):
    """Which functions of traits and of their impls are public, and what their clauses are."""

    def test_a_public_trait(self):
        for head in "pub ", "#[tactic(none)]\npub ", "pub unsafe ":
            self.assertEqual(contracts(head + TRAIT + GIVING), {
                "box::Giver::giving": [GIVES], "box::Giver::bare": [], "box::Giver::made": [],
                "box::giving": [GIVES]}, head)
        self.assertEqual(list(contracts("pub " + TRAIT, "src/sets/small.rt"))[0], "box::sets::small::Giver::giving")
        for more in "<'a, T>", ": Size<u8> + Drop", "<T> where T: Size":
            text = "pub " + TRAIT.replace("Giver", "Giver" + more)
            self.assertEqual(list(contracts(text))[0], "box::Giver::giving", more)

    def test_a_trait_that_no_other_crate_can_call(self):
        for reach in "", "pub(crate) ", "pub(super) ", "unsafe ":
            self.assertEqual(contracts(reach + TRAIT + GIVING), {"box::giving": [GIVES]}, reach)

    def test_an_impl_with_a_ghost_member(self):
        self.assertEqual(contracts(LAWFUL + GIVING), {"box::SetGiver::giving": [LAW], "box::giving": [GIVES]})
        self.assertEqual(contracts(LAWFUL, sets=LAWFUL), {
            "box::SetGiver::giving": [LAW], "box::sets::SetGiver::giving": [LAW]})

    def test_an_impl_with_none(self):
        self.assertEqual(contracts(LAWLESS + GIVING), {"box::BadGiver::giving": [], "box::giving": [GIVES]})

    def test_a_member_is_its_own_impl_s(self):
        self.assertEqual(contracts(LAWFUL + LAWLESS + LAWFUL.replace("Set", "Pair") + BARE), {
            "box::SetGiver::giving": [LAW], "box::BadGiver::giving": [], "box::PairGiver::giving": [LAW],
            "box::bare": []})
        self.assertEqual(contracts("pub " + TRAIT + LAWLESS)["box::BadGiver::giving"], [])

    def test_members_above_and_below(self):
        members = ["ghost next_gives = { λ s. s.0 }", "ghost remaining = { λ s. s.1 }", "ghost ends = { refl }"]
        text = f"""unsafe impl<'a, I: Iterator> Iterator for Pass<'a, I> {{
            ghost use Rattle.box.specs.Pass.{{◌//◌}};
            type Item = I::Item;
            {members[0]};
            fn next(&mut self) -> Option<u8> {{
                self.0.next()
            }}
            {members[1]};
            fn len(&self) -> u64 {{
                1
            }}
            {members[2]};
        }}
        """
        self.assertEqual(contracts(text + GIVING), {
            "box::PassIterator::next": members, "box::PassIterator::len": members, "box::giving": [GIVES]})

    def test_what_a_member_holds(self):
        for law in ("ghost of = { λ x'. g {n = 2} x' }", "ghost of = { λ _. 1 -- a } brace\n}",
                    "ghost of = { {- } {- { -} -} codes \"}\" }", "ghost of = { λ x. ⟦<[u8; {4}] as Ord>⟧.cmp x x }",
                    "ghost of =\n{\n    λ b' c'. '\n}"):
            text = LAWFUL.replace(LAW, law.replace("\n", "\n    "))
            self.assertEqual(contracts(text), {"box::SetGiver::giving": [law]})

    def test_clauses_of_its_own_stand_for_the_trait_s(self):
        for clauses in [GIVES], [ASKS, GIVES], [ASKS], ["ghost top: { ℕ }"]:
            text = LAWFUL.replace("-> u8 {", "-> u8\n" + "\n".join(clauses) + "\n{")
            text = text.replace("}\n}", "}\n    fn bare(self) {}\n}")
            self.assertEqual(contracts(text), {"box::SetGiver::giving": clauses, "box::SetGiver::bare": [LAW]})

    def test_an_impl_of_a_trait_that_the_crate_keeps(self):
        for reach in "", "pub(crate) ", "pub(super) ":
            kept = reach + TRAIT
            for text in LAWFUL, LAWLESS, LAWFUL.replace("Giver", "crate::sets::Giver<u8>"):
                self.assertEqual(contracts(kept + text + GIVING), {"box::giving": [GIVES]}, reach)
                self.assertEqual(contracts(text + GIVING, sets=kept), {"box::giving": [GIVES]}, reach)
                self.assertEqual(contracts(kept + GIVING, zeros=text), {"box::giving": [GIVES]}, reach)
            # another trait's, and one of the same name that other crates can call
            self.assertEqual(contracts(kept + LAWFUL.replace("Giver", "Taker")), {"box::SetTaker::giving": [LAW]})
            self.assertEqual(contracts(kept + LAWFUL, sets="pub " + TRAIT)["box::SetGiver::giving"], [LAW])
        self.assertEqual(contracts("pub " + TRAIT + LAWFUL)["box::SetGiver::giving"], [LAW])

    def test_an_impl_in_a_program(self):
        self.assertEqual(contracts(LAWFUL + LAWLESS + GIVING, "src/main.rt"), {"box::giving": [GIVES]})
        self.assertEqual(contracts(GIVING, "src/main.rt", sets="pub " + TRAIT + LAWFUL), {
            "box::giving": [GIVES], "box::sets::Giver::giving": [GIVES], "box::sets::Giver::bare": [],
            "box::sets::Giver::made": []})

    def test_what_has_no_function(self):
        for text in ("impl<const N: usize> Model for Buffer<N> {\n    ghost Value = { List ℕ };\n}\n",
                     "unsafe impl Send for Set {}\n", "pub trait Key {\n    ghost key: { ℕ };\n}\n",
                     "#[derive(Clone, Copy, PartialEq)]\npub struct Set(u8);\n"):
            self.assertEqual(contracts(text + GIVING), {"box::giving": [GIVES]}, text)

    def test_a_text_that_ends_within_one(self):
        for head in "impl Giver for Set {\n", "pub trait Giver {\n":
            for begun in "", "ghost", "ghost of", "ghost of = { 1", "ghost of = { 1 }", "ghost of: { ℕ } =", "fn f()":
                with self.assertRaisesRegex(ValueError, "box/src/lib.rt: line [12]: ", msg=begun):
                    contracts(head + begun)


PAGE = """# Promises

- `box::none_of_these`: stands before the exceptions.

## Exceptions

The function asks something of its caller:

{asks}

The function promises nothing but that it is safe and ends:

{nothing}

The promise leaves something to the world:

{world}

## Later

- `box::nor_this`: stands behind them.
"""


class Exceptions(unittest.TestCase):
    def run_on(self, source, words=(), **listed):
        """The tool's exit status and what it prints, on a repository of one file and a page with these exceptions."""
        lists = {kind: "\n".join(f"- `box::{name}`: why." for name in listed.get(kind, ())) or "None."
                 for kind in ("asks", "nothing", "world")}
        out, err = io.StringIO(), io.StringIO()
        with contextlib.ExitStack() as stack:
            files = {"crates/box/src/lib.rt": source, "docs/PROMISES.md": PAGE.format(**lists)}
            room = stack.enter_context(tree(files))
            stack.enter_context(mock.patch.object(promises, "TOP", room))
            stack.enter_context(contextlib.redirect_stdout(out))
            stack.enter_context(contextlib.redirect_stderr(err))
            return promises.main(list(words)), out.getvalue(), err.getvalue()

    def fails(self, *said, **given):
        """The tool fails, and says these lines."""
        self.assertEqual(self.run_on(**given), (1, "", "".join(f"tools/promises: box::{line}\n" for line in said)))

    def test_all_as_it_should_be(self):
        source, listed = BARE + ONLY_ASKING + ASKING + GIVING, ["only_asking", "bare"]
        self.assertEqual(self.run_on(source, asks=["asking", "only_asking"], nothing=listed),
                         (0, "4 public functions, 3 exceptions, each explained\n", ""))

    def test_no_promise_before_one_that_has_it(self):
        said = "bare has no `ensures`, and docs/PROMISES.md does not say why"
        self.fails(said, source=BARE + GIVING)
        self.fails(said, source=BARE + ASKING, asks=["asking"])

    def test_one_that_asks(self):
        self.fails("asking has a `requires`, and docs/PROMISES.md does not say why", source=ASKING + GIVING)

    def test_one_that_only_asks_needs_both(self):
        asks = "only_asking has a `requires`, and docs/PROMISES.md does not say why"
        nothing = "only_asking has no `ensures`, and docs/PROMISES.md does not say why"
        self.fails(asks, nothing, source=ONLY_ASKING + GIVING)
        self.fails(nothing, source=ONLY_ASKING + GIVING, asks=["only_asking"])
        self.fails(asks, source=ONLY_ASKING + GIVING, nothing=["only_asking"])

    def test_a_ghost_value_is_no_promise(self):
        source = "pub fn f(x: u8) -> u8\n    ghost top: { ℕ }\n{\n    x\n}\n"
        self.fails("f has no `ensures`, and docs/PROMISES.md does not say why", source=source)

    def test_a_function_of_a_trait(self):
        said = "Giver::bare has no `ensures`, and docs/PROMISES.md does not say why"
        more = "Giver::made has no `ensures`, and docs/PROMISES.md does not say why"
        self.fails(said, more, source="pub " + TRAIT)
        asks = "Giver::giving has a `requires`, and docs/PROMISES.md does not say why"
        source = "pub " + TRAIT.replace(GIVES, f"{ASKS} {GIVES}")
        self.fails(asks, source=source, nothing=["Giver::bare", "Giver::made"])
        well = 0, "3 public functions, 3 exceptions, each explained\n", ""
        given = {"asks": ["Giver::giving"], "nothing": ["Giver::bare", "Giver::made"]}
        self.assertEqual(self.run_on(source, **given), well)

    def test_a_function_of_an_impl(self):
        self.assertEqual(self.run_on(LAWFUL), (0, "1 public functions, 0 exceptions, each explained\n", ""))
        self.fails("BadGiver::giving has no `ensures`, and docs/PROMISES.md does not say why", source=LAWFUL + LAWLESS)
        self.fails("SetGiver::giving is listed in docs/PROMISES.md as one that promises nothing, and it has an "
                   "`ensures`", source=LAWFUL, nothing=["SetGiver::giving"])
        for own in ASKS, "ghost top: { ℕ }":
            source = LAWFUL.replace("-> u8", f"-> u8 {own}")
            self.assertIn("SetGiver::giving has no `ensures`", self.run_on(source, asks=["SetGiver::giving"])[2], own)

    def test_what_the_law_of_an_impl_asks(self):
        asks = "SetGiver::giving has a `requires`, and docs/PROMISES.md does not say why"
        nothing = "SetGiver::giving has no `ensures`, and docs/PROMISES.md does not say why"
        can = "ghost can_give = { λ s. s.0 < 9 }"
        self.fails(asks, nothing, source=LAWFUL.replace(LAW, can))
        self.fails(asks, source=LAWFUL.replace(LAW, f"{can};\n    {LAW}"))

    def test_an_exception_that_nothing_needs(self):
        asks, nothing = ("giving is listed in docs/PROMISES.md as one that asks something, and it has no `requires`",
                         "giving is listed in docs/PROMISES.md as one that promises nothing, and it has an `ensures`")
        self.fails(asks, source=GIVING, asks=["giving"])
        self.fails(nothing, source=GIVING, nothing=["giving"])

    def test_an_exception_for_no_public_function(self):
        said = "f is listed in docs/PROMISES.md as one that promises nothing, and it is no public function"
        self.fails(said, source=GIVING, nothing=["f"])
        self.fails(said, source="pub(crate) fn f() {\n}\n", nothing=["f"])

    def test_an_exception_of_the_wrong_kind(self):
        self.fails("bare is listed in docs/PROMISES.md as one that asks something, and it has no `requires`",
                   "bare has no `ensures`, and docs/PROMISES.md does not say why", source=BARE + GIVING, asks=["bare"])
        self.fails("asking has a `requires`, and docs/PROMISES.md does not say why",
                   "asking is listed in docs/PROMISES.md as one that promises nothing, and it has an `ensures`",
                   source=ASKING + GIVING, nothing=["asking"])

    def test_a_list_below_another_sentence_excuses_nothing(self):
        self.fails("bare stands in docs/PROMISES.md under a sentence that excuses nothing",
                   "bare has no `ensures`, and docs/PROMISES.md does not say why", source=BARE + GIVING, world=["bare"])

    def test_the_list_has_every_clause_whole(self):
        clause = ["ensures { let n = x in", "    result ≡ record { a = n } }"]
        head = "\n".join(["impl Set {", "    pub fn f(x: u8) -> u8", *(f"        {line}" for line in clause)])
        listing = ["box::Set::f", *(f"    {line}" for line in clause), "box::bare", "box::giving", f"    {GIVES}", ""]
        given = self.run_on(f"{head}\n    {{\n        x\n    }}\n}}\n{BARE}{GIVING}", ["--list"], nothing=["bare"])
        self.assertEqual(given, (0, "\n".join(listing), ""))

    def test_the_list_has_the_members_of_an_impl(self):
        law = ["ghost of = {", "    λ _. 1", "}"]
        listing = ["box::SetGiver::giving", *(f"    {line}" for line in law), ""]
        given = self.run_on(LAWFUL.replace(LAW, "\n    ".join(law)), ["--list"])
        self.assertEqual(given, (0, "\n".join(listing), ""))

    def test_wrong_usage(self):
        self.assertEqual(self.run_on(GIVING, ["--lists"])[0], 2)


class Here(unittest.TestCase):
    def test_every_public_function_of_the_repository_is_found(self):
        """Counted another way: by the lines that begin with `pub fn`, as the formatter leaves them, and with `fn` in a
        trait's block."""
        crates = list((promises.TOP / "crates").iterdir())
        files = [path for crate in crates for path in crate.glob("src/**/*.rt")]
        lines = [line for path in files for line in path.read_text().splitlines()]
        found = promises.public(crates)
        own = sum(line.lstrip().startswith("pub fn ") for line in lines)
        of_traits = sum(map(self.of_traits, crates))
        self.assertEqual(len(found), own + of_traits)
        self.assertGreater(own, 100)
        self.assertGreater(of_traits, 20)

    def of_traits(self, crate):
        """How many functions stand in a crate's public traits and, in a library, in its impls of traits: from the line
        that opens a block to the next that closes one as far to the left. An impl of a trait that the crate keeps to
        itself is none."""
        texts, count = [path.read_text() for path in crate.glob("src/**/*.rt")], 0
        kept = {name for text in texts for name in re.findall(r"^ *(?:pub\(\w+\) )?trait (\w+)", text, re.M)}
        for text in texts:
            heads = r"^( *)(?:pub trait |impl\b[^\n]*?(\w+)(?:<[^\n]*>)? for )[^\n]*\{\n(.*?)^\1\}"
            for _, given, block in re.findall(heads, text, re.M | re.S):
                if not given or (crate / "src" / "lib.rt").is_file() and given not in kept:
                    count += len(re.findall("^ *fn ", block, re.M))
        return count

    def test_every_number_of_an_answer_is_found(self):
        """By their lines: the rules' numbers are all functions of one trait."""
        crates = promises.TOP / "crates"
        names = [name for name, _ in promises.public(crates.iterdir()) if name.endswith("::number")]
        texts = [path.read_text() for path in crates.glob("*/src/**/*.rt")]
        self.assertEqual(len(names), sum(text.count("    fn number(self) -> u8") for text in texts))
        self.assertGreater(len(names), 15)


if __name__ == "__main__":
    unittest.main()
