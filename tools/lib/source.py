"""The functions of a Rattle source text.

No line says where a head ends: its `{` stands on a line of its own or at the end of the head, the clauses of a
contract hold braces too, and so do comments and texts. So the text is read token by token.
"""

import dataclasses
import pathlib
import re
from typing import NamedTuple

# A text, raw or not, a character, a word or a single mark, behind spaces and comments. A lifetime has no second quote.
# `/*` is a mark here, since such comments nest.
TOKEN = re.compile(r"""(?:\s|//[^\n]*)*
    (/\*|b?r(?P<fence>\#*)".*?"(?P=fence)|b?"(?:\\.|[^"\\])*"|b?'(?:\\.[^']*|[^'\\])'|\w+|.)?""", re.S | re.X)
# What counts in a clause, whose text is antt's: its comments and texts, its braces, and where code stands in it. A `--`
# within a name begins no comment.
IN_CLAUSE = re.compile(r"""(?<![^\s(){}])--[^\n]*|\{-|"(?:\\.|[^"\\])*"|[{}⟦]""")
CLAUSES = ("ensures", "requires", "ghost")


class Clause(NamedTuple):
    kind: str       # of an impl's ghost member `requires` or `ensures`: what the trait's own clauses say by it
    text: str       # from its word to its last brace; its later lines keep their place below the first


@dataclasses.dataclass
class Block:
    """What functions stand in."""
    scope: str              # what their names stand under
    trait: str = None       # the trait that it declares, or that it gives to a type; without its path
    given: bool = False     # the latter, an `impl TRAIT for TYPE`
    public: bool = False    # a `pub trait`
    members: list = dataclasses.field(default_factory=list)     # its ghost members, as clauses


class Function(NamedTuple):
    name: str       # below its crate, as Session::commit or answers::changed
    public: bool    # it or its trait is `pub`, and not `pub(crate)`, which no other crate can call; see of_crate too
    clauses: list   # its own; if an impl's of a trait has none, the impl's ghost members
    first: int      # the lines that it stands on, with its attributes
    last: int
    block: Block

    def has(self, kind):
        return any(clause.kind == kind for clause in self.clauses)


def of_file(crate, file):
    """The functions of a file of a crate, as src/lib.rt; `crate` is the crate's folder."""
    path = pathlib.Path(crate) / file
    try:
        return functions(path.read_text(), module_of(file))
    except ValueError as error:
        raise ValueError(f"{path}: {error}") from None


def of_crate(crate):
    """The functions of all files of a crate. Public are also those of a library's impls of traits, which other crates
    call by the trait, but where the crate keeps that to itself: it has a trait of that name, which is not `pub`."""
    crate = pathlib.Path(crate)
    files = sorted(path.relative_to(crate) for path in crate.glob("src/**/*.rt"))
    found = [function for file in files for function in of_file(crate, file)]
    if not (crate / "src" / "lib.rt").is_file():
        return found
    own = [f.block for f in found if f.block.trait and not f.block.given]
    kept = {block.trait for block in own} - {block.trait for block in own if block.public}
    return [f._replace(public=f.public or f.block.given and f.block.trait not in kept) for f in found]


def module_of(file):
    """What the names of a file stand under: `answers::` for src/answers.rt, nothing for the crate's root."""
    parts = pathlib.PurePath(file).with_suffix("").parts[1:]
    return "" if parts in (("lib",), ("main",)) else "::".join(parts) + "::"


def functions(text, module=""):
    """The functions of a text in its order, those within another's body left out."""
    reader, blocks, found = Reader(text), [Block(module)], []
    item, first = [], None
    while token := reader.take():
        if first is None:
            first = reader.line()
        if token == "#":
            reader.pass_over("[", "]")
            continue
        item.append(token)
        block = blocks[-1]
        if token == "fn":
            name = "".join(around.scope for around in blocks) + reader.take()
            clauses = reader.contract()
            if block.given and not clauses:
                clauses = block.members     # some may stand further down: they come into this list
            found.append(Function(name, block.public or is_public(item), clauses, first, reader.line(), block))
        elif token == "{":
            opened = block_of(item)
            if opened is None:
                reader.pass_over("{", "}", 1)
            else:
                blocks.append(opened)
        elif token == "}":
            if len(blocks) == 1:
                raise ValueError(f"line {reader.line()}: a }} closes nothing")
            blocks.pop()
        elif item == ["ghost"]:
            block.members += reader.ghost()
        elif token != ";":
            continue
        item, first = [], None
    if len(blocks) > 1:
        raise ValueError(f"line {reader.line()}: the text ends before what it opens")
    return found


def is_public(item):
    return item[0] == "pub" and item[1] != "("


def block_of(item):
    """A block, by the tokens up to its `{`; None for one that holds no items."""
    words = item[:]
    if words[0] == "pub":
        words = words[words.index(")") + 1:] if words[1] == "(" else words[1:]
    if words[0] == "unsafe":
        words = words[1:]
    if words[0] == "mod":
        return Block(words[1] + "::")
    if words[0] == "extern":
        return Block("")
    if words[0] == "trait":
        return Block(words[1] + "::", words[1], public=is_public(item))
    if words[0] == "impl":
        path = without_arguments(words[1:-1])
        if "for" not in path:
            return Block(path[-1] + "::")
        # the type and then the trait with its arguments, in one word, as the checker names the proofs of an
        # `impl Tr<A> for X`
        at = path.index("for")
        subject = "Unit" if path[at + 1] == "(" else path[-1]
        given = arguments(words[:words.index("for")])
        scope = "".join(word[0].upper() + word[1:] for word in (subject, path[at - 1], *given)) + "::"
        return Block(scope, path[at - 1], given=True)
    return None


def arguments(words):
    """The last word of each argument of the `<..>` that these words end in, if they do."""
    if words[-1] != ">":
        return []
    inner = words[len(words) - words[::-1].index("<"):-1]
    return [part.split()[-1] for part in " ".join(inner).split(",")]


def without_arguments(words):
    """The words that stand in no `<..>`."""
    depth, left = 0, []
    for word in words:
        depth += (word == "<") - (word == ">")
        if depth == 0 and word != ">":
            left.append(word)
    return left


class Reader:
    """The tokens of a text, one after another."""

    def __init__(self, text):
        self.text, self.at = text, 0

    def take(self):
        """The next token, or nothing at the end of the text."""
        while True:
            found = TOKEN.match(self.text, self.at)
            self.at = found.end()
            if found[1] != "/*":
                return found[1]
            self.pass_comment("/*", "*/")

    def line(self):
        """The line of the last token's end."""
        return self.text.count("\n", 0, self.at) + 1

    def pass_over(self, opens, closes, depth=0):
        """To behind the mark that closes what is open, or what the next mark opens."""
        begun = self.line()
        while token := self.take():
            depth += (token == opens) - (token == closes)
            if depth == 0 and token == closes:
                return
        raise ValueError(f"line {begun}: a {opens} is not closed")

    def pass_comment(self, opens, closes):
        """To behind a comment that holds others; its beginning is read."""
        begun, depth = self.line(), 1
        while depth:
            found = re.compile(f"{re.escape(opens)}|{re.escape(closes)}").search(self.text, self.at)
            if not found:
                raise ValueError(f"line {begun}: a comment is not closed")
            depth += 1 if found[0] == opens else -1
            self.at = found.end()

    def ghost(self):
        """A ghost member, of which the word `ghost` is read, to behind its `;`: a list with its clause. It is empty for
        a `ghost use`, whose tree is antt's too."""
        start = self.at
        name = self.take()
        if name == "use":
            self.at = self.text.index(";", self.at) + 1
            return []
        self.at = start
        member = self.clause("ghost")
        while self.take() != ";":
            self.clause("=")    # a trait's default
        # std names what its traits require so, as `can_add` of `Add`
        return [member._replace(kind="requires" if name.startswith("can_") else "ensures")]

    def contract(self):
        """The clauses of a head, of which the name is read, to behind the function's body or the `;` in its place."""
        begun, clauses, depth = self.line(), [], 0
        while token := self.take():
            if token in ("(", "["):
                depth += 1
            elif token in (")", "]"):
                depth -= 1
            elif depth == 0 and token in CLAUSES:
                clauses.append(self.clause(token))
            elif depth == 0 and token == "{":
                self.pass_over("{", "}", 1)
                return clauses
            elif depth == 0 and token == ";":
                return clauses
        raise ValueError(f"line {begun}: a function has no end")

    def clause(self, kind):
        """A clause, of which the word is read; between that and its braces it may have a name."""
        start, begun = self.at - len(kind), self.line()
        while self.take() not in ("{", None):
            pass
        depth = 1
        while depth:
            found = IN_CLAUSE.search(self.text, self.at)
            if not found:
                raise ValueError(f"line {begun}: a clause is not closed")
            self.at = found.end()
            if found[0] == "{-":
                self.pass_comment("{-", "-}")
            elif found[0] == "⟦":
                self.pass_over("⟦", "⟧", 1)
            else:
                depth += (found[0] == "{") - (found[0] == "}")
        column = start - self.text.rfind("\n", 0, start) - 1
        return Clause(kind, re.sub(f"\n {{0,{column}}}", "\n", self.text[start:self.at]))
