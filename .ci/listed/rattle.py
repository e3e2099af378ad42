"""Reads a .rt file as far as its public face: `use` and `ghost use` lines, types, functions with their contracts, and what traits, impls and
types say in `ghost` members."""
import functools
import re
from dataclasses import dataclass, field

from listed import antt

FUNCTION = re.compile(r'\b(pub(?:\s*\([^)]*\))?\s+)?((?:const\s+)?(?:unsafe\s+)?(?:extern\s+"C"\s+)?fn)\s+(\w+)')
TYPE = re.compile(r"\b(?:pub\s+)?(struct|enum)\s+(\w+)")
BLOCK = re.compile(r"^[ \t]*(?:(?P<pub>pub\s+)?(?:unsafe\s+)?trait|(?:unsafe\s+)?(?P<impl>impl))\b(?P<head>[^{;]*)\{", re.M)
# `requires { .. }`, `ensures low { .. }`, `ensures* { .. }`, and a `ghost`, by which a contract binds a value
CLAUSE = re.compile(r"\s*(?P<head>(?P<word>requires|ensures|ghost)\b\s*\*?[^{};]*)\{")
# a member of a trait, an impl or a type that is for proofs alone: `ghost view = { .. };`, `ghost small: { .. },`
MEMBER = re.compile(r"\bghost\s+(\w+)\s*[=:]\s*\{")
DEFAULT = re.compile(r"\s*=\s*\{")
FOREIGN = re.compile(r'\bextern\s*(?:"[^"]*"\s*)?\{')
BRACE = re.compile(r"[{}()]")
RAW = re.compile(r'\b(?:b|c)?r(?P<marks>#*)".*?"(?P=marks)', re.S)
# What leaves the meaning of a text as it is: how proofs are looked for, the impls that a derive of the kit writes and what it reads in a type,
# a value's place in memory, a name for a linker, a compiler's hints, and a test, or a module of tests, which is no part of a crate
TACTIC = r"tactic\((?:[^][()]|\([^][()]*\))*\)"
HARMLESS = rf"{TACTIC}|derive(?:_where)?\([^][()]*\)|error\([^][()]*\)|from|default|repr\(C\)|unsafe\(no_mangle\)|cycle\(\w+\)"
HARMLESS += r"|must_use|inline(?:\(\w+\))?|cold"
TESTS = r"test\]\s*fn\b|cfg\(test\)\]\s*mod\b"
DECEIVING = (  # what could make a text say something else than it shows
    (FOREIGN, "a foreign function, whose contract would be assumed"),
    (RAW, "a raw string, in which a comment could hide"),
    (re.compile(r"\btype\s+\w+|(?<!ghost )\buse\b[^;]*\bas\b"), "another name for a type or a function"),
    (re.compile(rf"#\s*\[(?!(?:{HARMLESS})\]|{TESTS})|#\s*!\s*\[(?!{TACTIC}\])"), "an attribute other than those that change no meaning"),
    (re.compile(r"\bmacro_rules\b|\bmacro\s+\w|\binclude\w*\s*!"), "a macro of its own, or a text of another file"),
    (re.compile(r"\bpub\s+use\b[^;]*\*"), "`pub use` of names that are not written down"),
    (re.compile(r"\bghost\b(?!\s+use\b|\s+\w+\s*[=:]\s*\{|\s*\{)"), "a `ghost` that is not read here"),
)
LITERAL = re.compile(RAW.pattern + r"""|b?"(?:\\.|[^"\\])*"|b?'(?:\\.|[^'\\])'""", re.S)
LITERAL_OR_COMMENT = re.compile(LITERAL.pattern + r"|//[^\n]*|/\*", re.S)


@dataclass(frozen=True)
class Clause:
    head: str  # `requires`, `ensures low`, `ensures* low` or a `ghost`
    text: str


@dataclass(frozen=True)
class Block:
    """A trait or an impl."""
    start: int
    end: int
    name: str  # the type's or the trait's; `Tr for T` of an impl of a trait
    is_impl: bool
    public: bool  # a public trait


@dataclass(frozen=True)
class Function:
    name: str  # with the block that it stands in
    public: bool
    inherits: bool  # a method of an impl of a trait, which has the trait's clauses where it has none
    signature: str
    requires: tuple  # and `ghost`, by which a contract binds a value that the caller has to have
    ensures: tuple
    line: int


@dataclass(frozen=True)
class Ghosts:
    """What a trait or an impl says in `ghost` members."""
    name: str
    members: tuple  # of Clause


@dataclass
class File:
    uses: list = field(default_factory=list)  # `use a::b` as (a, b)
    reexports: list = field(default_factory=list)
    ghosts: list = field(default_factory=list)
    types: dict = field(default_factory=dict)
    said: dict = field(default_factory=dict)  # a type, to its `ghost` members
    blocks: list = field(default_factory=list)  # the traits and impls that have such members
    functions: list = field(default_factory=list)
    complaints: list = field(default_factory=list)


def without_comments(text):
    """The text with each comment replaced by spaces, lines kept; `/* */` nest, and nothing in quotes begins a comment."""
    out, at = [], 0
    while match := LITERAL_OR_COMMENT.search(text, at):
        out.append(text[at:match.start()])
        at = comment_end(text, match.start()) if match.group() == "/*" else match.end()
        piece = text[match.start():at]
        out.append(re.sub(r"[^\n]", " ", piece) if piece.startswith("/") else piece)
    return "".join(out) + text[at:]


def comment_end(text, start):
    depth = 0
    for match in re.compile(r"/\*|\*/").finditer(text, start):
        depth += 1 if match.group() == "/*" else -1
        if depth == 0:
            return match.end()
    raise antt.Unreadable("a comment that does not end")


def closing(text, start):
    """Behind the brace that closes the one at `start`."""
    depth = 0
    for match in BRACE.finditer(text, start):
        depth += 1 if match.group() in "{(" else -1
        if depth == 0:
            return match.end()
    raise antt.Unreadable("a brace that is not closed")


def spaced(text):
    return " ".join(text.split())


def signature_end(text, start):
    """Where the signature that begins at `start` ends: at a clause or at the body."""
    depth = 0
    for match in re.compile(r"[()\[\]{;]|\b(?:requires|ensures|ghost)\b").finditer(text, start):
        if depth == 0 and match.group()[-1] not in "()[]":
            return match.start()
        depth += {"(": 1, "[": 1, ")": -1, "]": -1}.get(match.group(), 0)
    return len(text)


def function_at(text, bare, match, block):
    """The function whose `fn` was found; `bare` is the text with what stands in quotes blanked, so that braces count."""
    end = signature_end(bare, match.end())
    clauses, at = {"requires": [], "ensures": [], "ghost": []}, end
    while clause := CLAUSE.match(bare, at):
        at = closing(bare, clause.end() - 1)
        clauses[clause["word"]].append(Clause(spaced(clause["head"]), text[clause.end():at - 1]))
    if bare[at:].lstrip()[:1] not in ("{", ";"):
        raise antt.Unreadable(f"a clause of {match.group(3)} that is not read here")
    signature = spaced(text[match.start():end]).replace("( ", "(").replace(", )", ")")
    inherits = bool(block and block.is_impl and " for " in block.name)
    public = (match.group(1) or "").strip() == "pub" or inherits or bool(block and block.public)
    return Function((f"{block.name}::" if block else "") + match.group(3), public, inherits, signature,
                    tuple(clauses["requires"] + clauses["ghost"]), tuple(clauses["ensures"]), text.count("\n", 0, match.start()) + 1)


def without_parameters(head):
    """A head of a trait or an impl without what stands in < >, and without the bounds of a trait and a `where`."""
    out, depth = [], 0
    for piece in re.split(r"(->|=>|[<>])", head):
        depth += (piece == "<") - (piece == ">")
        if depth == 0 and piece not in ("<", ">"):
            out.append(piece)
    return spaced(re.split(r"\bwhere\b|(?<!:):(?!:)", "".join(out))[0])


def blocks_of(bare):
    """The traits and the impls."""
    return [Block(m.start(), closing(bare, m.end() - 1), without_parameters(m["head"]), bool(m["impl"]), bool(m["pub"])) for m in BLOCK.finditer(bare)]


def members_of(text, bare, start, end):
    """The `ghost` members between two places, each as a Clause; of one with a default, that too."""
    found = []
    for match in MEMBER.finditer(bare, start, end):
        at = closing(bare, match.end() - 1)
        default = DEFAULT.match(bare, at)
        at = closing(bare, default.end() - 1) if default else at
        head, _, rest = text[match.start():at].partition("{")
        found.append(Clause(spaced(head), "{" + rest))
    return tuple(found)


def type_at(text, bare, match):
    """The text of a struct or enum."""
    return spaced(text[match.start():type_end(bare, match)])


def type_end(bare, match):
    place = re.compile(r"[{(;]").search(bare, match.end())
    return place.end() if bare[place.start()] == ";" else closing(bare, place.start())


def use_paths(text):
    """The paths of a `use`, each as a tuple of names, with `{a, b::{c}}` taken apart."""
    at = text.find("{")
    if at < 0:
        return [tuple(part.strip() for part in text.split("::"))]
    before, inner, depth, start, found = text[:at].strip().removesuffix("::"), text[at + 1:text.rindex("}")], 0, 0, []
    for place, letter in enumerate(inner + ","):
        depth += (letter == "{") - (letter == "}")
        if letter == "," and depth == 0:
            found += use_paths(inner[start:place]) if inner[start:place].strip() else []
            start = place + 1
    above = tuple(part.strip() for part in before.split("::")) if before else ()
    return [above + path if path != ("self",) else above for path in found]


def add_uses(file, text):
    """`use a::b;`, `use a::{b, c};`, `pub use a::b;` and `ghost use M.{a};`."""
    lines = 0
    for match in re.finditer(r"^\s*(pub\s+)?(ghost\s+)?use\s+([^;]*);", text, re.M):
        if match.group(2):
            line = text.count("\n", 0, match.start(3)) + 1
            made = antt.use_of(antt.tokens_of(match.group(3)), False)
            file.ghosts.append(antt.Use(False, made.path, made.items, made.alias, line))
        else:
            paths, lines = use_paths(spaced(match.group(3))), lines + 1
            file.uses.extend(paths)
            if match.group(1):
                file.reexports.extend("::".join(path) for path in paths)
    if len(re.findall(r"\buse\b", text)) != len(file.ghosts) + lines:
        raise antt.Unreadable("a `use` that does not begin its line")


def names_a_member(match, blocks):
    """Whether a text is `type X = T` in a trait or in an impl of one, where it names an associated type, as Self::X alone."""
    return match.group().startswith("type") and any(b.start < match.start() < b.end and (not b.is_impl or " for " in b.name) for b in blocks)


@functools.cache
def read(text):
    """The file of a text."""
    file = File()
    try:
        text = without_comments(text)
        bare = LITERAL.sub(lambda m: m.group() if m.group() == '"C"' else " " * len(m.group()), text)
        inside = blocks_of(bare)
        for match in FUNCTION.finditer(bare):
            block = next((block for block in inside if block.start < match.start() < block.end), None)
            file.functions.append(function_at(text, bare, match, block))
        for match in TYPE.finditer(bare):
            file.types[match.group(2)] = type_at(text, bare, match)
            file.said[match.group(2)] = members_of(text, bare, match.start(), type_end(bare, match))
        for block in inside:
            members = members_of(text, bare, block.start, block.end)
            if members:
                file.blocks.append(Ghosts(("impl " if block.is_impl else "trait ") + block.name, members))
        for pattern, what in DECEIVING:
            for match in pattern.finditer(text if pattern is RAW else bare):
                if not names_a_member(match, inside):
                    file.complaints.append((text.count("\n", 0, match.start()) + 1, what))
                    break
        add_uses(file, bare)
    except antt.Unreadable as trouble:
        file.complaints.append((0, str(trouble)))
    return file
