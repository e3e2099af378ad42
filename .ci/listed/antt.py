"""Reads an .antt file as far as its declarations: `use` and `mod` lines, modules with their parameters, signatures, clauses, records and data.

Layout is by columns: an item of a block begins with the first token of a line at the block's column. What this reader does not know, it
complains of, so that nothing passes it unread."""
import functools
import re
from dataclasses import dataclass, field
from typing import NamedTuple

# A name is any run of characters other than spaces and ( ) { } . ; , @ " « »; so `a--b` is one name, and `--` begins a comment only where a
# name would begin. A text in quotes has no comment in it; «..» is one name.
TOKEN = re.compile(r'\s+|--[^\n]*|"(?:\\.|[^"\\])*"|«[^»]*»|[(){}.;,@]|[^\s(){}.;,@"«»]+')
MARKS = ("unfoldable", "abbrev", "pub", "axiom")
UNREAD = ("mutual", "open", "deriving", "package")
OPENING, CLOSING = "({", ")}"
PUNCTUATION = "(){}.;,@"
HOLE = "◌"  # in the name of an operator, where an argument goes, as in ◌+◌


class Unreadable(Exception):
    """A file that this reader cannot take apart."""


class Token(NamedTuple):
    text: str
    line: int
    column: int
    first: bool  # of its line
    start: int
    end: int


@dataclass(frozen=True)
class Use:
    pub: bool
    path: str
    items: tuple | None  # (name, the name it is brought in as), or none where a module is brought in
    alias: str | None
    line: int


@dataclass
class Declared:
    kind: str  # "value", "record" or "data"
    name: str
    marks: tuple
    modules: tuple  # the parameters of the modules around it, outermost first, each a tuple of tokens
    head: tuple  # the tokens of its signature, or of a record's or data's head, marks and all
    line: int
    parts: list = field(default_factory=list)  # its clauses, fields or constructors, each a tuple of tokens
    unfolding: tuple = ()


@dataclass
class File:
    text: str
    uses: list = field(default_factory=list)
    mods: list = field(default_factory=list)  # (name, whether it is pub)
    fixities: list = field(default_factory=list)
    declared: dict = field(default_factory=dict)
    blocks: int = 0  # modules with parameters, and whatever else is no plain declaration
    complaints: list = field(default_factory=list)


def block_comment_end(text, start):
    """Where the block comment that begins at `start` ends; they nest."""
    depth, at = 0, start
    while at < len(text):
        two = text[at:at + 2]
        if two == "{-":
            depth, at = depth + 1, at + 2
        elif two == "-}":
            depth, at = depth - 1, at + 2
            if depth == 0:
                return at
        else:
            at += 1
    raise Unreadable("a block comment that does not end")


def plain_name(text):
    """«x» is x, where x could be written without the marks."""
    inner = text[1:-1]
    return inner if text[0] == "«" and inner and HOLE not in inner and not re.search(r'[\s(){}.;,@"]', inner) else text


def tokens_of(text):
    """The tokens of a text, without its comments."""
    found, at, line, line_start, fresh = [], 0, 1, 0, True
    while at < len(text):
        if text.startswith("{-", at):
            end = block_comment_end(text, at)
        else:
            match = TOKEN.match(text, at)
            if not match:
                raise Unreadable(f"line {line}: a text that does not end")
            end = match.end()
        piece = text[at:end]
        if not piece.isspace() and not piece.startswith(("--", "{-")):
            found.append(Token(plain_name(piece), line, at - line_start, fresh, at, end))
            fresh = False
        if "\n" in piece:
            line += piece.count("\n")
            line_start = at + piece.rfind("\n") + 1
            fresh = True
        at = end
    return tuple(found)


def joined(tokens):
    """Tokens as text, with one space where there was any space or comment."""
    out, before = [], None
    for token in tokens:
        if before is not None and before.end != token.start:
            out.append(" ")
        out.append(token.text)
        before = token
    return "".join(out)


def items_of(tokens):
    """The items of a block: each begins with a line's first token at the column of the block's first token."""
    if not tokens:
        return []
    column, items = tokens[0].column, []
    for token in tokens:
        if token.first and token.column < column:
            raise Unreadable(f"line {token.line}: left of its block")
        if token.first and token.column == column:
            items.append([])
        items[-1].append(token)
    return [tuple(item) for item in items]


def at_depth_0(tokens, word):
    """The place of the first token of this text outside every bracket, or none."""
    depth = 0
    for place, token in enumerate(tokens):
        if token.text in OPENING:
            depth += 1
        elif token.text in CLOSING:
            depth -= 1
        elif depth == 0 and token.text == word:
            return place
    return None


def split_at(tokens, word):
    """What stands before and behind the first `word` outside every bracket; behind is empty where there is none."""
    place = at_depth_0(tokens, word)
    return (tokens, ()) if place is None else (tokens[:place], tokens[place + 1:])


def use_items(tokens):
    """The names in the braces of a `use` line."""
    items, current = [], []
    for token in tokens:
        if token.text == ",":
            items.append(current)
            current = []
        else:
            current.append(token)
    items.append(current)
    return tuple((i[0].text, i[-1].text) for i in items if i)


def use_of(tokens, pub):
    """`use M.N`, `use M.N as X` or `use M.N.{a, b as c}`; tokens begin behind `use`."""
    line = tokens[0].line
    place = next((n for n, t in enumerate(tokens) if t.text == "{"), None)
    if place is not None:
        return Use(pub, joined(tokens[:place]).rstrip("."), use_items(tokens[place + 1:-1]), None, line)
    path, alias = split_at(tokens, "as")
    return Use(pub, joined(path), None, alias[0].text if alias else path[-1].text, line)


def is_signature(tokens):
    """A name, perhaps its levels in braces, and a colon."""
    rest = tokens[1:]
    if rest and rest[0].text == "{":
        close = next((n for n, t in enumerate(rest) if t.text == "}"), None)
        rest = rest[close + 1:] if close is not None else rest
    return bool(rest) and rest[0].text == ":"


def add_module(file, item, modules):
    """`module _ (params) where`, and the block below it."""
    header, body = split_at(item, "where")
    if len(header) < 2 or header[1].text != "_":
        file.complaints.append((item[0].line, "a module that is not `module _`"))
    file.blocks += 1
    add_block(file, body, modules + (header[2:],))


def add_value(file, item, name, marks, modules, kind):
    """A signature, or the head of a record or data with its fields or constructors."""
    if kind == "value":
        made = Declared(kind, name.text, marks, modules, item, name.line)
    else:
        head, body = split_at(item, "where")
        made = Declared(kind, name.text, marks, modules, head, name.line, list(items_of(body)))
    if made.name in file.declared:
        file.complaints.append((name.line, f"{made.name} is declared twice"))
    file.declared[made.name] = made
    return made


def add_item(file, item, modules, last):
    """One item of a block; gives back the declaration that clauses behind it belong to."""
    marks = tuple(t.text for t in item[:next((n for n, t in enumerate(item) if t.text not in MARKS), len(item))])
    rest = item[len(marks):]
    word = rest[0].text if rest else ""
    if word == "use":
        file.uses.append(use_of(rest[1:], "pub" in marks))
    elif word == "mod":
        file.mods.append((rest[1].text, "pub" in marks))
    elif word == "module":
        add_module(file, rest, modules)
    elif word in ("infix", "infixl", "infixr"):
        file.fixities.append(joined(rest))
    elif word in UNREAD:
        file.complaints.append((item[0].line, f"`{word}`, which is not read here"))
    elif word in ("record", "data") and len(rest) > 1:
        return add_value(file, item, rest[1], marks, modules, word)
    elif word == "ruleset":
        file.blocks += 1
    elif word == "unfolding" and last is not None:
        last.unfolding = item
    elif rest and is_signature(rest):
        return add_value(file, item, rest[0], marks, modules, "value")
    elif last is not None and not marks:
        last.parts.append(item)
    else:
        file.complaints.append((item[0].line, f"`{joined(item)[:40]}` is neither a declaration nor a clause of one"))
    return last


def add_block(file, tokens, modules):
    last = None
    for item in items_of(tokens):
        last = add_item(file, item, modules, last)


def assumptions(tokens):
    """Where something is assumed or left open: an axiom, or a hole. The prover refuses these too."""
    for token in tokens:
        if token.text == "axiom":
            yield token.line, "an axiom"
        elif token.text.startswith("?"):
            yield token.line, "a hole"


@functools.cache
def read(text):
    """The file of a text."""
    file = File(text)
    try:
        tokens = tokens_of(text)
        file.complaints.extend(assumptions(tokens))
        add_block(file, tokens, ())
    except Unreadable as trouble:
        file.complaints.append((0, str(trouble)))
    return file
