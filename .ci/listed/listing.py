"""The list, docs/STATEMENTS.txt: made from the tree, read back, and compared."""
import difflib
import textwrap
from dataclasses import dataclass

from listed import antt, names, rattle
from listed.tree import Node, crate_words

WIDTH = 150
BREAKS = ("→", "↔", "×", "∷", "&&", "||", "in", "else", "∙")
HEAD = """\
# What is stated, with which definitions, and what the code promises. `.ci/statements` holds the tree to this list and `.ci/statements --write`
# writes it. A line that changes here is a statement that changed: read it before it is written. An entry is a name and, below it, its text
# without comments; `given` are the parameters of the modules around it, and `with` says where the names in it come from. What is claimed stands
# first, as claims/ cites it, and again in its own file.
"""
STATEMENTS = "1. Statements: every theorem that README.md and docs/PROMISES.md name, and what claims/ cites"
STATED = "2. Definitions of statements: what statements use and no contract of a public function does"
PROMISED = "3. Definitions of contracts: what contracts use and no statement does"
BOTH = "4. On both sides: definitions that statements and contracts use"
CONTRACTS = "5. Contracts: every public function of a library"
KIT = "6. The kit's names: what stands in any of these, by the module that it comes from"
CHECKED = "7. What is checked: the crates and their files; what the libraries pass on; how operators bind"
PARTS = (STATEMENTS, STATED, PROMISED, BOTH, CONTRACTS, KIT, CHECKED)


@dataclass(frozen=True)
class Entry:
    part: str
    group: str
    name: str
    lines: tuple = ()


def broken(tokens, indent):
    """A text in lines that fit: whole if it does, else a line for each part of an outermost chain of operators."""
    text = antt.joined(tokens)
    if len(text) + indent <= WIDTH:
        return [" " * indent + text]
    cuts, depth = [0], 0
    for place, token in enumerate(tokens):
        depth += (token.text in antt.OPENING) - (token.text in antt.CLOSING)
        if depth == 0 and place and token.text in BREAKS:
            cuts.append(place)
    lines = []
    for start, end in zip(cuts, cuts[1:] + [len(tokens)]):
        lines.extend(filled(antt.joined(tokens[start:end]), indent + (2 if start else 0)))
    return lines


def filled(text, indent):
    return textwrap.wrap(text, WIDTH, initial_indent=" " * indent, subsequent_indent=" " * (indent + 4),
                         break_long_words=False, break_on_hyphens=False)


def origins(found):
    """Where the names in a text come from, those of the vocabulary aside."""
    by_file = {}
    for word, meaning in found:
        if isinstance(meaning, Node):
            by_file.setdefault(meaning.file, set()).add(word)
        elif not names.is_vocabulary(meaning.name) or word != meaning.name:
            by_file.setdefault(meaning.module, set()).add(word)
    text = "; ".join(f"{file}: {', '.join(sorted(words))}" for file, words in sorted(by_file.items()))
    return filled("with " + text, 4) if text else []


def given(made):
    return [line for tokens in made.modules if tokens for line in filled("given " + antt.joined(tokens), 4)]


def statement(tree, node):
    """A theorem: what is given, and its type."""
    made = tree.files[node.file].declared[node.name]
    start = next(n for n, t in enumerate(made.head) if t.text == node.name) + 1
    lines = given(made) + broken(made.head[start:], 4) + origins(names.references(tree, node, False))
    return Entry(STATEMENTS, node.file, node.name, tuple(lines))


def definition(tree, part, node):
    """A definition, whole; a type of the code is its text there."""
    found = names.references(tree, node)
    if node.file.endswith("/src"):
        lines = filled(tree.types(node.file.split("/")[0])[node.name], 4)
    else:
        made = tree.files[node.file].declared[node.name]
        lines = given(made) + broken(made.head, 4)
        for piece in made.parts:
            lines += broken(piece, 6)
    return Entry(part, node.file, node.name, tuple(lines + origins(found)))


def contract(tree, key, function):
    lines = filled(function.signature, 4)
    for clause in function.requires + function.ensures:
        lines += filled(f"{clause.head} {rattle.spaced(clause.text)}", 4)
    crate = key.split("/")[0]
    return Entry(CONTRACTS, key, f"{crate}::{function.name}", tuple(lines + origins(names.contract_references(tree, key, function))))


def ghosts(tree, key, block):
    """What a trait or an impl says in `ghost` members."""
    lines = [line for member in block.members for line in filled(f"{member.head} {rattle.spaced(member.text)}", 4)]
    return Entry(CONTRACTS, key, f"{key.split('/')[0]}::{block.name}", tuple(lines + origins(names.said_in(tree, key, block.members))))


def all_ghosts(tree):
    """The traits and impls with `ghost` members, each with the file that has it."""
    return [(key, block) for key, source in sorted(tree.sources.items()) for block in source.blocks]


def public_functions(tree):
    """The public functions, each with the file that has it."""
    return [(key, f) for key, source in sorted(tree.sources.items()) for f in source.functions if f.public]


def checked(tree):
    """The crates, their files, what the libraries pass on, and the fixities."""
    words = crate_words(tree.texts.get("crates.txt", ""))
    entries = [Entry(CHECKED, "crates.txt", f"{' '.join([name] + words.get(name, []))}: {' '.join(rest)}".rstrip()) for name, rest in tree.crates.items()]
    for key, file in sorted(tree.files.items()):
        entries += [Entry(CHECKED, key, ("pub mod " if pub else "mod ") + name) for name, pub in file.mods]
        entries += [Entry(CHECKED, key, text) for text in file.fixities]
    for key, source in sorted(tree.sources.items()):
        entries += [Entry(CHECKED, key, f"pub use {path}") for path in source.reexports]
    return entries


def sides(tree, told):
    """The theorems, what they reach, and what contracts reach: of this surely no more than is meant, so that what is listed in full is
    rather too much than too little."""
    roots = set(told.theorems) | {Node(key, name) for key, f in tree.files.items() if key.startswith("claims/") for name in f.declared}
    stated = set()
    for node in roots:
        stated.update(m for _, m in names.references(tree, node, False))
    promised = set()
    for key, function in public_functions(tree):
        promised.update(m for _, m in names.contract_references(tree, key, function))
    for key, block in all_ghosts(tree):
        promised.update(m for _, m in names.said_in(tree, key, block.members))
    return roots, names.reached(tree, stated), names.reached(tree, promised, True)


def kit_entries(tree, roots, definitions):
    """The kit's names in statements, definitions and contracts."""
    found = set()
    for node in roots:
        found |= names.kit_names(names.references(tree, node, False))
    for node in definitions:
        found |= names.kit_names(names.references(tree, node))
    for key, function in public_functions(tree):
        found |= names.kit_names(names.contract_references(tree, key, function))
    for key, block in all_ghosts(tree):
        found |= names.kit_names(names.said_in(tree, key, block.members))
    return [Entry(KIT, module, name) for module, name in sorted(found)]


def entries(tree, told):
    """The whole list."""
    roots, stated, promised = sides(tree, told)
    made = [statement(tree, node) for node in sorted(roots, key=lambda node: (not node.file.startswith("claims/"), node))]
    made += [definition(tree, STATED, node) for node in sorted(stated - promised)]
    made += [definition(tree, PROMISED, node) for node in sorted(promised - stated)]
    made += [definition(tree, BOTH, node) for node in sorted(stated & promised)]
    made += [contract(tree, key, function) for key, function in public_functions(tree)]
    made += [ghosts(tree, key, block) for key, block in all_ghosts(tree)]
    made += kit_entries(tree, roots, stated | promised)
    return made + checked(tree)


def as_text(made):
    """The list as it is written: a heading for each part, and one for each file in it."""
    out = [HEAD]
    for part in PARTS:
        out.append(f"\n# ==== {part}\n")
        group, entries_of_part = None, [entry for entry in made if entry.part == part]
        for entry in entries_of_part:
            if entry.group != group:
                out.append(f"\n## {entry.group}\n")
                group = entry.group
            out.append("\n".join((entry.name,) + entry.lines) + "\n")
        out.append("" if entries_of_part else "\n# none\n")
    return "".join(out)


def read_back(text):
    """The entries of a list, by part, group and name."""
    found, part, group, lines = {}, None, None, []
    for line in text.splitlines():
        if line.startswith("# ==== "):
            part = line.removeprefix("# ==== ")
        elif line.startswith("## "):
            group = line.removeprefix("## ")
        elif line.startswith(" "):
            lines.append(line)
        elif line and not line.startswith("# "):
            lines = found.setdefault((part, group, line), [])
    return {key: tuple(value) for key, value in found.items()}


def differences(listed, made):
    """One line for each entry that is not as the list has it."""
    before, after = read_back(listed), read_back(made)
    for key in list(before) + [k for k in after if k not in before]:
        part, group, name = key
        heading = (part or "").split(":")[0]
        if key not in after:
            yield f"{group}.{name}: the list has it, under {heading}, and the tree has not"
        elif key not in before:
            yield f"{group}.{name}: the tree has it, under {heading}, and the list has not"
        elif before[key] != after[key]:
            yield f"{group}.{name}: not as the list has it, under {heading}"


def diff(listed, made, path):
    return "".join(difflib.unified_diff(listed.splitlines(True), made.splitlines(True), path, "the tree"))
