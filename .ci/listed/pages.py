"""What README.md and docs/PROMISES.md name in backticks, and which of it is a theorem."""
import re
from dataclasses import dataclass, field

from listed.tree import Node, constructors

README, PROMISES = "README.md", "docs/PROMISES.md"
# From this heading on docs/PROMISES.md names the lemmas that refuse wrong edits; a reader is not asked to believe them one by one.
LEMMAS_FROM = "## The cheats and the faults already paid for"
WHOLE = re.compile(r"^([a-z_]+)/((?:[A-Z]\w*/)*[A-Z]\w*)\.(\S+)$")  # crate/File.name or crate/Folder/File.name
FUNCTION = re.compile(r"^[a-z_]+::[\w:]+$")
EDIT = re.compile(r"^[a-z_]+/(must-fail|edits)/\w+$")
WORDS = ("rt", "cargo", "if◌then◌else◌", "requires", "ensures", "&mut", "u8", "u32", "u64", "i64", "usize", "bool")


@dataclass
class Told:
    theorems: set = field(default_factory=set)
    claimed: set = field(default_factory=set)  # those that a reader is told of, and claims/ has to cite
    unknown: list = field(default_factory=list)  # (page, name)


def in_backticks(text):
    """Each name in backticks, and whether it stands before the part about lemmas."""
    before = True
    for line in text.splitlines():
        before = before and not line.startswith(LEMMAS_FROM)
        for name in re.findall(r"`([^`]+)`", line):
            yield name, before


def is_theorem(tree, node):
    """A declaration of proofs/ that is no record, no data and no definition that unfolds."""
    made = tree.files[node.file].declared[node.name]
    return "/proofs/" in node.file and made.kind == "value" and not {"abbrev", "unfoldable"} & set(made.marks)


def by_whole_name(tree, name):
    """The declarations that crate/File.name names, in specs/ and proofs/."""
    crate, file, short = WHOLE.match(name).groups()
    nodes = [Node(f"{crate}/{part}/{file}", short) for part in ("specs", "proofs")]
    return [node for node in nodes if node.file in tree.files and short in tree.files[node.file].declared]


def by_short_name(tree, name):
    """The public theorems of this name, whichever crate has them; none where a function or a method of the code has the name."""
    if any(name == f.name.split("::")[-1] for source in tree.sources.values() for f in source.functions):
        return []
    found = [Node(key, name) for key, file in tree.files.items() if name in file.declared and "pub" in file.declared[name].marks]
    return [node for node in found if not node.file.startswith("claims/") and is_theorem(tree, node)]


def known_names(tree):
    """Every name that a page may give: of declarations, constructors, fields, functions, types, variants and crates."""
    known = set(tree.crates) | set(WORDS)
    for key, file in tree.files.items():
        for made in file.declared.values() if not key.startswith("claims/") else ():
            known.add(made.name)
            known.update(constructors(made) if made.kind == "data" else ())
            known.update(t.text for part in made.parts if made.kind == "record" for t in part[:2])
    for key, source in tree.sources.items():
        crate = key.split("/")[0]
        for function in source.functions:
            known |= {function.name, function.name.split("::")[-1], f"{crate}::{function.name}"}
        for name, text in source.types.items():
            known |= {name} | set(re.findall(r"\b[A-Z]\w*", text))
    return known


def is_known(tree, known, name):
    """A name that is there, a command, or a path."""
    if name in known or " " in name or name.startswith("-") or EDIT.match(name):
        return True
    return name.removeprefix("./") in tree.paths


def told(tree):
    """The theorems that the pages name, and the names that are nothing."""
    found, known = Told(), known_names(tree)
    for page in (README, PROMISES):
        for name, before in in_backticks(tree.texts.get(page, "")):
            whole = WHOLE.match(name)
            nodes = by_whole_name(tree, name) if whole else by_short_name(tree, name) if page == README else []
            theorems = {node for node in nodes if is_theorem(tree, node)}
            found.theorems |= theorems
            if before:
                found.claimed |= theorems
            if not nodes and (whole or not is_known(tree, known, name)):
                found.unknown.append((page, name))
    found.unknown = sorted(set(found.unknown))
    return found
