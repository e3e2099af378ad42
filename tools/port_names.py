#!/usr/bin/env python3
"""Brings the names of this repository's definitions and lemmas to the spelling of the library: snake case for what is no type, no fact and no
module. It ran once, right after the script that turned the spelling of the library's own names (docs/PORT.md), and is kept so that whoever
compares the tree with the one before can run both again.

    python3 tools/port_names.py          in a tree that the library's script has turned, at the top: writes in place

What turns: the names that files of specs/ and proofs/ declare, wherever these files, a clause of a .rt file, a wrong edit, or a page in
backticks has them. `bytesOf` becomes bytes_of and `field-bytes` becomes field_bytes. A lemma that would have the name of the definition that
it is about gets `_lem` (LEMMAS). A choice is the library's `if◌then◌else◌`, whose else takes no further choice without brackets (CHOICES).
What stays: functions, types and fields of src/, whatever the library declares, strings, inputs and outputs.
"""
import glob
import re
import sys

WORD = re.compile(r"[^\s(){}.;,@\"«»`]+")
QUIET = re.compile(r'"(?:[^"\\\n]|\\.)*"|(?<![^\s(){}.;,@"«»])--[^\n]*')
DECLARED = re.compile(r"(?m)^ *(?:(?:pub|abbrev|unfoldable|data|record) )*([^\s:(){}.;,@\"«»]+)(?: \{[^{}\n]*\}| \([^()\n]*\))* :(?!:)")
USE = re.compile(r"(?m)^(?:ghost )?(?:pub )?use ([^\s{;]+)\.\{([^}]*)\}")
# Constructors that share a line, and a variable that is spelled like a lemma's.
MORE = ("element-inactive", "block-inactive", "at-q")
SPAN = re.compile(r"`[^`\n]+`")
# What Rattle asks for by this name.
MADE = ("invariant-", "decreases-")
# Lemmas that would have the name of their definition, and one that the library's script left half turned.
LEMMAS = {
    "all-of": "all_of_lem",
    "at-stack": "at_stack_lem",
    "bits-of": "bits_of_lem",
    "block-bytes": "block_bytes_lem",
    "fault-number": "fault_number_lem",
    "is-always": "is_always_lem",
    "own_in": "own_in_lem",
    "own-in": "own_in_lem",
    "step-length": "step_length_lem",
    "step_in": "step_in_lem",
    "step-in": "step_in_lem",
    "stack-fails": "stack_fails_lem",
    "getD-listed": "get_or_listed",
}
# Clauses that the library's script named after a parameter, and that say something else.
CLAUSES = {
    "crates/bench/src/lib.rt": [("requires ram_value {", "requires accepted {")],
    "crates/bench/src/stretches.rt": [("requires n_nonzero {", "requires n_in_page {")],
    "crates/readings/src/parts.rt": [("ensures upper_bound {", "ensures within_a {"), ("ensures upper_bound_2 {", "ensures within_b {")],
}
CHOICES = {
    "crates/ground/specs/Sizes.antt": [("else if eqb n 1 then B16 else if eqb n 2 then B32 else B64", "else (if eqb n 1 then B16 else (if eqb n 2 then B32 else B64))")],
}
OWN = ("ground", "words", "memory", "steps", "lanes", "plans", "bench", "hosts", "texts", "readings", "cases", "telling", "replay", "qemu", "binutils", "claims")
CHOICE = "if◌then◌else◌"
TABLE = "Rattle.ground.specs.Choices"


def snake(name):
    return re.sub(r"(?<=[a-z0-9])[A-Z]", lambda m: "_" + m[0].lower(), name).replace("-", "_")


def read(path):
    with open(path, encoding="utf-8") as file:
        return file.read()


def write(path, text):
    if text != read(path):
        with open(path, "w", encoding="utf-8") as file:
            file.write(text)


def declared():
    """Every name that is declared in specs/ or proofs/ and turns, with what it becomes."""
    names = set(MORE)
    for path in glob.glob("crates/*/**/*.antt", recursive=True):
        names |= set(DECLARED.findall(QUIET.sub(" ", read(path))))
    found = {name: LEMMAS.get(name, snake(name)) for name in names if name[0].islower() and not name.startswith(MADE)}
    return {old: new for old, new in found.items() if old != new}


def lent(text):
    """The names that a file brings in from a library, which stay."""
    names = set()
    for path, items in USE.findall(text):
        if path.split(".")[:2][-1] not in OWN or path.split(".")[0] != "Rattle":
            names |= {item.split()[-1] for item in items.split(",") if item.strip()}
    return names


class Turn:
    def __init__(self, table):
        self.table = table
        # how pages and edits, which the library's script does not read, may spell what it has turned already
        self.news = set(table.values())
        self.lent = set()

    def token(self, name):
        return name if name in self.lent else self.table.get(name, name)

    def word(self, name):
        """A name of a page or an edit: as declared, or as it was before the library's script."""
        if name in self.table:
            return self.table[name]
        if name in LEMMAS:
            return LEMMAS[name]
        odd = name[:1].islower() and not name.startswith(MADE) and re.search(r"[a-z0-9][A-Z]|-", name)
        return snake(name) if odd and snake(name) in self.news else name

    def antt(self, text):
        """The code of a file of specs/ or proofs/, and the backticks of its comments."""
        self.lent = lent(text)
        out, at = [], 0
        for quiet in QUIET.finditer(text):
            out.append(WORD.sub(lambda m: self.token(m[0]), text[at:quiet.start()]))
            out.append(quiet[0] if quiet[0][0] == '"' else self.spans(quiet[0]))
            at = quiet.end()
        return "".join(out) + WORD.sub(lambda m: self.token(m[0]), text[at:])

    def spans(self, text):
        """What stands in backticks, but for commands and paths of files."""
        def one(span):
            if "./" in span[0] or re.search(r"\.(toml|edit|rt|md)\b", span[0]):
                return span[0]
            return WORD.sub(lambda m: "/".join(self.word(w) for w in m[0].split("/")), span[0])
        return SPAN.sub(one, text)

    def rt(self, text):
        """The clauses and the imports of clauses of a .rt file, and the backticks of its comments."""
        self.lent = lent(text)
        out, at = [], 0
        heads = re.compile(r'//[^\n]*|b?"(?:[^"\\]|\\.)*"|\bghost use\b[^;]*;|\b(?:requires|ensures)\b[^{;()]*\{')
        while True:
            head = heads.search(text, at)
            if not head:
                return "".join(out) + text[at:]
            end = head.end()
            out.append(text[at:head.start()])
            if head[0].startswith("//"):
                out.append(self.spans(head[0]))
            elif head[0].endswith('"'):
                out.append(head[0])
            else:
                if head[0].endswith("{"):
                    depth = 1
                    while depth:
                        depth += {"{": 1, "}": -1}.get(text[end], 0)
                        end += 1
                out.append(WORD.sub(lambda m: self.token(m[0]), text[head.start():end]))
            at = end


def choices(path, text):
    """The library's choice in place of the repository's own."""
    for old, new in CHOICES.get(path, []) + CLAUSES.get(path, []):
        assert old in text, (path, old)
        text = text.replace(old, new)
    if path == "crates/ground/specs/Choices.antt":
        start = text.index("infixr 5 " + CHOICE)
        text = text.replace("infixr 5 " + CHOICE + "\n", "")
        text = re.sub(r"abbrev pub if◌then◌else◌[^\n]*\nif true[^\n]*\nif false[^\n]*\n\n?", "", text)
        assert start and CHOICE not in text
        return re.sub(r"(use Rattle\.std\.specs\.Prelude\.\{)", r"\1" + CHOICE + ", ", text, count=1)
    lead = r"(?m)^((?:ghost )?use )" + re.escape(TABLE) + r"\.\{([^}]*)\}(;?)\n"
    line = re.search(lead, text)
    if not line or CHOICE not in line[2]:
        return text
    rest = [n for n in re.split(r",\s*", line[2]) if n != CHOICE]
    text = text.replace(line[0], f"{line[1]}{TABLE}.{{{', '.join(rest)}}}{line[3]}\n" if rest else "", 1)
    prelude = re.search(r"(?m)^(?:ghost )?use Rattle\.std\.(?:specs\.Prelude|proofs\.Common)\.\{", text)
    if prelude:
        return text[:prelude.end()] + CHOICE + ", " + text[prelude.end():]
    first = re.search(r"(?m)^(?:ghost )?use ", text)
    return text[:first.start()] + f"{line[1]}Rattle.std.specs.Prelude.{{{CHOICE}}}{line[3]}\n" + text[first.start():]


def main():
    turn = Turn(declared())
    for path in sorted(glob.glob("crates/*/**/*.antt", recursive=True)):
        write(path, choices(path, turn.antt(read(path))))
    for path in sorted(glob.glob("crates/*/src/**/*.rt", recursive=True)):
        write(path, choices(path, turn.rt(read(path))))
    for path in sorted(glob.glob("docs/*.md") + ["README.md"]):
        write(path, turn.spans(read(path)))
    for old, new in sorted(turn.table.items()):
        print(f"{old}\t{new}")


if __name__ == "__main__":
    sys.exit(main())
