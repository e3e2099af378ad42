"""Counts, in crates/*/src and proofs/, the places that an older Rattle left behind: docs/DESIGN-PASS.md has the figures.

tools/places.py [FOLDER]   a line for each kind of place, with its number; --list adds each place.
"""
import difflib
import itertools
import os
import pathlib
import re
import sys
from collections import Counter, defaultdict

FN = re.compile(r"^\s*(?:pub(?:\(crate\))? )?(?:const )?(?:extern \"C\" )?fn (\w+)")


class Function:
    """A function: where it stands, its parameters, its clauses and its code, without comments."""

    def __init__(self, place, name, head, code):
        self.place, self.name, self.head, self.code = place, name, head, code

    def parameters(self):
        inside = self.head[self.head.index("(") + 1:]
        for end in ("\n    requires", "\n    ensures", "\n{"):
            inside = inside.split(end)[0]
        found = re.findall(r"(\w+): (&(?:'\w+ )?(?:mut )?\[?\w+\]?|[\w:\[\]; ]+)", inside)
        return {(name, re.sub(r"'\w+ ", "", kind).strip()) for name, kind in found}

    def needs(self):
        return [" ".join(n.split()) for n in re.findall(r"requires(?: \w+)? \{(.*?)\}\n", self.head, re.S)]

    def shape(self):
        """Its tokens, with each name that is the function's own and each number alike."""
        return re.sub(r"\b[a-z_]\w*\b|\b\d\w*\b", "x", self.code).split()


def functions(path, text):
    """The functions of a file, each from its `fn` to the brace that ends it."""
    lines = [line if not line.lstrip().startswith("//") else "" for line in text.split("\n")]
    for i, line in enumerate(lines):
        match = FN.match(line)
        if not match:
            continue
        indent = line[: len(line) - len(line.lstrip())]
        end = next(j for j in range(i, len(lines)) if lines[j] in (indent + "}", indent + "{}")
                   or lines[j].endswith(" {}") or (j == i and line.endswith("}")))
        body = "\n".join(l[len(indent):] for l in lines[i:end + 1])
        head, _, code = body.partition("\n{\n") if "\n{\n" in body else body.partition(" {\n")
        yield Function(f"{path}:{i + 1}", match.group(1), head + "\n{", code)


def lines_like(sources, pattern):
    rule = re.compile(pattern)
    return [f"{path}:{n}: {line.strip()}" for path, text in sources
            for n, line in enumerate(text.split("\n"), 1) if rule.search(line) and not line.lstrip().startswith("//")]


def structs(sources):
    for path, text in sources:
        for match in re.finditer(r"^(?:pub )?struct (\w+)(?:<.*?>)? \{\n(.*?)^\}", text, re.S | re.M):
            yield f"{path}: {match.group(1)}", re.findall(r"^\s+(?:pub )?(\w+): (.*),$", match.group(2), re.M)


def twins(all_functions):
    """Pairs of functions of four lines or more whose code is alike but for names and numbers."""
    long = [f for f in all_functions if f.code.count("\n") >= 4]
    return [f"{a.place} {a.name} ~ {b.place} {b.name}" for a, b in itertools.combinations(long, 2)
            if difflib.SequenceMatcher(None, a.shape(), b.shape()).quick_ratio() >= 0.9
            and difflib.SequenceMatcher(None, a.shape(), b.shape()).ratio() >= 0.9]


def travellers(all_functions):
    """Pairs of a parameter's name and type, three or more of which stand together in three or more functions."""
    together = Counter()
    for f in all_functions:
        for three in itertools.combinations(sorted(f.parameters()), 3):
            together[three] += 1
    often = {three for three, n in together.items() if n >= 3}
    return [f"{f.place} {f.name}" for f in all_functions
            if any(t in often for t in itertools.combinations(sorted(f.parameters()), 3))]


def repeated_needs(all_functions):
    places = defaultdict(list)
    for f in all_functions:
        for need in f.needs():
            for part in re.split(r" × (?![^(]*\))", need):
                places[part.strip(" ()")].append(f"{f.place} {f.name}: {part.strip()}")
    return [p for group in places.values() if len(group) >= 3 for p in group]


def found_in(root):
    paths = sorted(root.glob("crates/*/src/**/*.rt"))
    sources = [(str(p.relative_to(root)), p.read_text()) for p in paths]
    every = [f for path, text in sources for f in functions(path, text)]
    proofs = sorted(root.glob("crates/*/proofs/**/*.antt"))
    fields = list(structs(sources))
    yield "1 enums", lines_like(sources, r"^\s*(pub(\(crate\))? )?enum ")
    yield "1 bools in structs", [f"{s}.{n}" for s, fs in fields for n, kind in fs if kind == "bool"]
    yield "1 numbers for kinds, refusals or none", lines_like(
        sources, r"\b(kind|a1|q|number\(\)) (==|!=) \d|\b(\d+) < kind|(=> |^\s+)(u64::MAX|16|256|\w+\.len\(\)),?$|window.*0\.\.0\]|while .*u64::MAX|= u64::MAX")
    yield "2 names of functions in two crates", [
        f"{name}: {', '.join(sorted(where))}" for name, where in sorted(
            (n, {f.place.split('/')[1] for f in every if f.name == n}) for n in {f.name for f in every}) if len(where) > 1 and name != "main"]
    yield "2 functions alike but for names and numbers", twins(every)
    yield "3 loops that are no `for`", lines_like(sources, r"^\s*(while|loop)\b")
    yield "4 arithmetic by a function of std::num", lines_like(sources, r"std::num::\w+")
    yield "4 printing and comparing by hand", lines_like(sources, r"io::(write_all|print_decimal|decimal)|check::same")
    yield "4 functions that only convert", [f"{f.place} {f.name}" for f in every if re.fullmatch(r"\s*\w+ as \w+\s*\}?\s*", f.code)]
    yield "5 needs that stand three times or more", repeated_needs(every)
    yield "5 functions with three parameters that travel together", travellers(every)
    yield "6 arrays of a fixed length", lines_like(sources, r"\[[\w' ]+; (\d{2,}|ROWS|[5-9])\]")
    yield "7 arms that call one function with other constants", lines_like(sources, r"^\s+\w+ => (chunks|copies|Text::of|line|sve)\(")
    for kind in ("Proof", "Answers", "Invariants"):
        these = [str(p.relative_to(root)) for p in proofs if p.stem == kind]
        yield f"8 {kind}.antt of functions", these
    yield "8 lines of proofs", [""] * sum(len(p.read_text().splitlines()) for p in proofs)


def main():
    options = [a for a in sys.argv[1:] if a.startswith("-")]
    folders = [a for a in sys.argv[1:] if not a.startswith("-")] or ["."]
    if options not in ([], ["--list"]) or len(folders) > 1 or not pathlib.Path(folders[0], "crates").is_dir():
        sys.exit("places.py: [--list] [FOLDER], a folder with crates/")
    for what, places in found_in(pathlib.Path(folders[0])):
        print(f"{len(places):6} {what}")
        if options and places and places[0]:
            print("".join(f"         {p}\n" for p in places), end="")


if __name__ == "__main__":
    try:
        main()
        sys.stdout.flush()
    except OSError as e:
        os.dup2(os.open(os.devnull, os.O_WRONLY), sys.stdout.fileno())  # so that what is left is not written once more at the end
        sys.exit(f"places.py: {e.strerror}")
