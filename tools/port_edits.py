#!/usr/bin/env python3
"""Brings the wrong edits (crates/*/must-fail, edits/*) to the spelling of the library and of tools/port_names.py. It ran once (docs/PORT.md).

    python3 tools/port_edits.py before     in the old spelling: beside each file that an edit changes, the file with the change, as a file of its own
    (then the library's script, tools/port_names.py and rt fmt in each crate, which turn these copies as they turn the files)
    python3 tools/port_edits.py after      writes each edit anew, by the lines in which the turned copy differs from the turned file, and
                                           removes the copies; what is no pair of single lines is printed, and was written by hand

The first line of an edit, which says what is wrong and what refuses it, keeps its words; names in its backticks are turned."""
import difflib
import glob
import os
import re
import sys

sys.dont_write_bytecode = True
sys.path.insert(0, os.path.dirname(os.path.abspath(__file__)))
import port_names  # noqa: E402

EDITS = ("crates/*/must-fail/*.edit", "edits/*/*.edit")


def edits():
    return sorted(path for form in EDITS for path in glob.glob(form))


def read(path):
    with open(path, encoding="utf-8") as file:
        return file.read()


def write(path, text):
    with open(path, "w", encoding="utf-8") as file:
        file.write(text)


def changed(path):
    """The files that an edit changes, in its order, each with its text after the change."""
    crate, files, at, old = path.split("/")[1], {}, None, None
    for line in read(path).split("\n"):
        if line.startswith("file: "):
            at = line[6:].strip()
            files.setdefault(at, read(f"crates/{crate}/{at}"))
        elif line.startswith("old: "):
            old = line[5:]
        elif line.startswith("new:"):
            assert files[at].count(old) == 1, (path, old)
            files[at] = files[at].replace(old, line[5:])
    return files


def copy_of(path, number, file):
    """Where the changed file stands meanwhile."""
    crate, name = path.split("/")[1], os.path.basename(path)[:-5]
    kind = "m" if path.startswith("crates") else "e"
    camel = "".join(part.capitalize() for part in name.split("_"))
    stem = f"zz{kind}_{name}_{number}.rt" if file.endswith(".rt") else f"Zz{kind}{camel}{number}.antt"
    return f"crates/{crate}/{os.path.dirname(file)}/{stem}"


def before():
    for path in edits():
        for number, (file, text) in enumerate(changed(path).items()):
            write(copy_of(path, number, file), text)


def pairs(base, edited):
    """The lines that differ, as pairs; a list on both sides where their numbers differ."""
    a, b = base.split("\n"), edited.split("\n")
    for tag, i, j, k, n in difflib.SequenceMatcher(None, a, b, autojunk=False).get_opcodes():
        if tag != "equal" and j - i == n - k:
            yield from zip(a[i:j], b[k:n])
        elif tag != "equal":
            yield a[i:j], b[k:n]


def after():
    turn = port_names.Turn({})
    turn.news = {name for path in glob.glob("crates/*/**/*.antt", recursive=True) for name in port_names.DECLARED.findall(read(path))}
    for path in edits():
        crate = path.split("/")[1]
        lines = [turn.spans(line) for line in read(path).split("\n") if line.startswith("#")]
        files = [line[6:].strip() for line in read(path).split("\n") if line.startswith("file: ")]
        for number, file in enumerate(dict.fromkeys(files)):
            base, copy = read(f"crates/{crate}/{file}"), copy_of(path, number, file)
            lines.append("file: " + file)
            for old, new in pairs(base, read(copy)):
                if isinstance(old, list):
                    print(f"{path}: {file}: by hand: {old} -> {new}")
                    continue
                if base.count(old.strip()) == 1 and len(old) - len(old.lstrip()) == len(new) - len(new.lstrip()):
                    old, new = old.strip(), new.strip()
                lines += ["old: " + old, "new: " + new]
        write(path, "\n".join(lines) + "\n")
    for copy in glob.glob("crates/*/**/[Zz]z[em]*", recursive=True):
        if re.search(r"/(zz[em]_\w+\.rt|Zz[em]\w+\.antt)$", copy):
            os.remove(copy)


if __name__ == "__main__":
    {"before": before, "after": after}[sys.argv[1]]()
