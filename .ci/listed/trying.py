"""Whether each check can fail: every weakening of .ci/weakenings is made on a copy of the texts, and has to be refused."""
import re
from dataclasses import dataclass, field


@dataclass
class Weakening:
    title: str
    says: str = ""  # what the refusal has to name
    edits: list = field(default_factory=list)  # [file, old, new], old and new as lists of lines


def read(text):
    """The weakenings of a table. Each begins with `# ` and what is wrong, then `says:` with what a line of the refusal has to name, and
    then for each edit `file:` with a path, `old:` and the lines that are there once, `new:` and the lines that stand there instead.
    A line `..` of the old is anything, and at its end all up to the next empty line; in the new it is the whole of the old, and `-- ..`
    the whole of it in comments."""
    found, lines = [], None
    for line in text.splitlines():
        if line.startswith("# "):
            found.append(Weakening(line[2:]))
            lines = None
        elif line.startswith("says: "):
            found[-1].says = line.removeprefix("says: ")
        elif line.startswith("file: "):
            found[-1].edits.append([line.removeprefix("file: "), [], []])
        elif line in ("old:", "new:"):
            lines = found[-1].edits[-1][1 if line == "old:" else 2]
        elif lines is not None:
            lines.append(line)
    return found


def pattern(old):
    """The old of an edit as an expression that finds it."""
    pieces = [re.escape(piece) for piece in re.split(r"\n?^\.\.$\n?", "\n".join(old).strip("\n"), flags=re.M)]
    if not pieces[-1]:
        pieces[-1] = r"(?=\n\n|\n*\Z)"
    return re.compile(".*?".join(pieces), re.S)


def filled_in(new, old):
    """The new of an edit, with the text of the old where it says so."""
    in_comments = "\n".join("-- " + line for line in old.splitlines())
    lines = [{"..": old, "-- ..": in_comments}.get(line, line) for line in new]
    return "\n".join(lines).strip("\n")


def weakened(texts, weakening):
    """The texts with the weakening made; none where a piece that it replaces does not stand there exactly once."""
    texts = dict(texts)
    for path, old, new in weakening.edits:
        found = list(pattern(old).finditer(texts.get(path, "")))
        if len(found) != 1:
            return None
        start, end = found[0].span()
        texts[path] = texts[path][:start] + filled_in(new, found[0].group()) + texts[path][end:]
    return texts


def tried(look, compare, texts, weakenings):
    """Each weakening with the line that refuses it: `look` gives the list and the refusals of a tree, `compare` the differences of two
    lists. Only a line that the tree without the weakening does not earn counts. None where nothing refuses it."""
    listed, before = look(texts)
    for weakening in weakenings:
        changed = weakened(texts, weakening)
        if changed is None:
            yield weakening, None, "the text that it replaces does not stand there exactly once"
            continue
        made, after = look(changed)
        lines = [line for line in after + list(compare(listed, made)) if line not in before]
        refusal = next((line for line in lines if weakening.says in line), None)
        yield weakening, refusal, "nothing refuses it" if not lines else f"it is refused by {lines[0]!r}, which does not name it"
