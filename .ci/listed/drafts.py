"""Drafts of what claims/ has to cite: an entry for each theorem that it does not cite yet, and the `use` lines that the types need."""
from listed import antt, listing, names
from listed.tree import Kit


def type_of(made):
    """The whole type of a theorem: the parameters of the modules around it, and its own."""
    start = next(n for n, t in enumerate(made.head) if t.text == made.name) + 1
    levels, own = antt.split_at(made.head[start:], ":")
    given = "".join(antt.joined(tokens) + " → " for tokens in made.modules if tokens)
    return f"{antt.joined(levels)} : ".lstrip() + given.replace(") → (", ") (") + antt.joined(own)


def entry(tree, node):
    crate, _, file = node.file.split("/", 2)
    lines = listing.filled(f"pub {node.name} {type_of(tree.files[node.file].declared[node.name])}", 0)
    return "\n".join(lines) + f"\n{node.name} = Rattle.{crate}.proofs.{file.replace('/', '.')}.{node.name}\n"


def type_module(tree, crate, name):
    """The module of a type of the code: below the file that declares it, unless that is the library's root."""
    file = next(key for key, source in tree.sources.items() if key.startswith(f"{crate}/") and name in source.types)
    inner = file.split("/")[-1].removesuffix(".rt")
    return f"Rattle.{crate}.specs.declared." + ("" if inner == "lib" else inner + ".") + name


def brought_from(tree, word, meaning):
    """The module that a name is brought in from; none where the name is private to its file."""
    if isinstance(meaning, Kit):
        return meaning.module
    crate, part = meaning.file.split("/")[:2]
    if part == "src":
        return type_module(tree, crate, meaning.name) + ("" if word == meaning.name else ".TheVariants")
    if "pub" not in tree.files[meaning.file].declared[meaning.name].marks:
        return None
    return f"Rattle.{crate}.{part}.{'.'.join(meaning.file.split('/')[2:])}"


def use_lines(brought):
    """The `use` lines that bring names in, each from its module, and a note where two modules have one name."""
    items, short = {}, set()
    for word, module in sorted(brought):
        if "." in word:
            short.add(f"use {module} as {word.split('.')[0]}")
        else:
            items.setdefault(module, []).append(word)
    lines = [f"use {module}.{{{', '.join(words)}}}" for module, words in sorted(items.items())] + sorted(short)
    for word in sorted({w for w, _ in brought if sum(w in words for words in items.values()) > 1}):
        lines.append(f"-- {word} comes from more than one module: bring one of them in under a short name, `use MODULE as X`, for X.{word}")
    return lines


def draft(tree, nodes):
    """The draft of a file: `use` lines, what has to be written out since it is private, and the entries."""
    brought, private = set(), {}
    for node in nodes:
        for word, meaning in names.references(tree, node, False):
            module = brought_from(tree, word.split(".")[-1], meaning)
            if module is None:
                private[str(meaning)] = tree.files[meaning.file].declared[meaning.name]
            else:
                brought.add((word, module))
    lines = use_lines(brought)
    for name, made in sorted(private.items()):
        lines.append(f"-- write out {name}: " + "; ".join(antt.joined(part) for part in made.parts))
    return "\n".join(lines) + "\n\n" + "\n".join(entry(tree, node) for node in nodes)


def drafts(tree, nodes):
    """A draft for each crate, as text."""
    by_crate = {}
    for node in nodes:
        by_crate.setdefault(node.file.split("/")[0], []).append(node)
    return "\n".join(f"-- ==== crates/claims/proofs/{crate.capitalize()}.antt\n{draft(tree, found)}" for crate, found in by_crate.items())
