"""What is refused whatever the list says."""
from listed import antt, listing, names
from listed.tree import Kit, constructors

CLAIMS = "claims/proofs/"
KIT_ROOTS = ("package", "Rattle", "Prim", "lib", "mathlib", "native", "borrow", "denote", "mir")  # what the paths of the kit begin with


def of_functions(tree):
    """A public function asks nothing of its caller and promises something."""
    for key, function in listing.public_functions(tree):
        name = f"{key.split('/')[0]}::{function.name}"
        if function.requires:
            yield f"{name}: a public function with a `requires` or a `ghost`"
        if not function.ensures and not function.inherits:
            yield f"{name}: a public function without an `ensures`"


def all_uses(tree):
    """Each file's `use` lines, with its path."""
    for key, file in tree.files.items():
        yield f"crates/{key}.antt", file.uses
    for key, source in tree.sources.items():
        yield f"crates/{key}", source.ghosts


def protected_names(made):
    """The kit's vocabulary: its operators and words that stand in statements, definitions and contracts, and the prelude's."""
    return {e.name for e in made if e.part == listing.KIT and names.is_vocabulary(e.name)} | set(names.VOCABULARY)


def of_uses(tree, protected):
    """A name means one thing wherever statements and contracts stand: nothing is brought in under another name, and nothing of ours under
    a name of the kit. A proof may rename a lemma; a statement beside it that uses the new name says so in the list."""
    for path, uses in all_uses(tree):
        for use in uses:
            where = f"{path}:{use.line}"
            if use.path.startswith("Prim.Axiom"):
                yield f"{where}: `use {use.path}`, an axiom"
            if use.path.endswith("*"):
                yield f"{where}: `use {use.path}` brings names that are not written down"
            if use.items is None and use.alias in KIT_ROOTS and "." in use.path:
                yield f"{where}: a module is brought in as {use.alias}"
            for item, brought in use.items or ():
                if item != brought and ("/proofs/" not in path or CLAIMS in path or {item, brought} & protected):
                    yield f"{where}: {item} is brought in under another name, {brought}"
                elif brought in protected and not isinstance(tree.member(use.path, item), Kit):
                    yield f"{where}: {brought} is a name of the kit, and is brought in from {use.path}"


def names_bound(scope, made):
    """The names that a declaration declares or binds anywhere: its own, its constructors', and those of parameters, variables and `where`
    helpers. A field is no name by itself."""
    found = {made.name} | set(constructors(made) if made.kind == "data" else ())
    for tokens in made.modules + (made.head,) + tuple(made.parts):
        found |= {tokens[n].text for n in names.binders(tokens)}
        found |= {t.text for t, after in zip(tokens[1:], tokens[2:]) if t.first and after.text == ":"}
    for part in made.parts if made.kind == "value" else ():
        found |= {part[n].text for n in names.left_binders(scope, made, part)}
    return found


def of_declarations(tree, protected):
    """Nothing of ours, and no variable or parameter, has a name of the kit's vocabulary or one that is spelled like a crate."""
    for key, file in tree.files.items():
        for made in file.declared.values():
            for name in sorted(names_bound(tree.scope(key), made)):
                if name in protected or name == "Rattle":
                    yield f"{key}.{made.name}: {name} is a name of the kit or of a crate, and is declared or bound here"


def of_kit(made):
    """A word of the vocabulary comes from one module of the kit, wherever it stands."""
    seen = {}
    for entry in made:
        if entry.part == listing.KIT and names.is_vocabulary(entry.name):
            seen.setdefault(entry.name, []).append(entry.group)
    for name, modules in sorted(seen.items()):
        if len(modules) > 1:
            yield f"{name} comes from {' and from '.join(modules)}"


def of_pages(told):
    for page, name in told.unknown:
        yield f"{page}: `{name}` is named there, and there is no such thing"


def citation(made):
    """The theorem that an entry of claims/ cites by its whole path, or none where the entry has any other form than

        pub NAME : TYPE
        NAME = Rattle.CRATE.proofs.FILE.NAME
    """
    if made.kind != "value" or made.marks != ("pub",) or made.modules or made.unfolding or len(made.parts) != 1:
        return None
    left, right = antt.split_at(made.parts[0], "=")
    path = antt.joined(right)
    if [t.text for t in left] != [made.name] or " " in path or not path.endswith("." + made.name):
        return None
    return path.removesuffix("." + made.name)


def cited_in(tree, made):
    """The public theorem that an entry of claims/ cites, or none."""
    path = citation(made)
    node = tree.member(path, made.name) if path else None
    if node is None or "/proofs/" not in getattr(node, "file", "") or node.file.startswith(CLAIMS):
        return None
    return node if "pub" in tree.files[node.file].declared[node.name].marks else None


def claims_files(tree):
    return {key: file for key, file in tree.files.items() if key.startswith(CLAIMS)}


def uncited(tree, told):
    """The theorems that a reader is told of and claims/ does not cite. No crate rests on a program, so a program's are not among them."""
    cited = {cited_in(tree, made) for file in claims_files(tree).values() for made in file.declared.values()}
    return sorted(node for node in told.claimed - cited if tree.is_library(node.file.split("/")[0]))


def of_claims(tree, told):
    """claims/ has nothing but citations, and every theorem that a reader is told of; a program's stands at top level itself."""
    if not claims_files(tree):
        yield "crates/claims: there is no such crate, so that no theorem is cited at its full type"
    for key, file in claims_files(tree).items():
        if file.blocks or file.fixities:
            yield f"{key}: a module, a ruleset or a fixity, where only citations may stand"
        for made in file.declared.values():
            if cited_in(tree, made) is None:
                yield f"{key}.{made.name}: no citation of a theorem of that name, by its whole path and at top level"
    for node in uncited(tree, told):
        yield f"{node}: a reader is told of it, and claims/ does not cite it"
    for node in sorted(told.claimed):
        made = tree.files[node.file].declared[node.name]
        if not tree.is_library(node.file.split("/")[0]) and (made.modules or "pub" not in made.marks):
            yield f"{node}: a program's theorem, which claims/ cannot cite, and it does not stand at top level"


def all_of(tree, told, made):
    """Every refusal."""
    protected = protected_names(made)
    yield from (f"{where}: {what}" for where, what in tree.complaints)
    yield from of_functions(tree)
    yield from of_uses(tree, protected)
    yield from of_declarations(tree, protected)
    yield from of_kit(made)
    yield from of_pages(told)
    yield from of_claims(tree, told)
