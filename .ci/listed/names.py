"""Which definitions a text names, and what can be reached from it."""
import re

from listed import antt
from listed.tree import Node, Kit

# The kit's words that every statement is written in, beside its operators and the prelude. Whatever else comes from the kit is named in the
# list with its module, entry by entry; so are None and Contains, since the code has a None of its own and demand 2 a Contains.
PRELUDE = ("⊥", "¬◌", "absurd", "Unit", "tt", "Dec", "Id", "J", "Path", "IsProp", "IsSet", "Discrete", "∥◌∥₁", "∣◌∣₁", "squash₁", "Type", "×", "now")
VOCABULARY = ("ℕ", "ℤ", "Bool", "List", "[]", "true", "false", "not", "zero", "suc", "pos", "negsuc", "length", "get_or", "take", "drop", "replicate",
              "min", "eqb", "ltb", "leb", "refl", "Bor") + PRELUDE + (
    "⊤", "All", "Any", "Some", "Ok", "Err", "IfSome", "IfNone", "IfOk", "IfErr", "OnSome", "OnOk", "OnErr", "IsSome", "IsNone", "IsOk",
    "IsErr", "IsTrue", "IsFalse", "nat_eq", "nat_lt", "nat_le", "slice_get", "slice_index", "slice_index_or", "slice_set", "bit_and", "bit_or", "bit_xor")


def is_vocabulary(name):
    return antt.HOLE in name or name in VOCABULARY


def path_at(tokens, place):
    """The names that are joined by dots without a space, from a place on, and the place behind them."""
    names, here = [tokens[place].text], place
    while (here + 2 < len(tokens) and tokens[here + 1].text == "." and tokens[here].end == tokens[here + 1].start
           and tokens[here + 1].end == tokens[here + 2].start):
        names.append(tokens[here + 2].text)
        here += 2
    return names, here + 1


def is_field(tokens, place):
    """`.name` takes a field."""
    return place > 0 and tokens[place - 1].text == "." and tokens[place - 1].end == tokens[place].start


def is_label(tokens, place):
    """`{ name =` and `; name =` name a field or an implicit argument."""
    return 0 < place < len(tokens) - 1 and tokens[place - 1].text in ("{", ";") and tokens[place + 1].text == "="


def meanings(scope, word):
    """What one name may mean: itself, or each operator that it is a part of."""
    if word in scope.names:
        return [(word, scope.names[word])]
    parts = [part for part in word.split(antt.HOLE) if part]
    return [(name, scope.names[name]) for part in parts for name in sorted(scope.parts.get(part, ()))]


def by_path(tree, scope, names):
    """What a path means: a module's short name or whole path, and a name of it; or the first name's own meaning, and fields."""
    module = scope.modules.get(names[0])
    if module or names[0] == "Rattle" or names[0] == "package":
        for cut in range(len(names) - 1, 0, -1):
            meaning = tree.member(".".join([module or names[0]] + names[1:cut]), names[cut])
            if meaning is not None:
                return [(".".join(names[:cut + 1]), meaning)]
    return meanings(scope, names[0])


def renamed(scope, word):
    """A name as it is written, and what it stands for where that is another name."""
    return f"{scope.renamed[word]} as {word}" if word in scope.renamed else word


def group_end(tokens, place):
    """The place of the colon of `(x y : A)` or `{x : A}`, whose bracket stands at `place`; none where it is no such group."""
    for here in range(place + 1, len(tokens)):
        if tokens[here].text == ":":
            return here if here > place + 1 else None
        if tokens[here].text in "(){}.,;=":
            return None
    return None


def binders(tokens):
    """The places at which a text binds a name: in `(x y : A)` and `{x : A}`, behind λ and behind `let`."""
    found = set()
    for place, token in enumerate(tokens):
        if token.text in ("(", "{"):
            found.update(range(place + 1, group_end(tokens, place) or 0))
        elif token.text in ("λ", "let"):
            end = next((n for n in range(place, len(tokens)) if tokens[n].text in (".", "=", ":", "{")), place)
            found.update(n for n in range(place + 1, end) if tokens[n].text not in "(),")
    return found


def left_binders(scope, made, part):
    """The places at which a clause's patterns, or a field's or constructor's line, bind a name."""
    if made.kind != "value":
        return set(range(len(antt.split_at(part, ":")[0])))
    left = antt.split_at(part, "=")[0]
    return {place for place, token in enumerate(left) if is_pattern_name(scope, made, token.text)}


def is_pattern_name(scope, made, word):
    """Not the function's own name, nor a part of an operator, nor a constructor: of ours, of the kit or behind a module's name."""
    meaning = scope.names.get(word)
    constructor = isinstance(meaning, Kit) or meaning is not None and meaning.name != word
    return word != made.name and word not in scope.parts and word not in scope.modules and not constructor and word not in antt.PUNCTUATION


def texts_of(scope, made, whole):
    """The texts of a declaration, each with the places at which it binds a name, and whether what it binds holds in all that follows:
    the parameters of the modules around it, its type, and where it is wanted whole its clauses, fields or constructors."""
    found = [(tokens, binders(tokens), True) for tokens in made.modules]
    found.append((made.head, binders(made.head), made.kind != "value"))
    for part in made.parts if whole else ():
        found.append((part, binders(part) | left_binders(scope, made, part), made.kind == "record"))
    return found


def named_in(tree, scope, tokens, binding=(), bound=()):
    """The definitions that a text names, as it writes them; a name that is bound is a variable from there on."""
    found, place, bound = [], 0, set(bound)
    while place < len(tokens):
        if place in binding:
            bound.add(tokens[place].text)
        elif not is_field(tokens, place) and not is_label(tokens, place):
            names, behind = path_at(tokens, place)
            if names[0] not in bound:
                found.extend((renamed(scope, word), meaning) for word, meaning in by_path(tree, scope, names))
            place = behind
            continue
        place += 1
    return found


def references(tree, node, whole=True, careful=False):
    """What a declaration names. `careful` leaves out every name that it binds anywhere: surely no more than it means."""
    key = (node, whole, careful)
    if key not in tree.references:
        tree.references[key] = references_of(tree, node, whole, careful)
    return tree.references[key]


def references_of(tree, node, whole, careful):
    if node.file.endswith("/src"):
        crate = node.file.split("/")[0]
        key, source = next((key, s) for key, s in tree.sources.items() if key.startswith(f"{crate}/") and node.name in s.types)
        return [(n.name, n) for n in types_in(tree, crate, source.types[node.name])] + said_in(tree, key, source.said[node.name])
    made, scope = tree.files[node.file].declared[node.name], tree.scope(node.file)
    texts = texts_of(scope, made, whole)
    bound = {tokens[n].text for tokens, places, _ in texts for n in places} if careful else set()
    found = []
    for tokens, places, on in texts:
        found.extend((word, meaning) for word, meaning in named_in(tree, scope, tokens, places, bound) if meaning != node)
        if on:
            bound |= {tokens[n].text for n in places}
    return found


def types_in(tree, crate, text):
    """The types that a type of the code, or a signature, names."""
    own, found = tree.types(crate), []
    brought = {use[-1]: use[0] for key, s in tree.sources.items() if key.startswith(f"{crate}/") for use in s.uses}
    for word in re.findall(r"\w+", text):
        other = brought.get(word)
        if word in own:
            found.append(Node(f"{crate}/src", word))
        elif other in tree.crates and word in tree.types(other):
            found.append(Node(f"{other}/src", word))
    return found


def reached(tree, roots, careful=False):
    """All definitions that can be reached from some: from each through its type and its clauses, fields or constructors."""
    seen, waiting = set(), list(roots)
    while waiting:
        node = waiting.pop()
        if node not in seen and isinstance(node, Node):
            seen.add(node)
            waiting.extend(meaning for _, meaning in references(tree, node, True, careful))
    return seen


def contract_references(tree, key, function):
    """What the `ensures` of a function name, with the types of its signature. Its parameters hide whatever else has their name, as does
    `result`, which it returns."""
    crate = key.split("/")[0]
    found = [(n.name, n) for n in types_in(tree, crate, function.signature)]
    parameters = set(re.findall(r"(\w+)\s*:", function.signature)) | {"self", "result"}
    return found + said_in(tree, key, function.ensures, parameters)


def said_in(tree, key, clauses, bound=()):
    """What clauses of a contract, or `ghost` members, name."""
    found = []
    for clause in clauses:
        tokens = antt.tokens_of(clause.text)
        found.extend(named_in(tree, tree.scope(key), tokens, binders(tokens), bound))
    return found


def kit_names(found):
    """Module and name of what comes from the kit; a name with its module's short name before it, as S.[], is another word than the bare one."""
    return {(m.module, word if "." in word else m.name) for word, m in found if isinstance(m, Kit)}
