"""Which need or law the place of an error belongs to."""
import json
import re

from listed import antt, rattle
from listed.edits import Claim, Unfit
from listed.logs import Unproved

NEED = "Need-"
PROOF, ANSWERS = "/Proof", "/Answers"  # the last of the path of a function's own proof, by hand or goal by goal
TOKEN = re.compile(r"[A-Za-z_]\w*|\d\w*|<<=?|>>=?|&&|\|\||=>|->|\.\.|[-+*/%]=?|\S")
MADE = re.compile(r"(?:if|then|else|Then|Else)-.+$")  # what the prover calls a test and its branches, by what is tested, its numbers too
BRANCHES = ("if", "else", "match", "while", "loop", "for", "return", "break", "continue", "as", "fn", "&&", "||", "=>", "..")


def shape(text):
    """What of a code's text decides which needs its functions have, and in which order: branches, calls, sums, casts and indices. A test, a
    variable, a literal, a constructor and a division by a literal leave no need."""
    tokens = TOKEN.findall(rattle.without_comments(text))
    kept = []
    for token, after in zip(tokens, tokens[1:] + [""]):
        is_called = token[0].islower() and after == "(" and token != "len"
        is_sum = token != "->" and (token[0] in "+-*" or token[:2] in ("<<", ">>") or token[0] in "/%" and not after[:1].isdigit())
        if token in BRANCHES or token == "[" or is_called or is_sum:
            kept.append(token)
    return kept


def arguments(tokens):
    """The arguments of the `tie.spec` in a clause, each as its tokens; none where there is no such thing."""
    texts = [token.text for token in tokens]
    at = next((n + 3 for n in range(len(texts)) if texts[n:n + 3] == ["tie", ".", "spec"]), None)
    found, depth = [], 0
    while at is not None and at < len(tokens) and (depth or texts[at] not in antt.CLOSING):
        if depth:
            found[-1].append(tokens[at])
        else:
            found.append([tokens[at]])
        depth += (texts[at] in antt.OPENING) - (texts[at] in antt.CLOSING)
        at += 1
    return found


def is_in(place, tokens):
    """Whether a place, as (line, column), lies in a piece of text."""
    last = tokens[-1]
    return (tokens[0].line, tokens[0].column) <= place < (last.line, last.column + last.end - last.start)


def argument_need(proof, place, clause, tie):
    """The need that an argument of `tie.spec` is for: the invariants and measures come first."""
    given, first = arguments(clause), tie["first"]
    if len(given) != first + len(tie["needs"]):
        raise Unfit(f"{proof} does not fit: it has {len(given)} arguments for {first + len(tie['needs'])}")
    at = next((n for n, argument in enumerate(given) if is_in(place, argument)), None)
    if at is None or at < first:
        raise Unfit(f"{proof} does not fit: its first error stands at no need")
    return tie["needs"][at - first][1]


def declared_need(proof, name, tie):
    """The need that a declaration of a proof by hand is for, by either of its names: the prover takes both there."""
    new = {**dict(tie["needs"]), **{new: new for _, new in tie["needs"]}}.get(name)
    if new is None:
        raise Unfit(f"{proof} does not fit: the function has no need {name}")
    return new


def clause_at(line, clauses):
    """The clause that a line stands in, and of a clause with a `where` the one below it; none where there is no such clause."""
    for clause in clauses:
        if clause[0].line <= line <= clause[-1].line:
            return clause_at(line, antt.items_of(antt.split_at(clause, "where")[1])) or clause
    return None


def declared_at(error, copy):
    """The declaration that an error stands in, and its clause."""
    if not error.path.startswith("proofs/") or error.path not in copy:
        raise Unfit(f"its first error stands in {error.path}, where nothing is proved")
    made = antt.read(copy[error.path]).declared.get(error.name)
    if made is None:
        raise Unfit(f"its first error is one of `{error.name}`, which {error.path} does not declare")
    for clause in made.parts if made.kind == "value" else ():
        if clause[0].line <= error.line <= clause[-1].line:
            return made, clause
    raise Unfit(f"its first error stands in the statement of `{made.name}`, and not in its proof")


def named_need(made, module):
    """The X of a declaration `NAME : tie.Need-X ..` of a proof by hand, or `NAME : goal.X` of one goal by goal; else none."""
    behind = [token.text for token in antt.split_at(made.head, ":")[1]]
    prefix = NEED if module == "tie" else ""
    return behind[2].removeprefix(prefix) if behind[:2] == [module, "."] and behind[2].startswith(prefix) else None


def of_error(error, copy, tie_of):
    """The law, or the need and its function, that an error in the copy of a crate stands in. `tie_of` gives what the prover asks of a
    function: how many invariants and measures, and its needs, each by its name in a proof by hand and by its name elsewhere."""
    made, clause = declared_at(error, copy)
    where, need = error.path.removesuffix(".antt"), None
    place = where.removesuffix(PROOF).removesuffix(ANSWERS)
    if where.endswith(ANSWERS):
        need = named_need(made, "goal")
    elif where.endswith(PROOF):
        name = named_need(made, "tie")
        if name is not None:
            need = declared_need(place, name, tie_of(place))
        elif arguments(clause):
            need = argument_need(place, (error.line, error.column - 1), clause, tie_of(place))
    if need is None:
        inner = clause_at(error.line, [clause])
        has_more = inner is not clause or sum(part[0].text == made.name for part in made.parts) > 1
        return Claim(made.name, where, antt.joined(antt.split_at(inner, "=")[0]) if has_more else None)
    return Claim(need, place.removeprefix("proofs/").replace("/", "::"))


def tie_in(texts, crate):
    """The `tie_of` of a crate, by what the prover said of it, in target/must-fail."""
    def tie_of(place):
        found = json.loads(texts.get(needs_file(crate), "{}")).get(place)
        if found is None:
            raise Unfit(f"{needs_file(crate)} does not have the needs of {place}")
        return found
    return tie_of


def needs_file(crate):
    return f"target/must-fail/{crate}/needs.json"


def needs_in(tie, goals):
    """What a function's proof by hand has to give, by the modules `Tie` and `Goals` that the prover makes of it: how many invariants and
    measures come first in `tie.spec`, and then the needs in their order, each by its name there and by the one that it has elsewhere."""
    named = {old: new for new, old in re.findall(r"^the-fitted-(\S+) =\s+Lts\.Need-(\S+)", goals, re.M)}
    spec = tie[tie.index("pub spec :"):]
    given = re.findall(r"\((\S+) : ([^\s)]+)", spec[:spec.index("spec =")])
    needs = [name.rpartition(".")[2].removeprefix(NEED) for argument, name in given if argument == "answer"]
    return {"first": len(given) - len(needs), "needs": [[old, named.get(old, old)] for old in needs]}


def words_of(text, name):
    """A declaration of a text, word by word."""
    made = antt.read(text).declared.get(name)
    return made and [[token.text for token in part] for part in (made.head, made.unfolding, *made.parts)]


def is_turned(before, after):
    """Whether two declarations differ in names alone that the prover makes of the code (`if-field-eq2`), each of them turned throughout, and no
    two into one: what is proved is the same then, by the same tests."""
    if [len(part) for part in before] != [len(part) for part in after]:
        return False
    pairs = {pair for one, other in zip(before, after) for pair in zip(one, other)}
    made = {pair for pair in pairs if MADE.match(pair[0]) and MADE.match(pair[1])}
    news = [new for _, new in made]
    return all(one == other for one, other in pairs - made) and len(dict(made)) == len(made) and len(set(news)) == len(news)


def said(found, copy, tree, tie_of):
    """What refuses an edit, by the first fact of its log that does not hold. `copy`: the files of the crate with the edit made, `tree`:
    those without it. What refuses an edit is not changed by it, but for names that the prover makes of the code. A function's proof is one
    of the needs of its own code, and says nothing about code of another shape."""
    if isinstance(found, Unproved):
        return Claim(found.need, found.function)
    refusal = of_error(found, copy, tie_of)
    before, after = words_of(tree[found.path], found.name), words_of(copy[found.path], found.name)
    if before != after and not (before and after and is_turned(before, after)):
        raise Unfit(f"it changes {found.path} where that refuses it, by {refusal}")
    changed = [path for path in tree if path.startswith("src/") and shape(tree[path]) != shape(copy[path])]
    if changed and found.path.endswith(PROOF + ".antt"):
        raise Unfit(f"it changes the shape of {changed[0]}, so that {found.path} does not fit, and is refused by {refusal}")
    return refusal


def is_claimed(claim, refusal):
    """Whether a claim is about what refuses an edit. The clause that it names is a part of what stands on the left of the clause's `=`."""
    words = rf"(?<![^\s(]){re.escape(claim.clause)}(?![^\s)])" if claim.clause else ""
    return (claim.name, claim.where) == (refusal.name, refusal.where) and re.search(words, refusal.clause or "") is not None
