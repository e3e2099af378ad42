"""What the log of a wrong edit says, and whether the first of it is a fact that does not hold."""
import re
from dataclasses import dataclass

from listed.edits import Unfit

ERROR = re.compile(r"(?P<path>\S+):(?P<line>\d+):(?P<column>\d+): error(?:\[[\w-]+\])?: (?:`(?P<name>[^`]+)`: )?(?P<text>.*)")
NOTE = re.compile(r"note: \S+:\d+:\d+: it is not proved that .*?\(`(?P<need>[^`]+)`\)(?:;|$)")
NO_PROOF = re.compile(r"fn \w+::(?P<function>\S+): no proof: .*; `search` did not prove (?P<needs>.*)$")
# What rests on a declaration that was refused is refused for that alone.
FOLLOWS = re.compile(r"`[^`]+` was not admitted \(|\d+ declarations? that depends? on `[^`]+`, which was (?:rejected|not admitted), w")
TRIED = re.compile(r"rt check: status (-?\d+)")
# What a line of an error begins with that says of a fact that it is not proved. Whatever else an error says is no fact: a name, a bracket
# or a field that is not there, and what is not known here.
FACT = re.compile(
    r"^(?:`search`: no proof of |`cc`: the equations do not join |`omega`: [^\0]*? does not follow from what it read"
    r"|`grind`: the goal does not follow"
    r"|this `[^`]+` lands at index `"
    r"|expected type `|(?:as printed|computed as far as they go), the two (?:types|sides|indices) |.*\bdoes not hold \(this comparison"
    r"|`rw`: no (?:part of the goal|occurrence of the path's (?:left|right) endpoint in the) "
    r"|`simp`: no equation of the list has an instance (?:in the goal|where it is tried in) "
    r"|`(?:rw|simp)` has no last argument, so what it leaves must be a path whose two ends are equal)", re.M
)


@dataclass(frozen=True)
class Error:
    path: str  # in the crate
    line: int
    column: int
    name: str | None  # the declaration that the prover names
    text: str


@dataclass(frozen=True)
class Unproved:
    """A need that no proof file answers: the prover names it, and the function."""
    need: str
    function: str


def verdict(out, log):
    """Whether the prover refused an edit, by how the try of it ended."""
    match = TRIED.match(out)
    if not match:
        raise Unfit("its log is empty: it was not tried to the end")
    if match[1] == "0":
        raise Unfit("rt: NOT REFUSED: the crate is still proved with this edit")
    if match[1] != "1" or (log or "").strip() and not re.search(r"^logic=not-proved", log, re.M):
        raise Unfit(f"rt: BAD EDIT: it did not reach the prover (status {match[1]})")


def errors(log):
    """The errors of a log, in their order, without those that follow from another."""
    lines = log.split("\n")
    for at, line in enumerate(lines):
        match = ERROR.match(line)
        if not match:
            continue
        end = next((n for n in range(at + 1, len(lines)) if not lines[n].startswith("  ")), len(lines))
        text = "\n".join([match["text"]] + [more.strip() for more in lines[at + 1:end]])
        if not FOLLOWS.match(text):
            yield Error(match["path"].removeprefix("./"), int(match["line"]), int(match["column"]), match["name"], text)


def unproved(log):
    """The needs that the prover names, of functions whose proof files have none for them."""
    noted = []
    for line in log.split("\n"):
        note, no_proof = NOTE.match(line), NO_PROOF.match(line)
        if note:
            noted.append(note["need"])
        elif no_proof:
            yield from (Unproved(need, no_proof["function"]) for need in noted if f"`{need}`" in no_proof["needs"])
            noted = []


def facts(log):
    """The facts that do not hold, by a log: the errors first, as the prover tells them. The first error has to be one."""
    found = list(errors(log)) + list(unproved(log))
    if not found:
        raise Unfit("its log has no error")
    if not is_fact(found[0]):
        raise Unfit(f"no fact, by {found[0].path}:{found[0].line}: {found[0].text.split(chr(10))[0][:120]}")
    return [one for one in found if is_fact(one)]


def is_fact(found):
    return isinstance(found, Unproved) or FACT.search(found.text) is not None
