"""Whether each wrong edit is refused by what its first line claims, by the log that trying it left."""
import functools
import re

from listed import edits, logs, places
from listed.edits import Unfit
from listed.tree import crate_lines

EDITS = {"must-fail": re.compile(r"crates/([^/]+)/must-fail/([^/]+)\.edit"), "edits": re.compile(r"edits/([^/]+)/([^/]+)\.edit")}
LOGS = re.compile(r"target/must-fail/([^/]+)/([^/]+)\.out")


def found_by(pattern, texts, crates):
    """The paths that a pattern finds in some crates, or in all where none is named, by crate and name."""
    matches = (pattern.fullmatch(path) for path in sorted(texts))
    return {match.groups(): match.string for match in matches if match and (not crates or match[1] in crates)}


def rests_on(crate, crates):
    """The crates of the repository that a crate rests on, all the way down."""
    below = [other for other in crates.get(crate, ()) if other in crates]
    return set(below).union(*(rests_on(other, crates) for other in below))


def hold_times(edit, texts, times):
    """No file of the crates that the edit's crate rests on is newer than the log."""
    below = tuple(f"crates/{crate}/{part}" for crate in rests_on(edit.crate, crate_lines(texts["crates.txt"])) for part in edits.PARTS)
    newer = [path for path, time in times.items() if time > times.get(edit.log + "/.log", 0) and path.startswith(below)]
    if newer:
        raise Unfit(f"its log is older than {min(newer)}")


def those_that_fit(said, facts):
    """What a log has behind its first error, without what has no place."""
    for fact in facts:
        try:
            place = said(fact)
        except Unfit:
            continue
        yield place


def refusals(edit, texts, times):
    """What refused an edit, by its log: the first, and what the log has behind it."""
    log, tree, copy = texts.get(edit.log + "/.log"), edits.files_below(texts, f"crates/{edit.crate}/"), edit.tried(texts)
    made = edits.applied(edit, tree)
    if edit.log + ".out" not in texts:
        raise Unfit("it has no log")
    logs.verdict(texts[edit.log + ".out"], log)
    if log is None or made != copy:
        raise Unfit("its log is of another tree: what was tried is not the crate with this edit")
    hold_times(edit, texts, times)
    first, *rest = logs.facts(log)
    said = functools.partial(places.said, copy=copy, tree=tree, tie_of=places.tie_in(texts, edit.crate))
    return said(first), those_that_fit(said, rest)


def hold(edit, texts, times):
    """Holds what an edit claims to what refused it."""
    claims, (by, then) = edit.claims(), refusals(edit, texts, times)
    if not claims:
        raise Unfit(f"its first line does not end in '; refused by `NAME` of `WHERE`', and it is refused by {by}")
    if not places.is_claimed(claims[0], by):
        raise Unfit(f"it claims {claims[0]}, and is refused by {by}")
    for claim in claims[1:]:
        if not any(places.is_claimed(claim, one) for one in then):
            raise Unfit(f"it claims {claim}, which the log does not have behind what is claimed before it")


def look(texts, times, which, crates=()):
    """What is told of the edits, a line each, and how many are held."""
    found, told, held = found_by(EDITS[which], texts, crates), [], 0
    for (crate, name), path in found.items():
        try:
            hold(edits.Edit(crate, name, path, texts[path]), texts, times)
            held += 1
        except Unfit as trouble:
            told.append(f"{path}: {trouble}")
    strays = [path for key, path in found_by(LOGS, texts, crates).items() if key not in found]
    told += [f"{path}: a log of no edit" for path in strays]
    if not found:
        told.append("there is no edit")
    return told, held
