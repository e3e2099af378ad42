"""The wrong edits: what each replaces, and by what it claims to be refused."""
import re
from dataclasses import dataclass

# The end of an edit's first line; .ci/refused says what it means.
PLACE = r"(?:the clause `([^`]+)` of )?`([^`]+)` of `([^`]+)`"
CLAIMS = re.compile(f"; refused by (?P<places>{PLACE}(?:, then by {PLACE})*)$")
PARTS = ("src/", "specs/", "proofs/")
TRIED = ".tried"  # what the name of a file of a copy that was tried ends with, so that no other check takes it for one of a crate


class Unfit(Exception):
    """What the tree, an edit or a log has to have, and has not."""


@dataclass(frozen=True)
class Claim:
    name: str  # a need or a law
    where: str  # a function, as reads::survey, or a file, as proofs/Layouts
    clause: str | None = None  # a name on the left of the law's clause

    def __str__(self):
        return f"{f'the clause `{self.clause}` of ' if self.clause else ''}`{self.name}` of `{self.where}`"


@dataclass(frozen=True)
class Edit:
    crate: str
    name: str
    path: str
    text: str

    @property
    def log(self):
        """What its log's files begin with."""
        return f"target/must-fail/{self.crate}/{self.name}"

    def tried(self, texts):
        """The files of the crate as they were tried with this edit."""
        return {path.removesuffix(TRIED): text for path, text in files_below(texts, self.log + "/").items()}

    def claims(self):
        """What its first line claims, in the order of the log."""
        first = self.text.split("\n", 1)[0]
        match = CLAIMS.search(first) if first.startswith("# ") else None
        return [Claim(name, where, clause or None) for clause, name, where in re.findall(PLACE, match["places"])] if match else []

    def pairs(self):
        """Each (file, old, new), read as `rt must-fail` reads them."""
        file = old = ""
        for line in self.text.split("\n"):
            if line.startswith("file: "):
                file = line.removeprefix("file: ")
            elif line.startswith("old: "):
                old = line.removeprefix("old: ")
            elif line.startswith("new:"):
                yield file, old, line.removeprefix("new:").removeprefix(" ")
                old = ""


def files_below(texts, folder):
    """The files of a crate, or of the copy of one, by their paths in it."""
    return {path.removeprefix(folder): text for path, text in texts.items() if path.startswith(tuple(folder + part for part in PARTS))}


def applied(edit, files):
    """The files of a crate with the edit made."""
    files = dict(files)
    for file, old, new in edit.pairs():
        if files.get(file, "").count(old or "\n\n\n") != 1:
            raise Unfit(f"`{old}` does not stand in {file} exactly once")
        files[file] = files[file].replace(old, new)
    return files
