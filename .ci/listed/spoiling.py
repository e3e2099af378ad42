"""Whether the check of refusals can fail: each spoiled log or edit of .ci/wrong-reasons has to be told."""
from dataclasses import dataclass, field

from listed import edits

NOTHING = "nothing"


@dataclass
class Case:
    title: str
    says: str = ""  # what a line that tells of it has to have in it, or NOTHING where nothing may be told
    files: dict = field(default_factory=dict)  # a path, to its text; none where it is gone
    newer: list = field(default_factory=list)  # the paths of what was written after the logs


def read(text):
    """The room, files by their paths, and the cases of a table. A case begins with `# ` and what is wrong, then `says: `; `file: ` is followed
    by the lines of a file, four columns in, that stands there instead; `gone: ` and `newer: ` have a path."""
    room, cases, lines = Case("the room"), [], None
    for line in text.splitlines():
        case = cases[-1] if cases else room
        word, _, rest = line.partition(": ")
        if line.startswith("    ") or not line:
            if lines is not None:
                lines.append(line[4:])
            continue
        lines = None
        if line.startswith("# "):
            cases.append(Case(line[2:]))
        elif word == "file":
            case.files[rest] = lines = []
        elif word == "gone":
            case.files[rest] = None
        elif word == "newer":
            case.newer.append(rest)
        elif word == "says":
            case.says = rest
    for case in [room] + cases:
        case.files = {path: None if lines is None else "\n".join(lines).rstrip("\n") + "\n" for path, lines in case.files.items()}
    return room.files, cases


def with_copies(texts):
    """The texts with what was tried of each edit, where that is not there yet: the crate with the edit made."""
    made = dict(texts)
    for path in (p for p in texts if p.endswith(".edit")):
        _, crate, _, name = path.removesuffix(".edit").split("/")
        edit = edits.Edit(crate, name, path, texts[path])
        if not edit.tried(texts):
            copy = edits.applied(edit, edits.files_below(texts, f"crates/{crate}/"))
            made |= {f"{edit.log}/{file}{edits.TRIED}": text for file, text in copy.items()}
    return made


def tried(look, room, cases):
    """Each case with the line that tells of it; none where no line does."""
    room = with_copies(room)
    for case in cases:
        texts = {path: text for path, text in (room | case.files).items() if text is not None}
        told = look(with_copies(texts), {path: 1 for path in case.newer})
        if case.says == NOTHING:
            yield case, None if told else "nothing is told"
        else:
            yield case, next((line for line in told if case.says in line), None)
