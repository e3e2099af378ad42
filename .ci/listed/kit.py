"""The kit's modules that pass names on, as Rattle.std.specs.Prelude: where what they pass on is declared. A name that stands in two such
modules is one name, and another than one of the same spelling from a module that they do not pass on."""
import functools
import os
import re
import subprocess

from listed import antt

HERE = os.path.dirname(os.path.abspath(__file__))
TABLE = "passed-on.txt"
# Each module, with its file among the kit's sources; that std passes a module of core on under its own name is in std/specs/Lib.antt.
MODULES = {
    "Rattle.core.specs.Prelude": "core/specs/Prelude.antt",
    "Rattle.std.specs.Prelude": "std/specs/Prelude.antt",
    "Rattle.std.proofs.Common": "std/proofs/Common.antt",
    "Rattle.std.specs": "std/specs/Lib.antt",
    "Rattle.core.specs.Borrow": "core/specs/Borrow.antt",
    "Rattle.core.specs.Float": "core/specs/Float.antt",
}
PASSES = re.compile(r"^(?:unfoldable )?(pub use \S+(?:\.\{[^}\n]*\})?)$", re.M)
HEAD = """\
# What modules of the kit pass on, each name with the module that it is brought in from: the `pub use` lines of those modules, as they stand
# there. `.ci/statements --kit` holds this table to the kit's own files, and `.ci/statements --kit --write` writes it.
"""


class NoKit(Exception):
    """No toolchain on this machine, or one of another layout."""


def from_kit():
    """The table as the kit's own files make it."""
    try:
        ran = subprocess.run(["rt", "doc"], stdout=subprocess.PIPE, stderr=subprocess.DEVNULL, text=True, check=True)
        sources = os.path.join(os.path.dirname(ran.stdout.strip()), "rattle")
        out = [HEAD]
        for module, path in MODULES.items():
            with open(os.path.join(sources, path), encoding="utf-8") as file:
                lines = PASSES.findall(file.read())
            out.append(f"\n## {module}\n" + "".join(line + "\n" for line in lines))
        return "".join(out)
    except (OSError, subprocess.CalledProcessError) as trouble:
        raise NoKit(f"no Rattle kit (rt) on this machine, or not with the files that are read of it: {trouble}") from trouble


def table():
    with open(os.path.join(HERE, TABLE), encoding="utf-8") as file:
        return file.read()


@functools.cache
def passed_on():
    """For each module and name, the module that it is brought in from, and its name there; a name may be a module's."""
    found, module = {}, None
    for line in table().splitlines():
        if line.startswith("## "):
            module = line.removeprefix("## ")
        elif line.startswith("pub use "):
            for use in antt.read(line).uses:
                items = use.items or [(use.path.rpartition(".")[2], use.alias)]
                found.update({(module, brought): (use.path if use.items else use.path.rpartition(".")[0], item) for item, brought in items})
    return found


def below(module, name):
    """Where a module brings a name in from; none where it does not, or under another name, which is then one of its own."""
    path, item = passed_on().get((module, name), (None, None))
    return path if item == name else None


def resolved(path):
    """A module's path, with each module that another passes on by the path at which it is declared."""
    above, _, last = path.rpartition(".")
    if not above:
        return path
    above = resolved(above)
    return resolved(f"{below(above, last)}.{last}") if below(above, last) else f"{above}.{last}"


def origin(module, name):
    """The module that declares what a module passes on under a name; that module itself, where it passes nothing on."""
    module = resolved(module)
    while below(module, name):
        module = resolved(below(module, name))
    return module
