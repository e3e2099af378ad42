"""The command line of ./kj."""

import argparse
import os
import shlex
import sys

from desk import as_json, program, showing
from desk.bench import Script
from desk.cases import case
from desk.complaints import BadInput, Trouble, one_line, reason
from desk.reading import read
from desk.telling import tell

HELP = """\
usage: ./kj [--json] [--cases OUT] [--program COMMAND] FILE

Steps Arm vector loads on a bench that is written down in FILE, by the proved program, and shows each answer and what changed.
Try it:  ./kj demo/crossing-north.toml

  --json             one JSON document instead of text (below)
  --cases OUT        write the cases that were stepped to the file OUT as well (docs/CASES.md); ./replay < OUT steps them again
  --program COMMAND  step by another program that reads cases and writes outcomes (docs/CASES.md), such as
                     'second/target/release/second answer', in place of the proved one; the first line then says so
  --help             this

FILE is TOML. Only vl and words have to be there.

  title = "Crossing north"
  vl = 128                                        # vector length in bits
  switches = { simd = true, sve = true, f64mm = true }    # all on unless said
  scalars = { x0 = 0x20000000, sp = 0x8000, pc = 0x400 }  # x0 to x30, sp, pc; others 0
  words = [0xA5E0A000, "A5E0A400", { word = 0xA5E0A800, note = "what it is for" }]

  [predicates]                                    # p0 to p15; others have no lane active
  p0 = { size = 64, lanes = [0, 1] }              # the active lanes, of 64 bits; or lanes = "all"
  p1 = { hex = "0101" }                           # the register's bytes, lowest first, zeros above

  [vectors]                                       # z0 to z31 before the first step; others 0
  z0 = { doubles = [359.8, 359.9] }               # one piece, zeros above

  [ram]                                           # and [flash] alike
  start = 0x20000000
  bytes = [{ doubles = [359.9, 0.1] }, { at = 4096, hex = "00 ff" }]    # one piece, or a list of them upward
  length = 8192                                   # zeros up to here
  rights = ["read", "none"]                       # a page of 4,096 bytes each; all readable unless said

A piece is one of hex, text (as UTF-8), doubles, singles, or file (a path from FILE's folder); with at = OFFSET it lies there.
A right may be a number: the rights byte itself. A number may be a string in hexadecimal, such as "0xfffffffffffff000".

The words are stepped one after the other on what the step before left; after an answer other than 0 the bench is as it
was, and the next word is stepped on that. What the bench does not accept, a vl of 100 say, is lent as it is written and
answered with 1. The program is proved and built first if need be, which takes some minutes once.

In JSON each step of a word that has an assembler text has "destinations": an object for each register that it names for
what it reads, in its order (31 is followed by 0), with "register", "lane_bits" and "lanes", lane 0 first, each of which has
"before" and "after". A load of one register has the same object as "destination" too; LD2R, LD3R and LD4R do not.
Lanes and numbers of 64 bits are strings in hexadecimal; a lane that may be a float has "before_float" and "after_float".

exit status: 0 all words were stepped, whatever the answers; 2 the file or the arguments cannot be used, or the program
cannot be built or run, and one line on standard error says why.
"""


class Arguments(argparse.ArgumentParser):
    def error(self, message: str):
        """One line, as for every other bad input."""
        raise BadInput(f"{message}; ./kj --help tells how it is used")


def arguments(argv: list[str]) -> argparse.Namespace:
    parser = Arguments(prog="kj", add_help=False, allow_abbrev=False)
    parser.add_argument("file", nargs="?")
    parser.add_argument("-h", "--help", action="store_true")
    parser.add_argument("--json", action="store_true")
    parser.add_argument("--cases")
    parser.add_argument("--program")
    asked, more = parser.parse_known_args(argv)
    if more:
        parser.error(f"no such option or second file: {more[0]}")
    if asked.file is None and not asked.help:
        parser.error("which file?")
    return asked


def colours() -> bool:
    """On a terminal, unless it or its user wants none."""
    return sys.stdout.isatty() and not os.environ.get("NO_COLOR") and os.environ.get("TERM") != "dumb"


def run(script: Script, command: list[str], asked: argparse.Namespace) -> None:
    """Steps the words and shows each as it is answered; a JSON document is written whole or not at all."""
    paint = showing.Paint(colours())
    other = asked.program
    above = (f"stepped by {one_line(other)}, not by the proved program\n" if other else "") + showing.heading(script, paint)
    bench, tolds = script.bench, []
    for number, step in enumerate(script.steps, 1):
        outcome = program.step(command, step.word, bench)
        tolds.append(tell(step, bench, outcome))
        bench = outcome.bench
        if not asked.json:
            put(above + showing.step(number, tolds[-1], paint))
            above = ""
    if asked.json:
        put(as_json.document(script, tolds, other))
    if asked.cases is not None:
        put_file(asked.cases, b"".join(case(told.step.word, told.before) for told in tolds))


def put_file(path: str, content: bytes) -> None:
    """Writes a plain file whole or not at all. A pipe or a device is written to, and never put away for a file."""
    try:
        if os.path.exists(path) and not os.path.isfile(path):
            with open(path, "wb") as file:
                file.write(content)
        else:
            put_whole(os.path.realpath(path), content)
    except (OSError, ValueError) as error:
        raise Trouble(f"{path}: cannot be written: {reason(error)}") from None


def put_whole(path: str, content: bytes) -> None:
    """Beside the file first, under a name that was free."""
    part = f"{path}.part"
    file = open(part, "xb")
    try:
        with file:
            file.write(content)
        os.replace(part, path)
    except OSError:
        os.unlink(part)
        raise


def put(text: str) -> None:
    """Writes to standard output at once."""
    try:
        sys.stdout.write(text)
        sys.stdout.flush()
    except OSError as error:
        # what Python would still write at its end goes nowhere
        os.dup2(os.open(os.devnull, os.O_WRONLY), sys.stdout.fileno())
        if not isinstance(error, BrokenPipeError):
            raise Trouble(f"standard output cannot be written: {error.strerror}") from None
        raise


def obey(argv: list[str]) -> None:
    asked = arguments(argv)
    if asked.help:
        put(HELP)
        return
    script = read(asked.file)
    if asked.program is not None:
        command = other_program(asked.program)
    else:
        command = [str(program.ROOT / "replay")]
        program.build()
    run(script, command, asked)


def other_program(text: str) -> list[str]:
    try:
        command = shlex.split(text)
    except ValueError as error:
        raise BadInput(f"--program: {error}") from None
    if not command:
        raise BadInput("--program: no command is named")
    return command


def open_streams() -> None:
    """A complaint goes nowhere where standard error is closed; a letter that standard output does not have is written by its number."""
    if sys.stderr is None:
        sys.stderr = open(os.devnull, "w")
    if sys.stdout is None:
        raise Trouble("standard output is closed")
    sys.stdout.reconfigure(errors="backslashreplace")


def main(argv: list[str]) -> int:
    try:
        open_streams()
        obey(argv)
    except (BadInput, Trouble) as error:
        print(f"kj: {one_line(str(error))}", file=sys.stderr)
        return 2
    except BrokenPipeError:
        pass  # who reads has seen enough
    except KeyboardInterrupt:
        print("kj: interrupted", file=sys.stderr)
        return 130
    return 0
