"""The proved program `replay`: built if need be, and run for one case at a time."""

import fcntl
import os
import re
import resource
import subprocess
import sys
import time
from pathlib import Path
from tempfile import TemporaryFile

from desk.bench import Bench
from desk.cases import Outcome, case, outcome
from desk.complaints import Trouble

ROOT = Path(__file__).resolve().parent.parent
PROGRAM = "replay"
FOLDER = ROOT / "crates" / PROGRAM
BINARY = FOLDER / "out" / PROGRAM
BY = f"'rt run' in crates/{PROGRAM}"
# of what rt says of each crate, its name and the verdict; and the lines that tell of trouble
REPORT = re.compile(r"crate (\w+): modules ")
PROVED = "logic=proved "
TROUBLE = re.compile(r"rt: (?!chose |running |nothing has changed)|fn \S+: (?:not proved|no proof)|\S+: error")
SECONDS = 60
# more than the longest outcome
MOST_SAID = 2**20


def crates_behind(name: str) -> set[str]:
    """The crates that a program is made of, by crates.txt."""
    needs = {}
    for line in (ROOT / "crates.txt").read_text().splitlines():
        if ":" in line and not line.startswith("#"):
            crate, behind = line.split(":", 1)
            needs[crate.split()[0]] = behind.split()
    found: set[str] = set()
    ahead = [name]
    while ahead:
        crate = ahead.pop()
        if crate in needs and crate not in found:
            found.add(crate)
            ahead += needs[crate]
    return found


def newest_source() -> float:
    """When a source of the program was last written."""
    sources = [ROOT / "crates.txt"]
    for crate in crates_behind(PROGRAM):
        for folder in ("src", "specs", "proofs"):
            sources += (ROOT / "crates" / crate / folder).rglob("*")
    return max(source.stat().st_mtime for source in sources if source.is_file())


def built() -> bool:
    """Whether the program is there and no source of it is newer."""
    return BINARY.exists() and newest_source() <= BINARY.stat().st_mtime


def say(text: str) -> None:
    print(f"kj: {text}", file=sys.stderr, flush=True)


def build() -> None:
    """Proves and builds the program where it is not there or is older than its sources; a second kj waits for the first."""
    try:
        if built():
            return
        with open(ROOT / "crates.txt", "rb") as lock:
            fcntl.flock(lock, fcntl.LOCK_EX)
            if not built():
                prove()
    except OSError as error:
        raise Trouble(f"the proved program cannot be built: {error.filename or ''}: {error.strerror}") from None


def prove() -> None:
    """Runs `rt run`, telling each crate as it is proved, since this takes minutes. The program is run at its end, on no case at all."""
    begun = before = time.monotonic()
    say(f"proving and building the program '{PROGRAM}' by {BY}: once, some 2 to 5 minutes")
    said, crate = [], PROGRAM
    if not FOLDER.is_dir():
        raise FileNotFoundError(2, "No such file or directory", str(FOLDER))
    piped = {"stdin": subprocess.DEVNULL, "stdout": subprocess.PIPE, "stderr": subprocess.STDOUT}
    try:
        running = subprocess.Popen(["rt", "run"], cwd=FOLDER, text=True, errors="replace", **piped)
    except OSError as error:
        raise Trouble(f"the Rattle kit's command 'rt', which builds the proved program, cannot be run: {error.strerror}") from None
    with running:
        assert running.stdout is not None
        for line in running.stdout:
            said.append(line)
            if found := REPORT.match(line):
                crate = found[1]
            elif line.startswith(PROVED):
                say(f"  {crate} proved ({time.monotonic() - before:.0f} s)")
                before = time.monotonic()
    if running.returncode != 0 or not BINARY.exists():
        last = next((line.strip() for line in reversed(said) if TROUBLE.match(line)), "it said nothing")
        raise Trouble(f"the program could not be built; {BY} says: {last}")
    # rt leaves a program alone that has not changed, so it is told here that no source is newer
    now = max(time.time(), newest_source())
    os.utime(BINARY, (now, now))
    say(f"built in {time.monotonic() - begun:.0f} s")


def limited() -> None:
    """Before a program runs: it may not write without end, and no more than its caller may."""
    hard = resource.getrlimit(resource.RLIMIT_FSIZE)[1]
    most = MOST_SAID if hard == resource.RLIM_INFINITY else min(MOST_SAID, hard)
    resource.setrlimit(resource.RLIMIT_FSIZE, (most, most))


def step(command: list[str], word: int, bench: Bench) -> Outcome:
    """Has the program step one word. A run for each word, from a file into files, so that nothing rests on when it reads and writes."""
    try:
        with TemporaryFile() as given, TemporaryFile() as said, TemporaryFile() as complained:
            given.write(case(word, bench))
            given.seek(0)
            ran = subprocess.run(command, stdin=given, stdout=said, stderr=complained, timeout=SECONDS, preexec_fn=limited)
            said.seek(0)
            complained.seek(0)
            return answered(ran.returncode, said.read(), complained.read(1000), bench)
    except OSError as error:
        raise Trouble(f"{command[0]}: cannot be run: {error.strerror}") from None
    except subprocess.TimeoutExpired:
        raise Trouble(f"{command[0]}: no outcome after {SECONDS} s") from None
    except ValueError as error:
        raise Trouble(f"{command[0]}: {error}") from None


def answered(status: int, said: bytes, complained: bytes, bench: Bench) -> Outcome:
    """The outcome, if the program ended well and complained of nothing."""
    why = complained.decode(errors="replace").strip().splitlines()
    if why:
        raise ValueError(why[-1])
    if status != 0:
        raise ValueError(f"ended by signal {-status}" if status < 0 else f"exit status {status}")
    return outcome(said, bench)
