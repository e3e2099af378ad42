"""Tries wrong edits for their logs, which neither `rt ci` nor `rt must-fail` keeps: each is made in a copy of its crate, and `rt check` runs
there, over what a check of the crate as it stands kept. What comes of it is below target/must-fail, by crate and edit:

    CRATE/NAME.out            how the check ended, and by which toolchain
    CRATE/NAME/.log           what it said
    CRATE/NAME/FILE.tried     the crate's files as they were tried
    CRATE/needs.json          what the prover asks of the functions whose proofs by hand the logs speak of

A folder of copies has the libraries below the crate as they were built, so that nothing but the crate is checked again."""
import json
import os
import queue
import re
import shutil
import subprocess
import tempfile
from concurrent.futures import ThreadPoolExecutor

from listed import edits, holding, logs, places
from listed.tree import crate_lines

EACH = 3_000_000  # kB of memory that are left for each check beside others
WORK = "out/incremental"


class Stopped(Exception):
    """Why nothing can be tried."""


def rt(folder, *words):
    """Runs rt in a folder; its status, and what it said."""
    try:
        ran = subprocess.run(["rt", *words], cwd=folder, stdin=subprocess.DEVNULL, stdout=subprocess.PIPE, stderr=subprocess.STDOUT,
                             encoding="utf-8", errors="replace")
    except OSError as trouble:
        raise Stopped(f"rt cannot be run in {folder}: {trouble.strerror}") from trouble
    return ran.returncode, ran.stdout


def side_by_side():
    """How many checks run at a time: one a processor, as many as the free memory holds, or what RT_JOBS says."""
    if os.environ.get("RT_JOBS", "").isdigit():
        return max(1, int(os.environ["RT_JOBS"]))
    with open("/proc/meminfo", encoding="ascii") as file:
        free = int(re.search(r"MemAvailable:\s+(\d+)", file.read())[1])
    return max(1, min(len(os.sched_getaffinity(0)), free // EACH))


def linked(one, other):
    """Copies a file, one that was proved by a link where that can be: a check replaces such a file, and changes none."""
    try:
        if one.endswith(".oantt"):
            return os.link(one, other)
    except OSError:
        pass
    return shutil.copy2(one, other)


def copied(one, other, copy=shutil.copy2):
    """Copies a folder, where it is there."""
    if os.path.isdir(one):
        shutil.copytree(one, other, copy_function=copy)


def make_room(root, room, crate, crates):
    """A folder for tries of a crate's edits: a repository with that crate and what it rests on."""
    os.makedirs(f"{room}/.git")
    if os.path.isfile(f"{root}/HANDLES"):
        shutil.copy2(f"{root}/HANDLES", room)
    for other in {crate} | holding.rests_on(crate, crates):
        for part in edits.PARTS:
            copied(f"{root}/crates/{other}/{part}", f"{room}/crates/{other}/{part}")
        if other != crate:
            copied(f"{root}/crates/{other}/out/rlib", f"{room}/crates/{other}/out/rlib", linked)
    with open(f"{root}/crates.txt", encoding="utf-8") as file:
        lines = [line for line in file if set(crate_lines(line)) & ({crate} | holding.rests_on(crate, crates))]
    put(room, "crates.txt", "".join(lines))


def put(root, path, text):
    os.makedirs(os.path.dirname(f"{root}/{path}"), exist_ok=True)
    with open(f"{root}/{path}", "w", encoding="utf-8") as file:
        file.write(text)


def try_one(root, room, edit, made, version):
    """Tries an edit in a room, and keeps what came of it. `made`: the files of the crate with it."""
    here = f"{room}/crates/{edit.crate}"
    for part in (*edits.PARTS, "out"):
        shutil.rmtree(f"{here}/{part}", ignore_errors=True)
    for path, text in made.items():
        put(here, path, text)
    copied(f"{root}/crates/{edit.crate}/{WORK}", f"{here}/{WORK}", linked)
    status, said = rt(here, "check", "--jobs", "1")
    shutil.rmtree(f"{root}/{edit.log}", ignore_errors=True)
    for path, text in made.items():
        put(root, f"{edit.log}/{path}{edits.TRIED}", text)
    put(root, f"{edit.log}/.log", said)
    put(root, f"{edit.log}.out", f"rt check: status {status}\n{version}\n")


def is_fresh(edit, made, texts, times, version):
    """Whether there is a log of this edit of this tree by this toolchain."""
    out = texts.get(edit.log + ".out", "")
    try:
        holding.hold_times(edit, texts, times)
    except edits.Unfit:
        return False
    return made == edit.tried(texts) and edit.log + "/.log" in texts and logs.TRIED.match(out) and out.endswith(f"\n{version}\n")


def to_try(texts, times, found, version):
    """The edits without such a log, by crate, each with the files of its crate as it makes them. One that cannot be made is left out."""
    waiting = {}
    for (crate, name), path in found.items():
        edit = edits.Edit(crate, name, path, texts[path])
        try:
            made = edits.applied(edit, edits.files_below(texts, f"crates/{crate}/"))
        except edits.Unfit:
            continue
        if not is_fresh(edit, made, texts, times, version):
            waiting.setdefault(crate, []).append((edit, made))
    return waiting


def check_crate(root, crate):
    """Checks a crate as it stands, so that there is kept work to begin with, and an edit alone is to blame for what is refused."""
    status, said = rt(f"{root}/crates/{crate}", "check")
    if status:
        raise Stopped(f"crates/{crate} is not proved as it stands (rt check ended with status {status}), so no edit of it was tried:\n{said}")


def try_crate(root, crate, waiting, crates, version):
    """Tries edits of a crate, as many side by side as there is room for."""
    check_crate(root, crate)
    rooms = queue.Queue()
    with tempfile.TemporaryDirectory(prefix="kjolvast-edits-") as top:
        number = min(side_by_side(), len(waiting))
        for at in range(number):
            make_room(root, f"{top}/{at}", crate, crates)
            rooms.put(f"{top}/{at}")

        def one(edit, made):
            room = rooms.get()
            try:
                try_one(root, room, edit, made, version)
            finally:
                rooms.put(room)

        with ThreadPoolExecutor(number) as pool:
            for done in [pool.submit(one, *it) for it in waiting]:
                done.result()


def asked(texts, crate):
    """The functions of a crate whose proofs by hand its logs have errors in, each as proofs/reads/survey."""
    below = f"target/must-fail/{crate}/"
    said = (text for path, text in texts.items() if path.startswith(below) and path.endswith("/.log"))
    return sorted({error.path.removesuffix(".antt").removesuffix(places.PROOF)
                   for log in said for error in logs.errors(log) if error.path.endswith(f"{places.PROOF}.antt")})


def find_needs(root, crate, functions):
    """Asks the prover for the needs of functions, and keeps them."""
    with tempfile.TemporaryDirectory(prefix="kjolvast-needs-") as top:
        names = ["::".join([crate, *function.split("/")[1:]]) for function in functions]
        status, said = rt(f"{root}/crates/{crate}", "check", "--generated", top, *(word for name in names for word in ("--start", name)))
        if status:
            raise Stopped(f"crates/{crate}: rt does not write what it asks of {', '.join(names)} (status {status}):\n{said}")
        needs = {}
        for function in functions:
            folder = f"{top}/Rattle-{crate}-proofs/{function.removeprefix('proofs/')}"
            with open(f"{folder}/Tie.antt", encoding="utf-8") as tie, open(f"{folder}/Goals.antt", encoding="utf-8") as goals:
                needs[function] = places.needs_in(tie.read(), goals.read())
    put(root, places.needs_file(crate), json.dumps(needs, indent=1, ensure_ascii=False) + "\n")


def lacks_needs(texts, times, crate, functions):
    """Whether the needs that are kept of a crate are not these functions', or older than it or what it rests on."""
    kept = places.needs_file(crate)
    below = tuple(f"crates/{one}/{part}" for one in {crate} | holding.rests_on(crate, crate_lines(texts["crates.txt"])) for part in edits.PARTS)
    newer = any(time > times.get(kept, 0) for path, time in times.items() if path.startswith(below))
    return newer or not set(functions) <= set(json.loads(texts.get(kept, "{}")))


def run(root, read, which, names, say):
    """Tries the edits that have no log of this tree. `read`: gives the texts of the repository, and when each was written."""
    status, version = rt(root, "version")
    if status:
        raise Stopped("no Rattle kit (rt) on this machine")
    texts, times = read()
    found, crates = holding.found_by(holding.EDITS[which], texts, names), crate_lines(texts["crates.txt"])
    waiting = to_try(texts, times, found, version.strip())
    for crate in (crate for crate in crates if crate in waiting):
        say(f"{crate}: trying {len(waiting[crate])} edits for their logs")
        try_crate(root, crate, waiting[crate], crates, version.strip())
    texts, times = read()
    for crate in dict.fromkeys(crate for crate, _ in found):
        functions = asked(texts, crate)
        if functions and lacks_needs(texts, times, crate, functions):
            find_needs(root, crate, functions)
