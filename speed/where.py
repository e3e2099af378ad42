"""Where the instructions of a step go: by the function of crates/ that each comes from. Behind `./bench-speed --where`.

The kit compiles the step as one LLVM module, in which every function still has its name. Here each instruction of that module gets a
place, the number of its function, as debug information, and the module is compiled with the same words as before. A place changes no
code: the result must be, byte for byte, that of target/staticlib/libhosts.a. So what was counted by address is known by function,
however it was inlined.

  where.py library FOLDER        makes FOLDER/libhosts.a, the same code with its places
  where.py table FOLDER ROUNDS   makes the table, of what bench-speed counted and put into FOLDER/counts"""

import bisect
import os
import re
import shlex
import shutil
import struct
import subprocess
import sys
from pathlib import Path
from tempfile import TemporaryDirectory

LANE_TEST = "bench::actives::bit_is_set"
LIBRARY = Path("target/staticlib/libhosts.a")
CRATE = Path("crates/hosts_c")
STEP = "kjolvast_step"
# a function with less than this share of a step is not listed by itself
LISTED = 0.01


class Trouble(Exception):
    """What ends the run, in one line."""


def run(*words: str | Path, **more) -> str:
    done = subprocess.run(words, capture_output=True, text=True, **more)
    if done.returncode != 0:
        said = (done.stderr.strip() or done.stdout.strip() or "it said nothing").splitlines()
        raise Trouble(f"'{Path(words[0]).name}' ended with status {done.returncode}: {said[-1]}")
    return done.stdout


# ---- the module, from the kit

# Stands where the kit's compiler is looked for, keeps what that is handed, and hands it on
CATCHER = """#!/bin/sh
set -eu
for word; do
    case $word in *.bc) cp "$word" {folder}/module.bc ;; esac
done
printf '%s\\n' "$@" > {folder}/words
exec {compiler} "$@"
"""


def linked(kit: Path, seen: Path, *roads: tuple[str, ...]) -> None:
    """Makes `seen` a folder that looks like the kit, but for the places at the ends of some roads of folders, which are left out."""
    seen.mkdir()
    for entry in kit.iterdir():
        further = [road[1:] for road in roads if road[0] == entry.name]
        if not further:
            (seen / entry.name).symlink_to(entry)
        elif () not in further:
            linked(entry, seen / entry.name, *further)


def module(folder: Path) -> tuple[Path, list[str]]:
    """The kit's compiler and the words that it compiles FOLDER/module.bc with."""
    kit, road = Path(run("rt", "doc").strip()).parent, ("toolchain", "bin", "clang")
    # rt looks for all else beside where its own files truly lie
    own = [("bin", "rt"), ("bin", "rtlib.py")]
    compiler, here = kit.joinpath(*road), shlex.quote(str(folder.resolve()))
    # elsewhere, since rt ci takes no links below its repository
    with TemporaryDirectory(prefix="kjolvast-kit-") as room:
        seen = Path(room) / "kit"
        catcher = seen.joinpath(*road)
        linked(kit, seen, road, *own)
        for file in own:
            shutil.copy2(kit.joinpath(*file), seen.joinpath(*file))
        catcher.write_text(CATCHER.format(folder=here, compiler=shlex.quote(str(compiler))))
        catcher.chmod(0o755)
        run(seen / "bin" / "rt", "lib", cwd=CRATE)
    if not (folder / "module.bc").exists():
        raise Trouble("the kit's compiler was handed no module.bc")
    words = (folder / "words").read_text().splitlines()
    return compiler, [f"--sysroot={compiler.parents[1]}" if word.startswith("--sysroot=") else word for word in words]


# ---- a place for each instruction

PLACES = """
!llvm.dbg.cu = !{{!{0}}}
!llvm.module.flags = !{{!{1}, !{2}}}
!{0} = distinct !DICompileUnit(language: DW_LANG_C, file: !{3}, emissionKind: FullDebug)
!{1} = !{{i32 2, !"Debug Info Version", i32 3}}
!{2} = !{{i32 7, !"Dwarf Version", i32 4}}
!{3} = !DIFile(filename: "step", directory: "/")
!{4} = !DISubroutineType(types: !{{}})
"""
FUNCTION = """!{0} = distinct !DISubprogram(name: "{2}", file: !{5}, line: {3}, type: !{6}, spFlags: DISPFlagDefinition, unit: !{4})
!{1} = !DILocation(line: {3}, scope: !{0})
"""


def marked(text: str) -> tuple[str, list[str]]:
    """The module with its places, and the names of its functions: line n of file `step` is the nth."""
    free = 1 + max((int(n) for n in re.findall(r"^!(\d+) = ", text, re.M)), default=0)
    unit = range(free, free + 5)
    places = PLACES.format(*unit)
    names: list[str] = []
    lines = []
    inside = False
    for line in text.splitlines():
        begun = re.match(r'define .*?@("?)(.*?)\1\(.*\{$', line)
        if begun:
            inside = True
            names.append(begun[2])
            function = unit.stop + 2 * len(names)
            place = function + 1
            places += FUNCTION.format(function, place, begun[2], len(names), unit[0], unit[3], unit[4])
            line = f"{line[:-1]}!dbg !{function} {{"
        elif line == "}":
            inside = False
        # an instruction; one with a list in brackets has its place after the last line
        elif inside and (line == "  ]" or re.match(r"  \S", line) and not line.endswith("[")):
            line += f", !dbg !{place}"
        lines.append(line)
    return "\n".join(lines) + places, names


def code(elf: bytes) -> dict[str, bytes]:
    """The sections with code of a 64-bit ELF file."""
    (start,) = struct.unpack_from("<Q", elf, 40)
    size, count, strings = struct.unpack_from("<HHH", elf, 58)
    heads = [struct.unpack_from("<IIQQQQ", elf, start + n * size) for n in range(count)]
    names = elf[heads[strings][4] :]
    executable = [head for head in heads if head[2] & 4]
    return {names[head[0] : names.index(0, head[0])].decode(): elf[head[4] : head[4] + head[5]] for head in executable}


def library(folder: Path) -> None:
    if folder.exists():
        shutil.rmtree(folder)
    folder.mkdir(parents=True)
    compiler, words = module(folder)
    as_text = ["-Xclang", "-disable-llvm-passes", "-S", "-emit-llvm", "-x", "ir", "module.bc", "-o", "module.ll"]
    run(compiler, *(word for word in words if word.startswith("--")), *as_text, cwd=folder)
    text, names = marked((folder / "module.ll").read_text())
    (folder / "marked.ll").write_text(text)
    (folder / "functions").write_text("\n".join(names))
    run(compiler, *(word.replace("module.bc", "marked.ll") for word in words), cwd=folder)
    archiver = compiler.with_name("llvm-ar")
    original = subprocess.run([archiver, "p", LIBRARY], capture_output=True, check=True).stdout
    if code(original) != code((folder / "module.o").read_bytes()):
        raise Trouble(f"with its places the step has other code than {LIBRARY}, so that nothing can be said of it")
    run(archiver, "rcs", "libhosts.a", "module.o", cwd=folder)


# ---- the table


def line_table(program: Path) -> list[tuple[int, int | None]]:
    """From which address on it is which function, upward: its number, 0 where an instruction comes from no one, None where the step ends."""
    found = []
    for line in run("readelf", "--debug-dump=decodedline", program).splitlines():
        row = re.match(r"step +(\d+|-) +(0x[0-9a-f]+|0)\b(.*)", line)
        if row:
            ends = row[1] == "-" or "END" in row[3]
            found.append((int(row[2], 16), None if ends else int(row[1])))
    # where one row ends and another begins, the one that begins counts; and of several at an address the last
    found.sort(key=lambda row: (row[0], row[1] is not None))
    return found


def address_of_step(program: Path) -> int:
    symbols = re.findall(rf"^ *\d+: ([0-9a-f]+) .* {STEP}$", run("readelf", "-sW", program), re.M)
    if len(set(symbols)) != 1:
        raise Trouble(f"no one {STEP} in {program}")
    return int(symbols[0], 16)


class Row:
    """What was counted for a row of the benchmark, per step: all, and by function, where 0 is no one function and None outside the step."""

    def __init__(self, folder: Path, number: str, rounds: int, lines: list[tuple[int, int | None]], step: int):
        counted = folder / "counts" / number
        steps, place = counted.with_suffix(".made").read_text().split()
        made = int(steps) * rounds
        # the program is not where its file says, but all of it is moved alike
        moved = int(place, 16) - step
        without, each = (counted.with_suffix(kind).read_text().split("\n") for kind in (".none", ".each"))
        self.all = (total(each) - total(without)) / made
        self.by: dict[int | None, float] = {}
        starts = [start for start, _ in lines]
        for _, hexadecimal, executed in (line.split() for line in each if line.startswith("at ")):
            address = int(hexadecimal, 16) - moved
            if address == step and int(executed) != made:
                raise Trouble(f"row {number}: {made} steps were made, and {STEP} was entered {executed} times")
            at = bisect.bisect_right(starts, address) - 1
            function = lines[at][1] if at >= 0 else None
            if function is not None:
                self.by[function] = self.by.get(function, 0) + int(executed) / made
        self.by[None] = self.all - sum(self.by.values())

    def of(self, *functions: int | None) -> float:
        return sum(self.by.get(function, 0) for function in functions)

    def cells(self, *functions: int | None) -> str:
        return f"{self.of(*functions):9.1f} {self.of(*functions) / self.all:7.1%}"


def total(lines: list[str]) -> int:
    """How many instructions the plugin counted in all."""
    told = [int(line.split()[1]) for line in lines if line.startswith("instructions ")]
    if len(told) != 1:
        raise Trouble("the plugin speed/count.c told no number of instructions")
    return told[0]


def by_function(rows: list[tuple[str, Row]], names: list[str]) -> list[str]:
    """The mixed loads by function, the largest first, for each VL."""
    every = range(1, len(names) + 1)
    listed = [n for n in every if any(row.of(n) >= LISTED * row.all for _, row in rows)]
    listed.sort(key=lambda n: -rows[0][1].of(n))
    others = [n for n in every if n not in listed]
    lines = [(names[n - 1], [n]) for n in listed]
    lines += [("all others together", others), ("of no one function: spilled, merged", [0])]
    lines += [("outside the step: who calls it, memset", [None])]
    said = ["", f"{'all mixed, by function':<40}" + "".join(f"{f'VL {vl}':>18}" for vl, _ in rows)]
    return said + [f"  {name:<38}" + "".join(row.cells(*functions) for _, row in rows) for name, functions in lines]


def table(folder: Path, rounds: int) -> str:
    names = (folder / "functions").read_text().splitlines()
    if LANE_TEST not in names:
        raise Trouble(f"no function {LANE_TEST} in the step")
    program = folder / "speed"
    lines, step = line_table(program), address_of_step(program)
    test = names.index(LANE_TEST) + 1
    said = [f"the lane test is {LANE_TEST}, wherever it was inlined; the jump on its answer belongs to who asked", ""]
    said += ["executed x86-64 instructions per step", f"{'':<20} {'VL':>5} {'step':>9} {'lane test':>9}   share"]
    mixed = []
    for named in (folder / "rows").read_text().splitlines():
        number, vl, name = named.split(" ", 2)
        row = Row(folder, number, rounds, lines, step)
        said.append(f"  {name:<18} {vl:>5} {row.all:9.1f} {row.cells(test)}")
        if name == "all mixed" and vl in ("512", "2048"):
            mixed.append((vl, row))
    return "\n".join(said + by_function(mixed, names))


def main(words: list[str]) -> None:
    match words:
        case ["library", folder]:
            library(Path(folder).absolute())
        case ["table", folder, rounds]:
            print(table(Path(folder), int(rounds)), flush=True)
        case _:
            raise Trouble("library FOLDER, or table FOLDER ROUNDS")


try:
    main(sys.argv[1:])
except (Trouble, OSError, ValueError) as trouble:
    print(f"bench-speed: {trouble}", file=sys.stderr)
    # what is left to be written cannot be, where writing was the trouble
    os._exit(2)
