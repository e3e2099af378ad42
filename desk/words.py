"""A word as assembler text, spelt as binutils spells it, with what its text names. For showing alone: what a word does, and whether
it is a load at all, is the proved program's answer. The gate holds these texts to the 39,000 lines of binutils in crates/binutils/stdin."""

from dataclasses import dataclass

from desk.bench import VECTORS

# The family rows of document 01, with those of document 02, One; a letter stands for a bit of its field. LD1R to LD4R share a row for
# each way to address, since o and r together are the number of registers less 1. Their L is 1 and their S is 0: others are undefined.
ROWS = {
    "replicate": "0q001101 0 1 r 00000 11o 0 ss nnnnn ttttt",
    "replicate post": "0q001101 1 1 r mmmmm 11o 0 ss nnnnn ttttt",
    "ld1r element": "1000010 aa 1 iiiiii 1 bb ggg nnnnn ttttt",
    "ld1 imm": "1010010 dddd 0 iiii 101 ggg nnnnn ttttt",
    "ld1 reg": "1010010 dddd mmmmm 010 ggg nnnnn ttttt",
    "ld1rq imm": "1010010 ss 00 0 iiii 001 ggg nnnnn ttttt",
    "ld1rq reg": "1010010 ss 00 mmmmm 000 ggg nnnnn ttttt",
    "ld1ro imm": "1010010 ss 01 0 iiii 001 ggg nnnnn ttttt",
    "ld1ro reg": "1010010 ss 01 mmmmm 000 ggg nnnnn ttttt",
}

# dtype's sixteen rows: memory size as a mnemonic has it, with s before it for sign extension, and lane size
DTYPES = "b>b b>h b>s b>d sw>d h>h h>s h>d sh>d sh>s w>s w>d sb>d sb>s sb>h d>d".split()

# a size's letter, as a lane and as a mnemonic has it
LANES = "bhsd"
SIZES = "bhwd"


@dataclass(frozen=True)
class Shown:
    """The text of a load, and the registers that it names: the destinations in their order with the size of their lanes, the governing
    predicate, the base and the index, none where there is none. `whole`: the lane is as wide as what was read into it, so that a lane
    of 32 or 64 bits may be a float."""

    text: str
    targets: tuple[int, ...]
    lane: str
    predicate: int | None
    base: str
    index: str | None
    whole: bool

    @property
    def lane_bits(self) -> int:
        return 8 << LANES.index(self.lane)


def fields(row: str, word: int) -> dict[str, int] | None:
    """The fields of a word by their letters, or none where a fixed bit differs."""
    found: dict[str, int] = {}
    pattern = row.replace(" ", "")
    for place, letter in enumerate(pattern):
        bit = word >> (31 - place) & 1
        if letter in "01":
            if bit != int(letter):
                return None
        else:
            found[letter] = found.get(letter, 0) << 1 | bit
    return found


def scalar(n: int) -> str:
    return "sp" if n == 31 else f"x{n}"


def signed(field: int) -> int:
    """Four bits as a number from -8 to 7."""
    return field - 16 if field > 7 else field


def sizes(f: dict[str, int]) -> tuple[str, str]:
    """The memory size as a mnemonic has it, and the letter of the lane size."""
    if "s" in f:
        return SIZES[f["s"]], LANES[f["s"]]
    dtype = f["d"] if "d" in f else f["a"] << 2 | f["b"]
    memory, lane = DTYPES[dtype].split(">")
    return memory, lane


def address(family: str, f: dict[str, int], memory: str) -> str:
    """What stands in the brackets of an SVE load; an offset of nothing is left out."""
    log = SIZES.index(memory[-1])
    base = scalar(f["n"])
    if "m" in f:
        return f"[{base}, x{f['m']}, lsl #{log}]" if log else f"[{base}, x{f['m']}]"
    if family == "ld1 imm":
        return f"[{base}, #{signed(f['i'])}, mul vl]" if f["i"] else f"[{base}]"
    scale = {"ld1r element": 1 << log, "ld1rq imm": 16, "ld1ro imm": 32}[family]
    offset = (f["i"] if family == "ld1r element" else signed(f["i"])) * scale
    return f"[{base}, #{offset}]" if offset else f"[{base}]"


def structure(targets: tuple[int, ...], lanes: str) -> str:
    """A list of V registers. binutils writes three or more as a range, but not where 31 is followed by 0."""
    names = [f"v{target}.{lanes}" for target in targets]
    if len(names) > 2 and targets[0] < targets[-1]:
        return f"{{{names[0]}-{names[-1]}}}"
    return f"{{{', '.join(names)}}}"


def advanced(family: str, f: dict[str, int]) -> Shown:
    """LD1R to LD4R of source document 004, which name V registers and no predicate."""
    lane = LANES[f["s"]]
    registers = (f["o"] << 1 | f["r"]) + 1
    targets = tuple((f["t"] + n) % VECTORS for n in range(registers))
    base = scalar(f["n"])
    index = scalar(f["m"]) if f.get("m", 31) != 31 else None
    count = (16 if f["q"] else 8) >> f["s"]
    text = f"ld{registers}r {structure(targets, f'{count}{lane}')}, [{base}]"
    if family == "replicate post":
        text += f", {index}" if index else f", #{registers << f['s']}"
    return Shown(text, targets, lane, None, base, index, True)


def predicated(family: str, f: dict[str, int]) -> Shown:
    """The SVE loads."""
    memory, lane = sizes(f)
    text = f"{family.split()[0]}{memory} {{z{f['t']}.{lane}}}, p{f['g']}/z, {address(family, f, memory)}"
    index = scalar(f["m"]) if "m" in f else None
    return Shown(text, (f["t"],), lane, f["g"], scalar(f["n"]), index, memory == SIZES[LANES.index(lane)])


def disassemble(word: int) -> Shown | None:
    """The load that a word is; none for a word of no row and for one that is undefined by itself."""
    for family, row in ROWS.items():
        f = fields(row, word)
        if f is None:
            continue
        if "q" in f:
            return advanced(family, f)
        return predicated(family, f) if f.get("m") != 31 else None
    return None
