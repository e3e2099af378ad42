"""A bench written in TOML, read: every key is known and every number in range, or one line says which is not. Whether the bench is
accepted is not asked here: a start that is no multiple of 4,096 goes to the proved program, which answers 1."""

import math
import os
import re
import signal
import stat
import struct
import tomllib
from typing import Any, NoReturn

from desk.bench import PAGE, PREDICATES, RIGHTS, SCALARS, VECTORS, Area, Bench, Script, Step
from desk.cases import MOST_AREA_BYTES, MOST_PREDICATE_BYTES, MOST_RIGHTS, MOST_VECTOR_BYTES
from desk.complaints import BadInput, brief, one_line, reason
from desk.keys import Table, kind

MOST_VL = min(MOST_VECTOR_BYTES * 8 // VECTORS, MOST_PREDICATE_BYTES * 64 // PREDICATES)
MOST_64 = 2**64 - 1
# a file of text: many times what a bench with both areas in hexadecimal takes
MOST_TEXT = 2**24
SECONDS = 30
ROOM = ", for which the program has room"
SWITCHES = ("simd", "sve", "f64mm")
CONTENTS = ("hex", "text", "doubles", "singles", "file")
WORD = re.compile("(0[xX])?[0-9A-Fa-f]{8}")


def read(path: str) -> Script:
    """The script that a file holds."""
    top = Table(path, "", load(path))
    top.only(["title", "vl", "switches", "scalars", "predicates", "vectors", "flash", "ram", "words"])
    bench = Bench(vl=top.number("vl", MOST_VL, why=ROOM))
    switches = top.table("switches")
    switches.only(SWITCHES)
    for switch in SWITCHES:
        setattr(bench, switch, switches.of_type(switch, bool, True))
    bench.x = scalars(top.table("scalars"))
    bench.p = predicates(top.table("predicates"), bench)
    bench.z = vectors(top.table("vectors"), bench)
    bench.flash = area(top.table("flash"))
    bench.ram = area(top.table("ram"))
    return Script(path, one_line(top.of_type("title", str, "")), bench, words(top))


def load(path: str) -> dict[str, Any]:
    """What a file says as TOML. A pipe whose writer never ends, or a text made to be slow, does not hold a person up for long."""

    def too_long(*_: Any) -> NoReturn:
        raise BadInput(f"{path}: not read after {SECONDS} s")

    signal.signal(signal.SIGALRM, too_long)
    signal.alarm(SECONDS)
    try:
        return parsed(path)
    finally:
        signal.alarm(0)


def parsed(path: str) -> dict[str, Any]:
    try:
        with open(path, "rb") as file:
            text = file.read(MOST_TEXT + 1)
    except (OSError, ValueError) as error:
        raise BadInput(f"{path}: cannot be read: {reason(error)}") from None
    if len(text) > MOST_TEXT:
        raise BadInput(f"{path}: over {MOST_TEXT} bytes; large contents go into a file of their own")
    try:
        return tomllib.loads(text.decode("utf-8-sig"), parse_float=finite)
    except (tomllib.TOMLDecodeError, UnicodeDecodeError, OverflowError) as error:
        raise BadInput(f"{path}: not TOML: {error}") from None
    except (ValueError, RecursionError):
        raise BadInput(f"{path}: not TOML: a number or a nesting without end") from None


def finite(text: str) -> float:
    """A number with a point. One that a double does not hold is not taken for an infinity, which has to be written so."""
    value = float(text)
    if math.isinf(value) and "inf" not in text:
        raise OverflowError(f"{brief(text)} is over what a double holds")
    return value


def registers(table: Table, letter: str, count: int) -> list[tuple[int, str]]:
    """The registers that a table names, such as z0 to z31, with their numbers."""
    names = [f"{letter}{n}" for n in range(count)]
    table.only(names, f"{names[0]} to {names[-1]}")
    return [(names.index(key), key) for key in table.values]


def scalars(table: Table) -> list[int]:
    table.only(SCALARS, "x0 to x30, sp and pc")
    return [table.number(name, MOST_64, 0) for name in SCALARS]


def predicates(table: Table, bench: Bench) -> bytes:
    """The predicate file; what is not written has no lane active."""
    size = bench.predicate_bytes
    file = bytearray(PREDICATES * size)
    for n, key in registers(table, "p", PREDICATES):
        entry = table.table(key)
        entry.only(["size", "lanes", "hex"])
        if entry.has("hex") == (entry.has("size") or entry.has("lanes")):
            entry.refuse("", "either size with lanes is wanted, or hex")
        content = contents(entry, "hex") if entry.has("hex") else active_lanes(entry, size)
        file[n * size : (n + 1) * size] = padded(entry, content, size)
    return bytes(file)


def active_lanes(entry: Table, size: int) -> bytes:
    """A predicate by its active lanes: bit lane x size / 8 of each is 1."""
    bits = entry.number("size", MOST_64)
    if bits not in (8, 16, 32, 64):
        entry.refuse("size", f"a lane has 8, 16, 32 or 64 bits, and not {bits}")
    count = size * 64 // bits
    wanted = entry.required("lanes")
    if wanted == "all":
        wanted = list(range(count))
    if not isinstance(wanted, list):
        entry.refuse("lanes", f'a list of lanes or "all" is wanted, and this is {kind(wanted)}')
    register = 0
    for place, lane in enumerate(wanted):
        if count == 0:
            entry.refuse(f"lanes[{place}]", "there is no lane at this vl")
        register |= 1 << entry.checked(f"lanes[{place}]", lane, count - 1) * bits // 8
    return register.to_bytes(size, "little")


def vectors(table: Table, bench: Bench) -> bytes:
    """The vector file; what is not written is zero."""
    size = bench.register_bytes
    file = bytearray(VECTORS * size)
    for n, key in registers(table, "z", VECTORS):
        entry = table.table(key)
        entry.only(CONTENTS)
        file[n * size : (n + 1) * size] = padded(entry, piece(entry), size)
    return bytes(file)


def padded(entry: Table, content: bytes, size: int) -> bytes:
    """Contents of a register, with zeros above."""
    if len(content) > size:
        entry.refuse("", f"{len(content)} bytes, and a register has {size} at this vl")
    return content.ljust(size, b"\0")


def area(table: Table) -> Area:
    """Flash or RAM: its pieces one behind the other, or each where `at` says, zeros between and up to `length`."""
    table.only(["start", "bytes", "length", "rights"])
    content = bytearray()
    for entry in table.tables("bytes"):
        entry.only(["at", *CONTENTS])
        at = entry.number("at", MOST_AREA_BYTES, len(content), ROOM)
        if at < len(content):
            entry.refuse("at", f"the piece before it ends at {len(content)}")
        content += bytes(at - len(content)) + piece(entry)
        if len(content) > MOST_AREA_BYTES:
            table.refuse("bytes", f"{len(content)} bytes, and the program has room for {MOST_AREA_BYTES}")
    length = table.number("length", MOST_AREA_BYTES, len(content), ROOM)
    if length < len(content):
        table.refuse("length", f"{length} is less than the {len(content)} bytes that are written")
    content += bytes(length - len(content))
    return Area(table.number("start", MOST_64, 0), bytes(content), rights(table, len(content)))


def rights(table: Table, length: int) -> bytes:
    """One for each page; what is not written is readable. A wrong number of them is lent as it is."""
    if not table.has("rights"):
        return bytes([RIGHTS["read"]]) * -(-length // PAGE)
    entries = table.of_type("rights", list, [])
    if len(entries) > MOST_RIGHTS:
        table.refuse("rights", f"{len(entries)} pages, and the program has room for {MOST_RIGHTS}")
    found = []
    for page, entry in enumerate(entries):
        right = RIGHTS.get(entry) if isinstance(entry, str) else table.checked(f"rights[{page}]", entry, 255)
        if right is None:
            table.refuse(f"rights[{page}]", f'"read", "none" or a number from 0 to 255 is wanted, and this is {brief(entry)!r}')
        found.append(right)
    return bytes(found)


def piece(entry: Table) -> bytes:
    """The bytes that one of hex, text, doubles, singles and file gives."""
    given = [key for key in CONTENTS if entry.has(key)]
    if len(given) != 1:
        entry.refuse("", f"one of {', '.join(CONTENTS)} is wanted, and there are {len(given)}")
    return contents(entry, given[0])


def contents(entry: Table, key: str) -> bytes:
    if key in ("doubles", "singles"):
        return floats(entry, key)
    value = entry.of_type(key, str, "")
    if key == "hex":
        try:
            return bytes.fromhex(value)
        except ValueError:
            entry.refuse(key, "pairs of hexadecimal digits are wanted")
    if key == "text":
        return value.encode()
    return file_bytes(entry, key, value)


def file_bytes(entry: Table, key: str, name: str) -> bytes:
    """A file beside the bench's own; no more of it is read than there is room for, and nothing that could wait for a writer."""
    path = os.path.join(os.path.dirname(entry.file), name)
    try:
        if not stat.S_ISREG(os.stat(path).st_mode):
            entry.refuse(key, f"{name}: not a plain file")
        with open(path, "rb") as file:
            found = file.read(MOST_AREA_BYTES + 1)
    except (OSError, ValueError) as error:
        entry.refuse(key, f"{name}: cannot be read: {reason(error)}")
    if len(found) > MOST_AREA_BYTES:
        entry.refuse(key, f"{name}: over {MOST_AREA_BYTES} bytes{ROOM}")
    return found


def floats(entry: Table, key: str) -> bytes:
    """Doubles as they are, singles rounded to the nearest."""
    code = "<d" if key == "doubles" else "<f"
    found = b""
    for place, value in enumerate(entry.of_type(key, list, [])):
        if isinstance(value, bool) or not isinstance(value, (int, float)):
            entry.refuse(f"{key}[{place}]", f"a number is wanted, and this is {kind(value)}")
        try:
            found += struct.pack(code, value)
        except (OverflowError, struct.error):
            entry.refuse(f"{key}[{place}]", f"out of the range of {key}")
    return found


def words(top: Table) -> list[Step]:
    """The words to step: each a number, eight hexadecimal digits, or a table with a word and a note."""
    entries = top.required("words")
    if not isinstance(entries, list) or not entries:
        top.refuse("words", "a list of one or more words is wanted")
    steps = []
    for place, entry in enumerate(entries):
        key = f"words[{place}]"
        if isinstance(entry, dict):
            table = Table(top.file, key, entry)
            table.only(["word", "note"])
            steps.append(Step(word(table, "word", table.required("word")), one_line(table.of_type("note", str, ""))))
        else:
            steps.append(Step(word(top, key, entry)))
    return steps


def word(table: Table, key: str, value: Any) -> int:
    """A word; in a string all eight digits of it, so that a lost one does not make another word."""
    if isinstance(value, str):
        if not WORD.fullmatch(value):
            table.refuse(key, f"a word has eight hexadecimal digits, and this is {brief(value)!r}")
        return int(value, 16)
    return table.checked(key, value, 2**32 - 1)
