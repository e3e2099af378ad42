"""The byte format of docs/CASES.md, layout of levels 0 to 4: one case out, one outcome in."""

import struct
from dataclasses import dataclass, replace

from desk.bench import Bench

MAGIC = b"KKJ1"
# magic, word, flags, level; vl, two starts, seven lengths
HEAD = struct.Struct("<4sIII10Q")
# answer, count, element, address
REPORT = struct.Struct("<BQQQ")
LEVEL = 0

# what the proved program has room for
MOST_VECTOR_BYTES = 65_536
MOST_PREDICATE_BYTES = 4_096
MOST_AREA_BYTES = 131_072
MOST_RIGHTS = 64


@dataclass
class Outcome:
    """What a step told, and the bench as it left it."""

    answer: int
    count: int
    element: int
    address: int
    bench: Bench


def scalars(numbers: list[int]) -> bytes:
    return struct.pack(f"<{len(numbers)}Q", *numbers)


def case(word: int, bench: Bench) -> bytes:
    """The bytes of one case."""
    flags = bench.simd | bench.sve << 1 | bench.f64mm << 2
    flash, ram = bench.flash, bench.ram
    parts = [bench.z, bench.p, scalars(bench.x), flash.bytes, flash.rights, ram.bytes, ram.rights]
    lengths = [len(bench.z), len(bench.p), len(bench.x), *map(len, parts[3:])]
    head = HEAD.pack(MAGIC, word, flags, LEVEL, bench.vl, flash.start, ram.start, *lengths)
    return head + b"".join(parts)


def outcome(data: bytes, bench: Bench) -> Outcome:
    """Reads the outcome of a case that lent this bench: z and x come back as long as they went."""
    wanted = REPORT.size + len(bench.z) + 8 * len(bench.x)
    if len(data) != wanted:
        raise ValueError(f"{len(data)} bytes came where an outcome has {wanted}")
    answer, count, element, address = REPORT.unpack_from(data)
    z_end = REPORT.size + len(bench.z)
    x = list(struct.unpack_from(f"<{len(bench.x)}Q", data, z_end))
    return Outcome(answer, count, element, address, replace(bench, z=data[REPORT.size : z_end], x=x))
