"""The bytes of a case, place by place as docs/CASES.md has them, and outcomes of any length."""

import struct
import unittest

from desk.bench import Area, Bench
from desk.cases import case, outcome

BENCH = Bench(
    vl=256,
    simd=False,
    sve=True,
    f64mm=True,
    z=bytes(range(256)) * 4,
    p=bytes(range(100, 164)),
    x=[n * 0x0101010101010101 % 2**64 for n in range(33)],
    flash=Area(0x1000, b"flash" * 1000, b"\x01\x02"),
    ram=Area(0xFFFFFFFFFFFFF000, b"ram", b"\x07"),
)


class Cases(unittest.TestCase):
    def test_the_head(self) -> None:
        data = case(0xA5E0A000, BENCH)
        self.assertEqual(data[:4], bytes.fromhex("4B4B4A31"))
        self.assertEqual(data[4:16], bytes.fromhex("00A0E0A5 06000000 00000000"))
        numbers = [int.from_bytes(data[at : at + 8], "little") for at in range(16, 96, 8)]
        self.assertEqual(numbers, [256, 0x1000, 0xFFFFFFFFFFFFF000, 1024, 64, 33, 5000, 2, 3, 1])

    def test_the_parts_follow_in_their_order(self) -> None:
        data = case(0, BENCH)
        x = b"".join(n.to_bytes(8, "little") for n in BENCH.x)
        self.assertEqual(data[96:], BENCH.z + BENCH.p + x + b"flash" * 1000 + b"\x01\x02" + b"ram" + b"\x07")

    def test_each_flag_is_its_bit(self) -> None:
        for flags in range(8):
            bench = Bench(vl=0, simd=bool(flags & 1), sve=bool(flags & 2), f64mm=bool(flags & 4))
            self.assertEqual(case(0, bench)[8:12], bytes([flags, 0, 0, 0]))

    def test_an_outcome(self) -> None:
        z, x = bytes(reversed(BENCH.z)), [7 * n for n in range(33)]
        found = outcome(b"\x07" + struct.pack("<3Q", 1, 2, 2**64 - 3) + z + struct.pack("<33Q", *x), BENCH)
        self.assertEqual((found.answer, found.count, found.element, found.address), (7, 1, 2, 2**64 - 3))
        self.assertEqual((found.bench.z, found.bench.x), (z, x))
        self.assertEqual((found.bench.p, found.bench.flash, found.bench.ram), (BENCH.p, BENCH.flash, BENCH.ram))

    def test_an_outcome_of_another_length_is_none(self) -> None:
        whole = 25 + len(BENCH.z) + 33 * 8
        for length in (0, 1, 24, 25, whole - 1, whole + 1):
            with self.assertRaisesRegex(ValueError, f"^{length} bytes came .* {whole}$"):
                outcome(bytes(length), BENCH)


if __name__ == "__main__":
    unittest.main()
