"""The text that kj shows for a word, held to what binutils prints for 39,000 of them."""

import itertools
import re
import unittest
from collections import Counter

from desk.words import DTYPES, disassemble
from desk.tests.common import ROOT

# a text that is a load of the bench's families
LISTED = re.compile(r"ld[1-4]r \{v|ld1(r|rq|ro)?s?[bhwd] \{z\d+\.[bhsd]\}, p[0-7]/z, \[(x\d+|sp)(, (#-?\d+(, mul vl)?|x\d+(, lsl #\d)?))?\]$")
# destinations, lane, predicate, base and index, as a text names them
NAMED = re.compile(r"\S+ \{([^}]*\.\d*([bhsd]))\}, (?:p(\d)/z, )?\[(x\d+|sp)(?:.*, (x\d+))?")
# LD1R to LD4R as source document 004 lays them out: the number of registers less 1 is opcode<0>:R
NO_OFFSET, POST_INDEX = 0x0D40C000, 0x0DC0C000
BIT = {"Q": 30, "L": 22, "R": 21, "opcode<0>": 13, "S": 12}


def registers(listed: str) -> tuple[int, ...]:
    """The registers of a list in braces: each by its name, or the first and the last of a range."""
    named = [int(number) for number in re.findall(r"[vz](\d+)\.", listed)]
    return tuple(range(named[0], named[1] + 1)) if "-" in listed else tuple(named)


def replicate(form: int, count: int, size: int = 0, n: int = 0, t: int = 0, m: int = 0) -> int:
    """The word that loads so many registers, with Q = 1."""
    bits = (count - 1 >> 1) << BIT["opcode<0>"] | (count - 1 & 1) << BIT["R"] | 1 << BIT["Q"]
    return form | bits | m << 16 | size << 10 | n << 5 | t


class Words(unittest.TestCase):
    def test_every_line_of_binutils(self) -> None:
        """The same text for each load, and none for each word that binutils does not print as one."""
        lines = (ROOT / "crates" / "binutils" / "stdin").read_text().splitlines()
        loads: Counter[str] = Counter()
        for line in lines:
            digits, text = line.split(" ", 1)
            shown = disassemble(int(digits, 16))
            self.assertEqual(shown is not None, LISTED.match(text) is not None, line)
            if shown is None:
                continue
            loads[text.split()[0]] += 1
            self.assertEqual(shown.text, text, digits)
            named = NAMED.match(text)
            self.assertIsNotNone(named, line)
            predicate = None if shown.predicate is None else str(shown.predicate)
            self.assertEqual(shown.targets, registers(named[1]), line)
            self.assertEqual((shown.lane, predicate, shown.base, shown.index), named.groups()[1:], line)
        self.assertGreater(loads.total(), 7_000)
        self.assertGreater(len(lines) - loads.total(), 20_000)
        for count, least in ((1, 1_456), (2, 100), (3, 84), (4, 34)):
            self.assertGreaterEqual(loads[f"ld{count}r"], least)

    def test_lists_of_registers_as_binutils_writes_them(self) -> None:
        """A range for three and four, save where 31 is followed by 0; words of crates/binutils/stdin, each with its line."""
        for word, text in (
            (0x0D60ECF4, "ld4r {v20.1d-v23.1d}, [x7]"),
            (0x4DDFEFFD, "ld3r {v29.2d-v31.2d}, [sp], #24"),
            (0x4D40ED3F, "ld3r {v31.2d, v0.2d, v1.2d}, [x9]"),
            (0x4DE8E29E, "ld4r {v30.16b, v31.16b, v0.16b, v1.16b}, [x20], x8"),
            (0x0DE5C4FF, "ld2r {v31.4h, v0.4h}, [x7], x5"),
            (0x4D60C83E, "ld2r {v30.4s, v31.4s}, [x1]"),
        ):
            self.assertEqual(disassemble(word).text, text)

    def test_load_and_replicate_over_the_number_of_registers(self) -> None:
        """Document 02, One: registers t, t+1 and on, 31 followed by 0; the post-index immediate is the sum of the reads."""
        for count, size, t in itertools.product((1, 2, 3, 4), range(4), range(32)):
            shown = disassemble(replicate(POST_INDEX, count, size, 7, t, 31))
            self.assertEqual(shown.targets, tuple([*range(32), *range(32)][t : t + count]))
            self.assertTrue(shown.text.startswith(f"ld{count}r {{v{t}."), shown.text)
            self.assertTrue(shown.text.endswith(f"}}, [x7], #{sum([1 << size] * count)}"), shown.text)
            self.assertEqual((shown.predicate, shown.base, shown.index, shown.whole), (None, "x7", None, True))
        self.assertEqual(disassemble(0x4D60C000).text, "ld2r {v0.16b, v1.16b}, [x0]")

    def test_load_and_replicate_that_is_undefined_has_no_text(self) -> None:
        for form, count in itertools.product((NO_OFFSET, POST_INDEX), (1, 2, 3, 4)):
            word = replicate(form, count)
            self.assertIsNotNone(disassemble(word), hex(word))
            for wrong in (1 << BIT["L"], 1 << BIT["S"], 1 << BIT["L"] | 1 << BIT["S"]):
                self.assertIsNone(disassemble(word ^ wrong), hex(word ^ wrong))
        for count in (1, 2, 3, 4):
            self.assertIsNone(disassemble(replicate(NO_OFFSET, count, m=31)), "no offset has no Rm")

    def test_a_lane_may_be_a_float_where_it_is_as_wide_as_what_was_read(self) -> None:
        for row in range(16):
            shown = disassemble(0xA400A000 | row << 21)
            memory, lane = DTYPES[row].split(">")
            self.assertEqual(shown.whole, (memory, lane) in [("b", "b"), ("h", "h"), ("w", "s"), ("d", "d")], row)
        self.assertTrue(disassemble(0x4DC0C000).whole)


if __name__ == "__main__":
    unittest.main()
