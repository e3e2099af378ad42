"""What ./kj shows of a step, by the proved program as a person runs it; and it shows the same by the second interpreter."""

import json
import re
import struct
import unittest
from dataclasses import replace

from desk import as_json, showing
from desk.bench import Bench, Step
from desk.cases import REPORT, Outcome
from desk.telling import ANSWERS, Told, tell
from desk.tests.common import BY_SECOND, REPLAY, Replayed, answers, kj, toml

# LD2R of doubles from X0 into Z0 and Z1 at no offset; and what stands in a line of a lane before its place
LD2R = 0x4D60CC00
NAME = slice(3, 8)


class Showing(Replayed):
    def test_an_answer_of_each_number(self) -> None:
        """Document 01's table, a bench for each row that a file can lend."""
        sp = "{ x0 = 0x1000, sp = 8 }"
        rows = [
            (0, {}),
            (1, {"vl": "2176"}),
            (1, {"ram": "{ start = 0x1001, length = 16 }"}),
            (1, {"ram": "{ start = 0x1000, length = 65537 }"}),
            (1, {"ram": "{ start = 0x1000, length = 16, rights = [1, 1] }"}),
            (1, {"flash": "{ start = 0x1000, length = 1 }"}),
            (2, {"words": "[0]"}),
            (3, {"words": "[0xA5FF4000]"}),
            (3, {"words": "[0xA5A02000]", "switches": "{ f64mm = false }"}),
            (4, {"switches": "{ sve = false }"}),
            (5, {"words": "[0xA5E0A3E0]", "scalars": sp}),
            (6, {"scalars": "{ x0 = 0x1008 }"}),
            (7, {"ram": "{ start = 0x1000, length = 4096, rights = ['none'] }"}),
        ]
        self.assertEqual({number for number, _ in rows}, set(ANSWERS))
        for number, changed in rows:
            said = self.show(self.write(toml(**changed)))
            self.assertIn(f"answer {number}, {ANSWERS[number][0]}", said)
            self.assertEqual("no register and no scalar changed" in said, number != 0, said)

    def test_what_is_lent_stands_above(self) -> None:
        ram = "{ start = 0x1001, length = 8192, rights = ['read', 'none', 0x83] }"
        said = self.show(self.write(toml(ram=ram, switches="{ simd = false }")))
        self.assertIn("VL 128, SIMD off, SVE on, F64MM present\nflash 0x0, 0 bytes; rights by page: no page\n", said)
        self.assertIn("ram   0x1001, 8192 bytes; rights by page: read none 0x83\n", said)

    def test_predicate_and_index_are_shown(self) -> None:
        said = self.show(self.write(toml(words="[0xA5E14800]", predicates="{ p2 = { hex = '0180' } }", scalars="{ x0 = 0x1000, x1 = 1 }")))
        self.assertIn("ld1d {z0.d}, p2/z, [x0, x1, lsl #3]", said)
        self.assertIn("   pred  p2 01 80\n   base  x0 0x1000  unchanged\n   index x1 0x1  unchanged\n", said)

    def test_a_fault_names_count_element_and_address(self) -> None:
        said = self.show(self.write(toml(scalars="{ x0 = 0x1008 }")))
        self.assertIn("count 1, element 1, address 0x1010", said)

    def test_a_base_that_is_written_back(self) -> None:
        """LD1R post-index by 8, at a place that the scope of work's reading of 4DC0C000 has."""
        said = self.show(self.write(toml(words="[0x4DDFCC00]", scalars="{ x0 = 0x1008, pc = 0xfffffffffffffffc }")))
        self.assertIn("ld1r {v0.2d}, [x0], #8\n", said)
        self.assertIn("   base  x0 0x1008 -> 0x1010\n   pc    0xfffffffffffffffc -> 0x0\n", said)
        self.assertIn("z0.d  [0] 0000000000000000 0.0 -> 4000000000000000 2.0\n", said)

    def test_lanes_that_are_no_floats(self) -> None:
        """LD1B into halves: eight lanes in a row, and no float beside them. The bytes of 1.0 are 00 six times, f0, 3f."""
        said = self.show(self.write(toml(words="[0xA420A000]", predicates="{ p0 = { size = 16, lanes = [0, 6, 7] } }")))
        self.assertIn("z0.h  [0] 0000 0000 0000 0000 0000 0000 0000 0000 -> 0000 0000 0000 0000 0000 0000 00f0 003f\n", said)

    def test_lanes_stand_below_each_other(self) -> None:
        said = self.show(self.write(toml(vectors="{ z0 = { doubles = [0.1, -12345.678] } }")))
        arrows = [line.index(" -> ") for line in said.splitlines() if " -> " in line and "[" in line]
        self.assertEqual((len(arrows), len(set(arrows))), (2, 1))

    def test_a_value_that_was_extended_is_no_float(self) -> None:
        """LD1W into doubles: the lane's 64 bits are no double."""
        said = self.show(self.write(toml(words="[0xA560A000]", ram="{ start = 0x1000, bytes = { singles = [1, 2] } }")))
        self.assertIn("z0.d  [0] 0000000000000000 0000000000000000 -> 000000003f800000 0000000040000000\n", said)

    def test_each_destination_under_its_own_name(self) -> None:
        """LD2R of doubles: 1.0 and 2.0 lie in memory, the first for Z0 and the second for Z1; the two lanes above become 0."""
        old = "{ doubles = [359.9, 359.9, 359.9, 359.9] }"
        said = self.show(self.write(toml(vl="256", words=f"[{LD2R}]", vectors=f"{{ z0 = {old}, z1 = {old}, z2 = {old} }}")))
        one, two, zero = ("3ff0000000000000 1.0", "4000000000000000 2.0", "0000000000000000 0.0")
        self.assertIn("answer 0, ran; count 2, element 0, address 0x0\n", said)
        lanes = [("z0.d ", one), ("", one), ("", zero), ("", zero), ("z1.d ", two), ("", two), ("", zero), ("", zero)]
        lines = [f"   {name:<5} [{at % 4}] 40767e6666666666 359.9 -> {after}" for at, (name, after) in enumerate(lanes)]
        self.assertIn("\n".join(lines) + "\n   base  x0 0x1000  unchanged\n   pc    0x0 -> 0x4\n", said)
        self.assertNotIn("too", said)

    def test_a_base_that_grows_by_the_sum_of_the_reads(self) -> None:
        """LD1R to LD4R of singles, post-index: as many reads as registers, of 4 bytes each."""
        for count, word in enumerate((0x4DDFC800, 0x4DFFC800, 0x4DDFE800, 0x4DFFE800), 1):
            said = self.show(self.write(toml(words=f"[{word}]", ram="{ start = 0x1000, bytes = { singles = [1, 2, 3, 4] } }")))
            self.assertIn(f"answer 0, ran; count {count}, ", said)
            self.assertIn(f"   base  x0 0x1000 -> {0x1000 + 4 * count:#x}\n", said)
            self.assertEqual([line[NAME] for line in said.splitlines() if " [0] " in line], [f"z{n}.s " for n in range(count)])
            for value in (1, 2, 3, 4):
                self.assertEqual(said.count(f" {value}.0\n"), 4 if value <= count else 0)

    def test_a_fault_on_a_later_element_changes_no_destination(self) -> None:
        """LD4R of doubles where memory ends after the second: element 2 is the first that is not there."""
        whole = self.document(self.write(toml(words="[0x4DFFEC1E]", vectors="{ z30 = { hex = 'aa' }, z1 = { hex = 'bb' } }")))
        step = whole["steps"][0]
        self.assertEqual([step[key] for key in ("answer", "count", "element", "address", "changed")], [6, 2, 2, "0x1010", []])
        self.assertEqual([into["register"] for into in step["destinations"]], ["z30", "z31", "z0", "z1"])
        for into in step["destinations"]:
            self.assertTrue(all(lane["before"] == lane["after"] for lane in into["lanes"]))

    def test_each_step_goes_on_from_the_one_before(self) -> None:
        words = "[0xA5E0A000, 0, 0xA5E0A000]"
        said = self.show(self.write(toml(words=words, scalars="{ x0 = 0x1000, pc = 0x40 }")))
        counters = [line.strip() for line in said.splitlines() if " pc " in line]
        self.assertEqual(counters, ["pc    0x40 -> 0x44", "pc    0x44  unchanged", "pc    0x44 -> 0x48"])

    def test_json(self) -> None:
        whole = self.document(self.write(toml(words="[0xA5E0A000, 0]", ram="{ start = 0x1000, bytes = { doubles = [1.5, inf] } }")))
        first, second = whole["steps"]
        self.assertEqual((whole["settings"]["vl"], first["text"], first["answer"], first["count"]), (128, "ld1d {z0.d}, p0/z, [x0]", 0, 2))
        lanes = first["destination"]["lanes"]
        self.assertEqual((first["destination"]["register"], first["destinations"]), ("z0", [first["destination"]]))
        self.assertEqual([lane["after_float"] for lane in lanes], [1.5, "inf"])
        self.assertEqual([lane["after"] for lane in lanes], ["0x3ff8000000000000", "0x7ff0000000000000"])
        self.assertEqual((first["changed"], first["pc"]["after"]), (["z0", "pc"], "0x4"))
        self.assertEqual((second["text"], second["answer_name"], second["changed"]), (None, "outside", []))
        self.assertFalse({"destination", "destinations"} & set(second))
        self.assertEqual((first["predicate"]["bytes"], whole["ram"]), ("0101", {"start": "0x1000", "length": 16, "rights": "01"}))

    def test_the_cases_go_through_replay_again(self) -> None:
        """./replay < OUT, as the help says, gives what was shown. The second word is outside, and the third moves its base."""
        bench = self.write(toml(words="[0xA5E0A000, 0, 0x4DDFCC00]"))
        ours, theirs = self.folder / "ours", self.folder / "theirs"
        steps = json.loads(kj("--json", "--cases", str(ours), bench).stdout)["steps"]
        kj(*BY_SECOND, "--cases", str(theirs), bench)
        packed = ours.read_bytes()
        self.assertEqual(packed, theirs.read_bytes())
        outcomes = answers(packed, [str(REPLAY)])
        self.assertEqual(outcomes, answers(packed))
        each = REPORT.size + 32 * 16 + 33 * 8
        self.assertEqual(len(outcomes), 3 * each)
        told = [REPORT.unpack_from(outcomes, at) for at in range(0, 3 * each, each)]
        self.assertEqual(told, [(step["answer"], step["count"], step["element"], int(step["address"], 16)) for step in steps])

    def test_the_bench_of_the_help_runs(self) -> None:
        text = kj("--help").stdout.split("have to be there.\n")[1].split("A piece is")[0]
        self.assertEqual(self.show(self.write(text)).count("   answer "), 3)


class Destinations(unittest.TestCase):
    """Registers that a step changed, put in by hand, so that what is shown is held to no program."""

    def told(self, word: int, after: dict[int, bytes], vl: int = 128) -> Told:
        """A step after which these registers hold what is said here; before it each byte of register n was n + 1."""
        registers = [bytes([n + 1]) * (vl // 8) for n in range(32)]
        before = Bench(vl=vl, z=b"".join(registers))
        bench = replace(before, z=b"".join(after.get(n, old) for n, old in enumerate(registers)))
        return tell(Step(word), before, Outcome(0, 0, 0, 0, bench))

    def lines(self, told: Told) -> list[str]:
        return showing.step(1, told, showing.Paint(False)).splitlines()

    def lanes(self, told: Told) -> list[str]:
        """The lines that have a lane's place."""
        return [line for line in self.lines(told) if re.match(r".{9}\[\d+\] ", line)]

    def test_31_is_followed_by_0(self) -> None:
        """LD3R of bytes into Z30, Z31 and Z0, each with a new value of its own: a row of 16 bytes for each, in this order."""
        told = self.told(0x4D40E01E, {30: b"\xa0" * 16, 31: b"\xa1" * 16, 0: b"\xa2" * 16})
        rows = [("z30.b", "1f", "a0"), ("z31.b", "20", "a1"), ("z0.b ", "01", "a2")]
        lines = [f"   {name} [0] {' '.join([old] * 16)} -> {' '.join([new] * 16)}" for name, old, new in rows]
        self.assertEqual(self.lanes(told), lines)
        self.assertEqual([into["register"] for into in as_json.step(told)["destinations"]], ["z30", "z31", "z0"])

    def test_what_changed_beyond_the_destinations_is_said(self) -> None:
        told = self.told(LD2R | 31, {31: bytes(16), 0: b"\xff" * 16, 1: b"\xff" * 16})
        self.assertEqual([line for line in self.lines(told) if line.endswith("too")], ["   z1 changed too"])

    def test_a_destination_that_stays_is_shown_too(self) -> None:
        told = self.told(LD2R, {0: bytes(range(16))})
        lines = self.lanes(told)
        self.assertEqual([line[NAME] for line in lines], ["z0.d ", "     ", "z1.d ", "     "])
        self.assertEqual([line.endswith("unchanged") for line in lines], [False, False, True, True])

    def test_lanes_of_all_destinations_stand_below_each_other(self) -> None:
        """The arrows stand in one column: the doubles of Z1 take 22 letters and those of Z2 20, and some lanes' places two digits."""
        for word, vl, count in ((LD2R | 1, 256, 8), (0x4D60C81F, 512, 32)):
            told = self.told(word, {n: bytes(vl // 8) for n in (31, 0, 1, 2)}, vl)
            arrows = [line.index(" -> ") for line in self.lanes(told)]
            self.assertEqual((len(arrows), len(set(arrows))), (count, 1))

    def test_json_has_destination_for_one_register_and_destinations_for_all(self) -> None:
        sine, cosine = struct.pack("<d", -0.5), struct.pack("<d", 0.75)
        found = as_json.step(self.told(LD2R, {0: sine * 2, 1: cosine * 2}))
        self.assertNotIn("destination", found)
        self.assertEqual([into["register"] for into in found["destinations"]], ["z0", "z1"])
        self.assertEqual([[lane["after_float"] for lane in into["lanes"]] for into in found["destinations"]], [[-0.5, -0.5], [0.75, 0.75]])
        self.assertEqual({into["lane_bits"] for into in found["destinations"]}, {64})
        for word, register in ((0x4D40CC05, "z5"), (0xA5E0A007, "z7")):
            found = as_json.step(self.told(word, {}))
            self.assertEqual((found["destination"]["register"], found["destinations"]), (register, [found["destination"]]))
        self.assertFalse({"destination", "destinations"} & set(as_json.step(self.told(0, {}))))


if __name__ == "__main__":
    unittest.main()
