"""What a file means, and what is said of one that cannot be used."""

import os
import struct
import time
import unittest

from desk import reading
from desk.complaints import BadInput
from desk.reading import read
from desk.tests.common import Benches, kj, toml

# what is written, the key that the complaint names, and a part of its text
BAD = [
    ({"vl": "1e3"}, "vl", "a whole number is wanted"),
    ({"vl": "true"}, "vl", "a whole number is wanted"),
    ({"vl": "1979-05-27"}, "vl", "a date or time"),
    ({"vl": "-128"}, "vl", "-128 is out of range"),
    ({"vl": "16385"}, "vl", "out of range, 0 to 16384, for which the program has room"),
    ({"vl": "0x" + "f" * 5000}, "vl", "out of range"),
    ({"lv": "128"}, "lv", "no such key"),
    ({"switches": "{ simd = 1 }"}, "switches.simd", "true or false is wanted"),
    ({"switches": "{ sme = true }"}, "switches.sme", "no such key"),
    ({"scalars": "{ x31 = 0 }"}, "scalars.x31", "no such key; x0 to x30, sp and pc"),
    ({"scalars": "{ x0 = 0x1_0000_0000_0000_0000 }"}, "scalars.x0", "0x10000000000000000 is out of range"),
    ({"scalars": '{ sp = "0xgg" }'}, "scalars.sp", "has the form 0xff, and this is '0xgg'"),
    ({"scalars": '{ sp = "10" }'}, "scalars.sp", "has the form 0xff"),
    ({"scalars": '{ sp = "0x1 " }'}, "scalars.sp", "has the form 0xff"),
    ({"scalars": '{ sp = "0x1_0" }'}, "scalars.sp", "has the form 0xff"),
    ({"scalars": '{ sp = "0x\uff11" }'}, "scalars.sp", "has the form 0xff"),
    ({"scalars": "7"}, "scalars", "a table is wanted"),
    ({"predicates": "{ p16 = { hex = '' } }"}, "predicates.p16", "p0 to p15"),
    ({"predicates": "{ p0 = { size = 12, lanes = [] } }"}, "predicates.p0.size", "8, 16, 32 or 64"),
    ({"predicates": "{ p0 = {} }"}, "predicates.p0", "either size with lanes is wanted, or hex"),
    ({"predicates": "{ p0 = { size = 128, lanes = [] } }"}, "predicates.p0.size", "8, 16, 32 or 64"),
    ({"predicates": "{ p0 = { size = 64, lanes = [2] } }"}, "predicates.p0.lanes[0]", "out of range, 0 to 1"),
    ({"predicates": "{ p0 = { size = 64, lanes = 'some' } }"}, "predicates.p0.lanes", '"all" is wanted'),
    ({"predicates": "{ p0 = { size = 64 } }"}, "predicates.p0.lanes", "is missing"),
    ({"predicates": "{ p0 = { lanes = [0] } }"}, "predicates.p0.size", "is missing"),
    ({"predicates": "{ p0 = { hex = '00', lanes = [0] } }"}, "predicates.p0", "either size with lanes is wanted, or hex"),
    ({"predicates": "{ p0 = { hex = '000000' } }"}, "predicates.p0", "3 bytes, and a register has 2"),
    ({"vectors": "{ z32 = { hex = '' } }"}, "vectors.z32", "z0 to z31"),
    ({"vectors": "{ z0 = { doubles = [1, 2, 3] } }"}, "vectors.z0", "24 bytes, and a register has 16"),
    ({"vectors": "{ z0 = { hex = '0' } }"}, "vectors.z0.hex", "pairs of hexadecimal digits"),
    ({"vectors": "{ z0 = {} }"}, "vectors.z0", "there are 0"),
    ({"vectors": "{ z0 = { hex = '', text = '' } }"}, "vectors.z0", "there are 2"),
    ({"ram": "{ start = -4096 }"}, "ram.start", "out of range"),
    ({"ram": "{ begin = 0 }"}, "ram.begin", "no such key"),
    ({"ram": "{ bytes = 'ab' }"}, "ram.bytes", "a table or a list of tables"),
    ({"ram": "{ bytes = ['ab'] }"}, "ram.bytes[0]", "a table is wanted"),
    ({"ram": "{ bytes = [{ hex = '00' }, { at = 0, hex = '00' }] }"}, "ram.bytes[1].at", "ends at 1"),
    ({"ram": "{ bytes = { doubles = [1, 'x'] } }"}, "ram.bytes.doubles[1]", "a number is wanted"),
    ({"ram": "{ bytes = { singles = [1e39] } }"}, "ram.bytes.singles[0]", "out of the range of singles"),
    ({"ram": "{ bytes = { file = 'not there' } }"}, "ram.bytes.file", "not there: cannot be read: No such file"),
    ({"ram": "{ bytes = { file = '.' } }"}, "ram.bytes.file", "not a plain file"),
    ({"ram": "{ length = 131073 }"}, "ram.length", "out of range, 0 to 131072"),
    ({"ram": "{ bytes = { hex = '0000' }, length = 1 }"}, "ram.length", "less than the 2 bytes"),
    ({"flash": "{ rights = ['write'] }"}, "flash.rights[0]", '"read", "none"'),
    ({"flash": "{ rights = [256] }"}, "flash.rights[0]", "out of range, 0 to 255"),
    ({"flash": "{ rights = 'read' }"}, "flash.rights", "a list is wanted"),
    ({"flash": f"{{ rights = {[1] * 65} }}"}, "flash.rights", "room for 64"),
    ({"words": "[]"}, "words", "one or more words"),
    ({"words": "[0x1_0000_0000]"}, "words[0]", "out of range"),
    ({"words": "['A5E0A00']"}, "words[0]", "eight hexadecimal digits"),
    ({"words": "[0, 'A5E0A00g']"}, "words[1]", "eight hexadecimal digits"),
    ({"words": "['A5E0A00 ']"}, "words[0]", "eight hexadecimal digits"),
    ({"words": "['A5_0A000']"}, "words[0]", "eight hexadecimal digits"),
    ({"words": "['0xA5E0A00']"}, "words[0]", "eight hexadecimal digits"),
    ({"words": "[{ word = 0, nota = '' }]"}, "words[0].nota", "no such key"),
    ({"words": "[{ note = '' }]"}, "words[0].word", "is missing"),
    ({"title": "7"}, "title", "a string is wanted"),
]


class BadFiles(Benches):
    def test_each_is_refused_by_one_line_with_the_file_and_the_key(self) -> None:
        for changed, key, why in BAD:
            path = self.write(toml(**changed))
            with self.subTest(**changed), self.assertRaises(BadInput) as refused:
                read(path)
            line = str(refused.exception)
            self.assertTrue(line.startswith(f"{path}: {key}: "), line)
            self.assertIn(why, line)
            self.assertNotIn("\n", line)

    def test_nothing_is_run_for_one(self) -> None:
        """The program named would leave a file behind."""
        left = self.folder / "left"
        bad = self.write(toml(vl="-1"))
        self.assert_one_line(kj("--program", f"touch {left}", bad), f"{bad}: vl: ")
        self.assertFalse(left.exists())

    def test_what_is_no_toml(self) -> None:
        for text in ("vl =", "vl = 1\nvl = 2", b"\xff\xfe", "vl = " + "[" * 5000, "vl = " + "9" * 5000, "a\rb", toml(vl="1e999")):
            path = self.write(text)
            self.assert_one_line(kj(path), f"{path}: not TOML: ")

    def test_the_reason_stands_however_long_the_path_and_the_key_are(self) -> None:
        name = "n" * 250
        path = self.write(toml(vl="-1"), name)
        self.assert_one_line(kj(path), f"{path}: vl: -1 is out of range")
        self.assert_one_line(kj(self.write(toml(**{name: "1"}))), f": {'n' * 40}..: no such key")

    def test_a_pipe_that_nobody_writes_to_is_given_up(self) -> None:
        path = str(self.folder / "pipe")
        os.mkfifo(path)
        self.addCleanup(setattr, reading, "SECONDS", reading.SECONDS)
        reading.SECONDS = 1
        begun = time.monotonic()
        with self.assertRaisesRegex(BadInput, "pipe: not read after 1 s"):
            read(path)
        self.assertLess(time.monotonic() - begun, 15)

    def test_files_that_cannot_be_read(self) -> None:
        self.assert_one_line(kj(str(self.folder / "none.toml")), "none.toml: cannot be read: No such file")
        self.assert_one_line(kj(str(self.folder)), "Is a directory")
        self.assert_one_line(kj("/dev/zero"), "/dev/zero: over 16777216 bytes")


class Meaning(Benches):
    def read(self, **changed: str):
        return read(self.write(toml(**changed)))

    def test_what_is_not_written(self) -> None:
        bench = read(self.write("vl = 384\nwords = [0]")).bench
        self.assertEqual((bench.simd, bench.sve, bench.f64mm), (True, True, True))
        self.assertEqual((bench.z, bench.p, bench.x), (bytes(32 * 48), bytes(16 * 6), [0] * 33))
        self.assertEqual((bench.flash.bytes, bench.flash.rights, bench.ram.start), (b"", b"", 0))

    def test_a_mark_of_the_byte_order_is_passed_over(self) -> None:
        self.assertEqual(read(self.write(b"\xef\xbb\xbf" + toml().encode())).bench.vl, 128)

    def test_a_lane_of_a_predicate_is_its_lowest_bit(self) -> None:
        """Document 01: lane e is active exactly if bit e x (lane size / 8) is 1."""
        for size in (8, 16, 32, 64):
            for lane in range(256 // size):
                bench = self.read(vl="256", predicates=f"{{ p3 = {{ size = {size}, lanes = [{lane}] }} }}").bench
                self.assertEqual(int.from_bytes(bench.p, "little"), 1 << (3 * 32 + lane * size // 8))

    def test_all_lanes_and_hexadecimal(self) -> None:
        bench = self.read(vl="256", predicates='{ p0 = { size = 32, lanes = "all" }, p1 = { hex = "80 01" } }').bench
        self.assertEqual(bench.p[:8].hex(), "11111111" + "80010000")

    def test_scalars_by_name(self) -> None:
        bench = self.read(scalars='{ x0 = 1, x30 = 2, sp = 3, pc = "0xffffffffffffffff" }').bench
        self.assertEqual((bench.x[0], bench.x[30], bench.x[31], bench.x[32], sum(bench.x)), (1, 2, 3, 2**64 - 1, 2**64 + 5))

    def test_pieces_of_an_area(self) -> None:
        self.write(b"\x00\xffbytes", "some.bin")
        pieces = "[{ hex = '0aFF' }, { text = 'né' }, { at = 8, doubles = [359.9, 1] }, { singles = [0.1, inf] }, { file = 'some.bin' }]"
        ram = self.read(ram=f"{{ start = 4096, bytes = {pieces}, length = 5000 }}").bench.ram
        wanted = b"\x0a\xffn\xc3\xa9\0\0\0" + struct.pack("<ddff", 359.9, 1.0, 0.1, float("inf")) + b"\x00\xffbytes"
        self.assertEqual((ram.start, ram.bytes, ram.rights), (4096, wanted.ljust(5000, b"\0"), b"\1\1"))

    def test_rights_by_page_are_lent_as_they_are_written(self) -> None:
        flash = self.read(flash="{ length = 4096, rights = ['read', 'none', 254] }").bench.flash
        self.assertEqual(flash.rights, b"\1\0\xfe")

    def test_vectors(self) -> None:
        bench = self.read(vectors="{ z2 = { singles = [1.0] }, z31 = { text = 'sixteen bytes ..' } }").bench
        self.assertEqual(bench.z, bytes(32) + b"\0\0\x80\x3f" + bytes(12) + bytes(28 * 16) + b"sixteen bytes ..")

    def test_words(self) -> None:
        steps = self.read(words="""[0xA5E0A000, 'a5e0A000', '0x00000001', { word = 'FFFFFFFF', note = "a\\nb" }]""").steps
        self.assertEqual([step.word for step in steps], [0xA5E0A000, 0xA5E0A000, 1, 0xFFFFFFFF])
        self.assertEqual([step.note for step in steps], ["", "", "", "a?b"])


if __name__ == "__main__":
    unittest.main()
