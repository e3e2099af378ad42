"""The host in C: what it says of the exported step, of outcomes that differ, of a step that writes where it may not, and of files that
cannot be used."""

import os
import shutil
import struct
import subprocess
import unittest
from pathlib import Path

from desk.bench import Area, Bench
from desk.cases import case
from desk.tests.common import ROOT, Benches, answers

CASES, OUTCOMES = (ROOT / "crates" / "replay" / name for name in ("stdin", "stdout"))
FRESH = subprocess.run([str(ROOT / "host" / "library"), "--fresh"]).returncode == 0

# a load of two doubles, which runs
BENCH = Bench(vl=128, z=bytes(range(256)) * 2, p=b"\1\1" * 16, x=[0x1000] * 33, ram=Area(0x1000, bytes(range(100, 116)), b"\1"))
BENCH.flash = Area(0, b"flash", b"\1")
WORD = 0xA5E0A000

# stands for the proved step and changes nothing, but for what each word has it do
STUB = """
#include "kjolvast.h"
struct kjolvast_numbers kjolvast_step(
    unsigned char *z, unsigned long z_len, unsigned long *x, unsigned long x_len, const unsigned char *ram, unsigned long ram_len,
    unsigned int word, unsigned long vl, kjolvast_switch simd, kjolvast_switch sve, kjolvast_switch f64mm, const unsigned char *p,
    unsigned long p_len, unsigned long flash_start, unsigned long ram_start, const unsigned char *flash, unsigned long flash_len,
    const unsigned char *flash_rights, unsigned long flash_rights_len, const unsigned char *ram_rights, unsigned long ram_rights_len) {
    struct kjolvast_numbers told = {1, 0, 0, 0};
    switch (word) {
%s
    }
    return told;
}
"""
WRONGS = [
    ("", "1 steps through kjolvast_step as recorded, 0 cases of other kinds left out"),
    ("told.number = 257", "the answer is 257, and should be 1"),
    ("told.count = 1", "the count is 1, and should be 0"),
    ("told.element = 1", "the element is 1, and should be 0"),
    ("told.address = -1", "the address is 18446744073709551615, and should be 0"),
    ("z[0] = 7", "byte 0 of z is 0x07 after the step, and should be 0x00"),
    ("z[z_len - 1] = 7", "byte 511 of z is 0x07 after the step, and should be 0xff"),
    ("x[32] = 0x1100", "byte 257 of x is 0x11 after the step, and should be 0x10"),
    ("z[-1] ^= 1", "byte 1 before z is"),
    ("z[z_len] ^= 1", "byte 0 behind z is"),
    ("x[-1] ^= 1", "byte 8 before x is"),
    ("x[x_len] ^= 1", "byte 0 behind x is"),
    ("((unsigned char *)p)[p_len - 1] ^= 1", "byte 31 of p is 0x00 after the step, and should be 0x01"),
    ("((unsigned char *)flash)[0] ^= 1", "byte 0 of flash is 0x67 after the step, and should be 0x66"),
    ("((unsigned char *)flash_rights)[0] ^= 1", "byte 0 of flash_rights is"),
    ("((unsigned char *)ram)[ram_len - 1] ^= 1", "byte 15 of ram is"),
    ("((unsigned char *)ram_rights)[ram_rights_len] ^= 1", "byte 0 behind ram_rights is"),
]


def other_kind(kind: int, blob: bytes) -> bytes:
    """A case of another kind than a step: four numbers and the blob's length behind the lengths, and the blob behind everything."""
    packed = bytearray(case(WORD, BENCH))
    packed[9] = kind
    return bytes(packed[:96]) + struct.pack("<5Q", 1, 2, 3, 4, len(blob)) + bytes(packed[96:]) + blob


def outcome_of_other_kind(out: bytes) -> bytes:
    return struct.pack("<B4Q", 1, 2, 3, 4, len(out)) + out


def kinds(cases: bytes) -> list[int]:
    """The kind of each case of a stream, by the lengths in its head alone."""
    found, at = [], 0
    while at < len(cases):
        kind = cases[at + 9]
        z, p, x, *others = struct.unpack_from("<7Q", cases, at + 40)
        blob = struct.unpack_from("<Q", cases, at + 128)[0] if kind else -40
        at += 136 + z + p + 8 * x + sum(others) + blob
        found.append(kind)
    return found


@unittest.skipUnless(FRESH, "the static library is not built: host/library")
class Hosts(Benches):
    def run_host(self, cases: bytes, outcomes: bytes, root: Path = ROOT) -> tuple[int, str]:
        """The status, and the one line that is said, on standard output where all is well and else on standard error."""
        paths = [self.write(cases, "cases"), self.write(outcomes, "outcomes")]
        ran = subprocess.run([str(root / "host" / "run"), *paths], capture_output=True, text=True, cwd=self.folder, timeout=60)
        said, other = (ran.stdout, ran.stderr) if ran.returncode == 0 else (ran.stderr, ran.stdout)
        self.assertEqual((said.count("\n"), other), (1, ""), ran)
        return ran.returncode, said.strip()

    def assert_said(self, cases: bytes, outcomes: bytes, status: int, *parts: str, root: Path = ROOT) -> None:
        ended, said = self.run_host(cases, outcomes, root)
        self.assertEqual(ended, status, said)
        for part in parts:
            self.assertIn(part, said)

    def test_the_sample(self) -> None:
        """By itself, without files, and from another folder; every case of a step is counted, and every other one."""
        found = kinds(CASES.read_bytes())
        steps = found.count(0)
        ran = subprocess.run([str(ROOT / "host" / "run")], capture_output=True, text=True, cwd=self.folder)
        line = f"{steps} steps through kjolvast_step as recorded, {len(found) - steps} cases of other kinds left out\n"
        self.assertEqual((ran.returncode, ran.stdout, ran.stderr), (0, line, ""))
        self.assertGreater(steps, 600)

    def test_an_outcome_that_differs_in_one_byte(self) -> None:
        """Of the second of two cases, in each number and at both ends of z and x."""
        cases = case(WORD, BENCH) * 2
        good = answers(cases)
        second = len(good) // 2
        self.assert_said(cases, good, 0, "2 steps")
        for at, what in [
            (0, "the answer is 0, and should be 1"),
            (1, "the count is 2, and should be 3"),
            (9, "the element is 0, and should be 1"),
            (24, "the address is 0, and should be 72057594037927936"),
            (25, "byte 0 of z is 0x64 after the step, and should be 0x65"),
            (25 + 511, "byte 511 of z is 0xff after the step, and should be 0xfe"),
            (25 + 512, "byte 0 of x is 0x00 after the step, and should be 0x01"),
            (len(good) - second - 1, "byte 263 of x is 0x00 after the step, and should be 0x01"),
        ]:
            bad = bytearray(good)
            bad[second + at] ^= 1
            self.assert_said(cases, bytes(bad), 1, f"host: case 1: {what}")

    def test_a_step_that_does_what_it_may_not(self) -> None:
        """By a copy of the host over a step of the test's own, which refuses a set-up and does one thing more."""
        copy = self.stubbed("".join(f"    case {word}: {wrong}; break;\n" for word, (wrong, _) in enumerate(WRONGS)))
        refused = struct.pack("<B3Q", 1, 0, 0, 0) + BENCH.z + struct.pack("<33Q", *BENCH.x)
        for word, (wrong, said) in enumerate(WRONGS):
            with self.subTest(wrong):
                self.assert_said(case(word, BENCH), refused, 1 if wrong else 0, said, root=copy)

    def stubbed(self, wrongs: str) -> Path:
        """A copy of the host, whose static library is the stub."""
        copy = self.folder / "copy"
        shutil.copytree(ROOT / "host", copy / "host")
        (copy / "host" / "library").write_text("#!/bin/sh\n")
        (copy / "target" / "staticlib").mkdir(parents=True)
        (copy / "host" / "stub.c").write_text(STUB % wrongs)
        guide = Path(subprocess.run(["rt", "doc"], capture_output=True, text=True, check=True).stdout.strip())
        clang = guide.parent / "toolchain" / "bin" / "clang"
        words = ["--target=x86_64-unknown-linux-gnu", "--no-default-config", "-fPIE", "-c", str(copy / "host" / "stub.c")]
        subprocess.run([str(clang), *words, "-o", str(copy / "target" / "staticlib" / "libhosts.a")], check=True)
        return copy

    def test_cases_of_other_kinds_are_left_out(self) -> None:
        one, its = case(WORD, BENCH), answers(case(WORD, BENCH))
        cases = other_kind(2, b"") + one + other_kind(7, b"a blob") + one + other_kind(9, b"!")
        self.assertEqual(kinds(cases), [2, 0, 7, 0, 9])
        outcomes = outcome_of_other_kind(b"") + its + outcome_of_other_kind(b"29 bytes") + its + outcome_of_other_kind(b".")
        self.assert_said(cases, outcomes, 0, "2 steps through kjolvast_step as recorded, 3 cases of other kinds left out")

    def test_files_that_cannot_be_used(self) -> None:
        one, its = case(WORD, BENCH), answers(case(WORD, BENCH))
        longest = one[:40] + b"\xff" * 8 + one[48:]
        for cases, outcomes, why in [
            (b"", b"", "cases: no case to step"),
            (other_kind(3, b""), outcome_of_other_kind(b""), "cases: no case to step"),
            (one + one[:95], its, "cases: case 1: the file ends inside it"),
            (one[:-1], its, "cases: case 0: the file ends inside it"),
            (longest, its, "cases: case 0: the file ends inside it"),
            (one[:56] + b"\0\0\0\0\0\0\0\x20" + one[64:], its, "cases: case 0: the file ends inside it"),
            (other_kind(3, b"blob")[:-1], its, "cases: case 0: the file ends inside it"),
            (one, its[:-1], "outcomes: case 0: the file ends inside it"),
            (one, its + b"\0", "outcomes: it goes on behind the last outcome"),
            (one, b"", "outcomes: case 0: the file ends inside it"),
            (b"KKJ2" + one[4:], its, "cases: case 0: the magic is not KKJ1"),
            (one[:8] + b"\x08" + one[9:], its, "cases: case 0: a flag bit that means nothing"),
            (one[:12] + b"\x05" + one[13:], its, "cases: case 0: a level over 4"),
            (other_kind(1, b""), its, "cases: case 0: a kind whose layout"),
            (other_kind(10, b""), its, "cases: case 0: a kind whose layout"),
        ]:
            with self.subTest(why):
                self.assert_said(cases, outcomes, 2, "host: ", why)

    def test_arguments(self) -> None:
        for words in (["one"], ["one", "two", "three"], ["not", "there"]):
            ran = subprocess.run([str(ROOT / "host" / "run"), *words], capture_output=True, text=True, cwd=self.folder)
            self.assertEqual((ran.returncode, ran.stdout, ran.stderr.count("\n")), (2, "", 1), ran.stderr)


if __name__ == "__main__":
    unittest.main()
