"""./kj as a person and as a script use it: where it writes, and what it says of what it cannot do."""

import json
import os
import pty
import struct
import subprocess
import sys
import unittest
from pathlib import Path

from desk.command import put_whole
from desk.telling import ANSWERS, digits, float_text
from desk.tests.common import BY_SECOND, ROOT, Benches, kj, toml


def on_a_terminal(words: list[str], env: dict[str, str]) -> str:
    """What ./kj writes to a terminal."""
    ours, theirs = pty.openpty()
    with subprocess.Popen([str(ROOT / "kj"), *words], stdout=theirs, cwd=ROOT, env=os.environ | env) as running:
        os.close(theirs)
        said = b""
        try:
            while part := os.read(ours, 4096):
                said += part
        except OSError:
            pass  # a terminal's other end ends so
    os.close(ours)
    assert running.returncode == 0
    return said.decode()


class Using(Benches):
    def test_the_answers_have_the_names_of_document_01(self) -> None:
        names = ["ran", "set-up", "outside", "undefined", "switched off", "stack", "no memory", "denied"]
        self.assertEqual([ANSWERS[number][0] for number in range(8)], names)

    def test_another_program_is_named_first(self) -> None:
        first = kj(*BY_SECOND, self.write(toml())).stdout.splitlines()[0]
        self.assertEqual(first, f"stepped by {BY_SECOND[1]}, not by the proved program")

    def test_floats_by_the_fewest_digits(self) -> None:
        singles = [(0.1, "0.1"), (359.9, "359.9"), (2.0**-149, "1e-45"), (-0.0, "-0.0"), (float("-inf"), "-inf")]
        for value, text in singles:
            self.assertEqual(float_text(struct.pack("<f", value)), text)
        for value, text in [(0.1, "0.1"), (1e300, "1e+300"), (float("nan"), "nan")]:
            self.assertEqual(float_text(struct.pack("<d", value)), text)
        for bits in range(0, 2**32, 65_537 * 41):
            lane = bits.to_bytes(4, "little")
            value = float(float_text(lane))
            if value == value:
                self.assertEqual(struct.pack("<f", value), lane, digits(lane))

    def test_colours_on_a_terminal_and_nowhere_else(self) -> None:
        bench = self.write(toml())
        plain = kj(*BY_SECOND, bench).stdout
        painted = on_a_terminal([*BY_SECOND, bench], {"TERM": "xterm", "NO_COLOR": ""})
        self.assertNotIn("\x1b", plain)
        self.assertIn("\x1b[32manswer 0, ran\x1b[0m", painted)
        for env in ({"NO_COLOR": "1", "TERM": "xterm"}, {"NO_COLOR": "", "TERM": "dumb"}):
            self.assertEqual(on_a_terminal([*BY_SECOND, bench], env).replace("\r\n", "\n"), plain)

    def test_letters_that_standard_output_does_not_have(self) -> None:
        bench = self.write(toml(title="'nørth → 0°'"))
        ascii_only = {"PYTHONIOENCODING": "ascii"}
        self.assertEqual(json.loads(kj("--json", *BY_SECOND, bench, env=ascii_only).stdout)["title"], "nørth → 0°")
        self.assertIn("n\\xf8rth", kj(*BY_SECOND, bench, env=ascii_only).stdout)

    def test_the_cases_that_were_stepped(self) -> None:
        """Each begins with its magic, and the second goes on from what the first left: PC is 4."""
        out = self.folder / "out"
        self.assertEqual(kj(*BY_SECOND, "--cases", str(out), self.write(toml(words="[0xA5E0A000, 0]"))).returncode, 0)
        data = out.read_bytes()
        first = 96 + 32 * 16 + 16 * 2 + 33 * 8 + 16 + 1
        self.assertEqual((len(data), data[:8], data[first : first + 8]), (2 * first, b"KKJ1\x00\xa0\xe0\xa5", b"KKJ1" + bytes(4)))
        counter = 96 + 32 * 16 + 16 * 2 + 32 * 8
        self.assertEqual((data[counter : counter + 8], data[first + counter : first + counter + 8]), (bytes(8), bytes([4]) + bytes(7)))
        self.assertEqual([path.name for path in self.folder.iterdir() if path.name != "bench.toml"], ["out"])
        self.assertEqual(self.written_to(out).returncode, 0, "a second time")
        ran = self.written_to(self.folder / "no" / "out")
        self.assertEqual((ran.returncode, ran.stderr), (2, f"kj: {self.folder}/no/out: cannot be written: No such file or directory\n"))

    def written_to(self, out: Path) -> subprocess.CompletedProcess:
        return kj(*BY_SECOND, "--cases", str(out), self.write(toml()))

    def test_cases_into_what_is_no_plain_file(self) -> None:
        """A pipe stays one. No device of the machine is named here: a wrong kj would put a file in its place."""
        pipe = self.folder / "pipe"
        os.mkfifo(pipe)
        reader = os.open(pipe, os.O_RDWR | os.O_NONBLOCK)
        self.addCleanup(os.close, reader)
        self.assertEqual(self.written_to(pipe).returncode, 0)
        self.assertEqual((pipe.is_fifo(), os.read(reader, 4)), (True, b"KKJ1"))

    def test_cases_through_a_link_and_with_a_file_in_the_way(self) -> None:
        link, file, part = (self.folder / name for name in ("link", "file", "file.part"))
        link.symlink_to(file)
        self.assertEqual(self.written_to(link).returncode, 0)
        self.assertEqual((os.readlink(link), file.read_bytes()[:4]), (str(file), b"KKJ1"))
        part.write_text("mine")
        ran = self.written_to(file)
        self.assertEqual((ran.returncode, ran.stderr), (2, f"kj: {file}: cannot be written: File exists\n"))
        self.assertEqual(part.read_text(), "mine")

    def test_nothing_is_left_of_a_file_that_could_not_be_put_in_place(self) -> None:
        with self.assertRaises(OSError):
            put_whole(str(self.folder), b"cases")
        self.assertFalse(os.path.exists(f"{self.folder}.part"))

    def test_help(self) -> None:
        ran = kj("--help")
        self.assertEqual((ran.returncode, ran.stderr), (0, ""))
        for part in ("./kj demo/crossing-north.toml", "words =", "--json", '"destinations"', "exit status"):
            self.assertIn(part, ran.stdout)


class BadUse(Benches):
    def test_arguments(self) -> None:
        demo = "demo/page-end.toml"
        for argv, why in [
            ([], "which file?"),
            (["--jason", demo], "no such option or second file: --jason"),
            (["--jso", demo], "no such option or second file: --jso"),
            ([demo, "b\nc"], "no such option or second file: b?c"),
            ([demo, "--program"], "--program: expected one argument"),
            (["--program", "", demo], "--program: no command is named"),
            (["--program", "'", demo], "--program: No closing quotation"),
            (["--program", "/not/'th\nere'", demo], "/not/th?ere: cannot be run"),
        ]:
            self.assert_one_line(kj(*argv), why)

    def test_closed_streams(self) -> None:
        python = [sys.executable, str(ROOT / "kj")]
        for argv, said in (([self.write(toml())], "kj: standard output is closed\n"), (["--help"], "kj: standard output is closed\n")):
            ran = subprocess.run(["sh", "-c", 'exec "$@" >&-', "sh", *python, *argv], capture_output=True, text=True)
            self.assertEqual((ran.returncode, ran.stderr), (2, said))
        ran = subprocess.run(["sh", "-c", 'exec "$@" 2>&-', "sh", *python, "none.toml"], capture_output=True, text=True)
        self.assertEqual((ran.returncode, ran.stdout), (2, ""))

    def test_programs_that_do_not_answer(self) -> None:
        bench = self.write(toml())
        self.write("#!/bin/sh\nhead -c 7 /dev/zero\n", "short")
        self.write("#!/bin/sh\necho 'replay: case 0: bad' >&2\n", "refuses")
        for name in ("short", "refuses"):
            os.chmod(self.folder / name, 0o755)
        for program, why in [
            ("/not/there", "/not/there: cannot be run: No such file"),
            ("false", "false: exit status 1"),
            ("yes", "yes: ended by signal"),
            (f"{self.folder}/short", "short: 7 bytes came where an outcome has 801"),
            (f"{self.folder}/refuses", "refuses: replay: case 0: bad"),
        ]:
            self.assert_one_line(kj("--json", "--program", program, bench), why)
            self.assert_one_line(kj("--program", program, bench), why)

    def test_what_was_answered_before_stands(self) -> None:
        """A program that answers once: the first step is shown, and a JSON document is not begun."""
        self.write(f"#!/bin/sh\ncd {self.folder}\nmkdir once && exec {BY_SECOND[1]}\n", "fickle")
        os.chmod(self.folder / "fickle", 0o755)
        bench = self.write(toml(words="[0xA5E0A000, 0xA5E0A000]"))
        ran = kj("--program", f"{self.folder}/fickle", bench)
        self.assertEqual((ran.returncode, ran.stderr.count("\n"), ran.stdout.count("answer 0, ran")), (2, 1, 1))
        os.rmdir(self.folder / "once")
        self.assert_one_line(kj("--json", "--program", f"{self.folder}/fickle", bench), "fickle: ")

    def test_an_output_that_cannot_be_written(self) -> None:
        bench = self.write(toml())
        with open("/dev/full", "w") as full:
            ran = subprocess.run([str(ROOT / "kj"), *BY_SECOND, bench], stdout=full, stderr=subprocess.PIPE, text=True)
        self.assertEqual((ran.returncode, ran.stderr), (2, "kj: standard output cannot be written: No space left on device\n"))

    def test_a_reader_that_goes_away(self) -> None:
        bench = self.write(toml(words=str([0xA5E0A000] * 40)))
        with subprocess.Popen([str(ROOT / "kj"), *BY_SECOND, bench], stdout=subprocess.PIPE, stderr=subprocess.PIPE) as running:
            running.stdout.readline()
            running.stdout.close()
            self.assertEqual(running.stderr.read(), b"")
        self.assertEqual(running.returncode, 0)


if __name__ == "__main__":
    unittest.main()
