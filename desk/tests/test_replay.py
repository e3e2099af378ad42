"""The proved program `replay` at the edges of its streams, by its launcher; and the launcher itself. What is expected comes from
docs/CASES.md by hand, or from the second interpreter."""

import os
import pty
import resource
import socket
import subprocess
import tempfile
import threading
import time
import tty
import unittest
from pathlib import Path

from desk.bench import Area, Bench
from desk.cases import HEAD, MAGIC, case
from desk.tests.common import REPLAY, ROOT, Benches, answers, by_replay

# all lengths 0 and VL 0: the set-up is refused
SMALL = HEAD.pack(MAGIC, 0, 0, 0, *[0] * 10)
REFUSED = b"\1" + bytes(24)
# a load of two doubles that runs; its outcome has 801 bytes
LOAD = case(0xA5E0A000, Bench(vl=128, z=bytes(512), p=b"\1\1" * 16, x=[0x1000] * 33, ram=Area(0x1000, bytes(range(16)), b"\1")))
LOADED = 25 + 512 + 33 * 8

UNREAD = "standard input cannot be read"
UNWRITTEN = "standard output cannot be written"


def told(number: int, why: str) -> bytes:
    return f"replay: case {number}: {why}\n".encode()


def run(**streams) -> subprocess.CompletedProcess:
    """Runs ./replay. Its status says nothing of the stream: it ends well where a line says why it ended."""
    streams = {"stdout": subprocess.PIPE, "stderr": subprocess.PIPE, "timeout": 60} | streams
    return subprocess.run([str(REPLAY)], **streams)


@by_replay
class Outputs(Benches):
    def test_a_full_disk(self) -> None:
        full = os.open("/dev/full", os.O_WRONLY)
        self.addCleanup(os.close, full)
        ran = run(input=SMALL * 2, stdout=full)
        self.assertEqual((ran.returncode, ran.stderr), (0, told(0, UNWRITTEN)))

    def test_a_file_that_may_not_grow_any_more(self) -> None:
        """The limit lies in outcome 3, at its start or in it: what was answered before stands whole."""
        wanted = answers(LOAD * 6)
        self.assertEqual(len(wanted), 6 * LOADED)
        for more in (0, 1, 100, LOADED - 1):
            limit = 3 * LOADED + more
            with self.subTest(more), tempfile.TemporaryFile() as file:
                # a write over the limit is an error, and not the end, where SIGXFSZ stays ignored as Python has it
                ran = run(input=LOAD * 6, stdout=file, restore_signals=False, preexec_fn=lambda: limit_files(limit))
                file.seek(0)
                self.assertEqual((ran.returncode, ran.stderr, file.read()), (0, told(3, UNWRITTEN), wanted[:limit]))

    def test_nobody_reads(self) -> None:
        """It is told, and no signal ends the program: what starts it ignores SIGPIPE, whether or not its caller does."""
        for ignored in (True, False):
            reader, writer = os.pipe()
            os.close(reader)
            # Python ignores SIGPIPE, and has it back as it was for a program only if asked
            ran = run(input=SMALL, stdout=writer, restore_signals=not ignored)
            os.close(writer)
            self.assertEqual((ran.returncode, ran.stderr), (0, told(0, UNWRITTEN)))

    def test_standard_output_is_closed(self) -> None:
        ran = subprocess.run(["sh", "-c", 'exec "$0" >&-', str(REPLAY)], input=SMALL, stderr=subprocess.PIPE, timeout=60)
        self.assertEqual((ran.returncode, ran.stderr), (0, told(0, UNWRITTEN)))

    def test_standard_error_is_closed(self) -> None:
        """Nobody can be told, and what was answered stands."""
        ran = subprocess.run(["sh", "-c", 'exec "$0" 2>&-', str(REPLAY)], input=SMALL + SMALL[:50], capture_output=True, timeout=60)
        self.assertEqual((ran.returncode, ran.stdout, ran.stderr), (0, REFUSED, b""))


def limit_files(size: int) -> None:
    resource.setrlimit(resource.RLIMIT_FSIZE, (size, size))


@by_replay
class Inputs(Benches):
    def assert_unread(self, stdin: int, number: int) -> None:
        """So many small cases are answered, and one line says that the next cannot be read."""
        ran = run(stdin=stdin)
        self.assertEqual((ran.returncode, ran.stdout, ran.stderr), (0, REFUSED * number, told(number, UNREAD)))

    def test_closed(self) -> None:
        ran = subprocess.run(["sh", "-c", 'exec "$0" <&-', str(REPLAY)], capture_output=True, timeout=60)
        self.assertEqual((ran.returncode, ran.stdout, ran.stderr), (0, b"", told(0, UNREAD)))

    def test_a_folder(self) -> None:
        folder = os.open(self.folder, os.O_RDONLY)
        self.addCleanup(os.close, folder)
        self.assert_unread(folder, 0)

    def test_a_read_that_fails_between_two_cases(self) -> None:
        self.assert_unread(self.waiting(SMALL * 3), 3)
        self.assert_unread(self.hung_up(SMALL * 3), 3)

    def test_a_read_that_fails_in_a_head(self) -> None:
        for size in (1, 50, 95):
            self.assert_unread(self.waiting(SMALL + LOAD[:size]), 1)
            self.assert_unread(self.hung_up(SMALL + LOAD[:size]), 1)

    def test_a_read_that_fails_behind_a_head(self) -> None:
        for size in (96, 97, len(LOAD) // 2, len(LOAD) - 1):
            self.assert_unread(self.waiting(SMALL * 2 + LOAD[:size]), 2)
            self.assert_unread(self.hung_up(SMALL * 2 + LOAD[:size]), 2)

    def test_a_read_that_fails_once(self) -> None:
        """Between two cases, in a head and behind it: whoever reads again after such an error finds the end of the stream."""
        for size in (0, 50, 96, len(LOAD) - 1):
            self.assert_unread(self.reset(SMALL * 2 + LOAD[:size]), 2)

    def waiting(self, data: bytes) -> int:
        """A pipe with these bytes, whose writer may still write: reading on has to wait, and this one does not wait (EAGAIN)."""
        reader, writer = os.pipe()
        self.addCleanup(os.close, reader)
        self.addCleanup(os.close, writer)
        os.set_blocking(reader, False)
        os.write(writer, data)
        return reader

    def hung_up(self, data: bytes) -> int:
        """A terminal's other end, on which these bytes were written before it hung up (EIO)."""
        ours, theirs = pty.openpty()
        self.addCleanup(os.close, ours)
        tty.setraw(theirs)
        os.write(theirs, data)
        os.close(theirs)
        return ours

    def reset(self, data: bytes) -> int:
        """A socket whose peer wrote these bytes and went away without reading what it was sent (ECONNRESET, told once)."""
        ours, theirs = socket.socketpair()
        self.addCleanup(ours.close)
        ours.sendall(b"unread")
        theirs.sendall(data)
        theirs.close()
        return ours.fileno()

    def test_nothing(self) -> None:
        for stdin in ({"input": b""}, {"stdin": subprocess.DEVNULL}):
            ran = run(**stdin)
            self.assertEqual((ran.returncode, ran.stdout, ran.stderr), (0, b"", b""))

    def test_byte_by_byte(self) -> None:
        """Through a pipe of packets, of which a read never takes two."""
        cases = SMALL + LOAD + SMALL
        self.assertEqual(self.through(os.pipe2(os.O_DIRECT | os.O_CLOEXEC), cases, [1], 0), answers(cases))

    def test_in_pieces_of_odd_sizes_with_pauses(self) -> None:
        cases = (ROOT / "demo" / "demos.cases").read_bytes()
        sizes = [1, 94, 3, 95, 97, 509, 2, 4093, 1031]
        self.assertEqual(self.through(os.pipe(), cases, sizes, 0.005), answers(cases))

    def through(self, pipe: tuple[int, int], cases: bytes, sizes: list[int], pause: float) -> bytes:
        """The outcomes of cases that come through a pipe in pieces of these sizes in turn."""
        reader, writer = pipe
        feeder = threading.Thread(target=feed, args=(writer, cases, sizes, pause))
        feeder.start()
        try:
            ran = run(stdin=reader)
        finally:
            os.close(reader)
            feeder.join()
        self.assertEqual((ran.returncode, ran.stderr), (0, b""))
        return ran.stdout

    def test_more_cases_than_any_buffer_holds(self) -> None:
        """And one that ends early behind them: its number is right."""
        ran = run(input=SMALL * 50_000 + SMALL[:95])
        self.assertEqual((ran.returncode, ran.stderr), (0, told(50_000, "the stream ends inside the case")))
        self.assertEqual(len(ran.stdout), 50_000 * 25)
        self.assertEqual(ran.stdout, REFUSED * 50_000)


def feed(writer: int, data: bytes, sizes: list[int], pause: float) -> None:
    at = turn = 0
    try:
        while at < len(data):
            at += os.write(writer, data[at : at + sizes[turn % len(sizes)]])
            turn += 1
            time.sleep(pause)
    except BrokenPipeError:
        pass  # the program ended before, which its outcomes show
    finally:
        os.close(writer)


class Launching(Benches):
    """The launcher, by a copy over a program of the test's own, with commands `uname` and `rt` of its own: so both kinds of machine."""

    def setUp(self) -> None:
        super().setUp()
        self.copy, self.bin, self.kit = (self.folder / name for name in ("a copy", "bin", "a kit"))
        for folder in (self.copy / "crates" / "replay" / "out", self.bin):
            folder.mkdir(parents=True)
        self.script(self.copy / "replay", REPLAY.read_text())
        self.script(self.copy / "crates" / "replay" / "out" / "replay", "#!/bin/sh\necho program\nexec cat\n")
        for tool in ("sh", "dirname", "readlink", "cat"):
            (self.bin / tool).symlink_to(next(Path(folder, tool) for folder in os.defpath.split(":") if Path(folder, tool).exists()))

    def script(self, path: Path, text: str) -> None:
        path.parent.mkdir(parents=True, exist_ok=True)
        path.write_text(text)
        path.chmod(0o755)

    def machine(self, name: str, rt: str | None = None) -> None:
        """What `uname -m` says, and what `rt doc` does, if there is one."""
        self.script(self.bin / "uname", f'#!/bin/sh\n[ "$*" = -m ] && echo {name}\n')
        if rt is not None:
            self.script(self.bin / "rt", f'#!/bin/sh\n[ "$*" = doc ] || exit 9\n{rt}\n')

    def launch(self, *words: str, path: Path | None = None) -> tuple[int, str, str]:
        command = [str(path or self.copy / "replay"), *words]
        ran = subprocess.run(command, input="cases", capture_output=True, text=True, cwd=self.folder, env={"PATH": str(self.bin)}, timeout=60)
        return ran.returncode, ran.stdout, ran.stderr

    def test_on_x86_64_the_program_runs_by_itself(self) -> None:
        self.machine("x86_64")
        self.assertEqual(self.launch(), (0, "program\ncases", ""))

    def test_through_links_and_by_its_name(self) -> None:
        self.machine("x86_64")
        link, second = self.folder / "link", self.bin / "by-name"
        link.symlink_to("a copy/replay")
        second.symlink_to(link)
        for path in (link, second, Path("by-name")):
            self.assertEqual(self.launch(path=path), (0, "program\ncases", ""), path)

    def test_elsewhere_it_runs_under_the_emulator_of_the_kit(self) -> None:
        tools = self.kit / "toolchain"
        self.machine("aarch64", f"echo '{self.kit}/START-HERE.md'")
        none = "replay: no emulator qemu-x86_64 for this machine, aarch64, in the Rattle kit or beside it\n"
        self.assertEqual(self.launch(), (2, "", none))
        words = [f"{tools}/lib/ld-linux-x86-64.so.2", "--library-path", f"{tools}/lib", f"{self.copy}/crates/replay/out/replay", "cases"]
        for place, name in [(self.bin, "the machine's"), (tools / "bin", "the kit's")]:
            self.script(place / "qemu-x86_64", f'#!/bin/sh\necho "{name}"\nfor word; do echo "$word"; done\nexec cat\n')
            self.assertEqual(self.launch(), (0, "\n".join([name, *words]), ""))

    def test_elsewhere_without_a_kit(self) -> None:
        self.machine("aarch64")
        line = "replay: no Rattle kit (rt) on this machine\n"
        self.assertEqual(self.launch(), (2, "", line))
        self.machine("aarch64", "echo broken >&2; exit 1")
        self.assertEqual(self.launch(), (2, "", line))

    def test_not_built(self) -> None:
        (self.copy / "crates" / "replay" / "out" / "replay").unlink()
        for name in ("x86_64", "aarch64"):
            self.machine(name)
            self.assertEqual(self.launch(), (2, "", "replay: not built yet: run 'rt run' in crates/replay\n"))

    def test_arguments(self) -> None:
        self.machine("x86_64")
        self.assertEqual(self.launch("cases.bin"), (2, "", "replay: no argument is wanted: cases come on standard input\n"))

    @by_replay
    def test_the_proved_program_from_another_folder_and_through_a_link(self) -> None:
        link = self.folder / "link"
        link.symlink_to(REPLAY)
        for path in (REPLAY, link):
            ran = subprocess.run([str(path)], input=SMALL, capture_output=True, cwd=self.folder, timeout=60)
            self.assertEqual((ran.returncode, ran.stdout, ran.stderr), (0, REFUSED, b""))


if __name__ == "__main__":
    unittest.main()
