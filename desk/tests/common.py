"""What the tests of kj share. What kj shows of a step is tested by the proved program, as a person runs it, and held to the second
interpreter; how kj reads, writes and refuses is tested by the second interpreter alone. A test that wants a program which is not built
is skipped; the gate builds both first, and .ci/tests lets none be skipped there."""

import json
import os
import subprocess
import tempfile
import unittest
from pathlib import Path

from desk.program import built

ROOT = Path(__file__).resolve().parents[2]
SECOND = ROOT / "second" / "target" / "release" / "second"
BY_SECOND = ["--program", f"{SECOND} answer"]
REPLAY = ROOT / "replay"

# the mark of a test that runs the proved program
by_replay = unittest.skipUnless(built(), "the proved program is not built: rt run in crates/replay")

# a good bench, which a test changes in one place
GOOD = {
    "vl": "128",
    "words": "[0xA5E0A000]",
    "scalars": "{ x0 = 0x1000 }",
    "predicates": '{ p0 = { size = 64, lanes = "all" } }',
    "ram": "{ start = 0x1000, bytes = { doubles = [1.0, 2.0] } }",
}


if not SECOND.exists():
    raise SystemExit("build the second interpreter first: cargo build --release --offline --manifest-path second/Cargo.toml")


def toml(**changed: str) -> str:
    """The good bench with some keys written otherwise."""
    return "".join(f"{key} = {value}\n" for key, value in (GOOD | changed).items())


def kj(*words: str, env: dict[str, str] | None = None, cwd: Path = ROOT) -> subprocess.CompletedProcess:
    """Runs ./kj with its output in a pipe."""
    return subprocess.run([str(ROOT / "kj"), *words], capture_output=True, text=True, cwd=cwd, env=os.environ | (env or {}), timeout=60)


def answers(cases: bytes, program: list[str] | None = None) -> bytes:
    """The outcomes of a stream of cases, by the second interpreter unless another program is named."""
    ran = subprocess.run(program or [str(SECOND), "answer"], input=cases, capture_output=True, timeout=60)
    assert (ran.returncode, ran.stderr) == (0, b""), ran.stderr
    return ran.stdout


class Benches(unittest.TestCase):
    """A test with a folder of its own to write benches into."""

    def setUp(self) -> None:
        folder = tempfile.TemporaryDirectory()
        self.addCleanup(folder.cleanup)
        self.folder = Path(folder.name)

    def write(self, text: str | bytes, name: str = "bench.toml") -> str:
        path = self.folder / name
        path.write_bytes(text if isinstance(text, bytes) else text.encode())
        return str(path)

    def assert_one_line(self, ran: subprocess.CompletedProcess, *parts: str) -> None:
        """Exit status 2, one line on standard error with these parts, and nothing on standard output."""
        self.assertEqual((ran.returncode, ran.stdout), (2, ""), ran.stderr)
        self.assertEqual(ran.stderr.count("\n"), 1, ran.stderr)
        self.assertTrue(ran.stderr.startswith("kj: ") and ran.stderr.endswith("\n"), ran.stderr)
        for part in parts:
            self.assertIn(part, ran.stderr)


@by_replay
class Replayed(Benches):
    """A test that steps by the proved program, through its launcher, with the second interpreter as the other side."""

    def show(self, *words: str) -> str:
        """What ./kj prints, which but for the line that names the other program is the same by both."""
        ours, theirs = (kj(*by, *words) for by in ([], BY_SECOND))
        for ran in (ours, theirs):
            self.assertEqual((ran.returncode, ran.stderr), (0, ""))
        self.assertEqual(ours.stdout, theirs.stdout.split("\n", 1)[1])
        return ours.stdout

    def document(self, *words: str) -> dict:
        """What ./kj --json prints, which names what it was stepped by and is otherwise the same by both."""
        ours, theirs = (json.loads(kj("--json", *by, *words).stdout, parse_constant=self.fail) for by in ([], BY_SECOND))
        self.assertEqual((ours["stepped_by"], theirs["stepped_by"]), ("replay", BY_SECOND[1]))
        self.assertEqual(ours | {"stepped_by": ""}, theirs | {"stepped_by": ""})
        return ours
