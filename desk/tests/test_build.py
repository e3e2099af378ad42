"""The program is built if need be, and a build says what it does. By copies of kj with a command `rt` of the test's own."""

import os
import shutil
import subprocess
import time
import unittest
from pathlib import Path

from desk.tests.common import ROOT, SECOND, Benches, toml

# what stands for the kit: it tells as rt does, its program is the second interpreter, and one that is there is left alone
RT = f"""#!/bin/sh
echo "$@" in "${{PWD##*/}}" >> ../../calls
echo 'rt: chose --jobs 2 for ground' >&2
echo 'fn ground::x: proved'
echo 'crate ground: modules loaded=200 checked=0'
echo 'logic=proved functions=6'
[ ! -e out/replay ] || exit 0
mkdir -p out
printf '#!/bin/sh\\nexec {SECOND} answer\\n' > out/replay
chmod +x out/replay
"""
BROKEN = """#!/bin/sh
echo 'fn ground::x: not proved'
echo 'logic=not-proved'
echo 'rt: the library ground did not build, so nothing above it was checked' >&2
exit 1
"""


class Building(Benches):
    def setUp(self) -> None:
        super().setUp()
        self.copy = self.folder / "copy"
        shutil.copytree(ROOT / "desk", self.copy / "desk")
        shutil.copy(ROOT / "kj", self.copy)
        (self.copy / "crates.txt").write_text("ground:\nbench: ground\nreplay: bench\nlater: replay\n")
        for crate in ("ground", "bench", "replay", "later"):
            (self.copy / "crates" / crate / "src").mkdir(parents=True)
            (self.copy / "crates" / crate / "src" / "lib.rt").write_text("")
        self.script(self.copy / "replay", "#!/bin/sh\necho >> launches\nexec crates/replay/out/replay\n")
        (self.folder / "bin").mkdir()
        self.bench = self.write(toml())

    def script(self, path: Path, text: str) -> None:
        path.write_text(text)
        path.chmod(0o755)

    def start(self, rt: str | None) -> subprocess.Popen:
        if rt is not None:
            self.script(self.folder / "bin" / "rt", rt)
        path = f"{self.folder / 'bin'}:{os.defpath}:{os.path.dirname(shutil.which('python3'))}"
        pipe = subprocess.PIPE
        return subprocess.Popen(["./kj", self.bench], stdout=pipe, stderr=pipe, text=True, cwd=self.copy, env=os.environ | {"PATH": path})

    def kj(self, rt: str | None) -> subprocess.CompletedProcess:
        with self.start(rt) as running:
            said, complained = running.communicate(timeout=60)
        return subprocess.CompletedProcess(running.args, running.returncode, said, complained)

    def calls(self) -> int:
        return (self.copy / "calls").read_text().count("run in replay\n")

    def test_once_and_it_says_what_it_does(self) -> None:
        ran = self.kj(RT)
        self.assertEqual(ran.returncode, 0, ran.stderr)
        lines = ran.stderr.splitlines()
        self.assertIn("proving and building the program 'replay' by 'rt run' in crates/replay", lines[0])
        self.assertRegex(lines[1], "^kj:   ground proved \\([0-9]+ s\\)$")
        self.assertRegex(lines[2], "^kj: built in [0-9]+ s$")
        self.assertIn("answer 0, ran", ran.stdout)
        self.assertEqual((self.kj(RT).stderr, self.calls()), ("", 1))
        self.assertEqual((self.copy / "launches").read_text(), "\n\n", "by its launcher, which knows the machine")

    def test_a_second_kj_waits_for_the_build_of_the_first(self) -> None:
        slow = RT.replace("[ !", "sleep 1\n[ !")
        both = [self.start(slow), self.start(slow)]
        said = [running.communicate(timeout=60)[0] for running in both]
        self.assertEqual((said[0], self.calls()), (said[1], 1))
        self.assertIn("answer 0, ran", said[0])

    def test_again_where_a_source_is_newer(self) -> None:
        self.kj(RT)
        ahead = time.time() + 5
        os.utime(self.copy / "crates" / "later" / "src" / "lib.rt", (ahead, ahead))
        self.assertEqual((self.kj(RT).stderr, self.calls()), ("", 1), "no part of the program")
        os.utime(self.copy / "crates" / "ground" / "src" / "lib.rt", (time.time(), time.time()))
        self.assertIn("proving", self.kj(RT).stderr)
        self.assertEqual((self.kj(RT).stderr, self.calls()), ("", 2))

    def test_a_source_of_tomorrow_is_built_once(self) -> None:
        tomorrow = time.time() + 86_400
        os.utime(self.copy / "crates" / "ground" / "src" / "lib.rt", (tomorrow, tomorrow))
        self.kj(RT)
        self.assertEqual((self.kj(RT).stderr, self.calls()), ("", 1))

    def test_no_list_of_crates(self) -> None:
        (self.copy / "crates.txt").unlink()
        self.kj(RT)
        self.assert_one_line(self.kj(RT), "the proved program cannot be built: ", "crates.txt: No such file")

    def test_a_build_that_fails(self) -> None:
        ran = self.kj(BROKEN)
        self.assertEqual((ran.returncode, ran.stdout), (2, ""))
        says = "rt: the library ground did not build, so nothing above it was checked"
        last = f"kj: the program could not be built; 'rt run' in crates/replay says: {says}"
        self.assertEqual(ran.stderr.splitlines()[-1], last)

    def test_a_program_that_is_older_than_a_source_that_is_not_proved(self) -> None:
        self.kj(RT)
        ahead = time.time() + 5
        os.utime(self.copy / "crates" / "ground" / "src" / "lib.rt", (ahead, ahead))
        ran = self.kj(BROKEN)
        self.assertEqual((ran.returncode, ran.stdout), (2, ""))

    def test_no_kit(self) -> None:
        ran = self.kj(None)
        self.assertEqual((ran.returncode, ran.stdout), (2, ""))
        self.assertIn("kj: the Rattle kit's command 'rt', which builds the proved program, cannot be run: No such file", ran.stderr)

    def test_a_bad_file_builds_nothing(self) -> None:
        self.bench = self.write("vl = -1\n")
        self.assert_one_line(self.kj(RT), "vl: ")
        self.assertFalse((self.copy / "crates" / "replay" / "out").exists())


if __name__ == "__main__":
    unittest.main()
