"""The demos show what they are for, by the proved program and by the second interpreter alike, and README.md shows what they print."""

import math
import struct
import unittest

from desk.tests.common import REPLAY, ROOT, Replayed, answers, kj

DEMOS = ("crossing-north", "page-end", "left-over", "sine-cosine")
# their cases one behind the other, which stand in the input of the proved program too, behind the sample
CASES = ROOT / "demo" / "demos.cases"


def bits(value: float) -> str:
    return "0x" + struct.pack(">d", value).hex()


def sine_and_cosine(degrees: float) -> tuple[float, float]:
    """As the demo's receiver writes them, to eight places."""
    return round(math.sin(math.radians(degrees)), 8), round(math.cos(math.radians(degrees)), 8)


class Demos(Replayed):
    def steps(self, name: str) -> list[dict]:
        return self.document(f"demo/{name}.toml")["steps"]

    def after(self, step: dict) -> list[str]:
        return [lane["after"] for lane in step["destination"]["lanes"]]

    def test_crossing_north(self) -> None:
        """The inactive lane held 359.9 and is zero, and not 359.9, which with 0.1 would make 180."""
        first, second = self.steps("crossing-north")
        self.assertEqual(self.after(first), [bits(359.8), bits(359.9)])
        self.assertEqual(second["destination"]["lanes"][1]["before"], bits(359.9))
        self.assertEqual((self.after(second), second["count"]), ([bits(0.1), bits(0.0)], 1))

    def test_page_end(self) -> None:
        first, second = self.steps("page-end")
        self.assertEqual([first[key] for key in ("answer", "count", "element", "address", "changed")], [7, 2, 2, "0x10001000", []])
        self.assertEqual(self.after(first), [bits(value) for value in (11, 22, 33, 44)])
        self.assertEqual((second["answer"], self.after(second)), (0, [bits(359.7), bits(359.8), bits(0), bits(0)]))

    def test_left_over(self) -> None:
        first, second = self.steps("left-over")
        self.assertEqual(self.after(first), [bits(value) for value in (0.1, 0.2, 0.3, 0.4, 0, 0)])
        block = struct.pack("<d", 0.1)
        self.assertEqual(self.after(second), [f"0x{block[n]:02x}" if n in (0, 5) else "0x00" for n in range(48)])
        self.assertEqual((first["count"], second["count"]), (4, 2))

    def loaded(self, step: dict, side: str) -> list[tuple[str, list[str]]]:
        """Every destination by its name, with its lanes before or after."""
        return [(into["register"], [lane[side] for lane in into["lanes"]]) for into in step["destinations"]]

    def test_sine_cosine(self) -> None:
        """Document 02, One: elements to t and t+1, 31 followed by 0, zeros above; x0 grows by 2 x 8; a fault changes nothing."""
        steps = self.steps("sine-cosine")
        old, zero = bits(359.9), bits(0.0)
        west, east = ([bits(value) for value in sine_and_cosine(degrees)] for degrees in (359.8, 0.1))
        self.assertEqual(self.loaded(steps[0], "before"), [("z0", [old] * 4), ("z1", [old] * 4)])
        wanted = [
            [(name, [value, value, zero, zero]) for name, value in zip(("z0", "z1"), west)],
            [(name, [value, zero, zero, zero]) for name, value in zip(("z2", "z3"), west)],
            [(name, [value, value, zero, zero]) for name, value in zip(("z31", "z0"), east)],
            [("z4", [old] * 4), ("z5", [old] * 4)],
        ]
        self.assertEqual([self.loaded(step, "after") for step in steps], wanted)
        self.assertEqual([step["base"]["after"] for step in steps], [hex(0x20000000 + grown) for grown in (0, 16, 32, 32)])
        told = [tuple(step[key] for key in ("answer", "count", "element", "address")) for step in steps]
        self.assertEqual(told, [(0, 2, 0, "0x0")] * 3 + [(6, 1, 1, hex(0x20000000 + 5 * 8))])
        changed = [["z0", "z1", "pc"], ["z2", "z3", "x0", "pc"], ["z0", "z31", "x0", "pc"], []]
        self.assertEqual([step["changed"] for step in steps], changed)

    def test_every_demo_is_listed_here(self) -> None:
        self.assertEqual({path.stem for path in (ROOT / "demo").glob("*.toml")}, set(DEMOS))

    def test_readme_shows_what_they_print(self) -> None:
        """Each block of README.md that begins with '$ ./kj' is the output of that command."""
        lines = (ROOT / "README.md").read_text().splitlines()
        shown = 0
        for at, line in enumerate(lines):
            if not line.startswith("    $ ./kj "):
                continue
            block = []
            for text in lines[at + 1 :]:
                if text and not text.startswith("    "):
                    break
                block.append(text[4:])
            self.assertEqual("\n".join(block).strip(), self.show(*line.split()[2:]).strip())
            shown += 1
        self.assertGreaterEqual(shown, 1)

    def test_every_demo_is_shown_alike(self) -> None:
        for name in DEMOS:
            self.assertIn("answer 0, ran", self.show(f"demo/{name}.toml"))

    def test_the_cases_are_those_that_the_gate_has_the_proved_program_step(self) -> None:
        packed = b""
        for name in DEMOS:
            kj("--cases", str(self.folder / name), f"demo/{name}.toml")
            packed += (self.folder / name).read_bytes()
        self.assertEqual(packed, CASES.read_bytes())
        self.assertTrue((ROOT / "crates" / "replay" / "stdin").read_bytes().endswith(packed))
        self.assertEqual(answers(packed, [str(REPLAY)]), answers(packed))


if __name__ == "__main__":
    unittest.main()
