"""What one step told and changed, as plain values: the text and the JSON both show these, and add nothing."""

import math
import struct
from dataclasses import dataclass

from desk.bench import SCALARS, VECTORS, Bench, Step
from desk.cases import Outcome
from desk.words import Shown, disassemble

# document 01, "When the bench says no", where LD2R to LD4R of document 02, One, stand with LD1R; these have elements, and no active lanes
ANSWERS = {
    0: ("ran", ""),
    1: ("set-up", "VL, or an area's length, rights, start or end, is not allowed, or the areas share an address"),
    2: ("outside", "no family row fits the word's fixed bits"),
    3: ("undefined", "LD1R to LD4R with L=0 or S=1, a scalar form with Rm = 31, or LD1RO without F64MM or with VL under 256"),
    4: ("switched off", "LD1R to LD4R with SIMD off, or any other with SVE off"),
    5: ("stack", "SP is the base and no multiple of 16"),
    6: ("no memory", "a byte of an active element lies in neither area"),
    7: ("denied", "a byte of an active element lies in a page without the read right"),
}
NO_TEXT = "no assembler text"


@dataclass
class Lane:
    number: int
    before: bytes
    after: bytes


@dataclass
class Destination:
    """A register that a load names for what it reads."""

    register: str
    lanes: list[Lane]


@dataclass
class Told:
    """One step. `shown` is what the word's text names, none for a word that has no text."""

    step: Step
    shown: Shown | None
    outcome: Outcome
    before: Bench

    @property
    def answer(self) -> tuple[str, str]:
        return ANSWERS.get(self.outcome.answer, ("no answer of document 01", ""))

    @property
    def destinations(self) -> list[Destination]:
        """In the order in which elements go to them, which may lead from 31 to 0."""
        if self.shown is None:
            return []
        return [Destination(f"z{target}", self.lanes(target, self.shown.lane_bits // 8)) for target in self.shown.targets]

    def lanes(self, register: int, size: int) -> list[Lane]:
        """A vector register by lanes of so many bytes, lane 0 first."""
        before, after = self.before.register(register), self.outcome.bench.register(register)
        return [Lane(n, before[n * size : (n + 1) * size], after[n * size : (n + 1) * size]) for n in range(len(after) // size)]

    @property
    def changed(self) -> list[str]:
        """The registers and scalars that are not as they were, whatever the word says."""
        after = self.outcome.bench
        found = [f"z{n}" for n in range(VECTORS) if after.register(n) != self.before.register(n)]
        return found + [name for name, old, new in zip(SCALARS, self.before.x, after.x) if old != new]

    def scalar(self, name: str) -> tuple[int, int]:
        """A scalar before and after."""
        n = SCALARS.index(name)
        return self.before.x[n], self.outcome.bench.x[n]


def tell(step: Step, before: Bench, outcome: Outcome) -> Told:
    return Told(step, disassemble(step.word), outcome, before)


def digits(lane: bytes) -> str:
    """A lane's bits as a number in hexadecimal, highest digit first."""
    return lane[::-1].hex()


def as_float(lane: bytes) -> float:
    return struct.unpack("<f" if len(lane) == 4 else "<d", lane)[0]


def float_text(lane: bytes) -> str:
    """A single or a double by the fewest digits that give the same bits back."""
    value = as_float(lane)
    if len(lane) == 8 or not math.isfinite(value):
        return repr(value)
    texts = (f"{value:.{places}g}" for places in range(1, 10))
    return next(repr(float(text)) for text in texts if struct.pack("<f", float(text)) == lane)


def shows_floats(shown: Shown) -> bool:
    """Whether the lanes may be floats: 32 or 64 bits, as wide as what was read into them."""
    return shown.whole and shown.lane_bits in (32, 64)
