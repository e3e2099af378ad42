"""The lent bench of document 01, as kj holds it between two steps."""

from dataclasses import dataclass, field

PAGE = 4096
VECTORS = 32
PREDICATES = 16

# what a rights byte is called; another one is a number
RIGHTS = {"read": 1, "none": 0}

# the scalar file in its order: X0 to X30, SP, PC
SCALARS = [f"x{n}" for n in range(31)] + ["sp", "pc"]


@dataclass
class Area:
    """Flash or RAM: where it starts, its bytes, and one rights byte for each page begun."""

    start: int = 0
    bytes: bytes = b""
    rights: bytes = b""


@dataclass
class Bench:
    """All that is lent for a step. The sizes follow VL, allowed or not: whether it is accepted is the proved program's answer."""

    vl: int
    simd: bool = True
    sve: bool = True
    f64mm: bool = True
    z: bytes = b""
    p: bytes = b""
    x: list[int] = field(default_factory=lambda: [0] * len(SCALARS))
    flash: Area = field(default_factory=Area)
    ram: Area = field(default_factory=Area)

    @property
    def register_bytes(self) -> int:
        """How many bytes a vector register has."""
        return self.vl // 8

    @property
    def predicate_bytes(self) -> int:
        return self.vl // 64

    def register(self, n: int) -> bytes:
        """The bytes of vector register n, lowest first."""
        return self.z[n * self.register_bytes : (n + 1) * self.register_bytes]

    def predicate(self, n: int) -> bytes:
        """The bytes of predicate register n, lowest first."""
        return self.p[n * self.predicate_bytes : (n + 1) * self.predicate_bytes]


@dataclass
class Step:
    """A word to step, and what its author says about it."""

    word: int
    note: str = ""


@dataclass
class Script:
    """What a file asks for: a bench, and the words to step one after the other."""

    path: str
    title: str
    bench: Bench
    steps: list[Step]
