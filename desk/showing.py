"""A script's steps as text for a person: colours on a terminal, plain elsewhere."""

from desk.bench import RIGHTS, Area, Script
from desk.telling import NO_TEXT, Told, digits, float_text, shows_floats
from desk.words import Shown

COLOURS = {"bold": "1", "dim": "2", "good": "32", "bad": "31", "new": "36"}


class Paint:
    """Wraps text in a terminal's colours, or leaves it as it is."""

    def __init__(self, colours: bool):
        self.colours = colours

    def __call__(self, colour: str, text: str) -> str:
        return f"\x1b[{COLOURS[colour]}m{text}\x1b[0m" if self.colours else text


def heading(script: Script, paint: Paint) -> str:
    bench = script.bench
    on = {True: "on", False: "off"}
    settings = f"VL {bench.vl}, SIMD {on[bench.simd]}, SVE {on[bench.sve]}, F64MM {'present' if bench.f64mm else 'absent'}"
    lines = [paint("bold", script.title or script.path), settings, f"flash {extent(bench.flash)}", f"ram   {extent(bench.ram)}"]
    return "\n".join(lines) + "\n"


def extent(area: Area) -> str:
    """Where an area lies, and the right of each page, as they are lent."""
    names = {byte: name for name, byte in RIGHTS.items()}
    rights = " ".join(names.get(right, f"{right:#04x}") for right in area.rights)
    return f"{area.start:#x}, {len(area.bytes)} bytes; rights by page: {rights or 'no page'}"


def step(number: int, told: Told, paint: Paint) -> str:
    """One step: the word, the answer, and what it left."""
    shown = told.shown
    lines = ["", paint("bold", f"{number}. {told.step.word:08x}  {shown.text if shown else NO_TEXT}")]
    if told.step.note:
        lines.append(paint("dim", f"   {told.step.note}"))
    lines.append(answer(told, paint))
    if shown:
        lines += named(told, shown, paint)
    lines.append(f"   pc    {scalar(told, 'pc', paint)}")
    lines += others(told)
    return "\n".join(lines) + "\n"


def named(told: Told, shown: Shown, paint: Paint) -> list[str]:
    """The registers that the text names. Of the predicate its bytes: which lanes are active is not for kj to say."""
    lines = lanes(told, shown, paint)
    if shown.predicate is not None:
        lines.append(f"   pred  p{shown.predicate} {told.before.predicate(shown.predicate).hex(' ')}")
    lines.append(f"   base  {shown.base} {scalar(told, shown.base, paint)}")
    if shown.index:
        lines.append(f"   index {shown.index} {scalar(told, shown.index, paint)}")
    return lines


def answer(told: Told, paint: Paint) -> str:
    outcome = told.outcome
    name, meaning = told.answer
    line = f"answer {outcome.answer}, {name}" + (f": {meaning}" if meaning else "")
    numbers = f"count {outcome.count}, element {outcome.element}, address {outcome.address:#x}"
    return f"   {paint('good' if outcome.answer == 0 else 'bad', line)}; {numbers}"


def arrow(before: str, after: str, paint: Paint) -> str:
    """A value before and after; one that is the same says so."""
    if before.rstrip() == after:
        return paint("dim", f"{before}  unchanged")
    return f"{paint('dim', before)} -> {paint('new', after)}"


def scalar(told: Told, name: str, paint: Paint) -> str:
    before, after = told.scalar(name)
    return arrow(hex(before), hex(after), paint)


def others(told: Told) -> list[str]:
    """What changed beyond destinations, base and PC: nothing ever should, and if it did it is said."""
    if not told.changed:
        return ["   no register and no scalar changed"]
    named = {"pc"} | {into.register for into in told.destinations} | ({told.shown.base} if told.shown else set())
    return [f"   {name} changed too" for name in told.changed if name not in named]


def lanes(told: Told, shown: Shown, paint: Paint) -> list[str]:
    """The destinations, one below the other: a line for each lane that may be a float, else rows of 16 bytes."""
    text, row = (float_cell, 1) if shows_floats(shown) else (digits, 128 // shown.lane_bits)
    rows = [(into.register, into.lanes[at : at + row]) for into in told.destinations for at in range(0, len(into.lanes), row)]
    names = [f"{register}.{shown.lane}" if line[0].number == 0 else "" for register, line in rows]
    olds = [" ".join(text(lane.before) for lane in line) for _, line in rows]
    news = [" ".join(text(lane.after) for lane in line) for _, line in rows]
    wide = max(map(len, olds), default=0)
    places = [f"[{line[0].number}]" for _, line in rows]
    far = max(map(len, places), default=0)
    changes = [arrow(f"{old:<{wide}}", new, paint) for old, new in zip(olds, news)]
    return [f"   {name:<5} {place:<{far}} {change}" for name, place, change in zip(names, places, changes)]


def float_cell(lane: bytes) -> str:
    return f"{digits(lane)} {float_text(lane)}"
