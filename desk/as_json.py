"""A script's steps for another program. Numbers of 64 bits are strings in hexadecimal, since many readers of JSON keep 53 bits; a float
that JSON has no number for is a string. A step of a word that has a text has `destinations`, a list in the order of the load, of one or
more; and `destination` where there is one alone, so that who knows no more than one never takes the first of several for all."""

import json
import math
from typing import Any

from desk.bench import Area, Script
from desk.telling import Destination, Lane, Told, as_float, digits, shows_floats
from desk.words import Shown


def number(value: float) -> float | str:
    return value if math.isfinite(value) else repr(value)


def lane(cell: Lane, floats: bool) -> dict[str, Any]:
    found: dict[str, Any] = {"before": f"0x{digits(cell.before)}", "after": f"0x{digits(cell.after)}"}
    if floats:
        found |= {"before_float": number(as_float(cell.before)), "after_float": number(as_float(cell.after))}
    return found


def destination(into: Destination, shown: Shown) -> dict[str, Any]:
    cells = [lane(cell, shows_floats(shown)) for cell in into.lanes]
    return {"register": into.register, "lane_bits": shown.lane_bits, "lanes": cells}


def change(before: int, after: int) -> dict[str, str]:
    return {"before": hex(before), "after": hex(after)}


def step(told: Told) -> dict[str, Any]:
    outcome, shown = told.outcome, told.shown
    found: dict[str, Any] = {
        "word": f"{told.step.word:08x}",
        "text": shown.text if shown else None,
        "note": told.step.note,
        "answer": outcome.answer,
        "answer_name": told.answer[0],
        "count": outcome.count,
        "element": outcome.element,
        "address": hex(outcome.address),
        "changed": told.changed,
        "pc": change(*told.scalar("pc")),
    }
    if shown:
        found["destinations"] = [destination(into, shown) for into in told.destinations]
        if len(shown.targets) == 1:
            found["destination"] = found["destinations"][0]
        found["base"] = {"register": shown.base} | change(*told.scalar(shown.base))
        if shown.index:
            found["index"] = {"register": shown.index} | change(*told.scalar(shown.index))
        if shown.predicate is not None:
            found["predicate"] = {"register": f"p{shown.predicate}", "bytes": told.before.predicate(shown.predicate).hex()}
    return found


def area(lent: Area) -> dict[str, Any]:
    return {"start": hex(lent.start), "length": len(lent.bytes), "rights": lent.rights.hex()}


def document(script: Script, tolds: list[Told], other: str | None) -> str:
    """The whole run; `stepped_by` names another program where it was not the proved one."""
    bench = script.bench
    settings = {"vl": bench.vl, "simd": bench.simd, "sve": bench.sve, "f64mm": bench.f64mm}
    found = {"file": script.path, "title": script.title, "stepped_by": other or "replay", "settings": settings}
    found |= {"flash": area(bench.flash), "ram": area(bench.ram), "steps": [step(told) for told in tolds]}
    return json.dumps(found, indent=2, allow_nan=False) + "\n"
