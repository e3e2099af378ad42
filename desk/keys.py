"""A table of a TOML file with its place in it, so that every complaint names the file and the key."""

import re
from collections.abc import Iterable
from typing import Any, NoReturn

from desk.complaints import BadInput, brief

HEXADECIMAL = re.compile("0[xX][0-9A-Fa-f]+")


def kind(value: Any) -> str:
    """What a value is, in a word that a person who writes TOML knows."""
    names = {bool: "true or false", int: "a whole number", float: "a number with a point", str: "a string", list: "a list", dict: "a table"}
    return names.get(type(value), "a date or time")


class Table:
    def __init__(self, file: str, place: str, values: dict[str, Any]):
        self.file = file
        self.place = place
        self.values = values

    def name(self, key: str) -> str:
        return ".".join(part for part in (self.place, key) if part)

    def refuse(self, key: str, why: str) -> NoReturn:
        """Ends with a complaint about a key, or about the table itself where the key is empty."""
        raise BadInput(f"{self.file}: {self.name(brief(key))}: {why}")

    def only(self, known: Iterable[str], hint: str = "") -> None:
        """Refuses a key that has no meaning here: a misspelt one must not be passed over."""
        known = list(known)
        for key in self.values:
            if key not in known:
                self.refuse(key, f"no such key; {hint or ', '.join(known)} can be written here")

    def has(self, key: str) -> bool:
        return key in self.values

    def required(self, key: str) -> Any:
        if key not in self.values:
            self.refuse(key, "is missing")
        return self.values[key]

    def number(self, key: str, most: int, default: int | None = None, why: str = "") -> int:
        """A whole number from 0 to `most`, for a reason that is told where a person might not expect it."""
        if key not in self.values and default is not None:
            return default
        return self.checked(key, self.required(key), most, why)

    def checked(self, key: str, value: Any, most: int, why: str = "") -> int:
        """A value as a number from 0 to `most`. A string in hexadecimal is one too, for files that other readers of TOML, which
        end at 2^63, have to take."""
        if isinstance(value, str):
            if not HEXADECIMAL.fullmatch(value):
                self.refuse(key, f"a number in a string has the form 0xff, and this is {brief(value)!r}")
            value = int(value, 16)
        if isinstance(value, bool) or not isinstance(value, int):
            self.refuse(key, f"a whole number is wanted, and this is {kind(value)}")
        if not 0 <= value <= most:
            # Python does not print a number of more than some thousand digits
            shown = hex if most > 0xFFFFFF else str
            given = shown(value) if abs(value) < 2**70 else "a number of so many digits"
            self.refuse(key, f"{given} is out of range, 0 to {shown(most)}{why}")
        return value

    def of_type(self, key: str, wanted: type, default: Any) -> Any:
        value = self.values.get(key, default)
        if not isinstance(value, wanted):
            self.refuse(key, f"{kind(wanted())} is wanted, and this is {kind(value)}")
        return value

    def table(self, key: str) -> "Table":
        """A table below this one; an empty one where it is not written."""
        return Table(self.file, self.name(key), self.of_type(key, dict, {}))

    def tables(self, key: str) -> list["Table"]:
        """One table or a list of them."""
        value = self.values.get(key, [])
        if isinstance(value, dict):
            return [self.table(key)]
        if not isinstance(value, list):
            self.refuse(key, f"a table or a list of tables is wanted, and this is {kind(value)}")
        for number, entry in enumerate(value):
            if not isinstance(entry, dict):
                self.refuse(f"{key}[{number}]", f"a table is wanted, and this is {kind(entry)}")
        return [Table(self.file, self.name(f"{key}[{number}]"), entry) for number, entry in enumerate(value)]
