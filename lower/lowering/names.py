"""Accepted names for QBE's names: one for each, unchanged if possible."""
import re
from collections.abc import Container

from terminal.reading.accepted import NAME

LAWFUL = re.compile(rf"\${NAME}")
OTHER = re.compile(r"[^A-Za-z0-9._$]")


def free_name(front: str, taken: Container[str]) -> str:
    """A name that isn't taken: the front, or with a number behind it."""
    name, number = front, 1
    while name in taken:
        number += 1
        name = f"{front}.{number}"
    return name


class Names:
    """The names that were given."""

    def __init__(self) -> None:
        self.taken: set[str] = set()

    def give(self, raw: str) -> str:
        """A name that no other has. Each other byte becomes a dot and two hexadecimal digits, and a taken name gets a
        number at its end."""
        name = raw if LAWFUL.fullmatch(raw) else \
            "$" + (OTHER.sub(lambda match: f".{ord(match.group()):02x}", raw[1:]) or ".")
        given = free_name(name, self.taken)
        self.taken.add(given)
        return given
