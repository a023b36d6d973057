"""A map of places: which line of which source each line of a text came from."""
from __future__ import annotations

import posixpath
import re
from typing import NamedTuple, Optional

GREATEST_MAP, GREATEST_LINE = 2**24, 2**32 - 1


class BadMap(Exception):
    """A map that is refused, and why."""


class Origin(NamedTuple):
    path: str  # as the map has it
    line: int


ESCAPED = {"\\t": "\t", "\\n": "\n", "\\\\": "\\"}


def origin_of(line: bytes) -> Optional[Origin]:
    """What a line of a map says, or None if it is empty; ValueError if it has another form."""
    if line == b"":
        return None
    fields = line.decode().split("\t")
    if len(fields) not in (2, 5) or not fields[0] \
            or not all(re.fullmatch("[0-9]+", field, re.ASCII) for field in fields[1:2] + fields[3:]) \
            or not 1 <= int(fields[1]) <= GREATEST_LINE:
        raise ValueError(line)
    origin = Origin(fields[0], int(fields[1]))
    # What a source was made from is meant, if its fields tell something.
    if len(fields) == 5 and fields[2] and 1 <= int(fields[3]) <= GREATEST_LINE:
        origin = Origin(fields[2], int(fields[3]))
    return origin


class SourceMap:
    """A map that was read. Lines of the text are counted from 1."""

    def __init__(self, file: str, given: bytes) -> None:
        self.file = file
        self.origins: list[Optional[Origin]] = []
        if len(given) > GREATEST_MAP:
            raise BadMap(f"map: more than {GREATEST_MAP} bytes")
        for number, line in enumerate(given.split(b"\n"), 1):
            try:
                self.origins.append(origin_of(line))
            except ValueError:
                raise BadMap(f"map: no path and line in line {number}") from None

    def shown(self, path: str) -> str:
        """A path of the map as it is shown."""
        path = re.sub(r"\\[\\tn]", lambda match: ESCAPED[match.group()], path)
        whole = path if path.startswith("/") else posixpath.dirname(self.file) + "/" + path
        if not path.startswith("/") and "/" not in self.file:
            whole = path
        return posixpath.normpath(re.sub("/+", "/", whole))

    def origin(self, text_line: int) -> Optional[Origin]:
        return self.origins[text_line - 1] if text_line <= len(self.origins) else None

    def paths(self) -> dict[str, None]:
        """The paths of the map, in the order in which they come first."""
        return dict.fromkeys(origin.path for origin in self.origins if origin)

    def path_called(self, name: str) -> Optional[str]:
        """The path that an editor calls by a name: that which is told so, else the first that ends in it or is its
        end."""
        if not name:
            return None
        shown = {path: self.shown(path) for path in self.paths()}
        same = [path for path, told in shown.items() if told == name]
        ends = [path for path, told in shown.items() if told.endswith("/" + name) or name.endswith("/" + told)]
        return next(iter(same + ends), None)

    def lines_of(self, path: str) -> list[tuple[int, int]]:
        """Each line of a source that lines of the text came from, in order, with the first of these."""
        first: dict[int, int] = {}
        for text_line, origin in enumerate(self.origins, 1):
            if origin and origin.path == path:
                first.setdefault(origin.line, text_line)
        return sorted(first.items())

    def line_from(self, path: str, line: int) -> Optional[tuple[int, int]]:
        """The least line of a source that isn't before a line, with the first line of the text that came from it, or
        None."""
        return next(((at, text_line) for at, text_line in self.lines_of(path) if at >= line), None)
