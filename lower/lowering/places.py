"""Maps places of a lowered text back to the text before lowering, and to the source in its debug lines."""
import functools
import os
import pathlib
import re
from typing import NamedTuple

from terminal.reading.accepted import NAME
from terminal.reading.tree import Function

from .reader import TextReader
from .runtime import ENCODING, FOLDER

# A place: `$f @b K`, as place lines have it behind their position, and lines of `where` and of stops.
PLACE = re.compile(rf"(\${NAME}) (@{NAME}) ([0-9]+)$")
UNESCAPED = {"\\\\": "\\", "\\t": "\t", "\\n": "\n"}


class Origin(NamedTuple):
    """Where a line comes from: a file, a line, and the source place as FILE:LINE:COLUMN or nothing."""

    path: str
    line: int
    source: str

    def text(self) -> str:
        """The line itself, or nothing where the file isn't there."""
        path = pathlib.Path(self.path)
        if not path.exists() and self.path.startswith("lower/runtime/"):
            path = FOLDER / path.name
        if not path.exists():
            return ""
        lines = path.read_bytes().decode(ENCODING).split("\n")
        return lines[self.line - 1].strip() if self.line <= len(lines) else ""

    def __str__(self) -> str:
        return ": ".join(part for part in (f"{self.path}:{self.line}", self.source, self.text()) if part)


def path_of(field: str) -> str:
    return os.fsdecode(unescaped(field).encode(ENCODING))


def unescaped(path: str) -> str:
    return re.sub(r"\\[\\tn]", lambda match: UNESCAPED[match.group()], path)


class Places:
    """A lowered text and the map beside it."""

    def __init__(self, path: str):
        self.path = path
        self.text = pathlib.Path(path).read_bytes().decode(ENCODING)
        beside = pathlib.Path(path + ".map")
        self.map = beside.read_bytes().decode(ENCODING).split("\n") if beside.exists() else []

    @functools.cached_property
    def functions(self) -> dict[str, Function]:
        definitions = TextReader(self.text, self.path).read().definitions
        return {definition.name: definition for definition in definitions if isinstance(definition, Function)}

    def line_of(self, place: str) -> int | None:
        """The line of the lowered text at which a place stands: its instruction or its jump."""
        match = PLACE.search(place)
        function = self.functions.get(match.group(1)) if match else None
        block = next((block for block in function.blocks if block.name == match.group(2)), None) \
            if match and function else None
        if match is None or block is None or int(match.group(3)) > len(block.instructions):
            return None
        index = int(match.group(3))
        return block.instructions[index].line if index < len(block.instructions) else block.jump.line

    def origin_of_line(self, line: int) -> Origin:
        """Where a line of the lowered text comes from; itself where nothing is known of it."""
        fields = self.map[line - 1].split("\t") if line <= len(self.map) else [""]
        if not fields[0]:
            return Origin(self.path, line, "")
        source = ""
        # Debug lines tell nothing where no file was named before them.
        if len(fields) == 5 and fields[2]:
            source = f"{unescaped(fields[2])}:{fields[3]}" + (f":{fields[4]}" if fields[4] != "0" else "")
        return Origin(path_of(fields[0]), int(fields[1]), source)

    def origin(self, place: str) -> Origin | None:
        line = self.line_of(place)
        return None if line is None else self.origin_of_line(line)
