"""The text of a program as an editor's disassembly: a row for each phi, instruction and jump.

The address of a row is made of its line in the text, since code has none here.
"""
from __future__ import annotations

import os
import pathlib
import re
import threading
from typing import Any, NamedTuple

from terminal.lowered import Lowered, lowered_of
from terminal.reading.refusals import Refused
from terminal.renaming import Renaming
from terminal.sourcemap import Line, SourceMap
from terminal.text import Function, Program

from .frames import read, written

PLACE = re.compile(r"(\$\S+) (@\S+) (\d+)$")
REFERENCE = re.compile(r"0x[0-9a-f]+$")
# No address of a function, of data or of the stack is as high, so that no row is taken for one of them.
BASE = 0x7E57_0000_0000
# More rows than an editor asks for at once.
MOST_ROWS = 10_000
# Seconds for which an answer waits until a long text is read.
PATIENCE = 2.0


class Row(NamedTuple):
    """An instruction of the text, with what precedes it: a label, and a function's name where one begins."""

    line: int
    text: str
    symbol: str = ""
    # The line that it came from, if a map tells one.
    source: Line | None = None


class Place(NamedTuple):
    """A place of the text: the line of a source that it came from, if a map has one, and whether it is in the
    runtime."""

    source: Line | None
    is_of_runtime: bool


def rows_of_function(function: Function, lowered: Lowered, origins: SourceMap) -> list[Row]:
    """The rows of a function, in the order of its text, with floats where it had them before it was lowered."""
    rows, labels = [], set()
    for label, index, instruction in function.places():
        symbol = "" if label in labels else f"{function.name} {label}"
        labels.add(label)
        source = next(iter(origins.origins(instruction.line)), None)
        rows.append(Row(instruction.line, lowered.written(function, instruction), symbol, source))
    return rows


class Listing:
    """A program's rows, from the first line of its text to the last."""

    def __init__(self, path: str, source_map: str | None) -> None:
        lowered = lowered_of(path)
        self.program = Program(pathlib.Path(path).read_bytes(), Renaming(lowered.renamed) if lowered.renamed else None)
        lowered.tell_classes(self.program)
        origins = map_of(path, source_map)
        self.folder, self.has_map, self.runtime = origins.file.parent, bool(origins.lines), lowered.runtime
        functions = sorted(self.program.functions.values(), key=lambda function: function.line)
        self.rows = [row for function in functions for row in rows_of_function(function, lowered, origins)]

    def reference(self, place: str) -> str | None:
        """The address of a place, as `$f @b 3` is named."""
        found = PLACE.match(place)
        try:
            return address(self.program.line_of(found[1], found[2], int(found[3]))) if found else None
        except (KeyError, IndexError):
            return None

    def at(self, place: str) -> Place | None:
        """What is known of a place, as `$f @b 3` is named."""
        address_of, row = self.reference(place), None
        if address_of:
            row = next((row for row in self.rows if address(row.line) == address_of), None)
        return Place(row.source, place.partition(" ")[0] in self.runtime) if row else None

    def instructions(self, reference: str, offset: int, first: int, count: int) -> list[dict[str, Any]] | None:
        """A number of rows from an offset after an address; missing rows are invalid."""
        if not REFERENCE.match(reference):
            return None
        line = int(reference, 16) + offset - BASE
        begun = next((at for at, row in enumerate(self.rows) if row.line >= line), len(self.rows)) + first
        return [self.told(at) for at in range(begun, begun + max(0, min(count, MOST_ROWS)))]

    def told(self, at: int) -> dict[str, Any]:
        """A row for an editor."""
        if not 0 <= at < len(self.rows):
            edge = self.rows[0].line - 1 + at if at < 0 else self.rows[-1].line + 1 + at - len(self.rows)
            return {"address": address(edge), "instruction": "", "presentationHint": "invalid"}
        row = self.rows[at]
        told: dict[str, Any] = {"address": address(row.line), "instruction": row.text}
        if row.symbol:
            told["symbol"] = row.symbol
        if row.source and (at == 0 or self.rows[at - 1].source != row.source):
            path = os.path.normpath(self.folder / row.source.file)
            told |= {"location": {"name": os.path.basename(path), "path": path}, "line": row.source.number}
        return told


def map_of(path: str, named: str | None) -> SourceMap:
    """The map that a launch names, or that beside the text; an empty name means none."""
    if named is None:
        return SourceMap.beside(path)
    if not named:
        return SourceMap(pathlib.Path(path), [])
    try:
        return SourceMap(pathlib.Path(named), pathlib.Path(named).read_text(errors="replace").split("\n"))
    except OSError:
        return SourceMap(pathlib.Path(path), [])


def address(line: int) -> str:
    """The address of a line of the text."""
    return f"0x{BASE + line:x}"


def with_disassembly(body: bytes) -> bytes:
    """The capabilities of the adapter, with the disassembly."""
    message = read(body)
    if not message.get("success"):
        return body
    number = message.pop("seq")
    return written({**message, "body": {**message.get("body", {}), "supportsDisassembleRequest": True}, "seq": number})


class Disassembly:
    """The listing of the text of a session, which is read beside it."""

    def __init__(self) -> None:
        self.listing: Listing | None = None
        self.is_read = threading.Event()

    def begin(self, launch: dict[str, Any]) -> None:
        """Reads the text of a launch."""
        self.listing = None
        self.is_read = is_read = threading.Event()
        threading.Thread(target=self.look, args=(launch, is_read), daemon=True).start()

    def look(self, launch: dict[str, Any], is_read: threading.Event) -> None:
        named = launch.get("map")
        try:
            listing = Listing(os.path.abspath(str(launch.get("program", ""))), None if named is None else str(named))
        except (OSError, ValueError, LookupError, Refused):
            # A text that isn't read here, though the adapter took it, is shown without a disassembly.
            return
        if is_read is self.is_read:
            self.listing = listing
            is_read.set()

    def has_map(self) -> bool:
        """Whether the text is shown by the lines of a source."""
        return self.is_read.wait(PATIENCE) and self.listing is not None and self.listing.has_map

    def at(self, place: str) -> Place | None:
        """What is known of a place of the text."""
        return self.listing.at(place) if self.listing else None

    def referenced(self, body: bytes) -> bytes:
        """The answer to `stackTrace` with the address of each frame's place."""
        message = read(body)
        frames = message.get("body", {}).get("stackFrames")
        if not frames or not self.is_read.wait(PATIENCE) or self.listing is None:
            return body
        for frame in frames:
            if reference := self.listing.reference(str(frame.get("name"))):
                frame["instructionPointerReference"] = reference
        number = message.pop("seq")
        return written({**message, "seq": number})

    def answer(self, given: dict[str, Any]) -> list[dict[str, Any]] | str:
        """The rows that `disassemble` asks for, or why there are none."""
        if not self.is_read.wait(PATIENCE) or self.listing is None:
            return "no disassembly of this text"
        reference, count = given.get("memoryReference"), given.get("instructionCount")
        offset, first = given.get("offset", 0), given.get("instructionOffset", 0)
        if not isinstance(count, int) or not isinstance(offset, int) or not isinstance(first, int) or count < 0:
            return "no count"
        rows = self.listing.instructions(str(reference), offset, first, count)
        return "no address of an instruction" if rows is None else rows
