"""What the debugger answers, taken apart: places, stops and values (docs/DEBUGGER.md)."""
from __future__ import annotations

import re
from dataclasses import dataclass

COMMANDS = ("step", "accesses", "counts", "frames", "back", "continue", "reverse", "break", "watch", "delete", "stops",
            "set", "poke", "print", "temps", "mem", "where", "list", "out", "quit")


@dataclass(frozen=True)
class Place:
    """A place line: a place of the text, or how the run ended."""
    position: int
    function: str = ""
    label: str = ""
    index: int = 0
    end: str = ""

    @property
    def is_fault(self) -> bool:
        return self.end.startswith("fault")

    def __str__(self) -> str:
        return f"#{self.position} {self.end or f'{self.function} {self.label} {self.index}'}"


def read_place(line: str) -> Place:
    """The place of a place line."""
    position, _, rest = line[1:].partition(" ")
    words = rest.split(" ")
    if words[0].startswith("$") and len(words) == 3:
        return Place(int(position), words[0], words[1], int(words[2]))
    return Place(int(position), end=rest)


@dataclass(frozen=True)
class Moved:
    """The answer of a command that moves: a refusal, or a place, and why the run stopped there."""
    place: Place | None = None
    reason: str = ""
    refusal: str = ""


def read_moved(lines: list[str]) -> Moved:
    if len(lines) == 1 and lines[0].startswith("no: "):
        return Moved(refusal=lines[0][4:])
    if len(lines) > 1 and lines[-2].startswith("stop: "):
        return Moved(read_place(lines[-1]), lines[-2][6:])
    return Moved(read_place(lines[-1]))


@dataclass(frozen=True)
class Touched:
    """What a move from a position read or wrote: how many bytes from an address on."""
    is_write: bool
    position: int
    address: int
    count: int


def read_accesses(lines: list[str]) -> list[Touched]:
    """The accesses in the answer of `accesses`."""
    found = []
    for line in lines:
        word, _, rest = line.partition(" #")
        if word in ("read", "write"):
            position, address, count = rest.split(" ")
            found.append(Touched(word == "write", int(position), int(address), int(count)))
    return found


def read_count(line: str) -> tuple[int, Place] | None:
    """A line of the answer of `counts`: how many moves were made from a place."""
    word, _, rest = line.partition(" ")
    count, _, place = rest.partition(" ")
    if word != "count":
        return None
    function, label, index = place.split(" ")
    return int(count), Place(0, function, label, int(index))


@dataclass(frozen=True)
class Span:
    """A frame along moves: the position of its first state, None if that was before, and that of the first state
    without it, None if it lasts; its function, and how many frames are below it."""
    begin: int | None
    end: int | None
    function: str
    below: int


def read_spans(lines: list[str]) -> list[Span]:
    """The frames in the answer of `frames`."""
    found = []
    for line in lines:
        word, _, rest = line.partition(" ")
        if word == "frame":
            begin, end, function, below = rest.split(" ")
            found.append(Span(position_told(begin), position_told(end), function, int(below)))
    return found


def position_told(word: str) -> int | None:
    return None if word == "-" else int(word[1:])


def read_value(line: str) -> int | None:
    """The value of `%x = V`, or None of `%x unset`."""
    _, is_set, value = line.partition(" = ")
    return int(value) if is_set else None


def read_bytes(line: str) -> list[int | None]:
    """The bytes that `mem` shows, None for one that isn't live."""
    return [None if word == "--" else int(word, 16) for word in line.split()]


def live(found: list[int | None]) -> bytes | None:
    """The bytes of memory, if all of them are live."""
    bytes_ = [byte for byte in found if byte is not None]
    return bytes(bytes_) if len(bytes_) == len(found) else None


def read_output(line: str) -> bytes:
    """The bytes that `out` shows."""
    text = line[line.index('"') + 1:-1]
    found, at = bytearray(), 0
    while at < len(text):
        escape = text.find("\\", at)
        if escape < 0:
            break
        found += text[at:escape].encode("latin-1")
        if text[escape + 1] in '\\"':
            found += text[escape + 1].encode()
            at = escape + 2
        else:
            found.append(int(text[escape + 1:escape + 4], 8))
            at = escape + 4
    return bytes(found + text[at:].encode("latin-1"))


# What a refusal's code means: docs/LANGUAGE.md, "Refusals" and "Rules".
REFUSALS = {
    "L1": "a stray byte", "L2": "a sigil without a name", "L3": "a number out of range",
    "L4": "a string without an end", "L5": "an escape that isn't known; octal ones are", "L6": "more than 2^20 bytes",
    "P1": "not in the grammar here", "P2": "a part of QBE's language that is left out here; `./qrev --lower` takes it",
    "P3": "the text ends too early", "P4": "the last block has no jump", "C1": "a global that is defined twice",
    "C2": "a label that is defined twice",
    "C3": "a label that the function lacks", "C4": "a jump to the function's first block",
    "C5": "a temporary with definitions of two classes", "C6": "a temporary that is nowhere defined",
    "C7": "a w temporary where an l is wanted", "C8": "a phi whose labels aren't its block's predecessors",
    "C9": "a global that is nowhere defined; `./qrev --lower` has much of the C library, and links several texts",
    "C10": "a value for ret in a function without a type",
    "C11": "a w for what gives an l", "C12": "too many functions, temporaries or blocks",
    "Y1": "more data than 2^20 bytes", "Y2": "an alignment that is no power of two up to 4096",
    "S1": "no function has the name of the entry", "S2": "the entry takes another number of arguments",
}

# A constant of a float, or what looks like one, as `d_-3.0`.
FLOAT_CONSTANT = re.compile(r"-?\b[sd]_ ?[+-]?[0-9.]")
OF_FLOATS = "a constant of a float, which is left out here; `./qrev --lower` takes it, written as in `d_-3.0`"


def meaning_of(code: str, line: str) -> str:
    """What a refusal means, for the line at which it is."""
    if code in ("L1", "P2") and FLOAT_CONSTANT.search(line.partition("#")[0]):
        return OF_FLOATS
    return REFUSALS.get(code, "refused")
