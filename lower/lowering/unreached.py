"""What no call of a run can reach, though data has its address: functions of tables that nothing calls.

Linking keeps what is named. A function that only data names runs only after a call by an address, and such a call
enters a function of its own shape or none (`fault call shape`). So if no call of that shape can be reached, the
function is cut to one that halts, of the same shape and at the same address: a run is the same, move by move.
"""
import re
from dataclasses import dataclass, field
from typing import TYPE_CHECKING

from terminal.reading.accepted import NAME
from terminal.reading.tokens import STRING as QUOTED

if TYPE_CHECKING:
    from .writing import Chunk

HEAD = re.compile(rf"(?:export\s+)?function\s*([a-z]*)\s*(\${NAME})\s*\(([^)]*)\)\s*\{{")
CALL = re.compile(rf"(?:=\s*([wl])\s*)?\bcall\s*([$%]{NAME})\s*\(([^)]*)\)")
GLOBAL = re.compile(rf"\${NAME}")
STRING = re.compile(QUOTED)
CUT = ("@not.reached", "hlt", "}")

# The classes of the arguments, and of the result that is named, or that the function gives.
Shape = tuple[tuple[str, ...], str]


def classes(values: str) -> tuple[str, ...]:
    """The class, w or l, of each argument or parameter."""
    words = [value.split("%")[0].split("$")[0].split() for value in values.split(",") if value.strip()]
    return tuple("l" if word[:1] == ["l"] else "w" for word in words)


@dataclass
class Uses:
    """What a definition names: functions that it calls, addresses, and the shapes of calls by an address."""
    called: set[str] = field(default_factory=set)
    addresses: set[str] = field(default_factory=set)
    shapes: set[Shape] = field(default_factory=set)


def uses_of(chunk: "Chunk") -> Uses:
    found = Uses()
    if chunk.symbol.is_data():
        for line in chunk.texts:
            found.addresses.update(GLOBAL.findall(STRING.sub("", line)))
        found.addresses.discard(chunk.symbol.name)
        return found
    for line in chunk.texts[1:]:
        call = CALL.search(line)
        if not call:
            found.addresses.update(GLOBAL.findall(line))
            continue
        if call[2][0] == "$":
            found.called.add(call[2])
        else:
            found.shapes.add((classes(call[3]), call[1] or ""))
        found.addresses.update(GLOBAL.findall(call[3]))
    return found


def shape_of(chunk: "Chunk") -> Shape:
    head = HEAD.match(chunk.texts[0])
    assert head, chunk.texts[0]
    return classes(head[3]), head[1] and ("l" if head[1] == "l" else "w")


def enters(call: Shape, function: Shape) -> bool:
    """Whether a call by an address enters a function."""
    return call[0] == function[0] and call[1] in ("", function[1])


def reached(chunks: list["Chunk"], entry: str) -> set[str]:
    """The names of the functions that a run from the entry can come to, and of the data that it can."""
    uses = {chunk.symbol.name: uses_of(chunk) for chunk in chunks}
    shapes = {chunk.symbol.name: shape_of(chunk) for chunk in chunks if not chunk.symbol.is_data()}
    live, addressed, calls = {entry}, set[str](), set[Shape]()
    todo = [entry]
    while todo:
        found = uses.get(todo.pop(), Uses())
        addressed |= found.addresses
        calls |= found.shapes
        # Data is read by its address; a function runs where it is called by its name, or by its address and shape.
        fresh = found.called | {name for name in addressed if name in uses and (
            name not in shapes or any(enters(call, shapes[name]) for call in calls))}
        todo += fresh - live
        live |= fresh
    return live


def cut_unreached(chunks: list["Chunk"], entry: str) -> int:
    """Cuts the functions that no call can reach; how many they are."""
    live, count = reached(chunks, entry), 0
    for chunk in chunks:
        if chunk.symbol.name not in live and not chunk.symbol.is_data():
            chunk.texts = [chunk.texts[0], *CUT]
            chunk.origins = [chunk.origins[0], *[(0, None)] * len(CUT)]
            count += 1
    return count
