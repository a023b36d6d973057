"""What an editor is shown of the current state: frames, scopes, variables, values, and what can be watched."""
from __future__ import annotations

from collections.abc import Iterator
from typing import TYPE_CHECKING, Any, Optional

from .asked import Client
from .expressions import Missing, Part, Value, float_of, is_float, bits_of, parse, signed
from .expressions import Memory as MemoryPart, Named
from .machine import Frame
from .messages import Message
from .rules import size
from .session import WIDTHS
from .tree import Data

if TYPE_CHECKING:
    from .debuggee import Debuggee

MACHINE, DATA, OBJECTS, POINTED = 2**30, 2**30 + 1, 2**30 + 2, 2**28
NEAR_ZERO, MOST_PARTS, PLAIN_PARTS, TEXT_LIMIT, WHOLE_OBJECT = 2**16, 4096, 16, 256, 128
ESCAPES = {10: "\\n", 9: "\\t", 13: "\\r", 34: '\\"', 92: "\\\\"}


def float_text(number: float, size: str = "d") -> str:
    """The shortest decimal that is read as a float of a size."""
    if size == "d" or number != number or number in (float("inf"), -float("inf")):
        return repr(number)
    texts = (f"{number:.{digits}g}" for digits in range(1, 10))
    return repr(float(next(text for text in texts if bits_of(float(text), "s") == bits_of(number, "s"))))


def quoted(piece: bytes) -> str:
    return '"' + "".join(ESCAPES.get(byte) or (chr(byte) if 32 <= byte < 127 else f"\\{byte:03o}")
                         for byte in piece) + '"'


class Free:
    """A part of a message that no page settles."""

    def __init__(self, value: object) -> None:
        self.value = value


def told(piece: bytes) -> str:
    """Bytes as a text: if they are no UTF-8 as a whole, each is the character of its number."""
    try:
        return piece.decode()
    except UnicodeDecodeError:
        return piece.decode("latin-1")


class View:
    def __init__(self, debuggee: Debuggee, client: Client, is_hex: bool = False) -> None:
        self.debuggee, self.client, self.is_hex = debuggee, client, is_hex
        self.session, self.now = debuggee.session, debuggee.session.now
        self.machine, self.program, self.names_told = debuggee.session.machine, debuggee.program, debuggee.names
        self.inner_first = self.now.frames[::-1]

    def frame(self, number: Optional[int]) -> Optional[Frame]:
        """The frame of a number from 1, the innermost, or None."""
        return self.inner_first[number - 1] if number and number <= len(self.inner_first) else None

    def frames(self) -> list[Message]:
        if not self.inner_first:
            return [{"id": 1, "name": self.debuggee.place(), "line": 0, "column": 0, "presentationHint": "label"}]
        told_frames = []
        for number, frame in enumerate(self.inner_first, 1):
            index = frame.at - (number > 1)
            told_frames.append({"id": number, "name": self.session.frame_text(frame),
                                **self.debuggee.shown_line(self.debuggee.line_of(frame.func, frame.block, index)),
                                "column": self.client.first_column})
        return told_frames

    # Scopes and variables.

    def scopes(self, number: Optional[int]) -> Optional[list[Message]]:
        frame = self.frame(number)
        if not frame and (self.inner_first or number != 1):
            return None
        found: list[Message] = []
        if frame:
            found.append({"name": "Temporaries", "variablesReference": number, "presentationHint": "locals",
                          "namedVariables": len(self.temps(frame)), "expensive": False})
        found.append({"name": "Data", "variablesReference": DATA, "presentationHint": Free(None),
                      "namedVariables": Free(None), "expensive": False})
        found.append({"name": "Machine", "variablesReference": MACHINE, "presentationHint": "registers",
                      "namedVariables": Free(None), "expensive": False})
        return found

    def temps(self, frame: Frame) -> list[str]:
        return self.machine.funcs[frame.func].temps

    def variables(self, reference: Optional[int]) -> Optional[list[Message]]:
        if reference == DATA:
            return [self.datum(at, item) for at, item in enumerate(self.program.datas)]
        if reference == MACHINE:
            return self.registers()
        if reference is not None and reference >= OBJECTS:
            at = reference - OBJECTS
            return self.parts_of(self.program.datas[at]) if at < len(self.program.datas) else None
        if reference is not None and reference >= POINTED:
            return self.pointed(reference - POINTED)
        frame = self.frame(reference)
        if frame is None or reference is None:
            return None
        return [self.temporary(frame, at, name, reference) for at, name in enumerate(self.temps(frame))]

    # Values as texts.

    def object_at(self, address: int) -> Optional[tuple[int, Data]]:
        """The data object in which an address lies or after which it does, and its address, or None."""
        found = [(self.machine.addresses[item.name], item) for item in self.program.datas]
        end = 65536 + len(self.machine.data)
        before = [one for one in found if one[0] <= address < end]
        return max(before, key=lambda one: one[0]) if before else None

    def remark(self, bits: int, letter: str) -> str:
        """What a number also is, in a class: the name of an address, or a number a little below zero."""
        if letter == "l":
            found = self.object_at(bits)
            if found:
                start, item = found
                return f" <${item.name}>" if start == bits else f" <${item.name}+{bits - start}>"
            for func in self.program.funcs:
                if self.machine.addresses[func.name] == bits:
                    return f" <${func.name}>"
        below = 2**64 - bits if letter == "l" else 2**32 - bits
        return f" (-{below})" if 0 < below <= NEAR_ZERO else ""

    def value_text(self, bits: Optional[int], letter: str) -> str:
        """A value in a class or as a float, or that it is unset."""
        if bits is None:
            return "unset"
        if letter in "sd" and not self.is_hex:
            return float_text(float_of(bits % (2**32 if letter == "s" else 2**64), letter), letter)
        written = hex(bits) if self.is_hex else str(bits)
        return written if letter in "sd" else written + self.remark(bits, "l" if letter == "l" else "w")

    def typed(self, letter: str) -> Message:
        return {"type": letter} if self.client.has_types else {}

    def referred(self, address: int) -> Message:
        return {"memoryReference": str(address)} if self.client.has_references else {}

    def is_live(self, address: int) -> bool:
        return self.debuggee.byte(address) is not None

    def temporary(self, frame: Frame, at: int, name: str, number: int) -> Message:
        func = self.machine.funcs[frame.func]
        kind = self.machine.classes[frame.func][name]
        letter = self.names_told.floats.get((func.name, name), kind)
        bits = frame.temps.get(name)
        is_pointer = bits is not None and self.is_live(bits)
        item: Message = {
            "name": f"%{self.names_told.old.get('%' + name, name)}", "value": self.value_text(bits, letter),
            "evaluateName": f"%{name}", **self.typed(letter),
            "variablesReference": POINTED + (number - 1) * 65536 + at if is_pointer and kind == "l" else 0}
        if bits is not None and is_pointer:
            item.update(self.referred(bits))
        if number != 1:
            item["presentationHint"] = {"attributes": ["readOnly"]}
        return item

    @staticmethod
    def width_in(item: Data) -> str:
        """The letter of the width in which a data object is shown: that of its first item."""
        letter = item.fields[0][0] if item.fields else "b"
        return "b" if letter == "z" else letter

    def width_of(self, name: str) -> Optional[str]:
        return next((self.width_in(item) for item in self.program.datas if f"${item.name}" == name), None)

    def letter_of(self, item: Data) -> str:
        """The letter of a data object: that of a float, or of its width."""
        letter, told_float = self.width_in(item), self.names_told.data.get(item.name)
        return told_float if told_float and (letter, told_float) in (("w", "s"), ("l", "d")) else letter

    def datum(self, at: int, item: Data) -> Message:
        letter, address = self.width_in(item), self.machine.addresses[item.name]
        piece, shown = self.now.read(address, WIDTHS[letter]), self.letter_of(item)
        value = Free("") if piece is None else self.value_text(int.from_bytes(piece, "little"), shown)
        return {"name": f"${item.name}", "value": value, "evaluateName": f"{shown}[${item.name}]", **self.typed(shown),
                "variablesReference": OBJECTS + at if self.has_parts(item) else 0, **self.referred(address)}

    # Parts.

    def part(self, at: int, letter: str, address: int, count: Optional[int] = None) -> Message:
        """A number of a width, or so many bytes of a text."""
        if count is None:
            piece = self.now.read(address, WIDTHS[letter])
            value = self.value_text(None if piece is None else int.from_bytes(piece, "little"), letter)
        else:
            piece = self.now.read(address, count)
            assert piece is not None
            value = quoted(piece[:TEXT_LIMIT]) + ("..." if count > TEXT_LIMIT else "")
        return {"name": f"[{at}]", "value": value, "variablesReference": 0, "evaluateName": f"{letter}[{address}]",
                **self.referred(address)}

    @staticmethod
    def has_parts(item: Data) -> bool:
        """Whether a data object is more than one number."""
        items = item.fields[0][1] if len(item.fields) == 1 else 0
        if isinstance(items, int):
            return bool(item.fields)
        return len(items) > 1 or isinstance(items[0], bytes)

    def places_in(self, item: Data) -> Iterator[tuple[str, Optional[int]]]:
        """The parts of a data object: of each its width, and of a text how many bytes it has."""
        for letter, items in item.fields:
            if isinstance(items, int):
                width = "l" if items % 8 == 0 else "w" if items % 4 == 0 else "b"
                yield from [(width, None)] * (items // WIDTHS[width])
                continue
            for one in items:
                yield ("b", len(one)) if isinstance(one, bytes) else (letter, None)

    def parts_of(self, item: Data) -> list[Message]:
        address, found = self.machine.addresses[item.name], []
        for at, (letter, count) in enumerate(self.places_in(item)):
            found.append(self.part(at, letter, address, count))
            address += WIDTHS[letter] if count is None else count
        return found[:MOST_PARTS]

    def pointed(self, inside: int) -> Optional[list[Message]]:
        frame, at = self.frame(inside // 65536 + 1), inside % 65536
        names = self.temps(frame) if frame else []
        address = frame.temps.get(names[at]) if frame and at < len(names) else None
        if address is None:
            return None
        found = self.object_at(address)
        if found and found[0] == address:
            return self.parts_of(found[1])
        letter = "l" if address % 8 == 0 else "w"
        live: list[Message] = []
        while len(live) < PLAIN_PARTS and self.is_live((address + (len(live) + 1) * WIDTHS[letter] - 1) % 2**64):
            live.append(self.part(len(live), letter, address + len(live) * WIDTHS[letter]))
        return live

    def registers(self) -> list[Message]:
        values = {"place": self.debuggee.place(), "oldest": str(self.session.oldest),
                  "top": str(2**24 + len(self.now.stack)), "output": told(self.now.output)}
        return [{"name": name, "value": value, "variablesReference": 0, "type": Free(None), "evaluateName": Free(None),
                 "memoryReference": Free(None), "presentationHint": {"attributes": ["readOnly"]}}
                for name, value in values.items()]

    # Names.

    def address_of(self, name: str) -> Optional[int]:
        """The address of data or of a function of the program, said with its sigil."""
        known = name.startswith("$") and name[1:] in self.machine.defined
        return self.machine.addresses[name[1:]] if known else None

    # What an expression reads.

    def scene(self, number: int) -> Scene:
        return Scene(self, number)

    def told(self, text: str, part: Part, value: Value) -> str:
        """The text of what an expression is worth."""
        if is_float(value):
            size = value.size or "d"
            return hex(bits_of(value.number, size)) if self.is_hex else float_text(value.number, size)
        size = value.size or "l"
        bits = value.whole() % (1 << (32 if size == "w" else 64))
        if isinstance(part, (MemoryPart, Named)) and not (isinstance(part, Named) and part.name[0] == "$"):
            count = {"b": 8, "h": 16}.get(getattr(part, "letter", ""), 64)
            return self.value_text(bits % (1 << count), size)
        return hex(bits) if self.is_hex else str(value.number)

    def worth(self, number: int, text: str) -> Message:
        """The body that an expression has; raises `NoExpression` or `Missing`."""
        part = parse(text)
        try:
            value = part.value(self.scene(number))
        except Missing as missing:
            if missing.args[0] == "unset" and isinstance(part, (MemoryPart, Named)):
                return {"result": "unset", "variablesReference": 0, "type": Free(None)}
            raise
        body: Message = {"result": self.told(text, part, value), "variablesReference": 0}
        letter = "d" if is_float(value) and value.size != "s" else value.size or "l"
        body.update(self.typed(letter))
        if value.size == "l" and not is_float(value) and self.is_live(value.whole() % 2**64):
            body.update(self.referred(value.whole() % 2**64))
        return body

    def watched(self, reference: Any, name: Optional[str],
                frame_id: Optional[int]) -> tuple[Optional[str], Optional[str]]:
        """What a data breakpoint on a name watches, or None and why."""
        name, nothing = name or "", (None, "nothing to watch")
        width = self.width_of(name)
        if reference in (None, 0, DATA) and width:
            size = self.size_of(name)
            return (name if WIDTHS[width] < size <= WHOLE_OBJECT else f"{width} {name}"), None
        number = reference if reference else 1 if frame_id is None else frame_id
        name = "%" + self.names_told.short.get(name, name[1:]) if name.startswith("%") else name
        frame = self.frame(number) if isinstance(number, int) and number < MACHINE else None
        if not frame or not name.startswith("%") or name[1:] not in self.temps(frame):
            return nothing
        func = self.machine.funcs[frame.func].name
        if any(inner.func == frame.func for inner in self.inner_first[:number - 1]):
            return None, f"only the innermost frame of ${func} is watched"
        return f"${func} {name}", None

    def names(self, frame_id: Optional[int]) -> list[str]:
        """The names that can be completed, with their sigils."""
        frame = self.frame(1 if frame_id is None else frame_id)
        globals_ = [f"${item.name}" for item in self.program.order]
        if not frame:
            return globals_
        labels = [f"@{block.label}" for block in self.machine.funcs[frame.func].blocks]
        return [f"%{name}" for name in self.temps(frame)] + globals_ + labels

    def size_of(self, name: str) -> int:
        """How many bytes a data object has."""
        item = next(item for item in self.program.datas if f"${item.name}" == name)
        return sum(size(letter, items) for letter, items in item.fields)


class Scene:
    """Where the values of an expression come from: a frame of a state."""

    def __init__(self, view: View, number: int) -> None:
        self.view, self.number = view, number

    def word(self, name: str) -> int:
        return len(self.view.inner_first) if name == "depth" else self.view.session.position

    def temporary(self, name: str) -> Value:
        view, frame = self.view, self.view.frame(self.number)
        if not frame:
            raise Missing("no such frame")
        name = view.names_told.short.get("%" + name, name)
        if name not in view.temps(frame):
            raise Missing("no such temporary or global here")
        if name not in frame.temps:
            raise Missing("unset")
        kind = view.names_told.floats.get((view.machine.funcs[frame.func].name, name))
        if kind:
            return Value(float_of(frame.temps[name] % (2**32 if kind == "s" else 2**64), kind), kind)
        size = view.machine.classes[frame.func][name]
        return Value(signed(frame.temps[name], 32 if size == "w" else 64), size)

    def address(self, name: str) -> int:
        address = self.view.address_of("$" + name)
        if address is None:
            raise Missing("no such temporary or global here")
        return address

    def bytes(self, address: int, count: int) -> int:
        piece = self.view.now.read(address, count)
        if piece is None:
            raise Missing("dead address")
        return int.from_bytes(piece, "little")
