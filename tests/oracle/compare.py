"""Where two compilations part (docs/COMPARE.md), over the machine of this folder: each side's events one after the
other."""
from __future__ import annotations

from collections.abc import Iterable, Sequence
from typing import Optional, Union

from .grammar import parse
from .machine import STORED, Frame, Machine, State, Status, fit, low
from .rules import BUILT_INS, DATA, FUNCTIONS, MOST_BYTES, STACK, check
from .session import Session, lines_of
from .tokens import Refused, cut
from .tree import Func, Inst, Jump

KINDS = ("output", "writes", "calls", "end")
DEFAULT = ("output", "calls", "end")
STATUSES = {"same": 0, "part": 1, "limit": 4}

# A name of data and an offset in it.
Place = tuple[str, int]
# What is compared, or why there is no more; and the line that is told of it.
Event = tuple[Union[tuple[object, ...], str], str]


class TooLong(Exception):
    """More moves than allowed."""


def quoted(byte: int) -> str:
    if byte in b'"\\':
        return "\\" + chr(byte)
    return chr(byte) if 32 <= byte <= 126 else f"\\{byte:03o}"


class Side:
    """A text that is run, its events, and how many of them were taken."""

    def __init__(self, text: bytes, entry: str, args: Iterable[int], limit: int, history: Optional[int],
                 most: int) -> None:
        program = parse(cut(text))
        check(program)
        self.machine = Machine(program)
        self.objects = [(self.machine.addresses[item.name], item.name) for item in program.datas]
        self.session = Session(self.machine, self.machine.start(entry, list(args)), limit, history)
        self.limit, self.most = limit, most
        self.waiting: list[Event] = []
        self.kinds: Sequence[str] = ()

    def against(self, other: Side, kinds: Sequence[str]) -> None:
        """Which side it is compared with, and in which kinds of events."""
        self.kinds = kinds
        self.shared_funcs = {func.name for func in self.machine.funcs} & {func.name for func in other.machine.funcs}
        self.shared_data = {name for _, name in self.objects} & {name for _, name in other.objects}

    # What a number counts as.

    def data_place(self, address: int) -> Optional[Place]:
        if not DATA <= address <= DATA + len(self.machine.data):
            return None
        found = [(name, address - start) for start, name in self.objects if start <= address]
        return found[-1] if found else None

    def address(self, address: int) -> str:
        if STACK <= address <= STACK + MOST_BYTES:
            return "stack"
        place = self.data_place(address)
        if place:
            return self.place_text(place)
        for name, start in BUILT_INS.items():
            if address == start and name not in self.machine.defined:
                return f"${name}"
        number, rest = divmod(address - FUNCTIONS, 16)
        if rest == 0 and 0 <= number < len(self.machine.funcs):
            return f"${self.machine.funcs[number].name}"
        return str(address)

    @staticmethod
    def place_text(place: Place) -> str:
        name, offset = place
        return f"${name}+{offset}" if offset else f"${name}"

    def value(self, type_: Optional[str], value: int) -> str:
        return self.address(value) if type_ == "l" else str(value)

    # Events: what is compared, and the line that is told.

    def next_event(self) -> Event:
        """The next event, or why there is none."""
        made = 0
        while not self.waiting:
            if self.session.now.is_over:
                return "none", "none"
            if made == self.limit:
                return "limit", "limit"
            old = self.session.now
            self.session.add(self.machine.step(old))
            made += 1
            if self.session.position > self.most:
                raise TooLong
            self.waiting = self.events_of(old, self.session.now)
        return self.waiting.pop(0)

    def events_of(self, old: State, new: State) -> list[Event]:
        frame = old.frames[-1]
        func = self.machine.funcs[frame.func]
        if new.is_over:
            return self.of_end(func, new.status) if "end" in self.kinds else []
        block = func.blocks[frame.block]
        if frame.at < len(block.insts):
            return self.of_inst(frame, block.insts[frame.at], old, new)
        return self.of_return(frame, func, block.jump) if block.jump.kind == "ret" else []

    def of_end(self, func: Func, status: Status) -> list[Event]:
        told: object = None if status[0] == "running" else status[1]
        if status[0] == "fault":
            told = self.fault_text(status[1])
        elif status[0] == "done" and status[1] is not None:
            told = self.value(func.type, status[1])
        return [(("end", status[0], told), "end")]

    def fault_text(self, text: str) -> str:
        """A fault without what may differ: the name of a temporary, or where the memory lies that an address is of."""
        for words, is_address in (("unset temporary ", False), ("dead address ", True), ("no function at ", True)):
            if text.startswith(words):
                return words + (self.address(int(text[len(words):])) if is_address else "")
        return text

    def of_inst(self, frame: Frame, inst: Inst, old: State, new: State) -> list[Event]:
        if inst.op == "call":
            if len(new.frames) > len(old.frames):
                return self.of_call(new.frames[-1])
            return self.of_output(new.output[len(old.output):])
        if inst.op in STORED or inst.op == "blit":
            count = STORED.get(inst.op, inst.count)
            return self.of_write(low(64, self.machine.value(frame, inst.operands[1])), count, new)
        return []

    def of_output(self, piece: bytes) -> list[Event]:
        if "output" not in self.kinds:
            return []
        return [(("output", byte), f'output "{quoted(byte)}"') for byte in piece]

    def of_write(self, address: int, count: int, new: State) -> list[Event]:
        place = self.data_place(address)
        if "writes" not in self.kinds or count == 0 or place is None or place[0] not in self.shared_data:
            return []
        piece = new.read(address, count)
        assert piece is not None
        return [(("write", place, piece), f"write {self.place_text(place)} {piece.hex(' ')}")]

    def of_call(self, frame: Frame) -> list[Event]:
        func = self.machine.funcs[frame.func]
        if "calls" not in self.kinds or func.name not in self.shared_funcs:
            return []
        values = [self.value(type_, frame.temps[name]) for type_, name in func.params]
        return [(("call", func.name, values), f"call ${func.name}({', '.join(values)})")]

    def of_return(self, frame: Frame, func: Func, jump: Jump) -> list[Event]:
        if "calls" not in self.kinds or func.name not in self.shared_funcs:
            return []
        if jump.value is None:
            return [(("return", func.name, None), f"return ${func.name}")]
        type_ = func.type or "w"
        value = self.value(type_, fit(type_, self.machine.value(frame, jump.value)))
        return [(("return", func.name, value), f"return ${func.name} {value}")]

    def told(self, name: str, line: str) -> str:
        """The report on a side."""
        session = self.session
        block = session.list_() if session.now.frames else "no: no frame\n"
        way = f"step {session.position}\n" if session.position else ""
        return f"{name}: {line}\n{session.place()}{session.where_()}{block}{way}"


def found(good: Side, bad: Side) -> tuple[int, str, str, str]:
    """The number of events that are the same, what came of it, and what comes next on each side."""
    count = 0
    while True:
        one, other = good.next_event(), bad.next_event()
        if "limit" in (one[0], other[0]):
            return count, "limit", one[1], other[1]
        if one[0] != other[0]:
            return count, "part", one[1], other[1]
        if one[0] == "none":
            return count, "same", one[1], other[1]
        count += 1


def comparison(good: bytes, bad: bytes, script: bytes = b"", names: Sequence[str] = ("good.ssa", "bad.ssa"),
               entry: str = "main", args: Iterable[int] = (), events: Sequence[str] = DEFAULT, limit: int = 1_000_000,
               session: Optional[str] = None, history: Optional[int] = None,
               most: int = 1_000_000) -> tuple[bytes, int]:
    """What is written of two texts, and the exit status."""
    sides = []
    for text, name, side in zip((good, bad), names, ("good", "bad")):
        # A side that no session is asked of needs its last state alone.
        kept = history if history or side == session else 1
        try:
            sides.append(Side(text, entry, args, limit, kept, most))
        except Refused as refused:
            return f"{name}: {refused.answer()}".encode("latin-1"), 65
    sides[0].against(sides[1], events)
    sides[1].against(sides[0], events)
    count, kind, *lines = found(sides[0], sides[1])
    if kind == "same":
        written = [f"same {count} events\n"]
    else:
        written = [f"{kind} at event {count}\n"]
        written += [side.told(name, line) for side, name, line in zip(sides, ("good", "bad"), lines)]
    if session:
        served = sides[("good", "bad").index(session)].session
        for line in lines_of(script):
            written.append(served.answer(line))
            if served.is_ended:
                break
    return "".join(written).encode("latin-1"), STATUSES[kind]
