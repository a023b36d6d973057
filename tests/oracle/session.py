"""A session: commands, stops and answers over a list of whole states."""
from __future__ import annotations

import re
from collections.abc import Callable, Iterable
from typing import Literal, Optional, Union

from .grammar import parse
from .machine import LOADED, STORED, Frame, Machine, State, low
from .rules import BUILT_INS, check, form
from .tokens import Refused, cut
from .tree import Inst, Jump

GREATEST_SCRIPT = 2**24
GREATEST_LINE = 256
MOST_STOPS = 64
MOST_LINES = 4096
# No more than 1,000 frames last.
MOST_ENDED = MOST_LINES - 1000
WIDTHS = {"b": 1, "h": 2, "w": 4, "l": 8}
NAME = "[A-Za-z0-9._$]+"
NUMBER = re.compile("[0-9]+")
VALUE = re.compile("-?[0-9]+")
ADDRESS = re.compile(rf"\$({NAME})(?:\+([0-9]+))?")


# What a word of a command means: a number, a name, an address (a name, if there is one, and what is added), or what is
# watched.
Word = Union[int, str, tuple[Optional[str], int], tuple[str, str]]
Shape = Callable[[str], Word]
# A breakpoint at a function, a block and an instruction, by their numbers; a watch of a width and an address, or of a
# function and a temporary.
Break = tuple[Literal["break"], int, int, int]
BytesWatch = tuple[Literal["watch"], Literal["bytes"], str, int]
TempWatch = tuple[Literal["watch"], Literal["temp"], int, str]
Watch = Union[BytesWatch, TempWatch]
Stop = Union[Break, Watch]


class BadWord(Exception):
    pass


class No(Exception):
    """A refused line, by what stands behind `no: `."""


def number(least: int, greatest: int) -> Callable[[str], int]:
    def shape(word: str) -> int:
        if not NUMBER.fullmatch(word) or not least <= int(word) <= greatest:
            raise BadWord
        return int(word)
    return shape


def value(word: str) -> int:
    if not VALUE.fullmatch(word) or not -2**63 <= int(word) < 2**64:
        raise BadWord
    return int(word) % 2**64


def address(word: str) -> tuple[Optional[str], int]:
    """A number, or a name and what is added."""
    if NUMBER.fullmatch(word):
        return None, WORD(word)
    found = ADDRESS.fullmatch(word)
    if not found:
        raise BadWord
    return found[1], WORD(found[2]) if found[2] else 0


def name_after(sigil: str) -> Callable[[str], str]:
    def shape(word: str) -> str:
        if not re.fullmatch(re.escape(sigil) + NAME, word):
            raise BadWord
        return word[1:]
    return shape


def width(word: str) -> str:
    if word not in WIDTHS:
        raise BadWord
    return word


def watched(word: str) -> tuple[str, str]:
    return ("bytes", word) if word in WIDTHS else ("temp", GLOBAL(word))


WORD = number(0, 2**64 - 1)
COUNT = number(1, 2**32 - 1)
GLOBAL, TEMP, LABEL = name_after("$"), name_after("%"), name_after("@")

# The shapes of the words of each command, and how many of them it needs. The second word of `watch` hangs on the first.
COMMANDS: dict[str, tuple[list[Shape | None], int]] = {
    "step": ([COUNT], 0), "accesses": ([COUNT, address, COUNT], 3), "counts": ([COUNT], 1),
    "frames": ([COUNT, COUNT], 2), "back": ([COUNT], 0), "continue": ([], 0), "reverse": ([], 0),
    "break": ([GLOBAL, LABEL, WORD], 1), "watch": ([watched, None], 2), "delete": ([WORD], 1), "stops": ([], 0),
    "set": ([TEMP, value], 2), "poke": ([width, address, value], 3), "print": ([TEMP], 1), "temps": ([], 0),
    "mem": ([address, number(1, 256)], 2), "where": ([], 0), "list": ([], 0), "out": ([], 0), "quit": ([], 0),
}


def read_command(line: str) -> Optional[tuple[str, list[Word]]]:
    """The command of a line and its words' values, or nothing; else the line is refused."""
    if len(line) > GREATEST_LINE:
        raise No("line too long")
    words = [word for word in re.split("[ \t\r]+", line) if word]
    if not words:
        return None
    if words[0] not in COMMANDS:
        raise No("unknown command")
    shapes, needed = COMMANDS[words[0]]
    values: list[Word] = []
    for place, shape in enumerate(shapes):
        if place + 1 >= len(words):
            if place < needed:
                raise No("missing word")
            break
        if shape is None:
            watch = values[0]
            shape = address if isinstance(watch, tuple) and watch[0] == "bytes" else TEMP
        try:
            values.append(shape(words[place + 1]))
        except BadWord:
            raise No("bad word") from None
    if len(words) - 1 > len(shapes):
        raise No("extra word")
    return words[0], values


class Session:
    """The states that are kept, the position of the first of them, and the stops by number."""

    def __init__(self, machine: Machine, state: State, limit: int = 1_000_000, history: Optional[int] = None) -> None:
        self.machine, self.limit, self.history = machine, limit, history
        self.states, self.oldest = [state], 0
        self.stops: dict[int, Stop] = {}
        self.last_stop = 0
        self.is_ended = False

    def again(self) -> Session:
        """A session that begins where this one's first kept state is."""
        return Session(self.machine, self.states[0], self.limit, self.history)

    @property
    def now(self) -> State:
        return self.states[-1]

    @property
    def position(self) -> int:
        return self.oldest + len(self.states) - 1

    def add(self, state: State) -> None:
        self.states.append(state)
        if self.history is not None and len(self.states) > self.history + 1:
            del self.states[0]
            self.oldest += 1

    def place(self) -> str:
        status = self.now.status
        if status[0] == "running":
            return f"#{self.position} {self.frame_text(self.now.frames[-1])}\n"
        if status[0] == "done":
            value = "" if status[1] is None else f" {status[1]}"
            return f"#{self.position} done{value}\n"
        return f"#{self.position} {status[0]} {status[1]}\n"

    def frame_text(self, frame: Frame) -> str:
        func = self.machine.funcs[frame.func]
        return f"${func.name} @{func.blocks[frame.block].label} {frame.at}"

    def answer(self, line: str) -> str:
        """The answer to a line of a script, without its newline."""
        try:
            command = read_command(line)
            if command is None:
                return ""
            answer: str = getattr(self, command[0] + "_")(*command[1])
            return answer
        except No as no:
            return f"no: {no}\n"

    # Moves.

    def step_(self, count: int = 1) -> str:
        if self.now.is_over:
            raise No("at end")
        while count > 0 and not self.now.is_over:
            self.add(self.machine.step(self.now))
            count -= 1
        return self.place()

    def accesses_(self, count: int, where: tuple[Optional[str], int], size: int) -> str:
        if self.now.is_over:
            raise No("at end")
        start = self.address_of(where)
        lines: list[str] = []
        # A copy has two lines, which belong together.
        while count > 0 and not self.now.is_over and len(lines) + 2 <= MOST_LINES:
            before, position = self.now, self.position
            self.add(self.machine.step(before))
            lines += [f"{action} #{position} {first} {length}\n" for action, first, length in self.accessed(before)
                      if max(first, start) < min(first + length, start + size)]
            count -= 1
        return "".join(lines) + self.place()

    def counts_(self, count: int) -> str:
        if self.now.is_over:
            raise No("at end")
        met: dict[tuple[int, int, int], int] = {}
        while count > 0 and not self.now.is_over and len(met) < MOST_LINES:
            frame = self.inner()
            place = frame.func, frame.block, frame.at
            met[place] = met.get(place, 0) + 1
            self.add(self.machine.step(self.now))
            count -= 1
        lines = [f"count {met[f, b, at]} ${func.name} @{block.label} {at}\n"
                 for f, func in enumerate(self.machine.funcs) for b, block in enumerate(func.blocks)
                 for at in range(len(block.insts) + 1) if (f, b, at) in met]
        return "".join(lines) + self.place()

    def frames_(self, count: int, least: int) -> str:
        if self.now.is_over:
            raise No("at end")
        # How many frames each state has. A frame is there in each state that has more than are below it.
        depths = [len(self.now.frames)]
        lines: list[str] = []
        start = self.position
        while count > 0 and not self.now.is_over and len(lines) < MOST_ENDED:
            ended = self.inner().func
            self.add(self.machine.step(self.now))
            depths.append(len(self.now.frames))
            count -= 1
            if depths[-1] < depths[-2]:
                begin = self.begun(depths[:-1], depths[-1], start)
                if begin is None or self.position - begin >= least:
                    lines.append(self.frame_line(begin, self.position, ended, depths[-1]))
        for below, frame in enumerate(self.now.frames):
            begin = self.begun(depths, below, start)
            if begin is not None:
                lines.append(self.frame_line(begin, None, frame.func, below))
        return "".join(lines) + self.place()

    @staticmethod
    def begun(depths: list[int], below: int, start: int) -> Optional[int]:
        """Where the frame of the last state began that has so many below it, if one of the moves led there."""
        for back, depth in enumerate(reversed(depths)):
            if depth <= below:
                return start + len(depths) - back
        return None

    def frame_line(self, begin: Optional[int], end: Optional[int], func: int, below: int) -> str:
        at = ["-" if position is None else f"#{position}" for position in (begin, end)]
        return f"frame {at[0]} {at[1]} ${self.machine.funcs[func].name} {below}\n"

    def accessed(self, before: State) -> list[tuple[str, int, int]]:
        """What the last move read and wrote: from which address on how many bytes."""
        frame = before.frames[-1]
        insts = self.machine.funcs[frame.func].blocks[frame.block].insts
        if self.now.status[0] == "fault" or frame.at == len(insts):
            return []
        inst = insts[frame.at]
        values = [self.machine.value(frame, operand) for operand in inst.operands]
        if inst.op.startswith("load"):
            return [("read", values[0], LOADED[inst.op[-1]])]
        if inst.op in STORED:
            return [("write", values[1], STORED[inst.op])]
        if inst.op == "blit":
            return [("read", values[0], inst.count), ("write", values[1], inst.count)]
        if inst.op.startswith("alloc"):
            assert inst.target is not None
            return [("write", self.inner().temps[inst.target], values[0])]
        if inst.op == "call" and values[0] == BUILT_INS["puts"] and "puts" not in self.machine.defined:
            text = self.machine.value(frame, inst.arguments[0][1])
            return [("read", text, before.live_from(text).index(0) + 1)]
        return []

    def no_way_back(self) -> None:
        if len(self.states) == 1:
            raise No("at start" if self.oldest == 0 else "history ends")

    def back_(self, count: int = 1) -> str:
        self.no_way_back()
        del self.states[max(1, len(self.states) - count):]
        return self.place()

    def continue_(self) -> str:
        if self.now.is_over:
            raise No("at end")
        made = 0
        while True:
            before = self.now
            self.add(self.machine.step(before))
            made += 1
            reason = "end" if self.now.is_over else self.watch_or_break(before, self.now)
            if reason is None and made == self.limit:
                reason = "limit"
            if reason:
                return f"stop: {reason}\n{self.place()}"

    def reverse_(self) -> str:
        self.no_way_back()
        made = 0
        while True:
            after = self.states.pop()
            made += 1
            reason = self.watch_or_break(after, self.now)
            if reason is None and len(self.states) == 1:
                reason = "start" if self.oldest == 0 else "oldest"
            if reason is None and made == self.limit:
                reason = "limit"
            if reason:
                return f"stop: {reason}\n{self.place()}"

    def watch_or_break(self, left: State, reached: State) -> Optional[str]:
        """The watch that reads otherwise in two neighbouring states, else the breakpoint that holds in the second."""
        for number, stop in sorted(self.stops.items()):
            if stop[0] == "watch" and self.reading(stop, left) != self.reading(stop, reached):
                return f"watch {number}"
        for number, stop in sorted(self.stops.items()):
            if stop[0] == "break" and not reached.is_over and stop[1:] == reached.frames[-1][:3]:
                return f"break {number}"
        return None

    def reading(self, stop: Watch, state: State) -> Union[bytes, int, None]:
        if stop[1] == "bytes":
            return state.read(stop[3], WIDTHS[stop[2]])
        for frame in reversed(state.frames):
            if frame.func == stop[2]:
                return frame.temps.get(stop[3])
        return None

    # Stops.

    def func_named(self, name: str) -> int:
        for number, func in enumerate(self.machine.funcs):
            if func.name == name:
                return number
        raise No("unknown place")

    def add_stop(self, stop: Stop) -> str:
        if len(self.stops) == MOST_STOPS:
            raise No("too many stops")
        self.last_stop += 1
        self.stops[self.last_stop] = stop
        return self.stop_text(self.last_stop)

    def stop_text(self, number: int) -> str:
        stop = self.stops[number]
        funcs = self.machine.funcs
        if stop[0] == "break":
            func = funcs[stop[1]]
            return f"break {number} ${func.name} @{func.blocks[stop[2]].label} {stop[3]}\n"
        if stop[1] == "bytes":
            return f"watch {number} {stop[2]} {stop[3]}\n"
        return f"watch {number} ${funcs[stop[2]].name} %{stop[3]}\n"

    def break_(self, func: str, label: Optional[str] = None, index: int = 0) -> str:
        number = self.func_named(func)
        code = self.machine.funcs[number]
        block = 0 if label is None else code.block_of(label)
        if block is None or index > len(code.blocks[block].insts):
            raise No("unknown place")
        return self.add_stop(("break", number, block, index))

    def watch_(self, what: tuple[str, str], where: Union[str, tuple[Optional[str], int]]) -> str:
        if not isinstance(where, str):
            return self.add_stop(("watch", "bytes", what[1], self.address_of(where)))
        number = self.func_named(what[1])
        if where not in self.machine.funcs[number].temps:
            raise No("unknown place")
        return self.add_stop(("watch", "temp", number, where))

    def delete_(self, number: int) -> str:
        if number not in self.stops:
            raise No("no such stop")
        del self.stops[number]
        return f"deleted {number}\n"

    def stops_(self) -> str:
        return "".join(self.stop_text(number) for number in sorted(self.stops)) or "none\n"

    # Pokes.

    def address_of(self, where: tuple[Optional[str], int]) -> int:
        name, offset = where
        if name is None:
            return offset
        if name not in self.machine.addresses:
            raise No("unknown place")
        return (self.machine.addresses[name] + offset) % 2**64

    def inner(self) -> Frame:
        if not self.now.frames:
            raise No("no frame")
        return self.now.frames[-1]

    def known(self, temp: str) -> None:
        if temp not in self.machine.funcs[self.inner().func].temps:
            raise No("unknown temporary")

    def set_(self, temp: str, value: int) -> str:
        self.known(temp)
        self.add(self.machine.with_result(self.now, temp, value))
        return self.place()

    def poke_(self, letter: str, where: tuple[Optional[str], int], value: int) -> str:
        at, count = self.address_of(where), WIDTHS[letter]
        if self.now.read(at, count) is None:
            raise No("dead address")
        self.add(self.now.written(at, low(8 * count, value).to_bytes(count, "little")))
        return self.place()

    # What only looks.

    def temp_text(self, temp: str) -> str:
        temps = self.inner().temps
        return f"%{temp} = {temps[temp]}\n" if temp in temps else f"%{temp} unset\n"

    def print_(self, temp: str) -> str:
        self.known(temp)
        return self.temp_text(temp)

    def temps_(self) -> str:
        func = self.machine.funcs[self.inner().func]
        return "".join(self.temp_text(temp) for temp in func.temps) or "none\n"

    def mem_(self, where: tuple[Optional[str], int], count: int) -> str:
        at = self.address_of(where)
        bytes_ = [self.now.read(at + n, 1) for n in range(count)]
        return " ".join("--" if byte is None else byte.hex() for byte in bytes_) + "\n"

    def where_(self) -> str:
        return "".join(self.frame_text(frame) + "\n" for frame in reversed(self.now.frames)) or "none\n"

    def list_(self) -> str:
        frame = self.inner()
        func = self.machine.funcs[frame.func]
        block = func.blocks[frame.block]
        lines = [f"${func.name} @{block.label}"] + [f"  - {phi.text()}" for phi in block.phis]
        parts: list[Union[Inst, Jump]] = [*block.insts, block.jump]
        for index, part in enumerate(parts):
            lines.append(f"{'>' if index == frame.at else ' '} {index} {part.text()}")
        return "\n".join(lines) + "\n"

    def out_(self) -> str:
        def shown(byte: int) -> str:
            if byte in b'"\\':
                return "\\" + chr(byte)
            return chr(byte) if 32 <= byte <= 126 else f"\\{byte:03o}"
        return f'out {len(self.now.output)} "{"".join(map(shown, self.now.output))}"\n'

    def quit_(self) -> str:
        self.is_ended = True
        return ""


def load(text: bytes, entry: str = "main", args: Iterable[int] = (), limit: int = 1_000_000,
         history: Optional[int] = None) -> tuple[str, Session]:
    """The load lines of a program, and its session; refuses where there is none."""
    program = parse(cut(text))
    check(program)
    machine = Machine(program)
    session = Session(machine, machine.start(entry, list(args)), limit, history)
    again = form(program)
    single = "ssa yes" if again is None else f"ssa no ${again[0]} %{again[1]}"
    loaded = f"loaded {len(machine.funcs)} functions {len(machine.data)} data bytes {single}\n"
    return loaded + session.place(), session


def lines_of(script: bytes) -> list[str]:
    """The lines of a script that are read; an empty one behind the last newline is none."""
    lines = script.decode("latin-1").split("\n")
    return lines if lines[-1] else lines[:-1]


def transcript(text: bytes, script: bytes = b"", entry: str = "main", args: Iterable[int] = (), limit: int = 1_000_000,
               history: Optional[int] = None) -> tuple[bytes, int]:
    """What the program writes for a text and a script of lawful length, and its exit status."""
    try:
        written, session = load(text, entry, args, limit, history)
    except Refused as refused:
        return refused.answer().encode("latin-1"), 1
    answers = [written]
    for line in lines_of(script):
        answers.append(session.answer(line))
        if session.is_ended:
            break
    return "".join(answers).encode("latin-1"), 0
