"""Stops of a session: breakpoints and watches of the debugger, and the further conditions under which one of them
counts."""
from __future__ import annotations

from dataclasses import dataclass, field
from typing import Callable

from .answers import Place, live, read_bytes, read_value
from .conditions import Test, quick_test
from .expressions import Node, Unset, evaluate, fixed, is_fixed, parts_of, temporaries_of
from .scratch import Counts, frames_of
from .text import STACK, Program
from .values import BYTES, FLOAT_BYTES, FLOATS, as_float

FRAME_OVER = "its frame is over"
# Bytes that are shown as one number.
MOST_NUMBER = 8


@dataclass
class Stop:
    """A stop: the lines that make it, and the debugger's numbers of them, none while it is switched off. Its own number
    is the first of those that it had first. `typed` is the line that sets it again, unless it is about one frame."""
    what: str
    lines: list[str]
    numbers: list[int]
    place: tuple[str, str, int] | None = None
    condition: Node | None = None
    condition_text: str = ""
    ignored: int = 0
    is_once: bool = False
    memory: MemoryWatch | None = None
    frame: FrameWatch | None = None
    hits: int = 0
    number: int | str = 0
    typed: str = ""
    commands: list[str] = field(default_factory=list)

    @property
    def is_on(self) -> bool:
        return bool(self.numbers)

    @property
    def is_plain(self) -> bool:
        """Whether the debugger's own runs stop at it each time and for nothing else."""
        return not (self.condition or self.ignored or self.frame or self.memory and self.memory.is_on_stack)

    def __str__(self) -> str:
        parts = [f"{self.number}: {self.what}"]
        if self.condition:
            parts.append(f"if {self.condition_text}")
        if self.ignored:
            parts.append(f"the next {self.ignored} are passed over")
        if self.is_once:
            parts.append("once")
        if not self.is_on:
            parts.append("switched off")
        if self.commands:
            parts.append(f"types {len(self.commands)} lines" if len(self.commands) > 1
                         else f"types `{self.commands[0]}`")
        if self.hits:
            parts.append(f"stopped {self.hits} times" if self.hits > 1 else "stopped once")
        return ", ".join(parts)


@dataclass
class SuspicionStop(Stop):
    """A stop before each move that is suspicious, of these kinds. The debugger knows nothing of it: which moves these
    are is found out by a check of the run (suspecting.py)."""
    kinds: frozenset[str] = frozenset()
    is_set: bool = True

    @property
    def is_on(self) -> bool:
        return self.is_set


@dataclass
class FrameWatch:
    """A temporary of one frame: its depth, the place to which it returns, and the position at which it began.

    Whether a run begins inside the frame, before it or after it is checked each time.
    """
    temporary: str
    function: str
    depth: int
    back: Place | None
    first: str
    entry: int
    value: int | None = None
    is_over: bool = False
    # Its class.
    width: str = ""


@dataclass
class MemoryWatch:
    """Bytes, and what they were when they were live last."""
    address: int
    count: int
    value: list[int | None] = field(default_factory=list)
    width: str = ""

    @property
    def is_on_stack(self) -> bool:
        return self.address + self.count > STACK

    @property
    def question(self) -> str:
        return f"mem {self.address} {self.count}"


@dataclass
class Answered:
    """The state at a hit: the answers that came before, and the process to ask for the rest while it is there."""
    program: Program
    place: Place
    answers: dict[str, list[str]]
    ask: Callable[..., list[list[str]]]

    @property
    def depth(self) -> int:
        return len(frames_of(self.answers["where"]))

    def temporary(self, name: str) -> tuple[int, str]:
        answer = self.answers[f"print {name}"][0]
        value = None if answer.startswith("no: ") else read_value(answer)
        # Behind the end of a run there is a value to print, and no function that the place is in.
        function = self.program.functions.get(self.place.function)
        if value is None or function is None:
            raise Unset(name)
        return value, function.temporaries[name]

    def bytes(self, address: int, count: int) -> int:
        line = f"mem {address} {count}"
        if line not in self.answers:
            self.answers[line] = self.ask(line)[0]
        found = live(read_bytes(self.answers[line][0]))
        if found is None:
            raise Unset(f"dead address {address}")
        return int.from_bytes(found, "little")

    def address(self, name: str) -> int:
        return self.program.addresses[name]

    def word(self, name: str) -> int:
        return self.depth if name == "depth" else self.place.position


def questions_of(node: Node, program: Program) -> list[str] | None:
    """The questions at a hit for a condition, or None if an address in it depends on the state."""
    asked = [f"print {name}" for name in temporaries_of(node)]
    asked += ["where"] if any(part.text == "depth" for part in parts_of(node)) else []
    for part in parts_of(node):
        if part.kind == "memory":
            if not is_fixed(part.parts[0]):
                return None
            address = fixed(part.parts[0], program.addresses)
            asked.append(f"mem {address} {(BYTES | FLOAT_BYTES)[part.text]}")
    return asked


class Filter:
    """Decides at the hits of one run which stop counts, if any."""

    def __init__(self, stops: list[Stop], program: Program, is_forward: bool):
        self.stops, self.program, self.is_forward = stops, program, is_forward
        self.lines: list[str] = []
        self.owners: list[Stop] = []
        # Of several reasons the debugger tells one: watches whose values aren't asked come first.
        watches = [stop for stop in stops if not stop.place]
        watches.sort(key=lambda stop: bool(stop.memory or stop.frame))
        for stop in watches + [stop for stop in stops if stop.place]:
            for line in stop.lines + self.frame_ends(stop):
                self.lines.append(line)
                self.owners.append(stop)
        self.left = {id(stop): stop.ignored for stop in stops}

    def frame_ends(self, stop: Stop) -> list[str]:
        """Where a run leaves the frame of a watch: by its return, or back by its call."""
        frame = stop.frame
        if not frame:
            return []
        if not self.is_forward:
            return [f"break {frame.function} {frame.first} 0"]
        return [f"break {frame.back.function} {frame.back.label} {frame.back.index}"] if frame.back else []

    def questions(self, more: list[str]) -> tuple[list[str], bool]:
        """The further questions at each hit, and whether all of them can be known before."""
        asked, is_known = list(more), True
        for stop in self.stops:
            found = questions_of(stop.condition, self.program) if stop.condition else []
            is_known = is_known and found is not None
            asked += found or [f"print {name}" for name in temporaries_of(stop.condition)] if stop.condition else []
            asked += [stop.memory.question] if stop.memory else []
            asked += ["where", f"print {stop.frame.temporary}"] if stop.frame else []
        return list(dict.fromkeys(asked)), is_known

    def counts(self, questions: list[str]) -> Counts | None:
        """A quick test of whether a hit can count, by the answers there, or None if that takes more."""
        if any(stop.frame or stop.memory for stop in self.stops):
            return None
        tests: list[list[Test] | None] = []
        for owner in self.owners:
            there = [stop for stop in self.stops if stop is owner or owner.place and stop.place == owner.place]
            found = [self.test(stop, questions) for stop in there]
            known = [test for test in found if test]
            tests.append(known if len(known) == len(found) else None)

        def can_count(index: int, _: str, answers: list[list[str]]) -> bool:
            mine = tests[index] if index < len(tests) else None
            return mine is None or any(test(answers) for test in mine)
        return can_count if any(tests) else None

    def test(self, stop: Stop, questions: list[str]) -> Test | None:
        """A quick test of the condition of a breakpoint."""
        if not (stop.place and stop.condition):
            return None
        classes = self.program.functions[stop.place[0]].temporaries
        return quick_test(stop.condition, questions, classes, self.program.addresses)

    def chosen(self, index: int, state: Answered) -> tuple[Stop | None, str]:
        """The stop that counts at a hit of the line with that index, with what there is to say of it."""
        told = self.owners[index] if index < len(self.owners) else None
        here = (state.place.function, state.place.label, state.place.index)
        for stop in self.stops:
            said = self.looked_at(stop, stop is told or stop.place == here, state)
            if said is not None and self.holds(stop, state):
                return stop, said
        return None, ""

    def looked_at(self, stop: Stop, is_told: bool, state: Answered) -> str | None:
        """What a stop says of a state: nothing where it isn't about it."""
        if stop.frame:
            return self.frame_said(stop.frame, state)
        if stop.memory:
            return self.memory_said(stop.memory, state)
        return "" if is_told else None

    def frame_said(self, frame: FrameWatch, state: Answered) -> str | None:
        if frame.is_over or state.place.position < frame.entry:
            return None
        depth = state.depth
        if depth < frame.depth:
            return FRAME_OVER
        if depth > frame.depth:
            return None
        answer = state.answers[f"print {frame.temporary}"][0]
        value = None if answer.startswith("no: ") else read_value(answer)
        if value != frame.value:
            said = self.change(shown(frame.value, frame.width), shown(value, frame.width))
            frame.value = value
            return said
        return "its frame begins here" if state.place.position == frame.entry and not self.is_forward else None

    def memory_said(self, watch: MemoryWatch, state: Answered) -> str | None:
        """A change of live bytes: one to dead bytes, and back to what they were, is none."""
        found = read_bytes(state.answers[watch.question][0])
        if None in found or found == watch.value:
            return None
        before, watch.value = watch.value, found
        return self.memory_change(before, found, watch.width)

    def memory_change(self, before: list[int | None], after: list[int | None], width: str = "") -> str:
        if len(after) <= MOST_NUMBER:
            return self.change(as_number(before, width), as_number(after, width))
        if None in before or None in after or len(before) != len(after):
            return self.change(as_number(before), as_number(after))
        at = next(at for at, (one, other) in enumerate(zip(before, after)) if one != other)
        return f"byte {at} {self.change(str(before[at]), str(after[at]))}"

    def change(self, before: str, after: str) -> str:
        """What a run came from and what it came to, in the order of time."""
        return f"{before} -> {after}" if self.is_forward else f"{after} -> {before}"

    def holds(self, stop: Stop, state: Answered) -> bool:
        """Whether its condition holds, and it isn't passed over."""
        try:
            is_held = not stop.condition or evaluate(stop.condition, state).number != 0
        except Unset:
            is_held = False
        if is_held and self.left[id(stop)]:
            self.left[id(stop)] -= 1
            return False
        return is_held


def shown(value: int | None, width: str = "") -> str:
    if value is None:
        return "unset"
    return as_float(value, width) if width in FLOATS else str(value)


def as_number(found: list[int | None], width: str = "") -> str:
    known = live(found)
    if not known:
        return "dead"
    if width in FLOATS:
        return as_float(int.from_bytes(known, "little"), width)
    return str(int.from_bytes(known, "little")) if len(known) <= MOST_NUMBER else "live"
