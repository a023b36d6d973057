"""Nothing depends on open bits: if no use of open bits is suspected in a run, it goes the same way with any values in
the fresh bytes of slots, and above parts of words after calls.

The debugger itself decides: after each `alloc` the new bytes are poked, after each call and return the bits above a
part are set, and the run must end the same, with the same output.
"""
from __future__ import annotations

import pathlib
import random
from typing import Callable, Iterator

from terminal.answers import read_output
from terminal.pipe import Pipe
from terminal.scratch import Launch
from terminal.text import Instruction

from ..following import Follower, Read
from ..heap import roles_of
from ..kinds import DEFAULT
from ..shadow import PART_BITS
from .chance import random_files, small_fault
from .gathered import run_of
from .texts import TEXTS

TOP = pathlib.Path(__file__).resolve().parent.parent.parent
PROGRAMS, MOST_MOVES, MOST_FILLED = 150, 3_000, 400
OPEN = frozenset(("undef", "extension"))
Case = tuple[str, Callable[[], str | None]]


class Filler(Follower):
    """Notes the lines that fill what is open, each with the position at which it can be typed."""

    def __init__(self, *words: object, random_: random.Random):
        super().__init__(*words)  # type: ignore[arg-type]
        self.random, self.lines = random_, list[tuple[int, str]]()

    def drawn(self, bits: int) -> int:
        """Random bits, or one of the extremes."""
        return self.random.choice((0, (1 << bits) - 1, 1 << bits - 1, self.random.getrandbits(bits)))

    def allocate(self, instruction: Instruction, size: int, values: Iterator[int]) -> None:
        super().allocate(instruction, size, values)
        slot = self.objects.slots[-1]
        for place in range(min(size, 64)):
            self.lines.append((self.position + 1, f"poke b {slot.address + place} {self.drawn(8)}"))

    def filled(self, name: str, kind: str) -> None:
        """Sets a temporary of the innermost frame that was passed as a part, with other bits above it."""
        bits, value = PART_BITS.get(kind), self.frames[-1].values.get(name)
        if bits and value is not None:
            self.lines.append((self.position + 1,
                               f"set {name} {self.drawn(32) >> bits << bits | value & (1 << bits) - 1}"))

    def call(self, instruction: Instruction, reads: list[Read], there: int, values: Iterator[int]) -> None:
        depth = len(self.frames)
        super().call(instruction, reads, there, values)
        if len(self.frames) > depth:
            parameters = self.frames[-1].function.parameters
            for kind, name in parameters:
                if [other for _, other in parameters].count(name) == 1:
                    self.filled(name, kind)

    def leave(self, instruction: Instruction, reads: list[Read], values: Iterator[int]) -> None:
        frame = self.frames[-1]
        super().leave(instruction, reads, values)
        if frame.call and frame.call.result and len(self.frames) and reads:
            self.filled(frame.call.result, frame.call.type or "w")


def run_fault(program: str, file: pathlib.Path, source: bytes, words: list[str], seed: str) -> tuple[str | None, int]:
    """What goes another way in a run that is filled, or None; and how much was filled."""
    run = run_of(program, file, source, words, MOST_MOVES)
    if not run:
        return None, 0
    launch, table, gathered, data = run
    follower = Filler(table, data, DEFAULT, roles_of(table.program, None), random_=random.Random(seed))
    follower.follow(list(gathered.places), iter(gathered.values))
    if not gathered.end or any(each.kind in OPEN for each in follower.suspicions()):
        return None, 0
    lines = [line for line in follower.lines if line[0] < len(gathered.places) - 1][:MOST_FILLED]
    end, output = ended(launch, lines)
    if (end, output) != (gathered.end, gathered.output):
        fault = f"{end!r} and {output!r} in place of {gathered.end!r} and {gathered.output!r}, after {lines[:6]}"
        return fault, len(lines)
    return None, len(lines)


def ended(launch: Launch, lines: list[tuple[int, str]]) -> tuple[str, bytes]:
    """How a run ends into which these lines are typed, and its output."""
    typed, at = [], 0
    for position, line in lines:
        typed += [f"step {position - at}"] * (position > at) + [line]
        at = position
    pipe = Pipe(launch.command(1))
    answers = pipe.ask(*typed, "step 1000000", "out")
    pipe.close()
    place = answers[-2][-1]
    return place.partition(" ")[2], read_output(answers[-1][0])


def texts_fault(program: str) -> str | None:
    """The texts and the examples; the number of filled bytes shows that something was tried."""
    filled = 0
    for file in sorted([*TEXTS.glob("*.ssa"), *(TOP / "examples").glob("*.ssa")]):
        fault, count = run_fault(program, file, file.read_bytes(), [], file.stem)
        if fault:
            return f"{file.name}: {fault}"
        filled += count
    return None if filled > 200 else f"only {filled} lines filled something"


def random_fault(program: str, place: pathlib.Path) -> str | None:
    filled = 0
    for number, file, source, words in random_files(place, "filled", PROGRAMS):
        fault, count = run_fault(program, file, source, words, str(number))
        if fault:
            return small_fault(number, file, source,
                               lambda text: run_fault(program, file, text, words, str(number))[0])
        filled += count
    return None if filled > 50 else f"only {filled} lines filled something"


def cases(program: str, place: pathlib.Path) -> Iterator[Case]:
    yield "filling texts", lambda: texts_fault(program)
    yield "filling random programs", lambda: random_fault(program, place)
