"""Which alloc an address on the stack was made by, and whether the frame of that alloc is over.

The bytes of a frame that is over belong to later frames, so the address alone would name a slot of another function.
The value is followed back through copies, sums, phis, arguments, results and memory, by what `why` knows of each. If
that fails, as for a value that was set by hand, nothing is said.
"""
from __future__ import annotations

from dataclasses import dataclass
from typing import TYPE_CHECKING

from .frames import steps_begun
from .levels import stop_line
from .text import ALLOCATIONS, LOADED, Instruction, Operand
from .timeline import Timeline
from .values import is_stack

if TYPE_CHECKING:
    from .causes import Causes

# How many instructions an address is followed through, and in how many of the first moves of a run; the same at a stop,
# where nobody asked.
MOST_STEPS, MOST_MOVES = 40, 1_000_000
MOST_AT_STOP, NEAR = 12, 100_000
# How many runs to the place behind a call are looked at for the one that ended a frame.
MOST_RETURNS = 1000
WIDE = 8


@dataclass(frozen=True)
class Slot:
    """What an alloc gave: the state before it, its function and temporary, and how many frames there were."""
    at: Timeline
    function: str
    name: str
    depth: int


@dataclass(frozen=True)
class Over:
    """A slot of a frame that is over: where an address lies in it, and from which position on the frame is gone, if
    that is known."""
    function: str
    name: str
    offset: int
    position: int | None

    @property
    def long(self) -> str:
        since = "" if self.position is None else f" since #{self.position}"
        return f"{self.function} alloc {self.name}{self.offset:+}, of a frame that is over{since}"

    @property
    def short(self) -> str:
        return f"{self.name}{self.offset:+} of {self.function}, which is over"


@dataclass(frozen=True)
class Asked:
    """A value on its way: a temporary of the innermost frame of a state, or eight bytes of memory there; and whether
    the way has left the frames that were there when it began."""
    at: Timeline
    name: str = ""
    address: int = 0
    is_outside: bool = False


class Origins:
    def __init__(self, causes: Causes):
        self.causes, self.program, self.frames, self.scratch = causes, causes.program, causes.frames, causes.scratch
        self.known: dict[tuple[Asked, bool], Slot | None] = {}

    def over(self, value: int, at: Timeline, name: str = "", address: int = 0, is_asked: bool = True) -> Over | None:
        """The slot that an address was made in, which is a temporary of the innermost frame of a state, or the eight
        bytes at an address; None unless the frame of that slot is over there."""
        if not is_stack(value) or at.position > (MOST_MOVES if is_asked else NEAR):
            return None
        first = Asked(at, name, address)
        if (first, is_asked) not in self.known:
            self.known[first, is_asked] = self.followed(first, is_asked)
        slot = self.known[first, is_asked]
        if slot is None or not self.is_over(slot, at):
            return None
        begin = self.scratch.go(slot.at.at(slot.at.position + 1)).values(slot.name)[0]
        return None if begin is None else Over(slot.function, slot.name, value - begin, self.ended(slot, at))

    def followed(self, asked: Asked, is_asked: bool) -> Slot | None:
        """The slot of a value; None where the way is lost, is too long, or never leaves frames that still are there."""
        for _ in range(MOST_STEPS if is_asked else MOST_AT_STOP):
            found = self.before(asked) if asked.name else self.stored(asked)
            if not isinstance(found, Asked):
                return found if found and asked.is_outside else None
            asked = found
        return None

    def before(self, asked: Asked) -> Asked | Slot | None:
        """What a temporary was made of."""
        at = self.frames.before_end(asked.at)
        frames = self.frames.where(at)
        if not asked.is_outside and self.is_own_slot(asked.name, frames[0].function):
            return None
        setter = self.causes.setter(asked.name, frames[0].function, at)
        there = at.at(setter.position)
        if setter.kind == "phi" and setter.instruction:
            phi, label = setter.instruction, self.frames.where(there)[0].label
            return self.operand(phi.operands[phi.labels.index(label)], there, asked.is_outside)
        if setter.kind == "parameter":
            names = [name for _, name in self.program.functions[frames[0].function].parameters]
            _, call = self.causes.innermost(there)
            return self.operand(call.operands[names.index(asked.name) + 1], there, asked.is_outside)
        if setter.kind == "result":
            _, instruction = self.causes.innermost(there)
            is_given = instruction.operation == "ret" and instruction.operands
            return self.operand(instruction.operands[0], there, True) if is_given else None
        if setter.kind != "set" or not setter.instruction:
            return None
        if setter.instruction.operation in ALLOCATIONS:
            return Slot(there, frames[0].function, asked.name, len(frames))
        return self.made_of(setter.instruction, there, asked.is_outside)

    def is_own_slot(self, name: str, function: str) -> bool:
        """Whether the text alone says that a temporary holds a slot of its own frame."""
        return all(each.operation in ALLOCATIONS for _, _,
                   each in self.program.functions[function].definitions(name)) and \
            all(name != parameter for _, parameter in self.program.functions[function].parameters)

    def made_of(self, instruction: Instruction, at: Timeline, is_outside: bool) -> Asked | None:
        """The operand of an instruction that is the address, or the bytes that it loads."""
        operands = instruction.operands
        if LOADED.get(instruction.operation) == WIDE:
            address = self.causes.operand_value(operands[0].text, at)
            return None if address is None else Asked(at, address=address, is_outside=True)
        if instruction.operation not in ("add", "sub", "and", "or", "copy"):
            return None
        values = [self.causes.operand_value(operand.text, at) for operand in operands]
        on_stack = [operand for operand, value in zip(operands, values) if value is not None and is_stack(value)]
        return self.operand(on_stack[0], at, is_outside) if len(on_stack) == 1 else None

    def operand(self, operand: Operand, at: Timeline, is_outside: bool) -> Asked | None:
        return Asked(at, operand.text, is_outside=is_outside) if operand.is_temporary else None

    def stored(self, asked: Asked) -> Asked | None:
        """What eight bytes of memory were made of, where one store or one copy wrote all of them."""
        writers, left, is_sure = self.causes.writers(asked.address, WIDE, asked.at)
        if left or not is_sure or len(writers) != 1 or asked.at.poke_at(writers[0][0]):
            return None
        there = asked.at.at(writers[0][0])
        _, instruction = self.causes.innermost(there)
        if instruction.operation == "blit":
            source, to = (self.causes.operand_value(operand.text, there) for operand in instruction.operands)
            return None if source is None or to is None else \
                Asked(there, address=source + asked.address - to, is_outside=True)
        if instruction.operation != "storel":
            return None
        is_same = self.causes.operand_value(instruction.operands[1].text, there) == asked.address
        return self.operand(instruction.operands[0], there, True) if is_same else None

    # Frames.

    def is_over(self, slot: Slot, at: Timeline) -> bool:
        """Whether the frame of a slot is no longer there in a later state of the run."""
        at = self.frames.before_end(at)
        index = len(self.frames.where(at)) - slot.depth
        if index < 0:
            return True
        return self.frames.entry(self.frames.frame(at, index)) != self.frames.entry(slot.at)

    def ended(self, slot: Slot, at: Timeline) -> int | None:
        """The position from which on the frame of a slot is over, by the first return to where its caller goes on."""
        frames = self.frames.where(slot.at)
        if len(frames) < 2:
            return None
        caller = frames[1]
        stop = stop_line((caller.function, caller.label, caller.index))
        hits = self.scratch.go(slot.at).hits(True, [stop], ["where"], last=at.position)
        for _, hit in zip(range(MOST_RETURNS), hits):
            if hit.stop is None or hit.position > steps_begun(at):
                return None
            if len(hit.answers[0]) < slot.depth:
                return hit.position
        return None
