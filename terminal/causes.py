"""Where a value comes from: the instruction that set it, with its operands, each of which can be asked about in turn.

The scratch process goes back to it by breakpoints at the definitions of a temporary, or by watches of bytes; nothing is
asked move by move. A question is about a state of the run in which its frame is the innermost one.
"""
from __future__ import annotations

from collections import Counter
from dataclasses import dataclass, field
from typing import Callable

from .accesses import MOST_STOPS, Accesses, Site, size_of
from .answers import Place, live, read_output
from .frames import Frames, allocations_of, steps_begun
from .levels import own_hits
from .lowered import Lowered
from .origins import Origins
from .scratch import Refused, Scratch
from .text import ALLOCATIONS, BUILT_IN, FUNCTION_BYTES, LOADED, STORED, Instruction, Program
from .timeline import Poke, Timeline
from .values import FLOATS, Names, as_float, is_stack, remarks, shown_bytes, signed

MOST_BYTES_ASKED = 48
# How many stores of the same value are looked for before `why` is content with the last change.
MOST_STORES, MOST_SITES = 4_000, 240
# What copies bytes from its second argument to its first.
COPYING = frozenset(("memcpy", "memmove", "strcpy", "strncpy", "stpcpy"))
# Functions of the runtime that write bytes as they lie in memory, and which argument has their address.
WRITING = {"$puts.counted": 1, "$fputs": 1, "$fwrite": 1, "$write": 2}
# The temporaries that qrev-lower makes of cells, and how many of them are shown.
CELLS, MOST_CELLS = "%.cells.", 16
WIDTHS = {1: "b", 2: "h", 4: "w", 8: "l"}
# Below it lies nothing that has an address; and how far from an object an address may be that was made from it.
SMALL, FAR = 1024, 1 << 16


@dataclass(frozen=True)
class Question:
    """What can be asked of a state: `of` is temporary, memory, control, or call; the note says what it is in the
    list."""
    of: str
    at: Timeline
    text: str = ""
    note: str = ""
    name: str = ""
    address: int = 0
    count: int = 0


@dataclass
class Cause:
    """What set a value: a state from which the move that did it goes on, in words, and what can be asked about next."""
    at: Timeline
    lines: list[str] = field(default_factory=list)
    questions: list[Question] = field(default_factory=list)

    def shown(self) -> list[str]:
        found, number = [], 0
        for line in self.lines:
            if line == ASKED:
                question = self.questions[number]
                found.append(f"  [{number + 1}] {question.text}" + (f"  {question.note}" if question.note else ""))
                number += 1
            else:
                found.append(line)
        return found


# A line of a cause in whose place stands its next question.
ASKED = "?"


@dataclass(frozen=True)
class Setter:
    """How a temporary came to its value: the move from a position on, and what it was."""
    kind: str
    position: int
    instruction: Instruction | None = None


# Stores, each by its position with the bytes that it wrote.
Writers = list[tuple[int, set[int]]]
# At which places of a function, by label and index, a temporary is just going to be set or has just been, and how.
Roles = dict[tuple[str, int], dict[str, Instruction]]


def distance(number: int, begin: int, size: int) -> int:
    """How far a number is from a span."""
    return max(begin - number, number - (begin + size), 0)


def pieces_of(offsets: set[int]) -> list[tuple[int, int]]:
    """Bytes in pieces that have a width, each by its first byte and its size."""
    found, left = [], sorted(offsets, reverse=True)
    while left:
        first = left[-1]
        count = next(count for count in sorted(WIDTHS, reverse=True) if offsets.issuperset(range(first, first + count)))
        found.append((first, count))
        del left[-count:]
    return found


class Causes:
    def __init__(self, program: Program, names: Names, frames: Frames, scratch: Scratch,
                 source: Callable[[int], str] = lambda line: "",
                 lowered: Lowered | None = None):
        self.program, self.names, self.frames, self.scratch = program, names, frames, scratch
        self.lowered = lowered or Lowered()
        # Whether functions of the runtime are looked into; else each is one instruction of the program.
        self.is_inside = False
        self.accesses = Accesses(program, scratch)
        self.origins = Origins(self)
        self.source = source

    def of(self, question: Question) -> Cause:
        call = {"temporary": self.of_temporary, "memory": self.of_memory, "control": self.of_control,
                "call": self.of_call}
        return call[question.of](question)

    # Parts that causes are made of.

    def innermost(self, at: Timeline) -> tuple[Place, Instruction]:
        """Where the innermost frame of a state stands, and the instruction there."""
        place = self.frames.where(at)[0]
        return place, self.program.functions[place.function].at(place.label, place.index)

    def line_told(self, at: Timeline, place: Place, instruction: Instruction) -> str:
        source = self.source(instruction.line)
        written = self.lowered.written(self.program.functions[place.function], instruction)
        return (f"  #{at.position} {place.function} {place.label} {place.index}  line {instruction.line}: {written}"
                + (f"  ({source})" if source else ""))

    def address_told(self, value: int, width: str, at: Timeline, name: str = "", address: int = 0,
                     frame: Timeline | None = None) -> str | None:
        """The name of an address in a state, and of what holds it: a temporary of the innermost frame, or of the one
        that is so in another state; or eight bytes. If it was made in a slot whose frame is over, it is named by that,
        with what is there now."""
        found = self.frames.name(value, width, at)
        over = self.origins.over(value, frame or at, name, address) if width == "l" and (name or address) else None
        return over.long + (f"; now {found}" if found else "") if over else found

    def valued(self, text: str, value: int | None, width: str, at: Timeline) -> str:
        """A name with its value, and with what the value also is."""
        if value is None:
            return f"{text} unset"
        if width in FLOATS:
            return f"{text} = {as_float(value, width)}"
        found = remarks(value, width, self.address_told(value, width, at, text))
        return f"{text} = {value}" + (f" ({', '.join(found)})" if found else "")

    def class_of(self, function: str, name: str) -> str:
        return self.program.functions[function].temporaries[name]

    def temporary(self, name: str, at: Timeline, note: str = "") -> Question:
        function = self.frames.where(at)[0].function
        value = self.scratch.go(at).values(name)[0]
        return Question("temporary", at, self.valued(name, value, self.class_of(function, name), at), note, name)

    def memory(self, address: int, count: int, at: Timeline, width: str = "") -> Question:
        return Question("memory", at, self.bytes_told(address, count, at, width), address=address, count=count)

    def bytes_told(self, address: int, count: int, at: Timeline, width: str = "") -> str:
        """Bytes of memory in words, as `w $to+20 = 5`; a float where the width says so, or the map of the data."""
        found = self.scratch.go(at).memory(address, count)
        width = width or self.lowered.float_at(self.program.object_at(address), address, count) or WIDTHS.get(count, "")
        head = f"{width or f'{count} bytes at'} {self.frames.name(address, 'l', at) or address}"
        known = live(found)
        if known is None:
            return f"{head}, which aren't live"
        if not width:
            return f"{head} = {shown_bytes(known)}"
        value = int.from_bytes(known, "little")
        if width in FLOATS:
            return f"{head} = {as_float(value, width)}"
        said = remarks(value, width, self.address_told(value, width, at, address=address))
        if width == "b" and 32 <= value < 127:
            said = [shown_bytes(known)]
        return f"{head} = {value}" + (f" ({', '.join(said)})" if said else "")

    def executed(self, at: Timeline, head: str, wanted: tuple[int, int] | None = None) -> Cause:
        """The next instruction in a state, with its operands; for a blit the bytes in question."""
        place, instruction = self.innermost(at)
        questions = self.operands_asked(at, instruction)
        read = self.bytes_read(at, instruction, wanted) + self.bytes_copied(at, instruction, wanted)
        # What a load took comes before where it took it.
        questions = read + questions if instruction.operation in LOADED else questions + read
        questions += self.cells_given(at, place, instruction)
        questions.append(self.control(at, place))
        return Cause(at, [head, self.line_told(at, place, instruction)] + [ASKED] * len(questions), questions)

    def operands_asked(self, at: Timeline, instruction: Instruction) -> list[Question]:
        """Each temporary that the instruction that comes next reads."""
        return [self.temporary(operand.text, at, self.parameter_told(instruction, index))
                for index, operand in enumerate(instruction.operands)
                if operand.is_temporary and operand not in instruction.operands[:index]]

    def parameter_told(self, instruction: Instruction, index: int) -> str:
        """Which parameter an argument becomes."""
        callee = self.program.functions.get(instruction.operands[0].text) if instruction.operation == "call" else None
        if callee and callee.name in self.lowered.instructions and not self.is_inside:
            return ""
        if not callee or not 1 <= index <= len(callee.parameters):
            return ""
        return f"-> {callee.parameters[index - 1][1]} of {callee.name}"

    def bytes_read(self, at: Timeline, instruction: Instruction, wanted: tuple[int, int] | None) -> list[Question]:
        """What a load or a blit takes from memory, where that is live."""
        if instruction.operation not in LOADED and instruction.operation != "blit":
            return []
        values = [self.operand_value(operand.text, at) for operand in instruction.operands]
        address, count = values[0], size_of(instruction)
        if instruction.operation == "blit" and wanted and values[1] is not None and address is not None:
            begin = max(wanted[0], values[1])
            count = min(wanted[0] + wanted[1], values[1] + count) - begin
            address += begin - values[1]
        if address is None or not count or None in self.scratch.go(at).memory(address, min(count, MOST_BYTES_ASKED)):
            return []
        width = self.program.functions[self.frames.where(at)[0].function].temporaries.get(instruction.result or "", "")
        return [self.memory(address, min(count, MOST_BYTES_ASKED), at, width if width in FLOATS else "")]

    def bytes_copied(self, at: Timeline, instruction: Instruction, wanted: tuple[int, int] | None) -> list[Question]:
        """What a call of memcpy or one of its kin copied to the bytes in question, if that is live."""
        operands = instruction.operands
        if instruction.operation != "call" or not wanted or \
                operands[0].text.split(".")[-1].lstrip("$") not in COPYING or \
                self.lowered.is_own(operands[0].text):
            return []
        to, source = (self.operand_value(operand.text, at) for operand in operands[1:3])
        if to is None or source is None or wanted[0] < to:
            return []
        address, count = source + wanted[0] - to, min(wanted[1], MOST_BYTES_ASKED)
        return [] if None in self.scratch.go(at).memory(address, count) else [self.memory(address, count, at)]

    def cells_given(self, at: Timeline, place: Place, instruction: Instruction) -> list[Question]:
        """The variadic arguments of a call, which are in cells of memory."""
        name = next((operand.text for operand in instruction.operands if operand.text.startswith(CELLS)), "")
        if instruction.operation != "call" or not name:
            return []
        begin = self.operand_value(name, at)
        count = min(allocations_of(self.program, place.function).get(name, 0) // 8, MOST_CELLS)
        return [] if begin is None else [
            self.memory(begin + 8 * index, 8, at, self.lowered.cells.get((place.function, name, index), ""))
            for index in range(count)]

    # Functions of the runtime, which count as instructions.

    def call_in_own(self, at: Timeline) -> tuple[Timeline, str]:
        """Where the innermost frame belongs to the runtime: the state in which the program calls it, and the function
        that it calls; else the state itself."""
        frames = self.frames.where(at)
        if self.is_inside or self.lowered.is_own(frames[0].function):
            return at, ""
        index = next((index for index, frame in enumerate(frames) if self.lowered.is_own(frame.function)), 0)
        return (self.frames.frame(at, index), frames[index - 1].function) if index else (at, "")

    def operand_value(self, text: str, at: Timeline) -> int | None:
        return self.scratch.go(at).values(text)[0] if text.startswith("%") else self.accesses.constant(text)

    def value_read(self, text: str, at: Timeline) -> int:
        """The value of an operand that a move from there has read, so that it is set."""
        value = self.operand_value(text, at)
        if value is None:
            raise Refused(f"{text} is unset at #{at.position}")
        return value

    def control(self, at: Timeline, place: Place) -> Question:
        label = self.block_before_calls(place)
        if label == self.program.functions[place.function].first:
            return Question("call", at, f"the call of {place.function}")
        return Question("control", at, f"the way to {label}")

    def block_before_calls(self, place: Place) -> str:
        """The block of the program's own text at a place: one that goes on behind a call which no longjmp left, as the
        program is lowered, is a part of the block with the call."""
        blocks = self.program.functions[place.function].blocks
        label = place.label
        while not self.is_inside and (call := self.lowered.left_by_jumps(place.function, blocks).get(label)):
            label = call
        return label

    # Temporaries.

    def of_temporary(self, question: Question) -> Cause:
        at, name = self.frames.before_end(question.at), question.name
        function = self.frames.where(at)[0].function
        setter = self.setter(name, function, at)
        there = at.at(setter.position)
        if setter.kind == "unset":
            return self.unset(name, function, at)
        poke = at.poke_at(setter.position)
        if setter.kind == "poke" and poke:
            return Cause(there, [f"{question.text} was set by hand: #{setter.position} {poke.line}"])
        if setter.kind == "given":
            return Cause(there, [f"{question.text} is an argument of the command line"])
        if setter.kind == "phi" and setter.instruction:
            return self.of_phi(question, there, setter.instruction)
        if setter.kind == "parameter":
            return self.of_parameter(question, there, function)
        if setter.kind == "result":
            return self.of_result(question, there)
        cause = self.executed(there, f"{question.text} was set by")
        if setter.instruction:
            self.add_stale(cause, at, setter.instruction)
        self.add_before(cause, name, function)
        return cause

    def setter(self, name: str, function: str, at: Timeline) -> Setter:
        """The last move of the innermost frame that set a temporary, before a state that isn't the end."""
        roles, first = self.roles(name, function)
        frames = self.frames.where(at)
        depth, here = len(frames), frames[0]
        found = self.role_at((here.label, here.index), roles, at, at.position)
        if not found and (here.label, here.index) == (first, 0):
            found = self.begun(name, function, at, depth)
        if not found:
            found = self.searched(name, function, at, depth, roles)
        pokes = [poke for poke in at.pokes if poke.line.split()[:2] == ["set", name] and poke.depth == depth
                 and poke.position >= found.position]
        return Setter("poke", pokes[-1].position) if pokes else found

    def roles(self, name: str, function: str) -> tuple[Roles, str]:
        """At which places a temporary is just going to be set, or has just been set by what led there."""
        code = self.program.functions[function]
        roles: Roles = {}
        for label, index, instruction in code.definitions(name):
            if instruction.operation == "phi":
                roles.setdefault((label, 0), {})["phi"] = instruction
            elif instruction.operation == "call":
                roles.setdefault((label, index + 1), {})["result"] = instruction
            else:
                roles.setdefault((label, index), {})["set"] = instruction
        return roles, code.first

    def role_at(self, place: tuple[str, int], roles: Roles, run: Timeline, position: int) -> Setter | None:
        """What was done at a place, to come to the state of a run at a position or by the step from there."""
        found = roles.get(place, {})
        if position < run.position and "set" in found and not run.poke_at(position):
            return Setter("set", position, found["set"])
        for kind in ("phi", "result"):
            if kind in found:
                return Setter(kind, self.came_by(run, position), found[kind])
        return None

    def came_by(self, run: Timeline, position: int) -> int:
        """The position from which the last step led to the place of a state; pokes stay at it."""
        return steps_begun(run.at(position)) - 1

    def begun(self, name: str, function: str, at: Timeline, depth: int) -> Setter:
        """At the beginning of a frame: what sets a parameter, or nothing."""
        is_parameter = any(name == parameter for _, parameter in self.program.functions[function].parameters)
        came = self.came_by(at, at.position)
        if not is_parameter:
            return Setter("unset", came)
        return Setter("parameter" if depth > 1 else "given", max(came, 0))

    def searched(self, name: str, function: str, at: Timeline, depth: int, roles: Roles) -> Setter:
        """Goes back to the last place at which the temporary was set in this frame, or to the frame's beginning."""
        first = (self.program.functions[function].first, 0)
        for position, place in own_hits(self.program, self.scratch, at, function, list(roles)):
            found = self.role_at(place, roles, at, position)
            if found:
                return found
            if place == first:
                return self.begun(name, function, at.at(position), depth)
        return self.begun(name, function, at.at(0), depth)

    def unset(self, name: str, function: str, at: Timeline) -> Cause:
        entry = self.frames.entry(at)
        lines = sorted({(label, instruction.line) for label, _, instruction in
                        self.program.functions[function].definitions(name)}, key=lambda each: each[1])
        told = ", ".join(f"line {line} ({label})" for label, line in lines)
        question = self.control(at, self.frames.where(at)[0])
        return Cause(at,
                     [f"{name} is unset: nothing set it in this call of {function}, which began at #{entry.position}",
                      f"  it is set at {told}", ASKED], [question])

    def of_phi(self, question: Question, at: Timeline, phi: Instruction) -> Cause:
        """A phi that a jump went through: the value for the block that was left, and why that jump was taken."""
        place, jump = self.innermost(at)
        operand = phi.operands[phi.labels.index(place.label)]
        questions = [self.temporary(operand.text, at)] if operand.is_temporary else []
        questions += [self.temporary(each.text, at) for each in jump.operands if each.is_temporary]
        questions.append(self.control(at, place))
        written = self.lowered.written(self.program.functions[place.function], phi)
        return Cause(at, [f"{question.text} was taken for {place.label} by", f"  line {phi.line}: {written}",
                          self.line_told(at, place, jump)] + [ASKED] * len(questions), questions)

    def of_parameter(self, question: Question, at: Timeline, function: str) -> Cause:
        call, callee = self.call_in_own(at)
        if callee:
            return self.executed(call, f"{question.text} was given by {callee}, called at")
        cause = self.executed(at, f"{question.text} is an argument of")
        names = [parameter for _, parameter in self.program.functions[function].parameters]
        index = names.index(question.name) + 1
        cause.lines[0] = f"{question.text} is argument {index} of {len(names)} of the call"
        return cause

    def of_result(self, question: Question, at: Timeline) -> Cause:
        """The ret that gave a value back, or the call of a built-in function."""
        _, instruction = self.innermost(at)
        if instruction.operation != "ret":
            return self.executed(at, f"{question.text} was given back by the built-in of")
        there, callee = self.call_in_own(at)
        if callee:
            return self.executed(there, f"{question.text} was set by")
        cause = self.executed(at, f"{question.text} was given back by")
        # A wrong argument is as likely as a mutant.
        entry = self.frames.entry(at)
        called = entry.at(entry.position - 1)
        cause.lines += ["  to the call", self.line_told(called, *self.innermost(called))]
        questions = self.operands_asked(called, self.innermost(called)[1])
        cause.lines += [ASKED] * len(questions)
        cause.questions += questions
        return cause

    def add_stale(self, cause: Cause, asked: Timeline, instruction: Instruction) -> None:
        """Where what was loaded was changed in memory since, before the value was used: says so, and by what."""
        if instruction.operation not in LOADED:
            return
        at = cause.at
        address, count = self.value_read(instruction.operands[0].text, at), size_of(instruction)
        before = self.scratch.go(at).memory(address, count)
        after = self.scratch.go(asked).memory(address, count)
        if before == after or None in after:
            return
        stops = [f"watch {WIDTHS[count]} {address}"]
        hit = next(self.scratch.go(asked).hits(False, stops, most=1, last=at.position), None)
        if not hit or hit.stop is None or hit.position < at.position:
            return
        there, poke = asked.at(hit.position), asked.poke_at(hit.position)
        cause.lines.append(f"  but memory was changed since, before #{asked.position}, by" + (" hand" if poke else ""))
        cause.lines += [f"  #{there.position} {poke.line}"] if poke else [self.line_told(there, *self.innermost(there))]
        cause.lines.append(ASKED)
        cause.questions.append(self.memory(address, count, asked))

    def add_before(self, cause: Cause, name: str, function: str) -> None:
        """Of a temporary that the text sets at several places: the value that was there before."""
        if len(self.program.functions[function].definitions(name)) < 2:
            return
        before = self.temporary(name, cause.at, f"before #{cause.at.position}, when it was set again")
        if not before.text.endswith(" unset"):
            cause.lines.append(ASKED)
            cause.questions.append(before)

    # Control.

    def of_control(self, question: Question) -> Cause:
        """The jump by which control came to the block."""
        at = self.frames.before_end(question.at)
        place = self.frames.where(at)[0]
        label = self.block_before_calls(place)
        if label == self.program.functions[place.function].first:
            return self.of_call(question)
        position = at.position
        if (place.label, place.index) != (label, 0):
            position, _ = next(own_hits(self.program, self.scratch, at, place.function, [(label, 0)]))
        there = at.at(self.came_by(at, position))
        return self.executed(there, f"control came to {label} by")

    def of_call(self, question: Question) -> Cause:
        """The call that made the frame."""
        entry = self.frames.entry(self.frames.before_end(question.at))
        function = self.frames.where(entry)[0].function
        if not entry.position:
            return Cause(entry, [f"the run begins with {function}"])
        call, callee = self.call_in_own(entry.at(entry.position - 1))
        return self.executed(call, f"{function} was called by" + (f" {callee}, called at" if callee else ""))

    # Ends, faults and output.

    def of_end(self, at: Timeline) -> Cause:
        end = self.scratch.go(at).place.end
        there = self.frames.before_end(at)
        halted = self.lowered.halted_in(self.frames.where(there)[0].function) if end == "fault halted" else None
        if halted and not self.is_inside:
            return self.executed(self.call_in_own(there)[0], f"{halted}, at #{at.position}, comes of")
        call, callee = self.call_in_own(there)
        if callee:
            return self.executed(call, f"{end} in {callee}, at #{at.position}, comes of")
        cause = self.executed(there, f"{end}, at #{at.position}, comes of")
        if end == "fault stack full":
            cause.lines[2:2] = self.stack_told(there)
        elif end.startswith("fault dead address"):
            cause.lines[2:2] = [self.dead_told(int(end.split(" ")[3]), there)]
        return cause

    def dead_told(self, address: int, at: Timeline) -> str:
        """What lies near an address without bytes, or the slot of a frame that is over in which it was made."""
        _, instruction = self.innermost(at)
        names = [operand.text for operand in instruction.operands if operand.is_temporary]
        for name, value in zip(names, self.scratch.go(at).values(*names)):
            over = self.origins.over(address, at, name) if value == address else None
            if over:
                return f"  {address} is {over.long}"
        return f"  {self.dead_place(address, at)}"

    def dead_place(self, address: int, at: Timeline) -> str:
        """Where an address without bytes lies, by what it may have been made from."""
        number, low = signed(address, "l"), address & 0xffff_ffff
        if is_stack(address):
            return f"{address} is in the stack, above its top"
        if abs(number) < SMALL:
            return f"{number} is a small number: an address is missing, or was 0"
        called = self.program.calls.get(address - address % FUNCTION_BYTES)
        if called:
            return f"{address} is in {called}, a function, which has no bytes"
        # A user knows nothing of what the runtime has beside the program's data.
        own = [data for data in self.program.data if self.lowered.is_own(data.name)]
        data = min(own, key=lambda data: distance(number, data.address, data.size), default=None)
        name = self.frames.name(low, "l", at) if low != address else None
        if name and (not data or distance(number, data.address, data.size) > FAR):
            return f"its low 32 bits are an address, {low} ({name})"
        if data:
            return f"the nearest data is {data.name}, of {data.size} bytes: {data.name}{number - data.address:+}"
        return f"{address} is neither in the data nor in the stack"

    def stack_told(self, at: Timeline) -> list[str]:
        """Which allocs of the innermost frame took how much of the stack."""
        function = self.frames.where(at)[0].function
        sites = {(label, index): instruction for label, index, instruction in self.program.functions[function].places()
                 if instruction.operation in ALLOCATIONS}
        counts = Counter(place for position, place in own_hits(self.program, self.scratch, at, function, list(sites))
                         if not at.poke_at(position))
        return [f"  this call of {function} has made by line {instruction.line}: {instruction.written()}: "
                f"{counts[place]}"
                for place, instruction in sites.items()]

    def of_output(self, number: int, at: Timeline) -> Cause:
        """The call that wrote a byte of the output; the first byte is 0."""
        written = read_output(self.scratch.go(at).ask("out")[0][0])
        low, high = 0, at.position
        while high - low > 1:
            middle = (low + high) // 2
            size = int(self.scratch.go(at.at(middle)).ask("out")[0][0].split(" ")[1])
            low, high = (middle, high) if size <= number else (low, middle)
        there = at.at(low)
        before = int(self.scratch.go(there).ask("out")[0][0].split(" ")[1])
        shown = shown_bytes(written[number:number + 1])
        call, callee = self.call_in_own(there)
        told = f"byte {number} of the output, {written[number]} ({shown}), was written by"
        if callee:
            cause = self.executed(call, f"{told} {callee}, called at")
            if callee in WRITING:
                before = int(self.scratch.go(call).ask("out")[0][0].split(" ")[1])
                self.ask_for_byte(cause, call, WRITING[callee], number - before, written[number])
            return cause
        cause = self.executed(there, told)
        _, instruction = self.innermost(there)
        if self.operand_value(instruction.operands[0].text, there) == BUILT_IN["$puts"]:
            self.ask_for_byte(cause, there, 1, number - before, written[number])
        return cause

    def ask_for_byte(self, cause: Cause, call: Timeline, index: int, offset: int, written: int) -> None:
        """Asks first for a byte that a call wrote as it lies behind the address in an argument. A newline that it adds
        lies nowhere."""
        _, instruction = self.innermost(call)
        address = self.value_read(instruction.operands[index].text, call) + offset
        if self.scratch.go(call).memory(address, 1)[0] == written:
            cause.questions.insert(0, self.memory(address, 1, call))
            cause.lines.append(ASKED)

    # Memory.

    def of_memory(self, question: Question) -> Cause:
        """The stores that wrote some bytes last: one for all of them, or several for some each."""
        writers, left, is_sure = self.writers(question.address, question.count, question.at)
        cause = self.told_writers(question, writers, left)
        if not is_sure:
            cause.lines.append("  stores of the same value behind that weren't looked for: `writers` lists all")
        return cause

    def writers(self, address: int, count: int, at: Timeline) -> tuple[list[tuple[int, set[int]]], set[int], bool]:
        """The moves that wrote some bytes last, each with its bytes; the bytes that none wrote; and whether stores of
        the same value were looked for."""
        left = set(range(count))
        writers: list[tuple[int, set[int]]] = []
        is_sure, high = True, at.position
        while left:
            change = self.last_change(address, left, at.at(high))
            low = change + 1 if change is not None else 0
            sure = self.same_stores(address, left, at.at(high), low, writers)
            is_sure = is_sure and sure
            if change is None:
                break
            if left:
                span = self.span(at, change, address, left)
                if span:
                    writers.append((change, span))
                left -= span
            high = change
        return writers, left, is_sure

    def last_change(self, address: int, left: set[int], at: Timeline) -> int | None:
        known = self.scratch.go(at).memory(address, max(left) + 1)
        # Of bytes that are all live one wide watch sees what one for each would see.
        pieces = pieces_of({offset for offset in left if known[offset] is not None})
        pieces += [(offset, 1) for offset in left if known[offset] is None]
        stops = [f"watch {WIDTHS[count]} {address + offset}" for offset, count in pieces]
        hit = next(self.scratch.go(at).hits(False, stops, most=1), None)
        return hit.position if hit and hit.stop is not None else None

    def same_stores(self, address: int, left: set[int], at: Timeline, low: int, writers: Writers) -> bool:
        """Looks for stores of the same value after the last change; False if there are too many."""
        first, count = address + min(left), max(left) - min(left) + 1
        sites = [site for site in self.accesses.sites(True) if self.accesses.may_touch(site, True, first, count)]
        if at.position <= low:
            return True
        if len(sites) > MOST_SITES:
            return False
        found = self.poked(address, left, at, low)
        is_sure = True
        for index in range(0, len(sites), MOST_STOPS):
            is_sure = self.covered(sites[index:index + MOST_STOPS], address, left, at, low, found) and is_sure
            if left <= set().union(*(span for _, span in found)):
                # What was stored before all of these says nothing more.
                low = max(low, min(position for position, _ in found))
        for position, span in sorted(found, key=lambda each: -each[0]):
            if span & left:
                writers.append((position, span & left))
                left -= span
        return is_sure

    def poked(self, address: int, left: set[int], at: Timeline, low: int) -> list[tuple[int, set[int]]]:
        """The pokes after a position that wrote some of the bytes, also those that didn't change them."""
        spans = [(poke.position, self.poked_of(poke, address, left)) for poke in at.pokes if poke.position >= low]
        return [(position, span) for position, span in spans if span]

    def poked_of(self, poke: Poke, address: int, left: set[int]) -> set[int]:
        """Which of the bytes a poke wrote."""
        return {offset for offset in left if address + offset in self.accesses.poked(poke)}

    def covered(self, sites: list[Site], address: int, left: set[int], at: Timeline, low: int, found: Writers) -> bool:
        """Adds stores by these sites, the latest first, until all bytes have one; False where too many were looked
        at."""
        looked, seen = 0, set()
        for block in self.accesses.blocks(sites, at, low):
            for access in self.accesses.looked_at(block, True, at):
                begin = access.address - address
                span = left & set(range(max(begin, 0), min(begin + access.count, max(left) + 1)))
                if span:
                    found.append((access.position, span))
                    seen |= span
            looked += len(block)
            if left <= seen:
                return True
            if looked > MOST_STORES:
                return False
        return True

    def span(self, run: Timeline, position: int, address: int, left: set[int]) -> set[int]:
        """Which of the bytes the move of a run from a position on has changed."""
        poke = run.poke_at(position)
        if poke:
            return self.poked_of(poke, address, left)
        at = run.at(position)
        _, instruction = self.innermost(at)
        if instruction.operation in STORED or instruction.operation == "blit":
            begin = self.value_read(instruction.operands[1].text, at) - address
            return {offset for offset in left if begin <= offset < begin + size_of(instruction)}
        before = self.scratch.go(at).memory(address, max(left) + 1)
        after = self.scratch.go(at.at(position + 1)).memory(address, max(left) + 1)
        return {offset for offset in left if before[offset] != after[offset]}

    def told_writers(self, question: Question, writers: Writers, left: set[int]) -> Cause:
        merged: dict[tuple[int, str], set[int]] = {}
        for position, span in writers:
            # Stores of one call of a function of the runtime are one.
            call, callee = (question.at.at(position), "") if question.at.poke_at(position) else \
                self.call_in_own(question.at.at(position))
            merged.setdefault((call.position, callee), set()).update(span)
        told = [self.writer_told(question, position, merged[position, callee], callee)
                for position, callee in sorted(merged, reverse=True)]
        made = told[0] if told else Cause(question.at.at(0))
        for cause in told[1:]:
            made.lines += cause.lines
            made.questions += cause.questions
        if left:
            made.lines.append(f"{self.which(question, left)}{question.text} so since the start: "
                              f"{self.data_told(question.address + min(left))}")
        return made

    def which(self, question: Question, span: set[int]) -> str:
        """Which of the bytes are meant, where it isn't all."""
        if len(span) == question.count:
            return ""
        runs = ", ".join(str(offset) for offset in sorted(span))
        return f"{'byte' if len(span) == 1 else 'bytes'} {runs} of "

    def data_told(self, address: int) -> str:
        data = self.program.object_at(address)
        return f"line {data.line}, {data.name}" if data else "no write made it live"

    def writer_told(self, question: Question, position: int, span: set[int], callee: str) -> Cause:
        at = question.at.at(position)
        poke = question.at.poke_at(position)
        head = f"{self.which(question, span)}{question.text}"
        if poke:
            return Cause(at, [f"{head} by hand: #{position} {poke.line}"])
        _, instruction = self.innermost(at)
        if callee:
            return self.executed(at, f"{head}: stored by {callee}, called at",
                                 (question.address + min(span), max(span) - min(span) + 1))
        if instruction.operation in ALLOCATIONS:
            return self.executed(at, f"{head}: made, as zeros, by")
        if instruction.operation == "ret":
            return self.executed(at, f"{head}: given back by")
        return self.executed(at, f"{head}: stored by", (question.address + min(span), max(span) - min(span) + 1))
