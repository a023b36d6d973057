"""Follows a run, move by move, with the shadow of each value, and notes what is suspicious.

The places and values of the run are answers of the proved program. The shadow is computed here, beside them.
"""
from __future__ import annotations

from dataclasses import dataclass, field
from itertools import islice
from typing import AbstractSet, Iterator

from page.table import Table
from terminal.text import ALLOCATIONS, EXTENSIONS, LOADED, STORED, Instruction, Operand

from . import shadow as rules
from .frame import Frame, HeapCall
from .heap import GIVERS, size_asked
from .objects import MOST_BLOCK, Memory, Objects, loaded
from .quick import LOOKS, Step, step_of
from .shadow import CUT, MASK, MIXED, NUMBER, SET, Object, Part, Shadow
from .telling import Place, Suspicion, bits_told, distance_told, object_told, origin_told, own_call

DIVISIONS = frozenset(("div", "rem", "udiv", "urem"))
SHIFTS = frozenset(("shl", "shr", "sar"))
PULSE = (1 << 16) - 1


@dataclass
class Read:
    """An operand of the instruction at hand: its value, its shadow, and the temporary that it is."""

    value: int
    shadow: Shadow
    name: str | None


@dataclass
class Excepted:
    """Kinds that aren't reported for an object, or in a function: pairs of a kind and a name."""

    pairs: set[tuple[str, str]] = field(default_factory=set)

    def holds(self, kind: str, meant: Object | None, function: str) -> bool:
        return self.holds_of(kind, meant.name.split(" ")[0] if meant else None, function)

    def holds_of(self, kind: str, meant: str | None, function: str) -> bool:
        """The same, by the name of the object or of the function that made it."""
        return (kind, function) in self.pairs or meant is not None and (kind, meant) in self.pairs


class Follower:
    """The shadow of a run in its current state, and the suspicions so far."""

    def __init__(self, table: Table, data: bytes, kinds: frozenset[str], heap: dict[str, str],
                 excepted: Excepted | None = None, pokes: dict[int, str] | None = None,
                 others: AbstractSet[str] = frozenset()):
        """The others are functions that aren't the program's own, as those of the runtime of a lowered text."""
        self.table, self.program, self.pokes = table, table.program, pokes or {}
        self.objects = Objects(self.program)
        self.memory = Memory(self.program, self.objects, data)
        self.kinds, self.heap, self.excepted, self.others = kinds, heap, excepted or Excepted(), others
        self.looks_at_operations = bool(kinds & LOOKS)
        self.is_quick = True
        self.frames: list[Frame] = []
        # By the place and the kind; of a move in a function that isn't the program's own also by the call that led
        # there.
        self.found: dict[tuple[int, str, tuple[str, str, int] | None], Suspicion] = {}
        self.position, self.here = 0, 0
        self.heap_depth = 0
        self.block_places: dict[Object, int] = {}

    # The run.

    def pulse(self, position: int) -> None:
        """Called now and then on the way, for a command to report its progress."""

    def follow(self, places: list[int], values: Iterator[int]) -> int:
        """Goes along all moves of these states; how many they are."""
        function = self.program.functions[self.table.places[places[0]][0]]
        given = dict.fromkeys(name for _, name in function.parameters)
        kinds = {name: kind for kind, name in function.parameters}
        frame = Frame(function, {name: next(values) for name in given}, {}, 0, self.memory.top)
        frame.shadows = {name: Shadow(MIXED) if kinds[name] == "l" else SET for name in given}
        self.frames.append(frame)
        steps: dict[int, Step | None] = {}
        take, end, frames = values.__next__, self.table.end, self.frames
        for position, (here, there) in enumerate(zip(places, islice(places, 1, None))):
            if not position & PULSE:
                self.pulse(position)
            if self.pokes and position in self.pokes:
                self.position, self.here = position, here
                self.poke(self.pokes[position].split(), values)
                continue
            if here not in steps:
                steps[here] = step_of(self, here) if self.is_quick else None
            step = steps[here]
            if step and there != end and step(frames[-1], there, take):
                continue
            self.position, self.here = position, here
            self.move(self.table.places[here][3], there, values)
        self.position = len(places) - 1
        self.look_at_end()
        return len(places) - 1

    def move(self, instruction: Instruction, there: int, values: Iterator[int]) -> None:
        """Checks the next instruction, and goes on to the state after it."""
        operation = instruction.operation
        reads = self.reads(instruction)
        if len(reads) < len(instruction.operands):
            # The move ends the run, for a temporary is unset.
            return
        self.look(operation, instruction, reads)
        if operation in DIVISIONS:
            # What was reported counts as set already in this move.
            reads = self.reads(instruction)
        if there == self.table.end and operation not in ("ret", "call"):
            return
        if operation in LOADED:
            self.set(instruction, self.after_load(instruction, reads[0]), values)
        elif operation in STORED:
            self.memory.store(reads[1].value, STORED[operation], reads[0].value, reads[0].shadow)
        elif operation == "blit":
            if instruction.count:
                self.memory.copy(reads[0].value, reads[1].value, instruction.count)
        elif operation in ALLOCATIONS:
            self.allocate(instruction, reads[0].value, values)
        elif operation == "call":
            self.call(instruction, reads, there, values)
        elif operation == "ret":
            self.leave(instruction, reads, values)
        elif instruction.labels:
            self.jump(there, values)
        elif operation != "hlt":
            self.set(instruction, self.result(instruction, reads), values)

    def poke(self, words: list[str], values: Iterator[int]) -> None:
        """A value that was put there by hand: it is set, and nothing says what it is made of."""
        frame = self.frames[-1]
        if words[0] == "set":
            width = frame.function.temporaries[words[1]]
            frame.values[words[1]], frame.shadows[words[1]] = next(values), Shadow(MIXED if width == "l" else CUT)
            return
        count = {"b": 1, "h": 2, "w": 4, "l": 8}[words[1]]
        address = self.program.addresses[words[2]] if words[2].startswith("$") else int(words[2])
        for place in range(count):
            if self.memory.is_live(address + place, 1):
                self.memory.store(address + place, 1, int(words[3]) >> 8 * place, Shadow(MIXED))

    def reads(self, instruction: Instruction) -> list[Read]:
        """The operands that are set."""
        return [read for operand in instruction.operands if (read := self.read(operand))]

    def read(self, operand: Operand) -> Read | None:
        """An operand as the instruction takes it; None if it is unset."""
        text, frame = operand.text, self.frames[-1]
        if text[0] == "%":
            value = frame.values.get(text)
            if value is None:
                return None
            shadow = frame.shadows[text]
            if operand.type != "l":
                return Read(value & MASK["w"], rules.cut(shadow), text)
            return Read(value, shadow, text)
        if text[0] == "$":
            value, shadow = self.program.addresses[text], Shadow(self.objects.named[text])
        else:
            value, shadow = int(text) & MASK["l"], SET
        return Read(value, shadow, None) if operand.type == "l" else Read(value & MASK["w"], rules.cut(shadow), None)

    def set(self, instruction: Instruction, shadow: Shadow, values: Iterator[int]) -> None:
        frame, name = self.frames[-1], instruction.result or ""
        frame.values[name] = next(values)
        frame.shadows[name] = shadow

    # What is noted.

    def note(self, kind: str, text: str, meant: Object | None = None, at: int | None = None,
             here: int | None = None) -> None:
        if kind not in self.kinds:
            return
        here = self.here if here is None else here
        function, label, index, instruction = self.table.places[here]
        if self.excepted.pairs and self.excepted.holds(kind, meant, function):
            return
        call = own_call(self.calls(), self.others) if function in self.others else None
        key = here, kind, call[:3] if call else None
        known = self.found.get(key)
        if known:
            known.count += 1
            return
        position = self.position if at is None else at
        calls = tuple(self.calls())
        self.found[key] = Suspicion(kind, position, function, label, index, instruction, text, calls=calls)

    def calls(self) -> Iterator[Place]:
        """The places of the calls that are open, the innermost one first."""
        return (frame.place for frame in reversed(self.frames) if frame.place)

    def use(self, read: Read, what: str, mask: int = MASK["l"]) -> bool:
        """Notes that open bits of an operand are used, if it has some; it counts as set from then on."""
        bits = read.shadow.open & mask
        if not bits:
            return False
        origin = read.shadow.origin
        told = read.name or "it"
        self.note("extension" if origin and origin.is_call else "undef",
                  f"{what} {told}, of which {bits_told(bits)}{origin_told(origin)}")
        if read.name:
            self.frames[-1].shadows[read.name] = rules.shadow_of(self.frames[-1].shadows[read.name].made)
        return True

    # Looks.

    def look(self, operation: str, instruction: Instruction, reads: list[Read]) -> None:
        if operation in LOADED:
            self.look_at_access(reads[0], LOADED[operation], operation)
        elif operation in STORED:
            self.look_at_access(reads[1], STORED[operation], operation, is_store=True)
        elif operation == "blit":
            self.look_at_blit(reads, instruction.count)
        elif operation == "jnz":
            self.look_at_jump(reads[0])
        elif operation in DIVISIONS:
            self.look_at_division(operation, instruction.type or "w", reads)
        elif operation in ALLOCATIONS:
            self.use(reads[0], f"the size of {operation} is")
        elif operation == "call":
            self.look_at_call(instruction, reads)
        elif operation == "ret" and reads and len(self.frames) == 1:
            bits = rules.PART_BITS.get(self.frames[-1].function.type or "", 64)
            self.use(reads[0], "the run ends with", (1 << bits) - 1)
        elif self.looks_at_operations and len(reads) == 2:
            self.look_at_operation(operation, instruction, reads)

    def look_at_access(self, read: Read, count: int, what: str, is_store: bool = False) -> None:
        """An access through an address, by what that is made of."""
        address, made = read.value, read.shadow.made
        is_open = self.use(read, f"the address of {what} is")
        if self.heap_depth and isinstance(made, Object) and made.kind == "block":
            made = made.within or made
        if made is NUMBER:
            if not is_open:
                self.note("number", f"{what} through {address}, a number{self.landing(address)}")
        elif isinstance(made, Object):
            self.look_at_object(made, address, count, what)
        elif made is MIXED:
            thing = self.objects.at(address, not self.heap_depth)
            if thing is None or not thing.contains(address, count):
                self.note("stray",
                          f"{what} through {address}, which is made of more than one address{self.landing(address)}")
        else:
            self.note("cut", f"{what} through {address}, an address of which 32 bits were taken{self.landing(address)}")
        if is_store:
            self.look_at_store(made, address, count, what)
        if address % count and what in (*LOADED, *STORED):
            self.note("misaligned", f"{what} at {address}, which is no multiple of {count}")

    def look_at_object(self, thing: Object, address: int, count: int, what: str) -> None:
        if thing.died is not None:
            kind = "freed" if thing.kind == "block" else "stale"
            self.note(kind,
                      f"{what} {distance_told(thing, address, count)} {object_told(thing)}{self.landing(address)}",
                      thing)
        elif thing.is_code or not thing.contains(address, count):
            outside = address if not thing.contains(address, 1) else max(address, thing.end)
            self.note("bounds",
                      f"{what} {distance_told(thing, address, count)} {object_told(thing)}{self.landing(outside)}",
                      thing)

    def look_at_store(self, made: object, address: int, count: int, what: str) -> None:
        """A store into what is read-only: through an address of it, or wherever else that lands in it."""
        thing = made if isinstance(made, Object) else self.objects.ground_at(address) if made is MIXED else None
        if thing is not None and thing.is_read_only and self.memory.is_live(address, count):
            self.note("rodata", f"{what} into {object_told(thing)}, which is read-only", thing)

    def look_at_blit(self, reads: list[Read], count: int) -> None:
        if not count:
            return
        self.look_at_access(reads[0], count, "blit from")
        if self.memory.is_live(reads[0].value, count):
            if reads[1].name and reads[1].name == reads[0].name:
                reads[1].shadow = self.frames[-1].shadows[reads[1].name]
            self.look_at_access(reads[1], count, "blit to", is_store=True)

    def look_at_jump(self, read: Read) -> None:
        bits = read.shadow.open & MASK["w"]
        if not read.value & ~bits & MASK["w"]:
            self.use(read, "jnz of")
        made = read.shadow.made
        if isinstance(made, Part) and made.first == 0:
            self.note("half", f"jnz of {read.name or 'an address'}, of which the low half alone is looked at",
                      made.object)

    def look_at_division(self, operation: str, width: str, reads: list[Read]) -> None:
        self.use(reads[1], f"the divisor of {operation} is", MASK[width])
        least, bits = 1 << rules.BITS[width] - 1, reads[0].shadow.open & MASK[width]
        if operation[0] != "u" and reads[1].value & MASK[width] == MASK[width] and bits:
            if not (reads[0].value ^ least) & ~bits & MASK[width]:
                self.use(reads[0], f"{operation} by -1 of", MASK[width])

    def look_at_operation(self, operation: str, instruction: Instruction, reads: list[Read]) -> None:
        """The kinds that are off by default."""
        left, right = (read.shadow.made for read in reads)
        if operation in SHIFTS and reads[1].value & MASK["w"] >= rules.BITS[instruction.type or "w"]:
            self.note("shift", f"{operation} by {reads[1].value & MASK['w']}")
        if isinstance(left, Object) and isinstance(right, Object) and left is not right:
            is_order = operation[0] == "c" and operation[1:-1] not in ("eq", "ne")
            kind = "order" if is_order else {"sub": "diff", "add": "sum"}.get(operation)
            if kind:
                self.note(kind, f"{operation} of the addresses of {left.name} and {right.name}", left)

    # Calls.

    def look_at_call(self, instruction: Instruction, reads: list[Read]) -> None:
        callee, made = reads[0], reads[0].shadow.made
        is_open = self.use(callee, "what is called is")
        if isinstance(made, Object):
            if not made.is_code or callee.value != made.address:
                self.note("callee", f"call of {callee.value}, which is made from the address of {made.name}", made)
        elif made is NUMBER and not is_open:
            self.note("number", f"call of {callee.value}, a number")
        elif made is MIXED and callee.value not in self.program.calls:
            self.note("callee", f"call of {callee.value}, which is made of more than one address")
        elif isinstance(made, Part) or made is CUT:
            self.note("cut", f"call of {callee.value}, an address of which 32 bits were taken")
        name = self.program.calls.get(callee.value)
        if name in self.program.built_in:
            self.look_at_built_in(name or "", reads)
        elif name in self.heap and not self.heap_depth:
            self.look_at_giving(name or "", reads)
        function = self.program.functions.get(name or "")
        if function is not None:
            for operand, (kind, _) in zip(instruction.operands[1:], function.parameters):
                if operand.type != kind and (operand.type in rules.PART_BITS or kind in rules.PART_BITS):
                    self.note("call-types", f"{operand.type} is passed as the {kind} that {name} wants")
        for read, operand in zip(reads[1:], instruction.operands[1:]):
            if read.shadow.open == MASK["l" if operand.type == "l" else "w"]:
                self.note("undef-value",
                          f"{read.name or 'an argument'} is passed, all of whose bits are "
                          f"open{origin_told(read.shadow.origin)}")

    def look_at_built_in(self, name: str, reads: list[Read]) -> None:
        if len(reads) != 2:
            return
        if name == "$exit":
            self.use(reads[1], "the run ends with", MASK["w"])
        elif name == "$putchar":
            self.use(reads[1], "$putchar of", 0xff)
            if reads[1].shadow.made is not NUMBER:
                self.note("output-address", f"$putchar of {reads[1].name or 'a value'}, which is made of an address")
        else:
            self.look_at_text(reads[1])

    def look_at_text(self, read: Read) -> None:
        """Each byte that $puts reads, up to the zero or to one that isn't live."""
        address = read.value
        while True:
            self.look_at_access(read, 1, "$puts")
            if not self.memory.is_live(address, 1):
                return
            found, bits = self.memory.bytes(address, 1)
            if bits[0]:
                self.note("undef",
                          f"$puts of the byte at {address}{self.landing(address)}, of which {bits_told(bits[0])}")
            if not found[0]:
                return
            address += 1
            read = Read(address, read.shadow, read.name)

    def look_at_giving(self, name: str, reads: list[Read]) -> None:
        """What is handed to `free` or `realloc`."""
        role = self.heap[name]
        if role not in ("give", "realloc") or len(reads) < 2 or not reads[1].value:
            return
        address, made = reads[1].value, reads[1].shadow.made
        if isinstance(made, Object):
            if made.kind == "block" and made.address == address and (made.died is None or not made.size):
                return
            if made.died is not None:
                self.note("freed", f"{name} of {object_told(made)}", made)
                return
        elif self.objects.block_at(address):
            return
        said = f"{distance_told(made, address, 1)} {object_told(made)}" if isinstance(made, Object) else str(address)
        self.note("free", f"{name} of what is no block: {said}", made if isinstance(made, Object) else None)

    def landing(self, address: int) -> str:
        """What lies at an address."""
        thing = self.objects.at(address, not self.heap_depth)
        if thing:
            return f", into {thing.name}+{address - thing.address}"
        return ", between objects" if self.memory.is_live(address, 1) else ", in dead memory"

    # What comes of a move.

    def result(self, instruction: Instruction, reads: list[Read]) -> Shadow:
        """The shadow of what an operation gives."""
        operation, width = instruction.operation, instruction.type or "w"
        a = reads[0].shadow
        if operation == "copy":
            return a
        if operation in EXTENSIONS:
            made = a.made if operation[4] == "w" else NUMBER if a.made is NUMBER else CUT
            bits = rules.open_of_extension(operation, a.open, width) if a.open else 0
            return rules.shadow_of(made, bits, a.origin)
        if operation == "neg":
            bits = rules.open_of_difference(0, 0, reads[0].value, a.open, MASK[width]) if a.open else 0
            return rules.shadow_of(rules.made_by("neg", width, a.made, NUMBER, 0, False), bits, a.origin)
        b = reads[1].shadow
        if a is SET and b is SET:
            return SET
        is_same = reads[0].name is not None and reads[0].name == reads[1].name
        number = reads[1].value if b.made is NUMBER else reads[0].value
        made = rules.made_by(operation, width, a.made, b.made, number, is_same)
        if not a.open and not b.open:
            return rules.shadow_of(made)
        looked = operation[-1] if operation[0] == "c" else width
        bits = rules.open_by(operation, looked, reads[0].value, a.open, reads[1].value, b.open, is_same)
        return rules.shadow_of(made, bits, a.origin if a.open else b.origin)

    def after_load(self, instruction: Instruction, read: Read) -> Shadow:
        operation = instruction.operation
        count, address = LOADED[operation], read.value
        thing = self.objects.at(address, not self.heap_depth)
        told = f"loaded from {thing.name}+{address - thing.address}" if thing else f"loaded from {address}"
        found = loaded(self.memory, operation, address, count, instruction.type or "w", self.position, told)
        if found.open and found.open & (1 << 8 * count) - 1 == (1 << 8 * count) - 1:
            self.note("undef-load", f"{operation} of bits that nothing set: {told}")
        return found

    def allocate(self, instruction: Instruction, size: int, values: Iterator[int]) -> None:
        frame = self.frames[-1]
        self.set(instruction, SET, values)
        address = frame.values[instruction.result or ""] or 0
        self.memory.raise_top(address + size)
        slot = Object("slot", f"{frame.function.name} {instruction.result}", address, size, self.position)
        self.objects.slots.append(slot)
        frame.shadows[instruction.result or ""] = Shadow(slot)

    def jump(self, there: int, values: Iterator[int]) -> None:
        """The phis of the block that is entered: all are read before one is written."""
        left = self.table.places[self.here][1]
        function, label, _, _ = self.table.places[there]
        frame = self.frames[-1]
        phis = self.program.functions[function].blocks[label].phis
        if not phis:
            return
        shadows = [(phi, self.read(phi.operands[phi.labels.index(left)])) for phi in phis]
        for name in dict.fromkeys(phi.result or "" for phi in phis):
            frame.values[name] = next(values)
        for phi, read in shadows:
            if read:
                frame.shadows[phi.result or ""] = read.shadow

    def call(self, instruction: Instruction, reads: list[Read], there: int, values: Iterator[int]) -> None:
        name = self.program.calls.get(reads[0].value, "")
        if there == self.table.end:
            return
        # What was reported of an argument counts as set by now.
        given = [self.read(operand) for operand in instruction.operands[1:]]
        if name in self.program.built_in:
            if instruction.result:
                self.set(instruction,
                         rules.fitted(SET, instruction.type or "w", self.position, f"given back by {name}"), values)
            return
        function = self.program.functions[name]
        frame = Frame(function, {}, {}, len(self.objects.slots), self.memory.top, instruction,
                      self.table.places[self.here])
        for name_of in dict.fromkeys(name_of for _, name_of in function.parameters):
            frame.values[name_of] = next(values)
        for read, operand, (kind, name_of) in zip(given, instruction.operands[1:], function.parameters):
            told = f"passed to {name} as {kind}"
            passed = rules.fitted(read.shadow if read else SET, operand.type, self.position, told)
            frame.shadows[name_of] = rules.fitted(passed, kind, self.position, told)
        if name in self.heap:
            if not self.heap_depth:
                frame.heap = HeapCall(self.heap[name], name, [read.value if read else 0 for read in given])
                if self.heap[name] in ("give", "realloc"):
                    frame.heap.block = self.objects.block_at(frame.heap.arguments[0])
            self.heap_depth += 1
        self.frames.append(frame)

    def leave(self, instruction: Instruction, reads: list[Read], values: Iterator[int]) -> None:
        frame = self.frames[-1]
        if len(self.frames) == 1:
            return
        shadow = SET
        if reads:
            read = self.read(instruction.operands[0]) or reads[0]
            if read.shadow.open == MASK["l" if frame.function.type == "l" else "w"]:
                self.note("undef-value",
                          f"{read.name or 'a value'} is given back, all of whose bits are "
                          f"open{origin_told(read.shadow.origin)}")
            told = f"given back by {frame.function.name}"
            shadow = rules.fitted(read.shadow, frame.function.type or "w", self.position,
                                  f"{told} as {frame.function.type}")
        if frame.function.name in self.heap:
            self.heap_depth -= 1
        self.frames.pop()
        self.objects.end_slots(frame.slots, self.position)
        self.memory.top = frame.floor
        if frame.heap:
            shadow = self.end_heap_call(frame, frame.heap, reads[0].value if reads else 0, shadow)
        call, caller = frame.call, self.frames[-1]
        if not call or not call.result:
            return
        value = next(values)
        if not reads:
            caller.values[call.result], caller.shadows[call.result] = None, SET
            return
        kind = call.type or "w"
        caller.values[call.result] = value
        caller.shadows[call.result] = rules.fitted(shadow, kind, self.position,
                                                   f"given back by {frame.function.name} as {kind}")

    def end_heap_call(self, frame: Frame, heap: HeapCall, result: int, shadow: Shadow) -> Shadow:
        """What a call of the heap has given or ended; the shadow of its result."""
        block = heap.block if heap.block and heap.block.died is None else None
        if heap.role == "give" and block:
            self.objects.end_block(block, self.position)
        if heap.role not in GIVERS:
            return shadow
        size = min(size_asked(heap.role, heap.arguments), MOST_BLOCK)
        old = block.size if block else 0
        if heap.role == "realloc" and block and (result or not heap.arguments[1]):
            self.objects.end_block(block, self.position)
        if not result:
            return shadow
        ground = self.objects.ground_at(result)
        made = Object("block", f"{heap.function} block", result, size, self.position, ground)
        if size and (ground is None or not ground.contains(result, size)):
            self.note("block", f"{heap.function} gives {size} bytes at {result} that aren't in one object"
                      + self.landing(result + (ground.size - (result - ground.address) if ground else 0)))
        self.end_overlapped(made)
        fresh = {"take": 0, "memalign": 0, "realloc": old}.get(heap.role, size)
        if fresh < size and self.memory.is_live(result + fresh, size - fresh):
            self.memory.open(result + fresh, size - fresh)
        self.objects.add_block(made)
        if frame.place:
            self.block_places[made] = self.table.ids[" ".join(map(str, frame.place[:3]))]
        return Shadow(made)

    def end_overlapped(self, made: Object) -> None:
        """Living blocks that a new one overlaps end."""
        for other in [each for each in self.objects.blocks if each.address < made.end and made.address < each.end]:
            self.note("overlap", f"{made.name} ({made.size} bytes) overlaps {object_told(other)}", other)
            self.objects.end_block(other, self.position)

    def look_at_end(self) -> None:
        if "leak" in self.kinds:
            for block in self.objects.blocks:
                self.note("leak", f"{object_told(block)} lives when the run ends", block, block.born,
                          self.block_places.get(block))

    def suspicions(self) -> list[Suspicion]:
        return sorted(self.found.values(), key=lambda each: (each.position, each.kind))
