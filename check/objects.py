"""The objects of a run, the shadows of the bytes of memory, and what the bytes themselves are."""
from __future__ import annotations

from bisect import bisect_right, insort
from operator import attrgetter

from terminal.text import DATA, STACK, STACK_BYTES, Program

from .shadow import CUT, MIXED, NUMBER, CutByte, Made, Object, Origin, Part, Shadow, shadow_of

READ_ONLY = ".rodata"
# What a block of the heap has at most: more than memory has.
MOST_BLOCK = 1 << 21
ByteMade = Made | CutByte


class Objects:
    """All objects that live, by their addresses: data, slots in the order in which they were made, blocks of the
    heap."""

    def __init__(self, program: Program):
        self.code = {address: Object("function", name, address, 0) for name, address in program.addresses.items()
                     if name in program.functions or name in program.built_in}
        self.data = [Object("data", data.name, data.address, data.size, is_read_only=data.section.startswith(READ_ONLY))
                     for data in program.data]
        self.named = {each.name: each for each in (*self.code.values(), *self.data)}
        self.slots: list[Object] = []
        self.blocks: list[Object] = []

    def add_block(self, block: Object) -> None:
        insort(self.blocks, block, key=attrgetter("address"))

    def end_block(self, block: Object, position: int) -> None:
        block.died = position
        self.blocks.remove(block)

    def end_slots(self, count: int, position: int) -> None:
        """Ends all slots but so many, with the blocks that lie in them."""
        ended = self.slots[count:]
        del self.slots[count:]
        for slot in ended:
            slot.died = position
        if ended and self.blocks:
            for block in [each for each in self.blocks if each.within in ended]:
                self.end_block(block, position)

    def block_at(self, address: int) -> Object | None:
        """The living block that begins at an address."""
        at = bisect_right(self.blocks, address, key=attrgetter("address")) - 1
        return self.blocks[at] if at >= 0 and self.blocks[at].address == address else None

    def ground_at(self, address: int) -> Object | None:
        """The data object or slot in which an address lies."""
        return last_with(self.slots if address >= STACK else self.data, address)

    def at(self, address: int, sees_blocks: bool) -> Object | None:
        """The object in which an address lies: a block before what it lies in."""
        block = last_with(self.blocks, address) if sees_blocks else None
        return block or self.ground_at(address)


def last_with(objects: list[Object], address: int) -> Object | None:
    """Of objects in the order of their addresses, the one in which an address lies."""
    at = bisect_right(objects, address, key=attrgetter("address")) - 1
    # Objects of no bytes may lie at the beginning of another one.
    while at >= 0 and not objects[at].size:
        at -= 1
    return objects[at] if at >= 0 and objects[at].contains(address, 1) else None


class Memory:
    """The bytes of memory, which of their bits are open, and what those are made of that aren't made of numbers."""

    def __init__(self, program: Program, objects: Objects, data: bytes):
        self.data, self.stack = bytearray(data), bytearray(STACK_BYTES)
        self.open_data, self.open_stack = bytearray(len(data)), bytearray(STACK_BYTES)
        self.top = STACK
        self.made: dict[int, ByteMade] = {}
        for item in program.data:
            for offset, name in item.pointers:
                for place in range(8):
                    self.made[item.address + offset + place] = Part(objects.named[name], place)

    def is_live(self, address: int, count: int) -> bool:
        return DATA <= address and address + count <= DATA + len(self.data) or STACK <= address and \
            address + count <= self.top

    def held(self, address: int) -> tuple[bytearray, bytearray, int]:
        """The bytes around a live address, their open bits, and where the first of them lies."""
        return (self.stack, self.open_stack, STACK) if address >= STACK else (self.data, self.open_data, DATA)

    def bytes(self, address: int, count: int) -> tuple[bytes, bytes]:
        held, open_bits, begin = self.held(address)
        at = address - begin
        return bytes(held[at:at + count]), bytes(open_bits[at:at + count])

    def raise_top(self, top: int) -> None:
        """Fresh bytes up to a top: zeros here, and open."""
        begin, end = self.top - STACK, top - STACK
        self.stack[begin:end] = bytes(end - begin)
        self.open_stack[begin:end] = b"\xff" * (end - begin)
        self.forget(self.top, end - begin)
        self.top = top

    def forget(self, address: int, count: int) -> None:
        """Bytes are made of numbers from here on."""
        if not self.made:
            return
        if count > len(self.made):
            for place in [place for place in self.made if address <= place < address + count]:
                del self.made[place]
            return
        for place in range(address, address + count):
            self.made.pop(place, None)

    def open(self, address: int, count: int) -> None:
        """Nothing says from here on what these live bytes are."""
        _, open_bits, begin = self.held(address)
        open_bits[address - begin:address - begin + count] = b"\xff" * count
        self.forget(address, count)

    def store(self, address: int, count: int, value: int, shadow: Shadow) -> None:
        held, open_bits, begin = self.held(address)
        at, mask = address - begin, (1 << 8 * count) - 1
        held[at:at + count] = (value & mask).to_bytes(count, "little")
        open_bits[at:at + count] = (shadow.open & mask).to_bytes(count, "little")
        made = shadow.made
        if made is NUMBER:
            self.forget(address, count)
            return
        for place in range(count):
            self.made[address + place] = byte_made(made, count, place)

    def load(self, address: int, count: int) -> tuple[int, list[ByteMade]]:
        """The open bits of live bytes, and what each is made of."""
        _, open_bits, begin = self.held(address)
        bits = int.from_bytes(open_bits[address - begin:address - begin + count], "little")
        if not self.made:
            return bits, [NUMBER]
        return bits, [self.made.get(place, NUMBER) for place in range(address, address + count)]

    def copy(self, source: int, target: int, count: int) -> None:
        found, open_bits = self.bytes(source, count)
        made = [self.made.get(place, NUMBER) for place in range(source, source + count)] if self.made else []
        held, opened, begin = self.held(target)
        held[target - begin:target - begin + count] = found
        opened[target - begin:target - begin + count] = open_bits
        for place, each in enumerate(made):
            if each is NUMBER:
                self.made.pop(target + place, None)
            else:
                self.made[target + place] = each


def byte_made(made: Made, count: int, place: int) -> ByteMade:
    """What a byte is made of that was stored of a value."""
    if isinstance(made, Object):
        return Part(made, place)
    if count == 8 and (isinstance(made, Part) or made is CUT):
        return CutByte(place)
    return Part(made.object, made.first + place) if isinstance(made, Part) else made


def loaded_made(bytes_made: list[ByteMade], count: int, width: str) -> Made:
    """What a value is made of that was loaded from such bytes, into a class."""
    first = bytes_made[0]
    if all(each is NUMBER for each in bytes_made):
        return NUMBER
    if isinstance(first, Part) and all(isinstance(each, Part) and each.object is first.object
                                       and each.first == first.first + place for place, each in enumerate(bytes_made)):
        return first.object if count == 8 and first.first == 0 else first
    if count == 8 and all(isinstance(each, CutByte) and each.place == place for place, each in enumerate(bytes_made)):
        return CUT
    return MIXED if width == "l" else CUT


def loaded(memory: Memory, operation: str, address: int, count: int, width: str, position: int, told: str) -> Shadow:
    """The shadow of what a load gives."""
    bits, made = memory.load(address, count)
    if bits and operation in ("loadsw", "loadsh", "loadsb") and bits >> 8 * count - 1:
        bits |= (1 << 64) - (1 << 8 * count)
    bits &= (1 << 64) - 1 if width == "l" else (1 << 32) - 1
    return shadow_of(loaded_made(made, count, width), bits, Origin(position, False, told) if bits else None)
