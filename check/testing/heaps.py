"""Random programs with a heap: some are right, and some have one mistake or several."""
from __future__ import annotations

from random import Random

# An allocator with lists of freed blocks of one size. Its blocks are behind two words: a size, and the next block of
# its list.
HEAP = """data $arena = align 16 { z 16384 }
data $next = align 8 { l $arena }
data $freed = align 8 { z 80 }
data $table = align 8 { z 64 }
data $text = align 1 { b "text", b 0 }
function l $malloc(l %size) {
@start
	%up =l add %size, 15
	%class =l shr %up, 4
	%far =w cugtl %class, 8
	jnz %far, @none, @list
@list
	%offset =l mul %class, 8
	%list =l add $freed, %offset
	%first =l loadl %list
	jnz %first, @old, @new
@old
	%link =l sub %first, 8
	%behind =l loadl %link
	storel %behind, %list
	ret %first
@new
	%at =l loadl $next
	storel %class, %at
	%block =l add %at, 16
	%bytes =l mul %class, 16
	%end =l add %block, %bytes
	storel %end, $next
	ret %block
@none
	ret 0
}
function $free(l %block) {
@start
	jnz %block, @some, @end
@some
	%head =l sub %block, 16
	%class =l loadl %head
	%offset =l mul %class, 8
	%list =l add $freed, %offset
	%first =l loadl %list
	%link =l sub %block, 8
	storel %first, %link
	storel %block, %list
@end
	ret
}
function l $calloc(l %count, l %size) {
@start
	%bytes =l mul %count, %size
	%block =l call $malloc(l %bytes)
	jnz %block, @loop, @end
@loop
	%at =l phi @start 0, @body %more
	%is =w cultl %at, %bytes
	jnz %is, @body, @end
@body
	%place =l add %block, %at
	storeb 0, %place
	%more =l add %at, 1
	jmp @loop
@end
	ret %block
}
function l $realloc(l %block, l %size) {
@start
	%made =l call $malloc(l %size)
	jnz %block, @old, @end
@old
	%head =l sub %block, 16
	%class =l loadl %head
	%room =l mul %class, 16
	%less =w cultl %size, %room
	jnz %less, @small, @loop
@small
@loop
	%most =l phi @old %room, @small %size, @body %most
	%at =l phi @old 0, @small 0, @body %more
	%is =w cultl %at, %most
	jnz %is, @body, @free
@body
	%from =l add %block, %at
	%byte =w loadub %from
	%to =l add %made, %at
	storeb %byte, %to
	%more =l add %at, 1
	jmp @loop
@free
	call $free(l %block)
@end
	ret %made
}
"""
SLOTS = 4
WIDTHS = {"b": 1, "h": 2, "w": 4, "l": 8}
LOADS = {"b": ("loadub", "loadsb"), "h": ("loaduh", "loadsh"), "w": ("loadw", "loaduw"), "l": ("loadl",)}


class Heaps:
    """Writes a program over some blocks, whose sizes and set bytes it knows, and makes a mistake now and then."""

    def __init__(self, random: Random, mistakes: float):
        self.random, self.mistakes = random, mistakes
        self.lines: list[str] = []
        self.count = 0
        self.sizes: list[int] = [0] * SLOTS
        self.set: list[int] = [0] * SLOTS  # so many bytes from the first on are set

    def add(self, line: str) -> None:
        self.lines.append(f"\t{line}")

    def fresh(self) -> str:
        self.count += 1
        return f"%t{self.count}"

    def is_wrong(self) -> bool:
        return self.random.random() < self.mistakes

    def place(self, slot: int, width: int, most: int) -> str:
        """The address of so many bytes of a block that are among the first ones, if there is no mistake."""
        offset = self.random.randrange(max(1, most - width + 1))
        if self.is_wrong():
            offset = self.random.choice([-8, -1, most - width + 1, most, most + 16])
        address = self.fresh()
        self.add(f"{address} =l add %p{slot}, {offset}")
        return address

    def take(self, slot: int) -> None:
        size = self.random.choice([1, 8, 12, 16, 24, 40, 100])
        if self.random.random() < 0.3:
            self.add(f"%p{slot} =l call $calloc(l {size}, l 1)")
            self.set[slot] = size
        else:
            self.add(f"%p{slot} =l call $malloc(l {size})")
            self.set[slot] = 0
        self.sizes[slot] = size

    def grow(self, slot: int) -> None:
        size = self.random.choice([1, 16, 30, 60])
        self.add(f"%p{slot} =l call $realloc(l %p{slot}, l {size})")
        self.sizes[slot] = size
        self.set[slot] = min(self.set[slot], size)

    def give(self, slot: int) -> None:
        if self.is_wrong():
            self.add(f"call $free(l %p{slot})")
        if self.is_wrong():
            self.add(f"call $free(l {self.place(slot, 1, self.sizes[slot])})")
        self.add(f"call $free(l %p{slot})")
        if not self.is_wrong():
            self.take(slot)

    def fill(self, slot: int) -> None:
        """Sets all bytes of a block, or one fewer by mistake."""
        count = self.sizes[slot] - (1 if self.is_wrong() else 0)
        at, label = self.fresh(), f"@l{self.count}"
        end = label.replace("l", "e")
        self.lines += [f"\t{at} =l copy 0", label, f"\t{at}a =l add %p{slot}, {at}", f"\tstoreb {at}, {at}a",
                       f"\t{at} =l add {at}, 1", f"\t{at}c =w cultl {at}, {count}", f"\tjnz {at}c, {label}, {end}", end]
        self.set[slot] = self.sizes[slot]

    def store(self, slot: int) -> None:
        letter = self.random.choice("bhwl")
        if WIDTHS[letter] <= self.sizes[slot]:
            self.add(f"store{letter} {self.random.choice(['7', '%sum'])}, "
                     f"{self.place(slot, WIDTHS[letter], self.sizes[slot])}")

    def load(self, slot: int) -> None:
        letter = self.random.choice("bhwl")
        most = self.sizes[slot] if self.is_wrong() else self.set[slot]
        if WIDTHS[letter] <= most:
            found = self.fresh()
            place = self.place(slot, WIDTHS[letter], most)
            self.add(f"{found} =l {self.random.choice(LOADS[letter])} {place}".replace("=l loadw", "=l loadsw"))
            self.add(f"%sum =l {self.random.choice(['add', 'xor', 'sub', 'or'])} %sum, {found}")

    def link(self, slot: int) -> None:
        """The address of one block goes through another one, and is used."""
        other = self.random.randrange(SLOTS)
        if self.sizes[slot] >= 8 and self.set[other] >= 1:
            place, found, byte = self.fresh(), self.fresh(), self.fresh()
            offset = 8 * self.random.randrange(self.sizes[slot] // 8)
            self.add(f"{place} =l add %p{slot}, {offset}")
            self.add(f"storel %p{other}, {place}")
            self.add(f"{found} =l loadl {place}")
            if other != slot:
                self.add(f"{byte} =l loadub {found}")
                self.add(f"%sum =l add %sum, {byte}")
            # What was there before is an address now, in parts: no number.
            self.add(f"storel 0, {place}")

    def mix(self, slot: int) -> None:
        """An address is a number in between: a place in a table, a difference, or one of its bits."""
        other, one, two = self.random.randrange(SLOTS), self.fresh(), self.fresh()
        way = self.random.randrange(4)
        if way == 0:
            self.lines += [f"\t{one} =l shr %p{slot}, 4", f"\t{one} =l and {one}, 7", f"\t{one} =l mul {one}, 8",
                           f"\t{two} =l add $table, {one}", f"\tstorel {one}, {two}"]
        elif way == 1 and self.set[slot]:
            self.lines += [f"\t{one} =l sub %p{slot}, %p{other}", f"\t{one} =l add %p{other}, {one}",
                           f"\t{two} =l loadub {one}", f"\t%sum =l add %sum, {two}"]
        elif way == 2 and self.set[slot]:
            self.lines += [f"\t{one} =l or %p{slot}, 1", f"\t{one} =l and {one}, -2", f"\t{two} =l loadub {one}",
                           f"\t%sum =l add %sum, {two}"]
        else:
            self.lines += [f"\t{one} =w ceql %p{slot}, %p{other}", f"\t{two} =l extuw {one}",
                           f"\t%sum =l add %sum, {two}"]

    def write(self, slot: int) -> None:
        """A text in a block is written."""
        if self.sizes[slot] >= 4:
            end = self.fresh()
            offset = self.sizes[slot] if self.is_wrong() else 2
            self.lines += [f"\tstoreh 26984, %p{slot}", f"\t{end} =l add %p{slot}, {offset}", f"\tstoreb 0, {end}",
                           f"\tcall $puts(l %p{slot})"]
            self.set[slot] = max(self.set[slot], 3 if self.set[slot] >= 2 else 2)

    def copy(self, slot: int) -> None:
        other = self.random.randrange(SLOTS)
        count = min(self.sizes[slot], self.sizes[other], 16) + (8 if self.is_wrong() else 0)
        if other != slot and count:
            self.add(f"blit %p{slot}, %p{other}, {count}")
            self.set[other] = max(self.set[other] if self.set[slot] >= count else 0, min(self.set[slot], count))

    def text(self, moves: int) -> str:
        self.lines = ["export function w $main() {", "@start", "\t%sum =l copy 1"]
        for slot in range(SLOTS):
            self.take(slot)
        acts = [self.grow, self.give, self.fill, self.fill, self.store, self.load, self.load, self.link, self.mix,
                self.write, self.copy]
        for _ in range(moves):
            self.random.choice(acts)(self.random.randrange(SLOTS))
        if self.is_wrong():
            self.add("%r =w loadw %p0")
        else:
            self.add("%r =w and %sum, 0")
        self.lines += ["\tret %r", "}", ""]
        return HEAP + "\n".join(self.lines)


def heap_program(random: Random) -> tuple[bytes, list[int]]:
    """A random program with a heap, and no arguments; half of them have no mistake on purpose."""
    return Heaps(random, random.choice([0, 0, 0.02, 0.1])).text(random.randrange(5, 60)).encode(), []
