"""Which instructions of a run touched some bytes of memory.

The debugger's `accesses` tells them along a run, and then the places are asked for, from the last one back. `why`
begins with the latest: for it breakpoints at all stores give the positions at which these ran, many at a time, and then
the addresses are asked for along these.
"""
from __future__ import annotations

from dataclasses import dataclass
from itertools import islice
from typing import Iterator

from .answers import Place, read_accesses, read_bytes, read_value
from .frames import steps_begun
from .scratch import MOST_BYTES, Scratch
from .text import BUILT_IN, LOADED, STACK, STORED, Instruction, Operand, Program
from .timeline import Poke, Timeline
from .values import BYTES
from .waiting import Interrupted

MOST_STOPS, MOST_ALLOCS = 60, 4096
# A survey counts no more, and looks at so many moves at once.
MOST_COUNTED, FIRST_WINDOW, MOST_WINDOW = 100_000, 1 << 16, 1 << 22
FIRST_BLOCK, MOST_BLOCK = 32, 8192


@dataclass(frozen=True, eq=False)
class Site:
    """An instruction that touches memory, with its place in the text."""
    function: str
    label: str
    index: int
    instruction: Instruction


@dataclass
class Access:
    """A move that touched memory: from which position on, by which instruction, which bytes."""
    position: int
    site: Site
    address: int
    count: int


@dataclass
class Survey:
    """What touched some bytes in a run: how often that happened, the accesses that are nearest to a position, and from
    where to where the run was looked at."""
    total: int
    found: list[Access]
    looked_at: range
    is_stopped: bool


class Nearest:
    """Of lines of `accesses` those that are nearest to a position, and how many there were."""

    def __init__(self, here: int, most: int):
        self.here, self.most, self.total = here, most, 0
        self.looked_at = range(here, here)
        # Those before the position, the last one first, and those from it on.
        self.before: list[str] = []
        self.after: list[str] = []

    def add(self, lines: list[str], window: range) -> None:
        """The lines of a window of the run that is beside what was looked at."""
        self.total += len(lines)
        if window.start < self.here:
            self.before += lines[::-1][:self.most - len(self.before)]
            self.looked_at = range(window.start, self.looked_at.stop)
        else:
            self.after += lines[:self.most - len(self.after)]
            self.looked_at = range(self.looked_at.start, window.stop)

    def lines(self) -> list[str]:
        ranked = sorted((*self.before, *self.after), key=lambda line: abs(position_of(line) - self.here))
        return sorted(ranked[:self.most], key=position_of)


def windows(here: int, end: int) -> Iterator[range]:
    """The moves of a run in pieces, those around a position first."""
    low, high, size = here, here, FIRST_WINDOW
    while low > 0 or high < end:
        if low > 0:
            yield range(max(0, low - size), low)
            low = max(0, low - size)
        if high < end:
            yield range(high, min(end, high + size))
            high = min(end, high + size)
        size = min(2 * size, MOST_WINDOW)


class Accesses:
    def __init__(self, program: Program, scratch: Scratch):
        self.program, self.scratch = program, scratch

    def sites(self, is_write: bool) -> list[Site]:
        """The instructions that write to memory, or read it."""
        found = []
        for function in self.program.functions.values():
            for label, index, instruction in function.places():
                operation = instruction.operation
                wanted = operation in (STORED if is_write else LOADED) or operation == "blit"
                if operation == "call" and not is_write:
                    wanted = self.program.called(instruction) in (None, "$puts")
                if wanted and index >= 0:
                    found.append(Site(function.name, label, index, instruction))
        return found

    def survey(self, is_write: bool, run: Timeline, address: int, count: int, here: int, most: int) -> Survey:
        """What wrote or read these bytes in a run, of which the nearest to a position are kept. The search ends where
        enough were counted, or where Ctrl-C stops it."""
        sites = {(site.function, site.label, site.index): site for site in self.sites(is_write)}
        near, is_stopped = Nearest(min(here, run.position), most), False
        if not any(self.may_touch(site, is_write, address, count) for site in sites.values()):
            return Survey(0, [], range(run.position), False)
        try:
            allocs = self.allocs(run) if is_write and address + count > STACK else []
            for window in windows(near.here, run.position):
                if near.total >= MOST_COUNTED:
                    break
                near.add(self.lines(is_write, run, window, address, count, allocs), window)
        except Interrupted:
            self.scratch.waiting.heed()
            is_stopped = True
        kept = read_accesses(near.lines())[::-1]
        places = self.places([one.position for one in kept], run) if kept else []
        found = [Access(one.position, sites[place.function, place.label, place.index], one.address, one.count)
                 for one, place in zip(kept, places)]
        return Survey(near.total, found[::-1], near.looked_at, is_stopped)

    def lines(self, is_write: bool, run: Timeline, window: range, address: int, count: int,
              allocs: list[int] | None) -> list[str]:
        """What `accesses` tells of a window of the run, but of no `alloc`: the bytes that one makes are told as
        written, and they are no store's."""
        word, found = "write #" if is_write else "read #", []
        for answer in self.scratch.along(run.at(window.start), run.at(window.stop),
                                         lambda moves: f"accesses {moves} {address} {count}"):
            lines = [line for line in answer if line.startswith(word)]
            if lines and allocs is None:
                lines = self.without_allocs(lines, run)
            elif lines and allocs and allocs[0] <= position_of(lines[-1]) and position_of(lines[0]) <= allocs[-1]:
                known = set(allocs)
                lines = [line for line in lines if position_of(line) not in known]
            found += lines
        return found

    def allocs(self, run: Timeline) -> list[int] | None:
        """From which positions an `alloc` moves, in order, or None if there are too many to name."""
        stops = [f"break {function.name} {label} {index}" for function in self.program.functions.values()
                 for label, index, instruction in function.places() if instruction.operation.startswith("alloc")]
        if len(stops) > MOST_STOPS:
            return None
        hits = self.scratch.go(run).hits(False, stops, last=0) if stops else ()
        found = [hit.position for hit in islice(hits, MOST_ALLOCS) if hit.stop is not None]
        return found[::-1] if len(found) < MOST_ALLOCS else None

    def without_allocs(self, lines: list[str], run: Timeline) -> list[str]:
        """The lines whose moves weren't made from an `alloc`, found by going to each."""
        here, functions = self.scratch.timeline, self.program.functions
        places = self.places([position_of(line) for line in reversed(lines)], run)[::-1]
        self.scratch.go(here)
        return [line for line, at in zip(lines, places)
                if not functions[at.function].at(at.label, at.index).operation.startswith("alloc")]

    def places(self, positions: list[int], run: Timeline) -> list[Place]:
        """The places at positions of a run, from the last one back."""
        at = positions[0]
        first = self.scratch.go(run.at(at)).place
        ways = [before - position for before, position in zip(positions, positions[1:])]
        answers = iter(self.scratch.ask(*(f"back {way}" for way in ways if way)))
        places = [first]
        for way in ways:
            if way:
                answer = next(answers)
                self.scratch.after(answer, "back")
                places.append(self.scratch.place)
            else:
                places.append(places[-1])
        return places

    def may_touch(self, site: Site, is_write: bool, address: int, count: int) -> bool:
        """False where the text alone says that an instruction touches other bytes."""
        instruction = site.instruction
        if instruction.operation == "call":
            return True
        operand = instruction.operands[1 if is_write else 0].text
        if operand.startswith("%"):
            return True
        begin = self.constant(operand)
        return begin < address + count and address < begin + size_of(instruction)

    def poked(self, poke: Poke) -> range:
        """The bytes that a poke wrote: none where it set a temporary."""
        word, *words = poke.line.split()
        if word != "poke":
            return range(0)
        name, _, offset = words[1].partition("+")
        begin = self.constant(name) + int(offset or 0)
        return range(begin, begin + BYTES[words[0]])

    def constant(self, text: str) -> int:
        return self.program.addresses[text] if text.startswith("$") else int(text) % (1 << 64)

    def blocks(self, sites: list[Site], high: Timeline, low: int) -> Iterator[list[tuple[int, Site]]]:
        """The moves that ran one of these instructions, in blocks that grow, from the latest back."""
        stops = [f"break {site.function} {site.label} {site.index}" for site in sites]
        size, faulted = FIRST_BLOCK, self.faulted(high)
        while stops:
            hits = self.scratch.go(high).hits(False, stops, most=size, last=low)
            block = list(islice(((hit.position, hit.stop) for hit in hits), size))
            found = [(position, sites[stop]) for position, stop in block
                     if stop is not None and position >= low and position != faulted and not high.poke_at(position)]
            yield found
            if not block or block[-1][1] is None or block[-1][0] <= low:
                return
            high, size = high.at(block[-1][0]), min(MOST_BLOCK, 4 * size)

    def faulted(self, at: Timeline) -> int | None:
        """The position of the move that ended in a fault, and so touched nothing, where a state is one."""
        return steps_begun(at) - 1 if self.scratch.go(at).place.is_fault else None

    def looked_at(self, block: list[tuple[int, Site]], is_write: bool, run: Timeline) -> Iterator[Access]:
        """The bytes that each move of a block touched, by the values of the operands for the address."""
        if not block:
            return
        self.scratch.go(run.at(block[0][0]))
        lines, at = [], block[0][0]
        asked = {site: telling(site, is_write) for site in {site for _, site in block}}
        for position, site in block:
            if at > position:
                lines.append(f"back {at - position}")
            lines += [f"print {operand.text}" for operand in asked[site] if operand.is_temporary]
            at = position
        answers = self.scratch.ask(*lines)
        index, at, moved = 0, block[0][0], None
        read = []
        for position, site in block:
            if at > position:
                moved, index, at = answers[index], index + 1, position
            values = []
            for operand in asked[site]:
                if operand.is_temporary:
                    values.append(read_value(answers[index][0]))
                    index += 1
                else:
                    values.append(self.constant(operand.text))
            read.append((position, site, values))
        if moved:
            self.scratch.after(moved, "back")
        for position, site, values in read:
            yield from self.access(position, site, values, run)

    def access(self, position: int, site: Site, values: list[int | None], run: Timeline) -> Iterator[Access]:
        address = values[-1]
        if address is None:
            return
        if site.instruction.operation != "call":
            yield Access(position, site, address, size_of(site.instruction))
        elif values[0] == BUILT_IN["$puts"] and "$puts" in self.program.built_in and len(values) == 2:
            yield Access(position, site, address, self.text_size(address, run.at(position)))

    def text_size(self, address: int, at: Timeline) -> int:
        """How many bytes `$puts` reads there: up to the zero byte."""
        here, size = self.scratch.timeline, 0
        self.scratch.go(at)
        while True:
            piece = read_bytes(self.scratch.ask(f"mem {address + size} {MOST_BYTES}")[0][0])
            end = next((index for index, byte in enumerate(piece) if not byte), None)
            if end is not None:
                self.scratch.go(here)
                return size + end + 1
            size += MOST_BYTES


def telling(site: Site, is_write: bool) -> tuple[Operand, ...]:
    """The operands that decide which bytes are touched: the address, or the callee and its argument."""
    operands = site.instruction.operands
    return operands[:2] if site.instruction.operation == "call" else (operands[1 if is_write else 0],)


def position_of(line: str) -> int:
    """From which position the move of a line of `accesses` was made."""
    return int(line[line.index("#") + 1:].partition(" ")[0])


def size_of(instruction: Instruction) -> int:
    """How many bytes a load, a store or a blit touches."""
    operation = instruction.operation
    return instruction.count if operation == "blit" else STORED.get(operation) or LOADED[operation]
