"""Frames of a state: where each began, what its temporaries were, and which of them a stack address belongs to.

While a frame's callee runs, the frame's temporaries can't change: they are those of the state just before the call. The
scratch process goes there.
"""
from __future__ import annotations

from collections import Counter

from .answers import Place, read_value
from .levels import MOST_STOPS, Levels, own_hits, stop_line
from .scratch import Scratch
from .text import ALLOCATIONS, STACK, Program
from .timeline import Timeline
from .values import Names, is_stack

MOST_ALLOCATIONS = 8
# How many of the innermost frames are looked at first for the owner of an address.
NEAR = (1, 4, 32)


class Frames:
    def __init__(self, program: Program, names: Names, scratch: Scratch):
        self.program, self.names, self.scratch = program, names, scratch
        self.entries: dict[Timeline, Timeline] = {}
        self.allocated: dict[Timeline, list[int | None]] = {}
        self.made: dict[Timeline, list[tuple[int, str, int]]] = {}

    def where(self, at: Timeline) -> list[Place]:
        return self.scratch.go(at).where()

    def before_end(self, at: Timeline) -> Timeline:
        """The state itself, or the one before the step that ended the run where it is over."""
        return at.at(steps_begun(at) - 1) if self.scratch.go(at).place.end else at

    def entry(self, at: Timeline) -> Timeline:
        """The first state of the frame that is the innermost one there."""
        if at not in self.entries:
            self.find_entries(at, 1)
        return self.entries[at]

    def frame(self, at: Timeline, index: int) -> Timeline:
        """The last state in which a frame was the innermost one; 0 is the one that is so now."""
        return self.last_states(at, index + 1)[index]

    def last_states(self, at: Timeline, count: int) -> list[Timeline]:
        """As above for the first frames, so many or as many as there are."""
        found = [at]
        while len(found) < count:
            if found[-1] not in self.entries:
                self.find_entries(found[-1], count - len(found))
            entry = self.entries[found[-1]]
            if not entry.position:
                break
            found.append(entry.at(entry.position - 1))
        return found

    def find_entries(self, at: Timeline, count: int) -> None:
        """Keeps where the innermost frame of a state and a number of its callers began, by one run back."""
        there = self.before_end(at)
        frames = self.where(there)[:count]
        positions = self.entries_by_counting(there, frames)
        if positions is None:
            positions = [self.entry_by_depth(there)]
        for position in positions:
            self.entries[at] = at.at(position)
            at = at.at(position - 1)

    def entries_by_counting(self, at: Timeline, frames: list[Place]) -> list[int] | None:
        """The positions at which frames began, the innermost first. Of a function that calls itself the returns are
        counted, so that its calls that are over are left out; None where that can't be done."""
        functions = dict.fromkeys(place.function for place in frames)
        levels = {name: Levels(self.program, name) for name in functions if name in self.program.again}
        entries = {(name, self.program.functions[name].first, 0): name for name in functions}
        returns = {place: name for name, level in levels.items() for place in level.returns}
        places = [*entries, *returns]
        if not all(level.is_counted for level in levels.values()) or len(places) > MOST_STOPS:
            return None
        here = (frames[0].function, frames[0].label, frames[0].index)
        found = [steps_begun(at)] if here in entries else []
        inside = Counter([returns[here]] if here in returns else [])
        at = at.at(found[0]) if found else at
        hits = self.scratch.go(at).hits(False, [stop_line(place)
                                                for place in places]) if len(found) < len(frames) else ()
        for hit in hits:
            # Behind a poke the place is that of the state before, which comes next.
            if hit.stop is None or at.poke_at(hit.position - 1):
                continue
            place = places[hit.stop]
            if place in returns:
                inside[returns[place]] += 1
            elif inside[entries[place]]:
                inside[entries[place]] -= 1
            elif frames[len(found)].function == entries[place]:
                found.append(hit.position)
            if len(found) == len(frames):
                break
        return found

    def entry_by_depth(self, at: Timeline) -> int:
        """Where the innermost frame began, by the number of frames at each beginning of its function."""
        frames = self.where(at)
        first = self.program.functions[frames[0].function].first
        if (frames[0].label, frames[0].index) == (first, 0):
            return steps_begun(at)
        position, _ = next(own_hits(self.program, self.scratch, at, frames[0].function, []))
        return steps_begun(at.at(position))

    def owner(self, address: int, at: Timeline) -> str | None:
        """Which alloc of which frame made the stack bytes at an address, as `frame 1 $f alloc %p+4`."""
        if not is_stack(address) or self.scratch.go(at).memory(address, 1)[0] is None:
            return None
        frames, looked = self.where(at), 0
        for count in (*NEAR, len(frames)):
            states = self.last_states(at, min(count, len(frames)))
            for index in range(looked, len(states)):
                found = self.allocation(frames[index].function, address, states[index])
                if found:
                    return f"frame {index} {frames[index].function} alloc {found}"
            looked = len(states)
        return None

    def allocation(self, function: str, address: int, at: Timeline) -> str | None:
        """The temporary of a frame whose alloc made the bytes at an address, and their offset; for an alloc that was
        made again since, also when it was made."""
        sizes = allocations_of(self.program, function)
        if at not in self.allocated:
            self.allocated[at] = self.scratch.go(at).values(*sizes) if sizes else []
        found = [(address - value, name) for name, value in zip(sizes, self.allocated[at])
                 if value is not None and STACK <= value <= address]
        if not found:
            return None
        offset, name = min(found)
        if offset < sizes[name] or len(sizes) > MOST_ALLOCATIONS:
            return f"{name}+{offset}"
        return self.earlier_allocation(function, list(sizes), address, at) or f"{name}+{offset}"

    def earlier_allocation(self, function: str, names: list[str], address: int, at: Timeline) -> str | None:
        """As above, for an alloc that was made again since: along all allocs of the frame, the latest first."""
        if at not in self.made:
            self.made[at] = self.all_allocations(function, names, at)
        return next((f"{name}+{address - value} of #{position}" for position, name, value in self.made[at]
                     if value <= address), None)

    def all_allocations(self, function: str, names: list[str], at: Timeline) -> list[tuple[int, str, int]]:
        """What each alloc of a frame gave, the latest first, by going back along the places at which they were made."""
        sites = {place[:2]: name for name in names for place in self.program.functions[function].definitions(name)
                 if place[2].operation in ALLOCATIONS}
        moves = [(position, sites[place]) for position, place in
                 own_hits(self.program, self.scratch, at, function, list(sites))
                 if place in sites and not at.poke_at(position)]
        if not moves:
            return []
        here, lines = moves[0][0], []
        for position, name in moves:
            lines += [f"back {here - position}"] * (here > position) + [f"print {name}"]
            here = position
        answers = self.scratch.go(at.at(moves[0][0] + 1)).ask(*lines)
        backs = [answer for line, answer in zip(lines, answers) if line.startswith("back")]
        if backs:
            self.scratch.after(backs[-1], "back")
        values = [read_value(answer[0]) for line, answer in zip(lines, answers) if line.startswith("print")]
        return [(*move, value) for move, value in zip(moves, values) if value is not None]

    def name(self, value: int, width: str, at: Timeline | None) -> str | None:
        """The name of an address; of one on the stack where it is said in which state. Words are no addresses."""
        if width != "l":
            return None
        return self.names.of(value) or (self.owner(value, at) if at else None)


def steps_begun(at: Timeline) -> int:
    """The position at which the run came to the place of a state; pokes stay at it."""
    position = at.position
    while at.poke_at(position - 1):
        position -= 1
    return position


def allocations_of(program: Program, function: str) -> dict[str, int]:
    """The temporaries of a function that an alloc gives, each with its number of bytes, or 2^64 where the text has
    none."""
    found: dict[str, int] = {}
    for _, _, instruction in program.functions[function].places():
        if instruction.operation in ALLOCATIONS and instruction.result:
            size = instruction.operands[0].text
            found[instruction.result] = int(size) if size.isdigit() else 1 << 64
    return found
