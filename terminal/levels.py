"""Which hits of a run are in one frame of a function that may call itself.

A run enters another call of the function at its beginning, and leaves it to the place after a call of it; going back,
the other way round. So breakpoints at both give the level by counting, and no frames are asked for.
"""
from __future__ import annotations

import re
from itertools import accumulate
from typing import Iterator

from .scratch import Scratch
from .text import Program
from .timeline import Timeline

MOST_RETURNS = 40
MOST_STOPS = 64

# A hit as it is told: the number of the breakpoint, and the position.
BREAK = re.compile(r"stop: break (\d+)\n#(\d+) ")

CodePlace = tuple[str, str, int]


def stop_line(place: CodePlace) -> str:
    return f"break {place[0]} {place[1]} {place[2]}"


class Levels:
    """Counts the calls of a function inside the frame that is meant, which is at level 0, along a run."""

    def __init__(self, program: Program, function: str):
        self.entry = (function, program.functions[function].first, 0)
        self.returns = [(name, label, index + 1) for name, code in program.functions.items()
                        for label, index, instruction in code.places()
                        if instruction.operation == "call" and program.called(instruction) == function]
        # Behind a call by an address the returns of other functions would be counted too.
        self.is_counted = not program.calls_by_address and len(self.returns) <= MOST_RETURNS
        self.level = 0

    @property
    def places(self) -> list[CodePlace]:
        return [self.entry, *self.returns]

    def forward(self, place: CodePlace) -> int:
        """The level in a state to which a run forward came."""
        self.level += (place == self.entry) - (place in self.returns)
        return self.level

    def back(self, place: CodePlace) -> int:
        """The level in a state to which a run back came; from there it may go on into another one."""
        level = self.level
        self.level += self.step_back(place)
        return level

    def step_back(self, place: CodePlace) -> int:
        """By how much the level changes for a run back that goes on from a place."""
        return (place in self.returns) - (place == self.entry)


def own_hits(program: Program, scratch: Scratch, at: Timeline, function: str, places: list[tuple[str, int]],
             last: int | None = None) -> Iterator[tuple[int, tuple[str, int]]]:
    """The states before `at`, the latest first, in which its innermost frame stood at one of these places of its
    function, as the innermost one; the last is that in which the frame began. Behind a poke a state stands at the place
    of the one before, which comes next. It isn't looked for them far before the position `last`."""
    first = (program.functions[function].first, 0)
    if begins(program, scratch, at, function):
        # What stood at these places before is another call.
        return
    wanted = [(function, *place) for place in dict.fromkeys([*places, first])]
    for position, place in judged(program, scratch.go(at), function, wanted, last):
        yield position, place[1:]
        if place[1:] == first and not at.poke_at(position - 1):
            return


def begins(program: Program, scratch: Scratch, at: Timeline, function: str) -> bool:
    """Whether the innermost frame of a state, a call of that function, begins there."""
    here = scratch.go(at).where()[0]
    return (here.label, here.index) == (program.functions[function].first, 0) and not at.poke_at(at.position - 1)


def judged(program: Program, scratch: Scratch, function: str, wanted: list[CodePlace],
           last: int | None) -> Iterator[tuple[int, CodePlace]]:
    """The hits of a run back at wanted places that are in the frame from which it begins."""
    levels = Levels(program, function)
    places = list(dict.fromkeys([*wanted, *levels.places]))
    if function not in program.again:
        hits = scratch.hits(False, [stop_line(place) for place in wanted], last=last)
        yield from ((hit.position, wanted[hit.stop]) for hit in hits if hit.stop is not None)
    elif levels.is_counted and not scratch.timeline.pokes and len(places) <= MOST_STOPS:
        yield from counted(scratch, levels, places, len(wanted), last)
    else:
        yield from compared(scratch, wanted, last)


def counted(scratch: Scratch, levels: Levels, places: list[CodePlace], wanted: int,
            last: int | None) -> Iterator[tuple[int, CodePlace]]:
    """As above for a function that calls itself; the first of the places are the wanted ones."""
    here = scratch.where()[0]
    level = levels.step_back((here.function, here.label, here.index))
    steps = [levels.step_back(place) for place in places]
    for text in scratch.texts(False, [stop_line(place) for place in places], last=last):
        found = BREAK.findall(text)
        stops = [scratch.numbers[int(number)] for number, _ in found]
        before = list(accumulate((steps[stop] for stop in stops), initial=level))
        for index, stop in enumerate(stops):
            if before[index] == 0 and stop < wanted:
                yield int(found[index][1]), places[stop]
        level = before[-1]


def compared(scratch: Scratch, wanted: list[CodePlace], last: int | None) -> Iterator[tuple[int, CodePlace]]:
    """The same by the number of frames at each hit, where pokes or calls by an address are in the way of counting."""
    depth = len(scratch.where())
    for hit in scratch.hits(False, [stop_line(place) for place in wanted], ["where"], last=last):
        if hit.stop is not None and len(hit.answers[0]) == depth:
            yield hit.position, wanted[hit.stop]
