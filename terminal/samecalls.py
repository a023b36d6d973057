"""Which call of one run is that of another: on the way down from the outermost call, each is the same by its number
among the calls of its function that the one before makes.

Calls of other functions aren't counted. So a function that was inlined, or that one of the runs calls more often,
changes nothing for the others.
"""
from __future__ import annotations

from collections import Counter
from typing import Iterable, NamedTuple

from .answers import read_spans
from .scratch import MOST_MOVES
from .shell import Shell
from .spans import OpenFrames
from .text import Program
from .timeline import Timeline

# How many calls are compared.
MOST_CALLS = 200_000
# A function, and a number among its calls.
Numbered = tuple[str, int]


class Call(NamedTuple):
    """The position of its first state, and that of the first state without it, None if it lasts."""
    begin: int
    end: int | None
    function: str

    def is_over(self, position: int) -> bool:
        return self.end is not None and self.end <= position


def calls_of(shell: Shell, functions: frozenset[str], last: Timeline) -> list[Call] | None:
    """The calls of functions up to a state, in the order in which they begin; None if there are too many."""
    scratch, start = shell.session.scratch, last.at(0)
    frames = OpenFrames([place.function for place in reversed(scratch.go(start).where())])
    found: list[Call] = []
    for answer in scratch.along(start, last, lambda moves: f"frames {moves} 1"):
        found += [Call(span.begin or 0, span.end, span.function) for span in frames.ended(read_spans(answer))
                  if span.function in functions]
        if len(found) > MOST_CALLS:
            return None
    found += [Call(span.begin or 0, None, span.function) for span in frames.lasting() if span.function in functions]
    return sorted(found)


class Open:
    """The calls that are open while calls begin in their order, and how many began in each of them."""

    def __init__(self) -> None:
        self.calls: list[Call] = []
        # The first is for calls that are in no other one.
        self.counts = [Counter[str]()]
        self.numbers: list[Numbered] = []

    def leave(self, position: int) -> None:
        """Drops the calls that are over at a position."""
        while self.calls and self.calls[-1].is_over(position):
            self.calls.pop()
            self.counts.pop()
            self.numbers.pop()

    def enter(self, call: Call) -> None:
        self.leave(call.begin)
        self.counts[-1][call.function] += 1
        self.numbers.append((call.function, self.counts[-1][call.function]))
        self.calls.append(call)
        self.counts.append(Counter())


def numbers_at(calls: Iterable[Call], position: int) -> list[Numbered]:
    """The calls that are open at a position, the outermost first, each by its number in the one around it."""
    open = Open()
    for call in calls:
        if call.begin > position:
            break
        open.enter(call)
    open.leave(position)
    return open.numbers


def with_numbers(calls: Iterable[Call], numbers: list[Numbered]) -> list[Call]:
    """The calls that have these numbers, the outermost first, as far as there are such."""
    open, found = Open(), list[Call]()
    for call in calls:
        open.enter(call)
        if len(found) < len(open.calls) <= len(numbers) and open.numbers == numbers[:len(open.calls)]:
            found = list(open.calls)
            if len(found) == len(numbers):
                break
    return found


def callees(program: Program, function: str, among: set[str]) -> set[str]:
    return {called for _, _, instruction in program.functions[function].places() if instruction.operation == "call"
            and (called := program.called(instruction) or "") in among}


class SameCall(NamedTuple):
    """A call that both runs make: its function, and in each run the last state in which it was the innermost frame."""
    function: str
    at: Timeline
    there: Timeline
    # Whether it is the innermost one that was asked about, and not one around it.
    is_innermost: bool


class SameCalls:
    """Finds calls of the other run, and keeps which calls each run makes."""

    def __init__(self) -> None:
        self.known: dict[tuple[int, frozenset[str], Timeline], list[Call] | None] = {}

    def same(self, shell: Shell, at: Timeline, other: Shell, until: Timeline) -> SameCall | None:
        """For the innermost call in a state of a run, and for the calls around it, the first from inside that the other
        run has up to a state."""
        at, until = shell.frames.before_end(at), other.frames.before_end(until)
        functions = self.counted(shell, other, at)
        here, there = self.of(shell, functions, at), self.of(other, functions, until)
        if here is None or there is None:
            return None
        numbers = numbers_at(here, at.position)
        found = with_numbers(there, numbers)
        if not found:
            return None
        call, level = found[-1], len(found)
        over = frame_of(other, functions, until, level) if call.end is None else until.at(call.end - 1)
        return SameCall(call.function, frame_of(shell, functions, at, level), over, level == len(numbers))

    def counted(self, shell: Shell, other: Shell, at: Timeline) -> frozenset[str]:
        """The functions by whose calls a call is found: those of the frames there, if in both texts they call each
        other alike; else only its own."""
        names = [frame.function for frame in shell.frames.where(at)]
        programs = [each.session.program for each in (shell, other)]
        both = {name for name in names if all(name in program.functions for program in programs)}
        one, two = ({name: callees(program, name, both) for name in both} for program in programs)
        return frozenset(both if one == two else both & {names[0]})

    def of(self, shell: Shell, functions: frozenset[str], last: Timeline) -> list[Call] | None:
        """The calls up to a state, out of those up to where the runs part."""
        most = shell.parted if shell.parted and last == shell.parted.at(last.position) else last
        key = id(shell), functions, most
        if key not in self.known:
            self.known[key] = calls_of(shell, functions, most)
        found = self.known[key]
        return found and [call._replace(end=None) if not call.is_over(last.position) else call
                          for call in found if call.begin <= last.position]


def frame_of(shell: Shell, functions: frozenset[str], at: Timeline, level: int) -> Timeline:
    """The last state up to one in which a call was the innermost frame, by its level among those of some functions, of
    which the outermost has 1."""
    frames = shell.frames.where(at)
    own = [index for index, frame in enumerate(frames) if frame.function in functions]
    return shell.frames.frame(at, own[-level])


def end_of_call(shell: Shell, at: Timeline, last: Timeline) -> Timeline | None:
    """The last state of the call that is made from a state, if it is over up to another one."""
    below, entry = len(shell.frames.where(at)), last.at(at.position + 1)
    if entry.position > last.position or len(shell.frames.where(entry)) <= below:
        return None
    for answer in shell.session.scratch.along(entry, last, lambda moves: f"frames {moves} {MOST_MOVES}"):
        # The first to end at this depth is the frame that was there already.
        end = next((span.end for span in read_spans(answer) if span.end is not None and span.below == below), None)
        if end is not None:
            return last.at(end - 1)
    return None
