"""Quick steps change nothing: with them a run has the same suspicions, shadows and memory as without, for all texts,
examples and stories, and random programs.
"""
from __future__ import annotations

import pathlib
from typing import Any, Callable, Iterator

from ..following import Follower
from ..heap import roles_of
from ..kinds import ALL, DEFAULT
from ..shadow import Object, Part
from .chance import random_files, small_fault
from .gathered import run_of
from .texts import TEXTS

TOP = pathlib.Path(__file__).resolve().parent.parent.parent
PROGRAMS, MOST_MOVES, LEAST_QUICK = 120, 8_000, 20_000
Case = tuple[str, Callable[[], str | None]]


class Counted(Follower):
    """Counts the moves that are made in the long way."""

    moves = 0

    def move(self, *words: Any) -> None:
        self.moves += 1
        super().move(*words)


def made_told(made: Any) -> str:
    """What a value or a byte is made of, without the identity of its objects, which two followers don't share."""
    if isinstance(made, Object):
        return f"{made.name} {made.address} {made.born} {made.died}"
    return f"{made_told(made.object)} from {made.first}" if isinstance(made, Part) else str(made)


def told(shadow: Any) -> str:
    return f"{made_told(shadow.made)} {shadow.open} {shadow.origin}"


def state_of(follower: Follower) -> list[Any]:
    """All that a follower knows at the end of a run."""
    memory = follower.memory
    return [[each.lines() for each in follower.suspicions()], [each.count for each in follower.suspicions()],
            [(frame.function.name, frame.values, {name: told(shadow) for name, shadow in frame.shadows.items()},
              frame.slots, frame.floor)
             for frame in follower.frames],
            memory.top, memory.data, memory.stack[:memory.top], memory.open_data, memory.open_stack,
            {place: made_told(made) for place, made in memory.made.items()},
            [(slot.name, slot.address, slot.born, slot.died) for slot in follower.objects.slots],
            [(block.address, block.size, block.born) for block in follower.objects.blocks], follower.heap_depth]


def run_fault(program: str, file: pathlib.Path, source: bytes, words: list[str]) -> tuple[str | None, int]:
    """What differs, or None; and how many moves were quick."""
    run = run_of(program, file, source, words, MOST_MOVES)
    if not run:
        return None, 0
    _, table, gathered, data = run
    quick = 0
    for kinds in (DEFAULT, ALL):
        states = []
        for is_quick in (False, True):
            follower = Counted(table, data, kinds, roles_of(table.program, None))
            follower.is_quick = is_quick
            moves = follower.follow(list(gathered.places), iter(gathered.values))
            states.append(state_of(follower))
        quick += moves - follower.moves
        for slow, fast in zip(*states):
            if slow != fast:
                return f"{fast!r:.300} in place of {slow!r:.300}", quick
    return None, quick


def texts_fault(program: str) -> str | None:
    quick = 0
    for file in sorted([*TEXTS.glob("*.ssa"), *(TOP / "examples").rglob("*.ssa"), *(TOP / "rows").glob("*.ssa"),
                        *(TOP / "rows" / "speed").glob("*.ssa")]):
        fault, count = run_fault(program, file, file.read_bytes(), [])
        if fault:
            return f"{file.name}: {fault}"
        quick += count
    return None if quick > LEAST_QUICK else f"only {quick} moves were quick"


def random_fault(program: str, place: pathlib.Path) -> str | None:
    quick = 0
    for number, file, source, words in random_files(place, "hastened", PROGRAMS):
        fault, count = run_fault(program, file, source, words)
        if fault:
            return small_fault(number, file, source, lambda text: run_fault(program, file, text, words)[0])
        quick += count
    return None if quick > 1000 else f"only {quick} moves were quick"


def cases(program: str, place: pathlib.Path) -> Iterator[Case]:
    yield "quick steps, texts", lambda: texts_fault(program)
    yield "quick steps, random programs", lambda: random_fault(program, place)
