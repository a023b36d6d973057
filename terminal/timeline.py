"""The position of a session, as what leads there: how many moves were made, and which of them were pokes.

All other moves are steps of the program, so two processes with equal timelines are in equal states.
"""
from __future__ import annotations

from dataclasses import dataclass, replace


@dataclass(frozen=True)
class Poke:
    """A `set` or `poke` that was made at a position, in a frame at a depth (the outermost has 1)."""
    position: int
    line: str
    depth: int = 0


@dataclass(frozen=True)
class Timeline:
    position: int = 0
    pokes: tuple[Poke, ...] = ()

    def at(self, position: int) -> Timeline:
        """The same moves up to another position; after the last one the program's own steps follow."""
        return Timeline(position, tuple(poke for poke in self.pokes if poke.position < position))

    def moved(self, position: int, line: str, depth: int = 0) -> Timeline:
        """The timeline after a line that led to that position."""
        if position == self.position + 1 and line.split()[0] in ("set", "poke"):
            return Timeline(position, (*self.pokes, Poke(self.position, line, depth)))
        return self.at(position) if position < self.position else replace(self, position=position)

    def poke_at(self, position: int) -> Poke | None:
        """The poke that was the move from that position on, where it was one."""
        return next((poke for poke in self.pokes if poke.position == position), None)


def common(here: Timeline, there: Timeline) -> int:
    """The last position up to which both have made the same moves."""
    shared = 0
    while shared < min(len(here.pokes), len(there.pokes)) and here.pokes[shared] == there.pokes[shared]:
        shared += 1
    ends = [timeline.position for timeline in (here, there)]
    return min(ends + [timeline.pokes[shared].position for timeline in (here, there) if shared < len(timeline.pokes)])


def lines_between(here: Timeline, there: Timeline) -> list[str]:
    """The commands that lead from one to the other."""
    at = common(here, there)
    lines = [f"back {here.position - at}"] if here.position > at else []
    for poke in there.pokes:
        if poke.position >= at:
            lines += [f"step {poke.position - at}"] * (poke.position > at) + [poke.line]
            at = poke.position + 1
    return lines + [f"step {there.position - at}"] * (there.position > at)
