"""How long it takes to go back: as long as a step back undoes, and never the whole run again."""
from __future__ import annotations

from collections.abc import Iterator, Sequence

from harness.running import LOOP, Case, Running

MOVES = 2_000_000
BACKS = 400
# How much longer the session with all its steps back may take than the run alone, as a factor and in seconds besides,
# of a busy machine. Going back by running again from the start would take as long for each step as the run does.
FACTOR, SLACK = 5, 0.5


def place(position: int) -> str:
    """The line of a place of LOOP: `@start` has one move, and all others are jumps of `@l`."""
    return f"#{position} $main @{'l' if position else 'start'} 0\n"


def back_is_near(running: Running, words: Sequence[str]) -> str | None:
    bound = ["--limit", str(MOVES), *words]
    alone = min(running.timed(LOOP, b"continue\n", bound)[0] for _ in range(3))
    taken, transcript = running.timed(LOOP, b"continue\n" + b"back\n" * BACKS, bound)
    wanted = "".join(place(MOVES - k) for k in range(1, BACKS + 1)).encode()
    if not transcript.endswith(wanted):
        return "the places of the steps back are others"
    return None if taken <= FACTOR * alone + SLACK else \
        f"{taken:.3f} seconds with {BACKS} steps back, and {alone:.3f} without"


def cases() -> Iterator[Case]:
    yield Case("steps back after a long run", back_is_near, ([],))
    yield Case("steps back after a long run, over all undo records", back_is_near, (["--history", "all"],))
    yield Case("steps back after a long run, with a bound", back_is_near, (["--history", "1000"],))
