"""Two runs side by side, each at the place where the comparison says that they part (docs/COMPARE.md)."""
from __future__ import annotations

import re
import subprocess
from dataclasses import dataclass
from typing import Any, Sequence

from terminal.launching import split_words

SIDES = ("good", "bad")
# The events that are compared if nothing is said, and what a side has in place of one.
DEFAULT, NO_EVENT = ("output", "calls", "end"), ("none", "limit")
EVENT, STEP = re.compile(r"^(good|bad): (.*)$"), re.compile(r"^step (\d+)$")
# Options of the comparison alone, which a session of one side doesn't have.
OWN = ("--events", "--session")


@dataclass
class Pair:
    """The report of a comparison: its first line, and for each side the event and the position after it."""
    head: str
    events: dict[str, str]
    positions: dict[str, int]
    text: str
    status: int
    kinds: list[str]

    @property
    def is_told(self) -> bool:
        """Whether both texts ran, so that there is something to show."""
        return self.head.split(" ")[0] in ("same", "part", "limit")

    @property
    def number(self) -> int | None:
        """The number of the event by which they part, or at which a side goes no further."""
        found = re.search(r" at event (\d+)$", self.head)
        return int(found.group(1)) if found else None

    def told(self) -> dict[str, Any]:
        return {"head": self.head, "number": self.number, "kinds": self.kinds, "none": list(NO_EVENT),
                "sides": [{"name": side, "event": self.events.get(side, ""), "at": self.positions.get(side)}
                          for side in SIDES]}


def compared(program: str, words: Sequence[str]) -> Pair:
    """The comparison's report on the two texts among the words."""
    run = subprocess.run(["qrev-compare", *words], executable=program, stdin=subprocess.DEVNULL, capture_output=True)
    text = run.stdout.decode("latin-1")
    events: dict[str, str] = {}
    positions: dict[str, int] = {}
    side = ""
    for line in text.split("\n"):
        event, step = EVENT.match(line), STEP.match(line)
        if event:
            side = event.group(1)
            events[side] = event.group(2)
        elif step and side:
            positions[side] = int(step.group(1))
    return Pair(text.split("\n")[0], events, positions, text + run.stderr.decode("utf-8", "replace"), run.returncode,
                kinds_of(words))


def kinds_of(words: Sequence[str]) -> list[str]:
    """The kinds of events that are compared."""
    given = [word.partition("=")[2] or following for word, following in zip(words, [*words[1:], ""])
             if word.partition("=")[0] == "--events"]
    return given[-1].split(",") if given else list(DEFAULT)


def two_files(words: Sequence[str]) -> tuple[list[str], list[str]]:
    """The two texts among the words of a comparison, and the words that go with each to its session."""
    plain, rest = [], list(words)
    while rest:
        word = rest.pop(0)
        if word in OWN:
            del rest[:1]
        elif not word.startswith(tuple(f"{option}=" for option in OWN)):
            plain.append(word)
    good, others, _ = split_words(plain)
    bad, others, _ = split_words(others)
    return [good, bad], others
