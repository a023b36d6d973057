"""The fast pass: a separate program finds four kinds of suspicions in a long run, and this adds the lines of the text.

`qrev-check` reports a suspicion by its place. It knows nothing of lines, or how an instruction is written.
"""
from __future__ import annotations

import pathlib
import re
import subprocess
from dataclasses import dataclass
from typing import Callable, Iterator, Mapping

from page.table import Table
from terminal.answers import Place, read_moved
from terminal.pipe import Pipe
from terminal.scratch import Launch

from .objects import READ_ONLY
from .telling import Suspicion

TOP = pathlib.Path(__file__).resolve().parent.parent
# What is asked of a value's origin alone.
KINDS = frozenset(("bounds", "stale", "cut", "stray"))
# How many moves are looked at if nothing is said: some seconds.
LIMIT = 100_000_000
# How often a pulse comes, in seconds.
PULSE = 0.1
TOLD = re.compile(r"#(\d+) (\S+) (\S+) (\d+)  (\w+): (.*?)(?:  \((\d+) times\))?")
# The last line: how many suspicions there are, and at which move another pass should look, if at any.
LAST = re.compile(r"(\d+) suspicions? in \d+ moves?, (?:no other kinds|other kinds not before #(\d+))")
# The object that was meant: behind the distance to it, and before its size or what it is.
MEANT = re.compile(r"(?:\bof|\bbefore|\bin) (\$\S+?)(?: %\S+)? \(|(?:\bof|\bbefore|\bin) (\$\S+), a function")


class Failed(Exception):
    """Why there is no answer, in words."""


def program(is_built: bool, may_build: bool) -> str | None:
    """The program that runs here; None if there is none and it may not be built now."""
    words = [*(["--built"] if is_built else []), *([] if may_build else ["--there"]), "qrev-check"]
    found = subprocess.run([str(TOP / "release" / "program"), *words], stdout=subprocess.PIPE, text=True,
                           stderr=None if may_build else subprocess.DEVNULL)
    if found.returncode and may_build:
        raise Failed("there is no program for --fast")
    return None if found.returncode else found.stdout.strip()


def lines_of(checker: str, launch: Launch, heap: Mapping[str, str] | None = None,
             pulse: Callable[[], None] | None = None) -> list[str]:
    """What the program writes of a run up to the limit of its launch. The heap is the role of each of its functions.
    The pulse comes now and then while it is waited for, and may break it off."""
    words = [checker, launch.file, *launch.words, "--limit", str(launch.limit)]
    if heap:
        # The program takes these as the last words alone.
        words += ["--heap", ",".join(f"{role}={name.removeprefix('$')}" for name, role in heap.items())]
    with subprocess.Popen(words, stdin=subprocess.DEVNULL, stdout=subprocess.PIPE, stderr=subprocess.PIPE,
                          text=True) as process:
        try:
            told, errors = written(process, pulse)
        except BaseException:
            process.kill()
            raise
    lines = (launch.renaming.told(told) if launch.renaming else told).splitlines()
    if process.returncode not in (0, 3, 4, 5) or not lines:
        memory = process.returncode == 2
        raise Failed("the fast pass has run out of memory" if memory else errors.strip() or "the fast pass failed")
    return lines


def written(process: subprocess.Popen[str], pulse: Callable[[], None] | None) -> tuple[str, str]:
    """What a process writes up to its end, to each of its outputs."""
    while True:
        try:
            return process.communicate(timeout=PULSE if pulse else None)
        except subprocess.TimeoutExpired:
            if pulse:
                pulse()


def suspicions(checker: str, launch: Launch, table: Table,
               pulse: Callable[[], None] | None = None) -> list[Suspicion]:
    """Those of a run, in the order in which the first of each came."""
    return list(read(lines_of(checker, launch, pulse=pulse)[:-1], table))


def knows_all(table: Table) -> bool:
    """Whether it can find a run clear of all kinds that are on by default: without read-only data, of which it knows
    nothing, and where no number is called."""
    return not any(data.section.startswith(READ_ONLY) for data in table.program.data) and \
        not any(place[3].operation == "call" and place[3].operands[0].text[0] not in "$%" for place in table.places)


def known(checker: str, launch: Launch, heap: Mapping[str, str],
          pulse: Callable[[], None] | None = None) -> tuple[int, int | None]:
    """How many suspicions it finds in a run, and the first move that may be suspicious by another kind that is on by
    default, if there is one. Of sections the program knows nothing."""
    line = lines_of(checker, launch, heap, pulse)[-1]
    last = LAST.fullmatch(line)
    if not last:
        raise Failed(f"the fast pass told {line!r}")
    return int(last[1]), int(last[2]) if last[2] else None


def is_clear(checker: str, launch: Launch, heap: Mapping[str, str]) -> bool:
    """Whether a run has no suspicion of any kind that is on by default. It may say no of a run that has none."""
    return known(checker, launch, heap) == (0, None)


def read(lines: list[str], table: Table) -> Iterator[Suspicion]:
    for line in lines:
        found = TOLD.fullmatch(line)
        if not found:
            raise Failed(f"the fast pass told {line!r}")
        position, function, label, index, kind, text, count = found.groups()
        instruction = table.places[table.ids[f"{function} {label} {index}"]][3]
        yield Suspicion(kind, int(position), function, label, int(index), instruction, text, int(count or 1))


def meant_by(told: Suspicion) -> str | None:
    """The name of the object that was meant, or of the function that made it."""
    found = MEANT.search(told.text)
    return (found[1] or found[2]) if found else None


def add_further(found: list[Suspicion], further: list[Suspicion]) -> None:
    """Adds to suspicions of the first moves what the fast pass finds in all: other places, and the counts at known
    ones."""
    known: dict[tuple[str, str, int, str], list[Suspicion]] = {}
    for each in found:
        known.setdefault(each.at, []).append(each)
    for each in further:
        same = known.get(each.at, [])
        if not same:
            found.append(each)
        elif len(same) == 1:
            # At a place in a runtime to which several calls led the fast pass counts them all together.
            same[0].count = max(same[0].count, each.count)
    found.sort(key=lambda each: (each.position, each.kind))


@dataclass
class End:
    """Where a run stands at its limit, or how it ended, and the place of the last move."""

    moves: int
    told: str
    is_over: bool
    last: Place | None

    @property
    def is_fault(self) -> bool:
        return self.told.startswith("fault")


def end_of(launch: Launch) -> End:
    """The end of a run, as the debugger prints it."""
    pipe = Pipe(launch.command(None), renaming=launch.renaming)
    try:
        moved, before = (read_moved(lines) for lines in pipe.ask("continue", "back"))
    finally:
        pipe.close()
    place = moved.place
    if not place:
        raise Failed(f"the debugger said {moved.refusal!r}")
    if place.end:
        return End(place.position, place.end, True, before.place)
    return End(place.position, f"limit at {place.function}", False, place)
