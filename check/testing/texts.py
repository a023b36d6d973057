"""Whole texts and rows, with the expected suspicions of each."""
from __future__ import annotations

import pathlib
import re
import subprocess
import sys
import tempfile
from functools import partial
from typing import Callable, Iterator

from .rows import ROWS, text_of

MAIN = pathlib.Path(__file__).resolve().parent.parent / "main"
TEXTS = pathlib.Path(__file__).resolve().parent / "texts"
PLACE = re.compile(r"(#\d+ \S+ \S+ \d+)  line (\d+): ")
SECONDS = 600
# The program of the fast pass, if it isn't the one that runs here.
CHECKER: list[str] = []
Case = tuple[str, Callable[[], str | None]]


def run(program: str, *words: str, full: int | None = None) -> subprocess.CompletedProcess[str]:
    """A check; with `full` of so many moves for all kinds, whatever the fast pass says."""
    options = [*CHECKER, *(["--full", str(full)] if full else [])]
    return subprocess.run([sys.executable, str(MAIN), "--debugger", program, *options, "--", *words],
                          capture_output=True, text=True, timeout=SECONDS)


def found_in(lines: list[str]) -> list[tuple[str, int, str]]:
    """The place, the line and the kind of each reported suspicion."""
    found = []
    for first, second in zip(lines[:-1:2], lines[1:-1:2]):
        place = PLACE.match(first)
        if not place:
            raise ValueError(f"{first!r} isn't the first line of a suspicion")
        found.append((place[1], int(place[2]), second.strip().partition(":")[0]))
    return found


def text_fault(program: str, file: pathlib.Path) -> str | None:
    """How the report on a text differs from the expected one beside it, or None."""
    wanted = [" ".join(line.split()) for line in file.with_suffix(".expect").read_text().splitlines() if line]
    lines = run(program, str(file)).stdout.splitlines()
    given = [f"{place} line {line} {kind}" for place, line, kind in found_in(lines)]
    end = re.fullmatch(r"(?:no|\d+) suspicions? in (\d+) moves?, (.*)", lines[-1])
    given.append(f"end #{end[1]} {end[2]}" if end else lines[-1])
    return None if given == wanted else f"{given} in place of {wanted}"


def row_fault(program: str, beside: str, lines: list[str], wanted: list[tuple[int, str]]) -> str | None:
    before = beside.count("\n") + 2
    with tempfile.TemporaryDirectory(prefix="check-") as place:
        file = pathlib.Path(place) / "row.ssa"
        file.write_text(text_of(beside, lines))
        told = run(program, str(file))
    given = [(line - before, kind) for _, line, kind in found_in(told.stdout.splitlines())]
    return None if given == wanted else f"{given} in place of {wanted}: {told.stdout}{told.stderr}"


def cases(program: str) -> Iterator[Case]:
    for file in sorted(TEXTS.glob("*.ssa")):
        yield f"text {file.stem}", partial(text_fault, program, file)
    for name, *row in ROWS:
        yield f"row {name}", partial(row_fault, program, *row)
