"""The run of an accepted text, gathered for a follower."""
from __future__ import annotations

import pathlib
from typing import NamedTuple

from page.gathering import Gathering
from page.table import Table
from terminal.pipe import Pipe
from terminal.scratch import SLICE, Launch
from terminal.text import Program


class Run(NamedTuple):
    """What a follower is made of, and what it follows."""

    launch: Launch
    table: Table
    gathered: Gathering
    data: bytes


def run_of(program: str, file: pathlib.Path, source: bytes, words: list[str], moves: int) -> Run | None:
    """The run of a text, at most a number of moves of it; None if the text is refused."""
    launch = Launch(program, str(file), tuple(words), SLICE)
    first = Pipe(launch.command(1))
    first.close()
    if first.refused:
        return None
    table = Table(Program(source))
    gathered = Gathering(launch, table, moves)
    gathered.gather()
    return Run(launch, table, gathered, next(part[5:] for part in gathered.parts if part[:1] == b"D"))
