"""What ended a run badly, or kept it from starting, in the forms that editors and machines read: a fault, at its place
in the text, and a refusal."""
from __future__ import annotations

import re
from dataclasses import replace
from typing import Sequence

from page.table import Table
from terminal.answers import meaning_of
from terminal.launching import first_text
from terminal.lowered import lowered_of
from terminal.pipe import Pipe
from terminal.scratch import Launch, frames_of

from .telling import Error


def fault_error(table: Table, launch: Launch, file: str, moves: int, end: str, last: int) -> Error:
    """The instruction that ended a run by a fault, from the last place of the run; in a function of the runtime it is
    the call that led there."""
    function, label, index, instruction = table.places[last]
    lowered, text = lowered_of(file), end
    others = lowered.runtime | lowered.outside
    if function in others:
        for frame in frames_at(launch, moves):
            if frame[0] not in others:
                text = (lowered.halted_in(function) if end == "fault halted" else None) or f"{end} in {function}"
                function, label, index = frame
                instruction = table.program.functions[function].at(label, index)
                break
    return Error("fault", instruction.line, text, f"#{moves - 1} {function} {label} {index}")


def frames_at(launch: Launch, moves: int) -> list[tuple[str, str, int]]:
    """The places of the frames at the end of a run, the innermost first: of the others the call that led on."""
    pipe = Pipe(replace(launch, limit=moves).command(None))
    try:
        frames = frames_of(pipe.ask("continue", "where")[1])
    finally:
        pipe.close()
    return [(frame.function, frame.label, frame.index - (number > 0)) for number, frame in enumerate(frames)]


def refusal_error(loaded: str, source: bytes) -> Error:
    """A refusal as the debugger prints it: `refused: CODE line L`."""
    _, code, *rest = loaded.split()
    number = int(rest[1]) if rest else 0
    lines = ["", *source.decode("utf-8", "replace").split("\n")]
    return Error(code, number, f"{code}: {meaning_of(code, lines[number].strip() if number < len(lines) else '')}")


def lowering_error(said: str, texts: Sequence[str]) -> tuple[str, Error]:
    """Why one of these texts wasn't lowered, and which: the lowering says `FILE:LINE: WHAT`."""
    for text in texts:
        found = re.fullmatch(r":(\d+): (.*)", said.removeprefix(text), re.DOTALL) if said.startswith(text) else None
        if found:
            return text, Error("refused", int(found[1]), found[2])
    return first_text(texts), Error("refused", 0, said)
