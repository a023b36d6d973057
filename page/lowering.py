"""What the names of a lowered text stand for, as the page reads it: floats, the runtime, and instructions as they
were."""
from __future__ import annotations

from typing import Any

from terminal.causes import COPYING
from terminal.lowered import Lowered
from terminal.scratch import Launch
from terminal.text import Instruction, Program

from .table import Table


class Lowering:
    """For a text that wasn't lowered there is nothing."""

    def __init__(self, program: Program, source: bytes, launch: Launch, lowered: Lowered):
        self.lowered = lowered
        self.is_lowered = bool(lowered.runtime or lowered.outside or lowered.floats)
        # The classes of temporaries are those of floats here, and of bits where values are asked for.
        self.program = Program(source, launch.renaming) if self.is_lowered else program
        if self.is_lowered:
            lowered.tell_classes(self.program)

    def written(self, function: str, instruction: Instruction) -> str:
        """An instruction as it was before floats became their bits, and operations calls of the runtime."""
        return self.lowered.written(self.program.functions[function], instruction) if self.is_lowered else \
            instruction.written()

    def told(self, table: Table) -> dict[str, Any] | None:
        """Which functions and data aren't the program's own, how a run ends there, and which temporaries and data are
        floats."""
        if not self.is_lowered:
            return None
        lowered, program = self.lowered, self.program
        others = [name for name in [*program.functions, *(data.name for data in program.data)]
                  if not lowered.is_own(name)]
        floats = {table.temporaries[place]: cls for place, cls in lowered.floats.items() if place in table.temporaries}
        return {"others": others, "halted": {name: lowered.halted_in(name) for name in others}, "floats": floats,
                "stores": lowered.stores,
                "cells": {" ".join(map(str, place)): cls for place, cls in lowered.cells.items()},
                "data": {data.name: lowered.data[data.name] for data in program.data if data.name in lowered.data},
                "copying": [name for name in others if name.split(".")[-1].lstrip("$") in COPYING]}
