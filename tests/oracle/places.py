"""The lines of a text and the places of its program: the line of a place, and the place that a line means."""
from __future__ import annotations

from collections.abc import Iterator
from typing import NamedTuple, Optional

from .tree import Program


class Mark(NamedTuple):
    """A line that means a place."""

    line: int
    func: int
    block: int
    at: int
    is_place: bool  # whether what is at the place stands on this line: an instruction or a written jump


def marks(program: Program) -> Iterator[Mark]:
    """Each line of the text that means a place, in the order of the text: labels, phis, instructions, written jumps."""
    for func, code in enumerate(program.funcs):
        for block, part in enumerate(code.blocks):
            yield Mark(part.line, func, block, 0, False)
            for phi in part.phis:
                yield Mark(phi.line, func, block, 0, False)
            for index, inst in enumerate(part.insts):
                yield Mark(inst.line, func, block, index, True)
            if part.jump.is_written:
                yield Mark(part.jump.line, func, block, len(part.insts), True)


def place_from(program: Program, line: int) -> Optional[tuple[int, int, int]]:
    """The place that a line means: the first whose line isn't before it, or None."""
    for mark in marks(program):
        if line <= mark.line:
            return mark.func, mark.block, mark.at
    return None


def line_of(program: Program, func: int, block: int, index: int) -> int:
    """The line of a place. A jump that the text leaves out has that of the next label."""
    part = program.funcs[func].blocks[block]
    return part.insts[index].line if index < len(part.insts) else part.jump.line


def lines_of_code(program: Program) -> list[int]:
    """The lines on which instructions and written jumps stand."""
    return [mark.line for mark in marks(program) if mark.is_place]
