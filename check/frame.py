"""An active call, with the shadows of its temporaries."""
from __future__ import annotations

from dataclasses import dataclass

from terminal.text import Function, Instruction

from .shadow import Object, Shadow


@dataclass(slots=True)
class HeapCall:
    """A call of a function of the heap that isn't made from another of them."""

    role: str
    function: str
    arguments: list[int]
    block: Object | None = None  # the one that is given back


@dataclass(slots=True)
class Frame:
    function: Function
    values: dict[str, int | None]
    shadows: dict[str, Shadow]
    slots: int   # how many there were when it was called
    floor: int   # the top of the stack then
    call: Instruction | None = None
    place: tuple[str, str, int, Instruction] | None = None  # of the call
    heap: HeapCall | None = None
