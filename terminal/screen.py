"""What a stop shows: the place, the lines of the text around it, the values of operands, and the place in the
source."""
from __future__ import annotations

import re
import shutil
import sys
import textwrap
from typing import Iterator

from .answers import Place
from .frames import Frames, allocations_of
from .lowered import Lowered
from .origins import Origins
from .scratch import Refused
from .session import Session
from .sourcemap import SourceMap
from .text import Instruction
from .values import brief, is_stack

AROUND = 2
TAB = 4
WIDTH = 100
GAP = "    "
# Beyond so many moves the frames of callers aren't looked for at each stop: that goes back along all of them.
MOST_MOVES = 1_000_000
HALTED = "fault halted"
CONTROL = re.compile(r"[\x00-\x1f\x7f]")


def readable(line: str) -> str:
    """A line of a text as a terminal shows it: tabs as spaces, other control characters as ^L."""
    return CONTROL.sub(lambda found: f"^{chr(ord(found.group()) ^ 64)}", line.expandtabs(TAB))


class Screen:
    def __init__(self, session: Session, frames: Frames, sources: SourceMap, lowered: Lowered, origins: Origins):
        self.session, self.frames, self.map, self.lowered, self.origins = session, frames, sources, lowered, origins

    @property
    def width(self) -> int | None:
        """The columns of the terminal; without one nothing is cut."""
        return max(shutil.get_terminal_size().columns, 10) if sys.stdout.isatty() else None

    def cut(self, line: str) -> str:
        width = self.width
        return line if width is None or len(line) <= width else line[:width - 2] + ".."

    def filled(self, text: str, indent: str) -> list[str]:
        """A text in lines as wide as the terminal."""
        first = indent if indent.isspace() and len(indent) > 2 else ""
        return textwrap.wrap(text, self.width or WIDTH, initial_indent=first, subsequent_indent=indent,
                             break_on_hyphens=False)

    # Values.

    def name(self, value: int, width: str, temporary: str = "") -> str | None:
        """The name of an address in the state where the session stands, and of a temporary that holds it."""
        if width != "l":
            return None
        found = self.session.names.of(value)
        if found or not is_stack(value):
            return found
        if self.session.place.position <= MOST_MOVES:
            over = self.origins.over(value, self.session.timeline, temporary, is_asked=False) if temporary else None
            return over.short if over else self.short_owner(value)
        return self.own_allocation(value)

    def short_owner(self, value: int) -> str | None:
        """The alloc that an address belongs to, as its temporary alone where the frame is the innermost one."""
        owner = self.frames.owner(value, self.session.timeline)
        return owner and (owner.partition(" alloc ")[2] if owner.startswith("frame 0 ") else owner)

    def own_allocation(self, value: int) -> str | None:
        """As above, of the innermost frame alone, which needs no move."""
        frames = self.session.frames()
        if not frames:
            return None
        for name, size in allocations_of(self.session.program, frames[0].function).items():
            begin = self.session.value(name)
            if begin is not None and begin <= value < begin + size < 1 << 63:
                return f"{name}+{value - begin}"
        return None

    def beside(self, place: Place, instruction: Instruction) -> list[str]:
        """What is shown beside an instruction: what it reads, and where it goes. Nothing, where a name is too long to
        be asked for."""
        try:
            return self.operands(place.function, instruction) + self.jump_said(place, instruction)
        except Refused:
            return []

    def operands(self, function: str, instruction: Instruction) -> list[str]:
        """Each temporary that an instruction reads, with its value, as `%x=5`."""
        classes = self.session.program.functions[function].temporaries
        found = []
        for operand in instruction.operands:
            if operand.is_temporary:
                value = self.session.value(operand.text)
                name = self.name(value, classes[operand.text], operand.text) if value is not None else None
                found.append(f"{operand.text}={brief(value, classes[operand.text], name)}")
        return list(dict.fromkeys(found))

    def jump_said(self, place: Place, instruction: Instruction) -> list[str]:
        """Where a jump goes, and what its phis will set."""
        if not instruction.labels:
            return []
        label = instruction.labels[0]
        if instruction.operation == "jnz":
            value = self.known(instruction.operands[0].text)
            if value is None:
                return []
            label = instruction.labels[0 if value % (1 << 32) else 1]
        found = [f"-> {label}"]
        function = self.session.program.functions[place.function]
        for phi in function.blocks[label].phis:
            operand = phi.operands[phi.labels.index(place.label)]
            value = self.known(operand.text)
            width = function.temporaries[phi.result or ""]
            name = operand.text if operand.is_temporary else ""
            shown = "unset" if value is None else brief(value, width, self.name(value, width, name))
            found.append(f"{phi.result}={shown}")
        return found

    def known(self, text: str) -> int | None:
        """The value of an operand: a number, a temporary of the innermost frame, or an address."""
        if text.startswith("%"):
            return self.session.value(text)
        return self.session.program.addresses[text] if text.startswith("$") else int(text) % (1 << 64)

    # Ends.

    def halted(self) -> str | None:
        """How the run ended, where it was halted in a function that isn't the program's own."""
        if self.session.place.end != HALTED:
            return None
        frames = self.session.frames()
        return self.lowered.halted_in(frames[0].function) if frames else None

    def is_elsewhere(self) -> bool:
        """Whether the run ended by a fault in a function that isn't the program's own."""
        frames = self.session.frames() if self.session.place.is_fault else []
        return bool(frames) and not self.lowered.is_own(frames[0].function)

    def place_line(self) -> str:
        """The place line, with how the run ended in words where that is no fault of the program."""
        halted = self.halted()
        return f"#{self.session.place.position} {halted}" if halted else str(self.session.place)

    def own_place(self) -> Place | None:
        """Where the innermost frame of the program's own functions made its call, if another one halted."""
        own = (frame for frame in self.session.frames() if self.lowered.is_own(frame.function))
        frame = next(own, None)
        return Place(frame.position, frame.function, frame.label, frame.index - 1) if frame and frame.index else None

    # Lines of the text.

    def text_lines(self, first: int, last: int, marked: int, beside: list[str]) -> Iterator[str]:
        """Lines of the text with their numbers, one of them marked, and what stands beside that."""
        lines = self.session.program.lines
        digits = len(str(min(last, len(lines))))
        for number in range(max(first, 1), min(last, len(lines)) + 1):
            line = f"{'>' if number == marked else ' '} {number:{digits}}  {readable(lines[number - 1])}"
            if number == marked and beside:
                yield from self.with_values(line, beside)
            else:
                yield self.cut(line)

    def with_values(self, line: str, beside: list[str]) -> Iterator[str]:
        """A line with values beside it, or on lines below where the terminal is too narrow."""
        said = ", ".join(beside)
        if self.width is None or len(line) + len(GAP) + len(said) <= self.width:
            yield line + GAP + said
            return
        yield self.cut(line)
        for value in beside:
            yield GAP + value

    def place_lines(self, place: Place | None = None) -> list[str]:
        """The text around a place; without one around that where the session stands, with the values of operands."""
        is_here = place is None
        is_elsewhere = is_here and self.is_elsewhere()
        place = place or (self.own_place() if is_elsewhere else None) or self.session.place
        if not place.function:
            frames = self.session.frames()
            if not frames:
                return []
            place = frames[0]
        instruction = self.session.program.functions[place.function].at(place.label, place.index)
        is_read = is_here and not is_elsewhere
        beside = self.beside(place, instruction) if is_read else []
        source, written = self.map.place(instruction.line), self.map.text_of(instruction.line)
        lines = [self.cut(f"  source: {source}" + (f"  {readable(written)}" if written else ""))] if source else []
        return lines + list(self.text_lines(instruction.line - AROUND, instruction.line + AROUND, instruction.line,
                                            beside))
