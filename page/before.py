"""What lies before the window that the page has of a long run: `why` of the terminal finds it, by a process of its
own."""
from __future__ import annotations

import threading
from typing import Any

from terminal.causes import MOST_BYTES_ASKED, Cause, Causes, Question
from terminal.frames import Frames
from terminal.lowered import Lowered
from terminal.scratch import Launch, Refused, Scratch
from terminal.text import Program
from terminal.timeline import Timeline
from terminal.values import Names
from terminal.waiting import Interrupted, Waiting

from .windows import Pool

OVERTAKEN = {"overtaken": "something else was asked since"}
WAYS = ("control", "call")
# The last address, and the last byte of an output.
MOST_ADDRESS = (1 << 32) - 1


class Before:
    """Answers one question at a time: who asks the next one breaks the last one off."""

    def __init__(self, launch: Launch, program: Program, lowered: Lowered, pool: Pool):
        self.program, self.pool = program, pool
        self.waiting = Waiting()
        self.scratch = Scratch(launch, self.waiting)
        names = Names(program)
        self.frames = Frames(program, names, self.scratch)
        self.causes = Causes(program, names, self.frames, self.scratch, lowered=lowered)
        self.lock = threading.Lock()
        self.asked = 0

    def answer(self, at: Timeline, asked: dict[str, Any]) -> dict[str, Any]:
        """The moves by which what is asked about came to be, each with its line; or a note, where no move did it."""
        self.asked += 1
        number = self.asked
        self.waiting.pressed_at = 0.0
        with self.lock:
            self.waiting.begin()
            if number != self.asked:
                return OVERTAKEN
            try:
                self.begin(at.position)
                self.causes.is_inside = asked.get("inside") is True
                return self.found(at, asked)
            except Interrupted:
                return OVERTAKEN

    def begin(self, position: int) -> None:
        """Takes a process that has been far along the run, if there is none yet."""
        if self.scratch.pipe and self.scratch.pipe.process.poll() is None:
            return
        free = self.pool.take(position)
        self.pool.refill()
        free.pipe.pulse = self.waiting.check
        self.scratch.drop()
        self.scratch.pipe, self.scratch.timeline = free.pipe, free.at
        # Tells where it stands.
        word = "back" if free.at.position else "step"
        self.scratch.after(self.scratch.ask(f"{word} 1")[0], word)

    def found(self, at: Timeline, asked: dict[str, Any]) -> dict[str, Any]:
        of = asked.get("of")
        if of == "memory":
            return self.of_memory(at, asked.get("address"), asked.get("bytes"))
        if of == "temporary":
            return self.of_temporary(at, asked.get("name"))
        if of == "output":
            return self.told(at, self.causes.of_output(self.number(asked.get("index"), self.written(at) - 1), at))
        if of == "end" and self.scratch.go(at).place.end:
            return self.told(at, self.causes.of_end(at))
        if of in WAYS:
            return self.told(at, self.causes.of(Question(of, at)))
        raise Refused("a value, bytes, a byte of the output or a way was expected")

    @staticmethod
    def number(given: Any, last: int) -> int:
        if not isinstance(given, int) or isinstance(given, bool) or not 0 <= given <= last:
            raise Refused(f"a number from 0 to {last} was expected")
        return given

    def written(self, at: Timeline) -> int:
        return int(self.scratch.go(at).ask("out")[0][0].split(" ")[1])

    def of_temporary(self, at: Timeline, name: Any) -> dict[str, Any]:
        at = self.frames.before_end(at)
        function = self.frames.where(at)[0].function
        if not isinstance(name, str) or name not in self.program.functions[function].temporaries:
            raise Refused(f"a temporary of {function} was expected")
        value = self.scratch.go(at).values(name)[0]
        answer = self.told(at, self.causes.of(self.causes.temporary(name, at)))
        return {**answer, "value": None if value is None else str(value)}

    def of_memory(self, at: Timeline, address: Any, wanted: Any) -> dict[str, Any]:
        """Of bytes from an address on those that are wanted: by which moves, each with its bytes."""
        first = self.number(address, MOST_ADDRESS)
        if not isinstance(wanted, list) or not 0 < len(wanted) <= MOST_BYTES_ASKED:
            raise Refused(f"a list of at most {MOST_BYTES_ASKED} bytes was expected")
        offsets = {self.number(offset, MOST_BYTES_ASKED - 1) for offset in wanted}
        writers, left, _ = self.causes.writers(first, max(offsets) + 1, at)
        calls: dict[int, set[int]] = {}
        for position, span in writers:
            if span & offsets:
                call = at.at(position) if at.poke_at(position) else self.causes.call_in_own(at.at(position))[0]
                calls.setdefault(call.position, set()).update(span & offsets)
        found = [{**self.move(at, position), "bytes": sorted(calls[position])}
                 for position in sorted(calls, reverse=True)]
        unwritten = sorted(left & offsets)
        which = f"{'byte' if len(unwritten) == 1 else 'bytes'} {', '.join(map(str, unwritten))} " if found else ""
        note = f"{which}so since the start: {self.causes.data_told(first + unwritten[0])}" if unwritten else ""
        return {"found": found, "note": note}

    def told(self, at: Timeline, cause: Cause) -> dict[str, Any]:
        """The move of a cause; of one without a move what it says."""
        if len(cause.lines) == 1 and " was set by hand: " not in cause.lines[0] or " is unset: " in cause.lines[0]:
            return {"found": [], "note": cause.lines[0]}
        return {"found": [self.move(at, cause.at.position)], "note": ""}

    def move(self, run: Timeline, position: int) -> dict[str, Any]:
        """A move of a run, with what it was."""
        place, instruction = self.causes.innermost(run.at(position))
        poke = run.poke_at(position)
        text = poke.line if poke else self.causes.lowered.written(self.program.functions[place.function], instruction)
        return {"move": position, "line": instruction.line, "text": text, "isByHand": poke is not None}

    def close(self) -> None:
        """Breaks off what is asked, and ends the process."""
        self.asked += 1
        self.waiting.pressed_at = 0.0
        with self.lock:
            self.scratch.drop()
