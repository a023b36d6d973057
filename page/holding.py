"""What the server holds: the session that the page moves, and the arrays of its run.

The page changes the session only by lines of the command language, and these are kept. Whenever its cursor rests, the
page gets the session's answers there, and compares them with what it shows.
"""
from __future__ import annotations

import pathlib
import re
import shlex
import threading
import time
from dataclasses import replace
from typing import Any, Sequence

from terminal.answers import read_value
from terminal.launching import texts_of
from terminal.lowered import lowered_of
from terminal.scratch import KEEPING, Launch, Refused
from terminal.session import Session
from terminal.text import Program
from terminal.timeline import Poke, Timeline
from terminal.typed import as_typed
from terminal.waiting import Waiting

from .before import Before
from .gathering import Gathering, length_of
from .lowering import Lowering
from .suspecting import far_suspicions_of, suspicions_of
from .table import Origins, Table
from .windows import MOST_MOVES as LAST_MOVE
from .windows import Long, Window

# A run of at most so many moves is shown whole; of a longer one an overview, and windows.
MOST_MOVES = 1 << 21
# How many objects, and bytes of each, are compared at a rest.
MOST_OBJECTS, MOST_BYTES = 64, 256
# How long the end of a gathering is waited for, in seconds.
PATIENCE = 3
STOP = re.compile(r"break \$[\w.$]+ @[\w.$]+ \d{1,9}|watch [bhwl] (\d{1,20}|\$[\w.$]+(\+\d{1,20})?)|"
                  r"watch \$[\w.$]+ %[\w.$]+|delete \d{1,19}", re.ASCII)
# Why the session stands, if it is a stop.
STOPPED = re.compile(r"(?:break|watch) (\d+)")
# How often the overview is looked at that isn't as far as the session, in seconds.
PULSE = 0.02
POKE = re.compile(r"set %[\w.$]+ -?\d{1,20}|poke [bhwl] (\d{1,20}|\$[\w.$]+(\+\d{1,20})?) -?\d{1,20}", re.ASCII)


class Held:
    """The session of one run, and what is gathered of it."""

    def __init__(self, launch: Launch, source: bytes, file: str, named: Sequence[str],
                 texts: Sequence[str] | None = None,
                 most: int = MOST_MOVES, folders: Sequence[str] = ()):
        self.launch, self.source, self.file, self.most = launch, source, file, most
        # What stands for the program on a command line of ./qrev, and what comes last there.
        self.named, self.texts = list(named), [] if texts is None else ["--", *texts]
        # One request at a time leads the session, and one looks at another window.
        self.leading, self.looking, self.is_closed = threading.Lock(), threading.Lock(), False
        # What the fast pass finds in a long run, once it has looked.
        self.searching, self.has_searched = threading.Lock(), False
        self.far: dict[str, Any] | None = None
        self.asked = 0
        # Which page leads the session: the one that was opened last.
        self.page = 0
        # The stops that the session has, by number: each as the debugger told it.
        self.stops: dict[int, str] = {}
        self.waiting = Waiting()
        self.session = Session(launch, source, self.waiting)
        self.refused = self.session.pipe.refused
        if self.refused:
            return
        self.program: Program = self.session.program
        self.table = Table(self.program)
        self.origins = Origins(file, folders)
        self.lowering = Lowering(self.program, source, launch, lowered_of(file))
        self.gathering: Gathering
        self.total = length_of(launch, most)
        # The values by hand of the run that is shown.
        self.pokes: tuple[Poke, ...] = ()
        self.long: Long | None = None
        self.before: Before | None = None
        if self.total is None:
            self.begin_long()
        else:
            self.gathering = self.gathered(())

    def begin_long(self) -> None:
        """Of a run that is too long for arrays an overview is made, and its first window."""
        self.long = Long(self.launch, self.table)
        self.before = Before(self.launch, self.lowering.program, self.lowering.lowered, self.long.pool)
        self.gathering = self.long.window(0)

    def gathered(self, pokes: tuple[Poke, ...]) -> Gathering:
        self.pokes = pokes
        return Gathering(self.launch, self.table, self.most, None if pokes else self.total, pokes).begin()

    def change(self, pokes: tuple[Poke, ...], position: int) -> None:
        """Shows another run, which has other values by hand from a position on."""
        if not self.long:
            self.gathering.stop()
            self.gathering = self.gathered(pokes)
            return
        self.pokes = pokes
        with self.looking:
            self.long.change(pokes, position)
            self.gathering = self.long.window(position, self.base)

    def suspicions(self) -> dict[str, Any] | None:
        """Those of the run as it is now."""
        if not self.long:
            return suspicions_of(self.gathering.wait())
        if self.pokes:
            return None
        with self.searching:
            if not self.has_searched:
                self.far, self.has_searched = far_suspicions_of(self.launch, self.table), True
        return self.far

    def told(self) -> dict[str, Any]:
        """The program as the page reads it, and the command that plays its script."""
        return {**self.table.told(self.title, self.origins, self.lowering), "command": self.command(),
                "long": self.long is not None, "stops": list(self.stops.values())}

    @property
    def title(self) -> str:
        """The program's file, or the texts that it was lowered from."""
        names = texts_of(self.named[1:]) if self.named[0] == "--lower" else self.named
        return " ".join(pathlib.Path(name).name for name in names)

    def command(self) -> str:
        return f"./qrev {shlex.join([*map(as_typed, self.named), *self.launch.words, *self.texts])}"

    # The session.

    def open(self) -> Held:
        """The same, unless it has ended."""
        if self.is_closed:
            raise Refused("the session has ended")
        return self

    def check_position(self, position: Any) -> int:
        shown = self.base + len(self.gathering.wait().places) - 1
        last = max(self.long.overview.moves, shown) if self.long else shown
        if not isinstance(position, int) or isinstance(position, bool) or not 0 <= position <= last:
            raise Refused(f"a position from 0 to {last} was expected")
        return position

    def state(self, position: int) -> Timeline:
        """A state of the run that is shown."""
        return Timeline(position, self.pokes).at(position)

    def go(self, position: int) -> dict[str, Any]:
        """Leads the session to a state of the run that is shown, by steps and the pokes that were made on the way
        there."""
        self.session.go(self.state(position))
        return self.answered()

    def answered(self) -> dict[str, Any]:
        """The session's own answers in its current state, for the page to compare."""
        session = self.session
        values = {}
        if not session.place.end:
            for line in session.ask("temps"):
                if line.startswith("%"):
                    value = read_value(line)
                    values[line.split(" ")[0]] = None if value is None else str(value)
        data = [[each.address, bytes(byte or 0 for byte in session.memory(each.address,
                min(each.size, MOST_BYTES))).hex()]
                for each in self.program.data[:MOST_OBJECTS] if each.size]
        written = int(session.ask("out")[0].split(" ")[1])
        frames = [f"{place.function} {place.label} {place.index}" for place in session.frames()]
        return {"place": str(session.place), "values": values, "frames": frames, "data": data, "written": written,
                "lines": len(session.lines)}

    def poke(self, position: int, line: Any) -> dict[str, Any]:
        """A value by hand, which is a move of the session; the run from there on is gathered anew."""
        if not isinstance(line, str) or not POKE.fullmatch(line):
            raise Refused("`set %x VALUE` or `poke WIDTH ADDRESS VALUE` was expected, with a number")
        places, index = self.gathering.places, position - self.base
        if not 0 <= index < len(places) or places[index] == self.table.end:
            raise Refused("the run is over here, or isn't shown; go back into it first")
        self.go(position)
        answer = self.session.change(line)
        if answer[0].startswith("no: "):
            raise Refused(f"{line}: {answer[0][4:]}")
        self.change(self.session.timeline.pokes, position)
        return {**self.answered(), "base": self.base}

    @property
    def base(self) -> int:
        """Where the window that is shown begins."""
        return self.gathering.base if isinstance(self.gathering, Window) else 0

    def unpoke(self) -> dict[str, Any]:
        """Takes the last value by hand back: the session stands before it, and goes on as the program does."""
        if not self.pokes:
            raise Refused("nothing was set by hand")
        position = self.pokes[-1].position
        self.go(position)
        self.change(self.pokes[:-1], position)
        return {**self.answered(), "position": position, "base": self.base}

    def stop(self, line: Any) -> dict[str, Any]:
        """A stop that the session gets, or has no more: the page finds where the run meets it."""
        if not isinstance(line, str) or not STOP.fullmatch(line):
            raise Refused("`break $f @b K`, `watch WIDTH ADDRESS`, `watch $f %x` or `delete N` was expected")
        answer = self.session.change(line)[0]
        if answer.startswith("no: "):
            raise Refused(f"{line}: {answer[4:]}")
        word, number = answer.split(" ")[:2]
        if word == "deleted":
            del self.stops[int(number)]
        else:
            self.stops[int(number)] = answer
        return {"told": answer}

    def seek(self, position: int, way: Any) -> dict[str, Any]:
        """Leads the session of a long run to the next stop from a position on, or back to the last one before it; where
        it stands then, and the number of the stop if it is one."""
        if not self.long:
            raise Refused("all of this run is shown")
        if way not in ("continue", "reverse"):
            raise Refused("`continue` or `reverse` was expected")
        self.session.go(self.state(position))
        moved = self.session.move(way)
        while moved.reason == "limit" and self.session.place.position < LAST_MOVE:
            self.waiting.stop_if_pressed()
            moved = self.session.move(way)
        reached = self.session.place.position
        while not self.long.overview.has_come(reached):
            self.waiting.stop_if_pressed()
            time.sleep(PULSE)
        number = STOPPED.fullmatch(moved.reason)
        return {"position": min(reached, self.long.overview.moves), "number": int(number[1]) if number else None}

    def reach(self, position: int) -> dict[str, Any]:
        """Another window of a long run, with a position in it."""
        if not self.long:
            raise Refused("all of this run is shown")
        window = self.long.window(position)
        self.gathering = window
        return {"base": window.base}

    def why(self, position: int, asked: dict[str, Any]) -> dict[str, Any]:
        """What lies before the window of a long run: the moves by which something came to be what it is."""
        if not self.before:
            raise Refused("all of this run is shown")
        return self.before.answer(self.state(position), asked)

    def script(self) -> str:
        return "".join(line + "\n" for line in self.session.lines)

    def close(self) -> None:
        # What goes on is broken off first: a session whose process is gone would begin another one.
        self.is_closed, self.waiting.pressed_at = True, 0.0
        self.leading.acquire(timeout=PATIENCE)
        self.looking.acquire(timeout=PATIENCE)
        if not self.refused:
            # The copy of the text goes away with the session, so nothing may be started any more.
            self.gathering.stop()
            self.gathering.wait(PATIENCE)
            if self.long and self.before:
                self.before.close()
                self.long.close()
        self.session.close()


def without_bounds(launch: Launch) -> Launch:
    """A launch whose processes go everywhere, as the page does."""
    return replace(launch, history=None, words=tuple(word for word in launch.words if not word.startswith(KEEPING)))
