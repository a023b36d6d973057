"""A run as arrays: the place of each state, and each value that a move set.

One process of the debugger makes the moves one by one and gives the places. A second follows it, and is asked for the
values that these places show to have been set. Both keep no history. Their answers come in parts, each after a letter
and its number of bytes, and the page reads them while the rest is gathered:

    B  how the run begins: its position, frames, temporaries, pokes        (JSON)
    D  the bytes of the data, and of the stack, in the first state
    P  places of states, in order
    V  values, in the order in which they were set: the low halves, then the high halves
    U  which of the values of the last V are unset
    E  how the run ends                                                    (JSON)
    X  why there is no more                                                (text)
"""
from __future__ import annotations

import json
import re
import struct
import threading
import time
from array import array
from queue import SimpleQueue
from typing import Any, Iterator

from terminal.answers import read_output
from terminal.pipe import Ended, Pipe
from terminal.scratch import Launch
from terminal.text import DATA
from terminal.timeline import Poke

from .table import Table

# Moves that are asked for at a time: few at first, so that something is drawn at once.
FIRST, CHUNK = 2_000, 40_000
MOST_BYTES = 256
# What stands behind the position of a place line, or in a refusal.
PLACE = re.compile(r" (.*)\n")
VALUE = re.compile(r"= (\d+)\n")
UNSET = " unset\n"
AT_END, NO_MEMORY = "at end", "memory"
STEP = "step"


class Asked(dict[tuple[int, int], str]):
    """What is sent for the move between two places: the step, and the values that it sets."""

    def __init__(self, table: Table):
        super().__init__()
        self.table = table

    def __missing__(self, pair: tuple[int, int]) -> str:
        found = self[pair] = "".join([STEP, *(f"\nprint {name}" for name in self.table.set_by(*pair))])
        return found


class Gathering:
    """The arrays of a run, from its first state on, as they are gathered."""

    def __init__(self, launch: Launch, table: Table, most: int, total: int | None = None,
                 pokes: tuple[Poke, ...] = ()):
        self.launch, self.table, self.most, self.total = launch, table, most, total
        self.pokes = {poke.position: poke.line for poke in pokes}
        self.places = array(table.code)
        self.values = array("Q")
        self.end, self.output = "", b""
        self.seconds = 0.0
        self.parts: list[bytes] = []
        self.is_done = self.is_stopped = False
        self.news = threading.Condition()

    def begin(self) -> Gathering:
        """Gathers on threads of its own."""
        threading.Thread(target=self.gather, daemon=True).start()
        return self

    def stop(self) -> None:
        self.is_stopped = True

    # Parts.

    def add(self, letter: bytes, content: bytes) -> None:
        with self.news:
            self.parts.append(letter + struct.pack("<I", len(content)) + content)
            self.news.notify_all()

    def finish(self) -> None:
        with self.news:
            self.is_done = True
            self.news.notify_all()

    def streamed(self) -> Iterator[bytes]:
        """All parts, as they come."""
        sent = 0
        while True:
            with self.news:
                self.news.wait_for(lambda: len(self.parts) > sent or self.is_done)
                fresh, is_done = self.parts[sent:], self.is_done
            yield from fresh
            sent += len(fresh)
            if is_done and sent == len(self.parts):
                return

    def wait(self, seconds: float | None = None) -> Gathering:
        with self.news:
            self.news.wait_for(lambda: self.is_done, seconds)
        return self

    # Gathering.

    def gather(self) -> None:
        begun = time.monotonic()
        queue: SimpleQueue[tuple[int, int] | None] = SimpleQueue()
        follower = threading.Thread(target=self.gather_values, args=(queue,), daemon=True)
        try:
            pipe = self.gather_begin()
            follower.start()
            try:
                self.gather_places(pipe, queue)
            finally:
                queue.put(None)
                follower.join()
            self.seconds = time.monotonic() - begun
            self.add(b"E", json.dumps(self.ended()).encode())
        except (Ended, OSError, ValueError, KeyError) as error:
            self.add(b"X", f"the debugger answers no more: {error}".encode())
        finally:
            self.finish()

    def ended(self) -> dict[str, Any]:
        return {"end": self.end, "output": self.output.hex(), "seconds": round(self.seconds, 3)}

    def process(self) -> Pipe:
        """A process that keeps no history, in the first state."""
        pipe = Pipe(self.launch.command(1), renaming=self.launch.renaming)
        if pipe.refused:
            raise pipe.refused
        return pipe

    def gather_begin(self) -> Pipe:
        """The first state; the process that is in it."""
        pipe = self.process()
        place = pipe.loaded[1].split(" ", 1)[1]
        entry = self.table.program.functions[place.split(" ")[0]]
        names = self.table.parameters_asked(entry.name)
        self.places.append(self.table.ids[place])
        begin = {"base": 0, "begun": [entry.name],
                 "given": [self.table.temporaries[entry.name, name] for name in names],
                 "written": 0, "total": self.total, "pokes": self.pokes, "top": None}
        self.add(b"B", json.dumps(begin).encode())
        self.add(b"D", data_bytes(pipe, self.table))
        self.add(b"P", self.places.tobytes())
        if names:
            self.add_values(pipe.ask_text("".join(f"print {name}\n" for name in names)))
        return pipe

    def lead(self, pipe: Pipe, position: int) -> None:
        """Leads a new process to a position, by steps and by the pokes on the way."""
        at, lines = 0, []
        for poke in sorted(self.pokes):
            if poke < position:
                lines += [f"step {poke - at}"] * (poke > at) + [self.pokes[poke]]
                at = poke + 1
        pipe.ask(*lines, *[f"step {position - at}"] * (position > at))

    def with_room(self, pipe: Pipe, size: int, position: int) -> Pipe:
        """The process, or another one at the same position where this one can't be sent so much more."""
        if pipe.has_room(size):
            return pipe
        pipe.close()
        pipe = self.process()
        self.lead(pipe, position)
        return pipe

    def gather_places(self, pipe: Pipe, queue: SimpleQueue[tuple[int, int] | None]) -> None:
        position, size, is_over = 0, FIRST, False
        while position < self.most and not is_over and not self.is_stopped:
            count = min(size, self.most - position)
            lines = self.lines(position, count)
            pipe = self.with_room(pipe, len(lines), position)
            is_over = self.take_places(pipe.ask_text(lines))
            self.add(b"P", self.places[position + 1:].tobytes())
            queue.put((position, len(self.places) - 1))
            position, size = len(self.places) - 1, min(CHUNK, size * 4)
        self.output = read_output(pipe.ask("out")[0][0])
        pipe.close()

    def lines(self, position: int, count: int) -> str:
        """A step for each of the next moves, or the poke that it was."""
        if any(position <= poke < position + count for poke in self.pokes):
            return "".join(f"{self.pokes.get(at, STEP)}\n" for at in range(position, position + count))
        return f"{STEP}\n" * count

    def take_places(self, told: str) -> bool:
        """Keeps the places that came; True if the run is over."""
        lines = PLACE.findall(told)
        known = len(self.places)
        try:
            self.places.extend(map(self.table.ids.__getitem__, lines))
            return False
        except KeyError:
            # What was taken up to here are all the places before the end.
            rest = lines[len(self.places) - known:]
        if rest[0] not in (AT_END, NO_MEMORY):
            self.end = rest[0]
            self.places.append(self.table.end)
        return True

    def gather_values(self, queue: SimpleQueue[tuple[int, int] | None]) -> None:
        """Asks for the values of moves whose places are known, part by part."""
        asked = Asked(self.table)
        pipe = self.process()
        try:
            while (span := queue.get()) and not self.is_stopped:
                begin, end = span
                lines = self.value_lines(asked, begin, end)
                # A move that sets nothing is made by one line with the next one. (A name may end with `step`.)
                text = ("\n".join(lines) + "\n").replace("\nstep\nstep\nprint", "\nstep 2\nprint")
                pipe = self.with_room(pipe, len(text), begin)
                self.add_values(pipe.ask_text(text))
        except (Ended, OSError) as error:
            self.add(b"X", f"the debugger answers no more: {error}".encode())
        finally:
            pipe.close()

    def value_lines(self, asked: Asked, begin: int, end: int) -> list[str]:
        """For each of some moves whose places are known what makes it and asks for the values that it sets."""
        places = self.places[begin:end + 1]
        lines = list(map(asked.__getitem__, zip(places, places[1:])))
        for poke in (at for at in self.pokes if begin <= at < end):
            lines[poke - begin] = poke_asked(self.pokes[poke])
        return lines

    def add_values(self, told: str) -> None:
        """Keeps the values among the answers, in their order."""
        unset = array("I")
        if UNSET in told:
            found = array("Q")
            for line in told.split("\n"):
                if line.startswith("%"):
                    if line.endswith(UNSET[:-1]):
                        unset.append(len(found))
                    found.append(0 if line.endswith(UNSET[:-1]) else int(line[line.rindex(" ") + 1:]))
        else:
            found = array("Q", map(int, VALUE.findall(told)))
        self.values.extend(found)
        halves = memoryview(found.tobytes()).cast("I")
        self.add(b"V", halves[::2].tobytes() + halves[1::2].tobytes())
        if unset:
            self.add(b"U", unset.tobytes())


def poke_asked(line: str) -> str:
    """What is sent for a poke: a `set` is a move that sets a value."""
    word, name = line.split(" ")[:2]
    return f"{line}\nprint {name}" if word == "set" else line


def data_bytes(pipe: Pipe, table: Table) -> bytes:
    """All bytes from the first data object to the end of the last, as they are in the state of a process."""
    data = table.program.data
    size = data[-1].address + data[-1].size - DATA if data else 0
    return live_bytes(pipe, DATA, size)


def live_bytes(pipe: Pipe, address: int, size: int) -> bytes:
    """So many bytes of memory; 0 for each that isn't live."""
    lines = [f"mem {address + at} {min(MOST_BYTES, size - at)}" for at in range(0, size, MOST_BYTES)]
    return b"".join(bytes.fromhex(answer[0].replace("--", "00")) for answer in pipe.ask(*lines))


def length_of(launch: Launch, most: int) -> int | None:
    """How many moves a run has, or None if it has more than a limit."""
    pipe = Pipe(launch.command(1), renaming=launch.renaming)
    if pipe.refused:
        raise pipe.refused
    place = pipe.ask(f"step {most}")[0][-1]
    pipe.close()
    position, _, rest = place[1:].partition(" ")
    return None if rest.startswith("$") else int(position)
