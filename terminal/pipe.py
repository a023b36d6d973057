"""The debugger at a pipe.

A command's answer ends where the next line's answer begins. So after commands a line is sent that is no command: it
changes nothing, and its answer is `no: unknown command`, which no command of the language gives and no other answer
contains as a line.
"""
from __future__ import annotations

import fcntl
import os
import select
import subprocess
import time
from typing import Callable

from .renaming import Renaming

MARK = b"?\n"
MARKED_LINE = "no: unknown command"
MARKED = MARKED_LINE.encode() + b"\n"
# Commands whose answers have as many lines as there are frames, temporaries, instructions, stops, accesses or places.
UNBOUNDED = frozenset(("where", "temps", "list", "stops", "accesses", "counts", "frames"))
# The debugger reads so many bytes of a script and no more (docs/DEBUGGER.md).
MOST_SENT = 1 << 24
PIECE = WIDE = 1 << 18
PULSE = 0.1
# Bytes that are sent with many commands, and how long their answers may gather, in seconds.
PIECE_OF_MANY, MOMENT = 1 << 10, 0.0005


def is_unbounded(line: str) -> bool:
    words = line.split()
    return bool(words) and words[0] in UNBOUNDED


class Ended(Exception):
    """The debugger's process ended, with that status."""

    def __init__(self, status: int):
        super().__init__(f"status {status}" if status >= 0 else f"signal {-status}")
        self.status = status


class Pipe:
    """A process of the debugger, in a process group of its own, so that Ctrl-C at the terminal doesn't reach it."""

    def __init__(self, words: list[str], pulse: Callable[[], None] = lambda: None, renaming: Renaming | None = None):
        self.process = subprocess.Popen(["qrev", *words[1:]], executable=words[0], stdin=subprocess.PIPE,
                                        stdout=subprocess.PIPE, start_new_session=True)
        assert self.process.stdin and self.process.stdout
        self.sink, self.source = self.process.stdin, self.process.stdout
        os.set_blocking(self.sink.fileno(), False)
        self.widen()
        self.pulse, self.sent, self.renaming = pulse, 0, renaming
        self.refused: Ended | None = None
        try:
            self.loaded = self.told(self.exchange(MARK, 1)[:-len(MARKED)]).splitlines()
        except Ended as end:
            self.loaded = self.rest.decode("latin-1").splitlines()
            self.refused = end

    def widen(self) -> None:
        """Lets more stand in the pipes than the system gives at first, so that neither side waits for the other
        often."""
        for stream in (self.sink, self.source):
            try:
                fcntl.fcntl(stream.fileno(), fcntl.F_SETPIPE_SZ, WIDE)
            except (OSError, AttributeError):
                pass

    def exchange(self, sent: bytes, marks: int) -> bytes:
        """Writes all of it while it reads, until the answer to a mark came N times."""
        source, sink = self.source.fileno(), self.sink.fileno()
        left, self.rest = memoryview(sent), bytearray()
        self.sent += len(sent)
        while marks:
            ready, room, _ = select.select([source], [sink] if left else [], [], PULSE)
            self.pulse()
            if room:
                try:
                    left = left[os.write(sink, left[:PIECE]):]
                except BrokenPipeError:
                    left = left[:0]
            if ready:
                if len(sent) > PIECE_OF_MANY:
                    # Each answer comes for itself: after a moment many can be read at once.
                    time.sleep(MOMENT)
                piece = os.read(source, PIECE)
                if not piece:
                    raise Ended(self.process.wait())
                # A mark may have begun in the piece before, but can't have been whole there.
                begin = max(0, len(self.rest) - len(MARKED) + 1)
                self.rest += piece
                marks -= self.rest.count(MARKED, begin)
        return bytes(self.rest)

    def ask(self, *lines: str) -> list[list[str]]:
        """The lines of the answer to each command.

        Most answers show by their first line how many there are; a mark is needed after the others, and at the end.
        """
        if not lines:
            return []
        sent = self.written("".join(line + ("\n?\n" if is_unbounded(line) else "\n") for line in lines))
        marks = 1 + sum(map(is_unbounded, lines))
        told = self.told(self.exchange(sent + MARK, marks)).split("\n")
        answers, at = [], 0
        for line in lines:
            if is_unbounded(line):
                behind = told.index(MARKED_LINE, at)
                answers.append(told[at:behind])
                at = behind + 1
            else:
                behind = at + (2 if told[at].startswith("stop: ") else 1)
                answers.append(told[at:behind])
                at = behind
        return answers

    def begin(self, *lines: str) -> bool:
        """Sends commands whose answers `finish` takes, whenever they have come; False if there is no room for them at
        once."""
        sent = self.written("".join(f"{line}\n" for line in lines)) + MARK
        try:
            written = os.write(self.sink.fileno(), sent)
        except (BlockingIOError, BrokenPipeError):
            return False
        self.sent += written
        if written < len(sent):
            self.close()
        return written == len(sent)

    def has_answered(self) -> bool:
        """Whether some of an answer is there."""
        return bool(select.select([self.source.fileno()], [], [], 0)[0])

    def finish(self, count: int) -> list[list[str]]:
        """The answers to a number of commands that were sent, each with its length shown by its first line."""
        told = self.told(self.exchange(b"", 1)).split("\n")
        answers, at = [], 0
        for _ in range(count):
            behind = at + (2 if told[at].startswith("stop: ") else 1)
            answers.append(told[at:behind])
            at = behind
        return answers

    def ask_text(self, text: str, marks: int = 0) -> str:
        """All answers to some lines, for answers that show themselves where they end, or by so many marks."""
        return self.told(self.exchange(self.written(text) + MARK, 1 + marks)[:-len(MARKED)])

    def written(self, text: str) -> bytes:
        """Lines as the debugger reads them."""
        return (self.renaming.shortened(text) if self.renaming else text).encode("latin-1", "replace")

    def told(self, answer: bytes) -> str:
        """An answer as people read it."""
        text = answer.decode("latin-1")
        return self.renaming.told(text) if self.renaming else text

    def has_room(self, size: int) -> bool:
        """Whether this many more bytes may be sent."""
        return self.sent + size + len(MARK) < MOST_SENT

    def memory(self) -> int:
        """How many bytes of memory the process holds, or 0 if the system doesn't say."""
        try:
            with open(f"/proc/{self.process.pid}/statm", "rb") as told:
                return int(told.read().split()[1]) * os.sysconf("SC_PAGE_SIZE")
        except (OSError, ValueError, IndexError):
            return 0

    def close(self) -> None:
        """Ends the process, whatever it does."""
        self.process.kill()
        self.process.wait()
        for stream in (self.sink, self.source):
            try:
                stream.close()
            except BrokenPipeError:
                pass
