"""The session: one process of the debugger, and all lines that changed it."""
from __future__ import annotations

from .answers import Moved, Place, read_bytes, read_moved, read_place, read_value
from .pipe import Ended, Pipe
from .scratch import MOST_BYTES, MOST_MOVES, Launch, Refused, Scratch, frames_of
from .text import Program
from .timeline import Timeline, common, lines_between
from .values import Names
from .waiting import Waiting

MOVES = ("step", "accesses", "counts", "frames", "back", "continue", "reverse", "set", "poke")


class Session:
    """A program at a prompt. Whatever changes its state is a line of the command language, and is kept."""

    def __init__(self, launch: Launch, source: bytes, waiting: Waiting):
        self.launch, self.waiting = launch, waiting
        self.pipe = Pipe(launch.command(launch.history), renaming=launch.renaming)
        self.scratch = Scratch(launch, waiting)
        self.lines: list[str] = []
        self.news: list[str] = []
        self.timeline = Timeline()
        # How far the run has been with the pokes that it has now.
        self.reached = 0
        self.kept: dict[str, list[str]] = {}
        self.selected = 0
        # Whether the process for questions keeps up with long runs: where somebody waits for their answers.
        self.is_followed = False
        if not self.pipe.refused:
            self.place = read_place(self.pipe.loaded[1])
            self.program = Program(source, launch.renaming)
            self.names = Names(self.program)

    # Lines that change the session.

    def change(self, line: str) -> list[str]:
        """Sends a line that may change the session; it is kept unless it is refused."""
        depth = len(self.frames()) if line.startswith("set ") else 0
        answer = self.send(line)
        if answer[0].startswith("no: "):
            return answer
        self.lines.append(line)
        self.kept.clear()
        if line.split(" ")[0] in MOVES:
            self.place = read_moved(answer).place or self.place
            before, self.timeline = self.timeline, self.timeline.moved(self.place.position, line, depth)
            self.reached = max(self.reached if before.pokes == self.timeline.pokes else 0, self.timeline.position)
            self.selected = 0
            if self.is_followed:
                self.scratch.follow(self.timeline)
        return answer

    def move(self, line: str) -> Moved:
        return read_moved(self.change(line))

    def most_at_once(self, word: str) -> int:
        """How many moves one line makes, so that Ctrl-C is heard; where copies of states are kept, all that go over
        what was run."""
        ahead = MOST_MOVES if word == "back" else self.reached - self.timeline.position
        return max(self.launch.limit, min(ahead, MOST_MOVES) if self.launch.keeps_copies else 0)

    def go(self, there: Timeline) -> None:
        """Leads the session to another state by steps, and by the pokes that were made on the way there."""
        for line in lines_between(self.timeline, there):
            word, _, count = line.partition(" ")
            left = int(count) if word in ("step", "back") else 0
            while left > (most := self.most_at_once(word)):
                if self.move(f"{word} {most}").refusal:
                    # The run is over, however many moves were asked for.
                    break
                left -= most
                self.waiting.tell(self.place.position, target=there.position)
                self.waiting.stop_if_pressed()
            self.move(f"{word} {left}" if left else line)
            if self.timeline.position > there.position == common(self.timeline, there):
                raise Refused(f"the session keeps its last {self.launch.history} moves, which end here")

    def send(self, line: str) -> list[str]:
        if not self.pipe.has_room(len(line) + 3):
            self.begin_anew()
        try:
            return self.pipe.ask(line)[0]
        except Ended as end:
            self.begin_anew()
            self.news.append(f"the debugger ended ({end}); the session's {len(self.lines)} lines were played again")
            return self.pipe.ask(line)[0]

    def begin_anew(self) -> None:
        """Another process, which the kept lines lead to the same state: where one broke, or can't be sent more."""
        self.pipe.close()
        self.pipe = Pipe(self.launch.command(self.launch.history), renaming=self.launch.renaming)
        if self.pipe.refused:
            raise self.pipe.refused
        self.pipe.ask(*self.lines)

    # Questions about where it stands.

    def ask(self, line: str) -> list[str]:
        """The answer to a line that changes nothing, asked once in each state."""
        if line not in self.kept:
            self.kept[line] = self.send(line)
        return self.kept[line]

    def frames(self) -> list[Place]:
        return frames_of(self.ask("where"))

    def memory(self, address: int, count: int) -> list[int | None]:
        found: list[int | None] = []
        for at in range(0, count, MOST_BYTES):
            found += read_bytes(self.ask(f"mem {address + at} {min(MOST_BYTES, count - at)}")[0])
        return found

    def value(self, name: str) -> int | None:
        """The value of a temporary of the innermost frame, None where it is unset."""
        answer = self.ask(f"print {name}")[0]
        if answer.startswith("no: "):
            raise Refused(f"{name}: {answer[4:]}")
        return read_value(answer)

    def memory_taken(self) -> int:
        return self.pipe.memory() + (self.scratch.pipe.memory() if self.scratch.pipe else 0)

    def close(self) -> None:
        self.scratch.drop()
        self.pipe.close()
