"""A second process of the debugger, for questions that must not move the session.

It goes to a position of the session by steps and the same pokes, and finds places of the run by breakpoints and
watches: many hits at a time go through the pipe, with the questions at each of them.
"""
from __future__ import annotations

import re
import time
from dataclasses import dataclass
from typing import Callable, Iterator, NamedTuple, TypeVar

from .answers import Place, read_bytes, read_moved, read_place, read_value
from .pipe import MARK, MARKED_LINE, Ended, Pipe, is_unbounded
from .renaming import Renaming
from .timeline import Timeline, lines_between
from .waiting import Interrupted, Waiting

SLICE = 1_000_000
MOST_AT_ONCE = 4096
# The process follows the session if it is so many moves away, so that a question behind a long run needn't wait for it.
FAR = 8 * SLICE
# The debugger takes no more moves for one `step` or `back`.
MOST_MOVES = (1 << 32) - 1
# A batch that took less than this, in seconds, is followed by a larger one.
SHORT = 0.03
MOST_BYTES = 256
# A stop as it is told: why, by which stop if by one, and where.
TOLD = re.compile(r"stop: (\w+)(?: (\d+))?\n(#(\d+) .*)\n")
ENDS = ("end", "start", "memory")
# Words that say what is kept of a run.
KEEPING = ("--memory", "--replay", "--history")
# What is told where a history with a bound begins.
OLDEST, OLDER = "stop: oldest", "no: history ends"


class Refused(Exception):
    """What a command can't do, in words for whoever typed it."""


Answer = TypeVar("Answer")
# Whether a hit of a stop can count, by its place line and the answers there.
Counts = Callable[[int, str, list[list[str]]], bool]


@dataclass(frozen=True)
class Launch:
    """How a session begins: the debugger, the copy of the program's text, and the words after it."""
    debugger: str
    file: str
    words: tuple[str, ...]
    limit: int = SLICE
    history: int | None = None
    renaming: Renaming | None = None

    @property
    def keeps_copies(self) -> bool:
        """Whether the debugger goes back from copies of states, so that far is as near as close by."""
        return not self.history and "--history=all" not in self.words

    def command(self, history: int | None) -> list[str]:
        """With a history of its own size, whatever the words say."""
        words = [word for word in self.words if not word.startswith(KEEPING)] if history else self.words
        bound = ["--history", str(history)] if history else []
        file = [self.file] if self.file else []
        return [self.debugger, *file, *words, "--limit", str(self.limit), *bound]


class Hit(NamedTuple):
    """A stop of a run: where, by which of the lines that were given (None at the end), and what was answered there."""
    position: int
    stop: int | None
    line: str
    answers: list[list[str]]

    @property
    def place(self) -> Place:
        return read_place(self.line)


class Scratch:
    def __init__(self, launch: Launch, waiting: Waiting):
        self.launch, self.waiting = launch, waiting
        self.pipe: Pipe | None = None
        self.timeline, self.place = Timeline(), Place(0)
        self.stops: list[str] = []
        self.numbers: dict[int, int] = {}
        # What it was sent and hasn't been asked about yet.
        self.following: list[str] = []

    @property
    def history(self) -> int | None:
        """Where the session keeps its last moves only, so does this one, a million at least; it begins anew for
        more."""
        return max(SLICE, self.launch.history) if self.launch.history else None

    @property
    def running(self) -> Pipe:
        """The process, which has been started."""
        assert self.pipe
        return self.pipe

    def drop(self) -> None:
        if self.pipe:
            self.pipe.close()
        self.pipe, self.timeline, self.numbers, self.following = None, Timeline(), {}, []

    def start(self) -> None:
        self.drop()
        self.pipe = Pipe(self.launch.command(self.history), self.waiting.check, self.launch.renaming)
        if self.pipe.refused:
            raise self.pipe.refused
        self.place = read_place(self.pipe.loaded[1])

    def follow(self, there: Timeline) -> None:
        """Has the process go towards another state of the session's run while that goes on, if it is far away."""
        if self.following:
            if not self.pipe or not self.pipe.has_answered():
                return
            self.settle()
        if abs(there.position - self.timeline.position) < FAR:
            return
        if not self.pipe or self.pipe.process.poll() is not None:
            self.start()
        line = lines_between(self.timeline, there)[0]
        word, _, count = line.partition(" ")
        if word in ("step", "back"):
            line = f"{word} {min(int(count), MOST_MOVES)}"
        if self.running.has_room(len(line) + 3) and self.running.begin(line):
            self.following = [line]

    def settle(self) -> None:
        """Waits until the process stands where it was sent."""
        if not self.following:
            return
        lines, self.following = self.following, []
        try:
            answers = self.running.finish(len(lines))
        except (Interrupted, Ended):
            self.drop()
            raise
        for line, answer in zip(lines, answers):
            self.after(answer, line)

    def ask(self, *lines: str) -> list[list[str]]:
        """Answers of the process that is there. Where it is broken off it is gone, and the next question begins
        another."""
        return self.asked(sum(map(len, lines)) + 3 * len(lines), lambda pipe: pipe.ask(*lines))

    def ask_text(self, text: str, marks: int = 0) -> str:
        """All answers to lines whose answers show where they end, or have marks behind them."""
        return self.asked(len(text), lambda pipe: pipe.ask_text(text, marks))

    def asked(self, size: int, call: Callable[[Pipe], Answer]) -> Answer:
        """What a call of the process gives, which sends so many bytes."""
        self.settle()
        if not self.pipe:
            self.start()
        if not self.running.has_room(size):
            self.begin_anew()
        try:
            return call(self.running)
        except (Interrupted, Ended):
            self.drop()
            raise

    def go(self, there: Timeline) -> Scratch:
        """Goes to another state of the session's run; where the process was ended meanwhile, with another one."""
        try:
            self.settle()
        except Ended:
            pass
        if not self.pipe or self.pipe.process.poll() is not None:
            self.start()
        if self.timeline != there and not self.move(there):
            self.start()
            self.move(there)
        return self

    def move(self, there: Timeline) -> bool:
        """Whether the moves led there; they don't where they are no longer kept."""
        for line in lines_between(self.timeline, there):
            word, _, count = line.partition(" ")
            left = int(count) if word in ("step", "back") else 0
            most = MOST_MOVES if word == "back" and self.launch.keeps_copies else 4 * SLICE
            while left > most:
                self.waiting.tell(self.after(self.ask(f"{word} {most}")[0], line), target=there.position)
                left -= most
            self.after(self.ask(f"{word} {left}" if left else line)[0], line)
        return self.timeline == there

    def after(self, answer: list[str], line: str) -> int:
        moved = read_moved(answer)
        if moved.place:
            self.place = moved.place
            self.timeline = self.timeline.moved(moved.place.position, line)
        return self.timeline.position

    def along(self, low: Timeline, high: Timeline, told: Callable[[int], str]) -> Iterator[list[str]]:
        """Goes from one state of a run to a later one by a command that makes so many moves; what that answers."""
        self.go(low)
        for line in lines_between(self.timeline, high):
            word, _, number = line.partition(" ")
            left = int(number) if word == "step" else 0
            if not left:
                self.after(self.ask(line)[0], line)
            while left:
                before = self.timeline.position
                answer = self.ask(told(min(left, SLICE)))[0]
                made = self.after(answer, "step") - before
                yield answer
                if not made:
                    return
                self.waiting.stop_if_pressed()
                self.waiting.tell(self.timeline.position)
                left -= made

    # What is asked of the state where it stands.

    def where(self) -> list[Place]:
        return frames_of(self.ask("where")[0])

    def values(self, *names: str) -> list[int | None]:
        """The values of temporaries of the innermost frame, None for one that is unset or unknown."""
        return [read_value(answer[0]) for answer in self.ask(*(f"print {name}" for name in names))]

    def temporaries(self) -> dict[str, int | None]:
        answer = self.ask("temps")[0]
        return {line.split(" ")[0]: read_value(line) for line in answer if line.startswith("%")}

    def memory(self, address: int, count: int) -> list[int | None]:
        lines = [f"mem {address + at} {min(MOST_BYTES, count - at)}" for at in range(0, count, MOST_BYTES)]
        return [byte for answer in self.ask(*lines) for byte in read_bytes(answer[0])]

    # Runs.

    def set_stops(self, lines: list[str]) -> None:
        """Takes all stops away and sets others, of which it keeps the number of each."""
        deleted = [f"delete {number}" for number in self.numbers]
        answers = self.ask(*deleted, *lines)[len(deleted):] if deleted or lines else []
        self.stops, self.numbers = lines, {}
        for index, answer in enumerate(answers):
            if answer[0].startswith("no: "):
                raise Refused(f"{lines[index]}: {answer[0][4:]}")
            self.numbers[int(answer[0].split(" ")[1])] = index

    def hits(self, is_forward: bool, stops: list[str], questions: list[str] = [], most: int = MOST_AT_ONCE,
             last: int | None = None, counts: Counts | None = None) -> Iterator[Hit]:
        """The stops of a run from here on, with the answers at each; the last one is the end, or the start.

        With `last` the run doesn't go on past that position, though hits after it may still come. Of the hits that
        don't count some come none the less. Meanwhile the process may be further on: to ask more, go to the position
        first.
        """
        if questions:
            yield from self.asked_hits(is_forward, stops, questions, most, last, counts)
            return
        for text in self.texts(is_forward, stops, most, last):
            for reason, number, line, position in TOLD.findall(text):
                if number:
                    yield Hit(int(position), self.numbers[int(number)], line, [])
                elif reason in ENDS:
                    yield Hit(int(position), None, line, [])
                    return

    def texts(self, is_forward: bool, stops: list[str], most: int = MOST_AT_ONCE,
              last: int | None = None) -> Iterator[str]:
        """What a run writes about its stops, many at a time."""
        self.set_stops(stops)
        command = "continue" if is_forward else "reverse"
        size = 1
        while True:
            begun = time.monotonic()
            text = self.ask_text((command + "\n") * size)
            at = text.rfind("\n#") + 1
            is_oldest = OLDEST in text or OLDER in text
            if not self.followed(text[at:text.index("\n", at)] if at else "", command, is_oldest):
                return
            yield text
            if self.is_far_enough(last, is_forward, is_oldest):
                return
            size = next_size(size, most, begun)

    def asked_hits(self, is_forward: bool, stops: list[str], questions: list[str], most: int,
                   last: int | None, counts: Counts | None) -> Iterator[Hit]:
        """The stops of a run, with questions that are asked at each."""
        self.set_stops(stops)
        indices = {f"{word} {number}": index for number, index in self.numbers.items() for word in ("break", "watch")}
        command = "continue" if is_forward else "reverse"
        many = [is_unbounded(question) for question in questions]
        block = "".join(f"{line}\n{MARK.decode() if is_unbounded(line) else ''}" for line in (command, *questions))
        size = 1
        while True:
            begun = time.monotonic()
            text = self.ask_text(block * size, sum(many) * size)
            at = text.rfind("\n#") + 1
            is_oldest = OLDEST in text or OLDER in text
            if not self.followed(text[at:text.index("\n", at)] if at else "", command, is_oldest):
                return
            passed: Hit | None = None
            for reason, line, answers in stops_told(text, many):
                stop = indices.get(reason)
                if counts and stop is not None and not counts(stop, line, answers):
                    passed = Hit(0, stop, line, answers)
                    continue
                passed = None
                if stop is not None or reason in ENDS:
                    yield Hit(int(line[1:line.index(" ")]), stop, line, answers)
                if reason in ENDS:
                    return
            if passed:
                # So that it is known how far the run has come.
                yield passed._replace(position=passed.place.position)
            if self.is_far_enough(last, is_forward, is_oldest):
                return
            size = next_size(size, most, begun)

    def followed(self, line: str, command: str, is_oldest: bool) -> bool:
        """Keeps the position of the process after a run, by its last place line; False if it made no move, at an
        end."""
        if line:
            self.place = read_place(line)
            self.timeline = self.timeline.moved(self.place.position, command)
        return bool(line) or is_oldest

    def is_far_enough(self, last: int | None, is_forward: bool, is_oldest: bool) -> bool:
        """Whether a run came as far as it is to go; else it can go on."""
        if last is not None and (self.timeline.position >= last) == is_forward:
            return True
        self.waiting.stop_if_pressed()
        self.waiting.tell(self.timeline.position, target=last)
        if is_oldest:
            self.begin_anew()
        return False

    def begin_anew(self) -> None:
        """Another process that leads to here: where this one keeps no earlier moves, or was sent as much as it
        reads."""
        here, stops = self.timeline, self.stops
        self.start()
        self.go(here)
        self.set_stops(stops)


def stops_told(text: str, many: list[bool]) -> Iterator[tuple[str, str, list[list[str]]]]:
    """What a run writes about its stops: why it stopped, the place line, and the answers to the questions there, which
    have one line each unless they have many, and then a mark. Where no move was made there is no reason."""
    lines, at = text.split("\n"), 0
    end, is_bounded, width = len(lines) - 1, not any(many), len(many)
    while at < end:
        line, reason, place = lines[at], "", ""
        at += 1
        if line.startswith("stop: "):
            reason, place = line[6:], lines[at]
            at += 1
        if is_bounded:
            yield reason, place, [[answer] for answer in lines[at:at + width]]
            at += width
            continue
        answers = []
        for has_many in many:
            behind = lines.index(MARKED_LINE, at) if has_many else at + 1
            answers.append(lines[at:behind])
            at = behind + has_many
        yield reason, place, answers


def next_size(size: int, most: int, begun: float) -> int:
    """How many stops are asked for at a time, by how long the last ones took."""
    return min(most, size * 4) if time.monotonic() - begun < SHORT else max(1, size // 2)


def frames_of(answer: list[str]) -> list[Place]:
    """The frames that `where` shows, the innermost first; none after the end."""
    return [] if answer == ["none"] else [read_place(f"#0 {line}") for line in answer]
