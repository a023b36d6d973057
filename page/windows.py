"""A run that is too long for arrays: an overview of whole stacks at equal distances, and windows of some thousand
moves.

One process makes the overview by running to the end, and it is drawn meanwhile. A process reaches any position that it
has been at in some milliseconds, back and forward, and others at the speed of a run. So one that has been at the end
gathers all windows, and another is led to the end in the background, for when the first has been sent as much as it
reads. Behind a value by hand the overview is made anew from there on, and processes that were further on are led back.
"""
from __future__ import annotations

import json
import threading
import time
from dataclasses import replace
from typing import Any, Callable, Iterable, NamedTuple

from terminal.answers import Span, read_output, read_place, read_spans
from terminal.pipe import Ended, Pipe
from terminal.scratch import Launch
from terminal.spans import OpenFrames
from terminal.text import STACK, STACK_BYTES
from terminal.timeline import Poke, Timeline, common, lines_between

from .gathering import Asked, Gathering, data_bytes, live_bytes
from .table import MOST_NAME, Table

WINDOW = 20_000
# Columns of the overview: where there are more, every second one is left out. And how deep a stack is told.
FIRST_STRIDE, MOST_COLUMNS, MOST_DEPTH = 2_048, 2_800, 64
AT_ONCE = 20
# A run is followed so far, unless it is stopped before.
MOST_MOVES = 2_000_000_000
SLICE = 20_000_000
# How many processes have been at the end, how many there are at most, and how much each may keep.
SPARES, MOST_PROCESSES, KEPT = 2, 4, 32
# What a jump takes to where a process has been, and a move beyond that, in seconds: roughly, to choose among processes.
JUMP, FORWARD = 0.02, 2e-8
# The bytes of a stack that are read at the beginning of a window.
MOST_STACK = 1 << 16
# How long processes on their way are waited for at the end, in seconds.
PATIENCE = 2
# What a window sends a process at most.
SENT = WINDOW * 160


class Overview:
    """Whole stacks at equal distances, from the start on, as far as they have come; and then the frames of these
    stacks, each with where it begins and ends."""

    def __init__(self, table: Table, pokes: tuple[Poke, ...] = ()):
        self.pokes = pokes
        self.functions = {name: index for index, name in enumerate(table.program.functions)}
        self.stride, self.moves, self.end = FIRST_STRIDE, 0, ""
        self.stacks: list[list[int]] = []
        self.is_done = self.is_stopped = False
        self.begun, self.seconds = time.monotonic(), 0.0
        self.over = threading.Event()
        # Frames that are in one of the stacks: first and last position, function, and how many are below.
        self.spans: list[tuple[int, int | None, int, int]] = []
        self.is_traced = self.is_exact = False
        self.is_tracing = True

    def look(self, standing: Standing) -> Standing:
        """Leads a process to the end, takes a stack at each distance, and gives where it stands then."""
        try:
            standing = standing.go(self.at(self.moves))
            if not self.stacks:
                self.take(standing.pipe.ask("where")[0])
            while not self.end and not self.is_stopped and self.moves < MOST_MOVES:
                self.advance(standing.pipe)
        except (Ended, OSError) as error:
            self.end = f"the debugger ended: {error}"
        self.seconds = time.monotonic() - self.begun
        self.is_done = True
        return standing.stands(self.at(self.moves))

    def kept_of(self, before: Overview, moves: int) -> None:
        """Begins with the stacks of the run before, up to a move that is another one."""
        self.stride = before.stride
        self.stacks = before.stacks[:moves // self.stride + 1]
        self.moves = (len(self.stacks) - 1) * self.stride

    def at(self, position: int) -> Timeline:
        """A state of the run."""
        return Timeline(position, self.pokes).at(position)

    def advance(self, pipe: Pipe) -> None:
        states = [self.at(self.moves + index * self.stride) for index in range(AT_ONCE + 1)]
        legs = [lines_between(here, there) for here, there in zip(states, states[1:])]
        answers = iter(pipe.ask(*[line for leg in legs for line in (*leg, "where")]))
        for leg in legs:
            moved = [next(answers) for _ in leg][-1]
            where = next(answers)
            if moved[0].startswith("no: "):
                break
            place = read_place(moved[-1])
            self.moves = place.position
            if place.end or moved[0].startswith("stop: "):
                self.end = place.end or "goes on"
                break
            self.take(where)
        if len(self.stacks) > MOST_COLUMNS:
            # The next stack is a whole distance behind the last one that is kept.
            if len(self.stacks) % 2 == 0:
                self.stacks.pop()
                pipe.ask(f"back {self.stride}")
                self.moves -= self.stride
            self.stacks = self.stacks[::2]
            self.stride *= 2

    def take(self, where: list[str]) -> None:
        self.stacks.append([self.functions[line.split(" ")[0]] for line in reversed(where[-MOST_DEPTH:])])

    def trace(self, standing: Standing, is_over: Callable[[], bool]) -> Standing:
        """Leads a process from the start to the end by `frames`, which tells where the frames of the stacks begin and
        end; the others are shorter than the distance between two stacks."""
        names = list(self.functions)
        frames, at = OpenFrames([names[index] for index in self.stacks[0]]), 0
        while at < self.moves and not is_over() and not self.is_stopped:
            states = [self.at(min(at + index * self.stride, self.moves)) for index in range(AT_ONCE + 1)]
            legs = [line for here, there in zip(states, states[1:]) for line in lines_between(here, there)]
            for answer in standing.pipe.ask(*(self.traced(line) for line in legs)):
                self.take_spans(frames.ended(read_spans(answer)))
            standing, at = standing.stands(states[-1]), states[-1].position
        self.take_spans(frames.lasting())
        self.is_exact = at >= self.moves
        return standing

    def traced(self, line: str) -> str:
        word, _, count = line.partition(" ")
        return f"frames {count} {self.stride}" if word == "step" else line

    def take_spans(self, spans: Iterable[Span]) -> None:
        self.spans += [(span.begin or 0, span.end, self.functions[span.function], span.below)
                       for span in spans if span.below < MOST_DEPTH]

    def has_come(self, position: int) -> bool:
        """Whether it is as far as a position, or at its end."""
        return self.is_done or self.moves >= position

    def told(self) -> dict[str, Any]:
        return {"stride": self.stride, "stacks": self.stacks, "moves": self.moves, "end": self.end,
                "isDone": self.is_done, "most": MOST_MOVES, "spans": self.spans if self.is_exact else None,
                "isTracing": self.is_tracing,
                "seconds": round(self.seconds or time.monotonic() - self.begun, 3)}


def replaying(launch: Launch) -> Pipe:
    file = [launch.file] if launch.file else []
    return Pipe([launch.debugger, *file, *launch.words, f"--memory={KEPT}"], renaming=launch.renaming)


class Standing(NamedTuple):
    """A process, where it stands, and how far it has been along the run that has these pokes."""
    at: Timeline
    been: int
    pokes: tuple[Poke, ...]
    pipe: Pipe

    def go(self, there: Timeline) -> Standing:
        lines = lines_between(self.at, there)
        if lines:
            self.pipe.ask(*lines)
        return self.stands(there)

    def stands(self, there: Timeline) -> Standing:
        return self._replace(at=there, been=max(self.been, there.position))

    def along(self, pokes: tuple[Poke, ...]) -> Standing:
        """The same along another run: it has been as far there as both are the same."""
        been = common(Timeline(self.been, self.pokes).at(self.been), Timeline(self.been, pokes).at(self.been))
        return self._replace(been=been, pokes=pokes)


class Pool:
    """Processes that stand somewhere in the run, each free for the next window."""

    def __init__(self, launch: Launch, overview: Overview):
        self.launch, self.overview = launch, overview
        self.free: list[Standing] = []
        self.coming, self.is_closed = 0, False
        self.lock = threading.Lock()
        self.come = threading.Condition(self.lock)

    def take(self, base: int) -> Standing:
        """The process that is soonest at a position. Of several one is used up before the next."""
        def cost(been: int) -> float:
            return JUMP if been >= base else JUMP + (base - been) * FORWARD
        with self.lock:
            for each in [each for each in self.free if not each.pipe.has_room(SENT)]:
                self.free.remove(each)
                each.pipe.close()
            best = min(self.free, key=lambda each: (cost(each.been), -each.pipe.sent), default=None)
            if best and cost(best.been) <= cost(0) + JUMP:
                self.free.remove(best)
                return best
        return self.fresh(self.overview)

    def fresh(self, overview: Overview) -> Standing:
        return Standing(Timeline(), 0, overview.pokes, replaying(self.launch))

    def give(self, free: Standing) -> None:
        with self.lock:
            if self.is_closed:
                return free.pipe.close()
            self.free.append(free.along(self.overview.pokes))
            while len(self.free) > MOST_PROCESSES:
                # Of those that weren't at the end the one that was given first goes.
                old = next((each for each in self.free if each.been < self.overview.moves), self.free[0])
                self.free.remove(old)
                old.pipe.close()
        self.refill()

    def follow(self, overview: Overview) -> None:
        """Another run is the one that is shown."""
        with self.lock:
            self.overview = overview
            self.free = [each.along(overview.pokes) for each in self.free]

    def refill(self) -> None:
        """Leads as many processes to the end as should stand there, in the background."""
        with self.lock:
            ready = sum(each.been >= self.overview.moves for each in self.free) + self.coming
            is_whole = self.overview.is_done and not self.overview.is_stopped
            wanted = SPARES - ready if is_whole and not self.is_closed else 0
            self.coming += max(wanted, 0)
        for _ in range(wanted):
            threading.Thread(target=self.lead, daemon=True).start()

    def lead(self) -> None:
        overview = self.overview
        try:
            fresh = self.fresh(overview)
            if self.is_first(overview):
                try:
                    fresh = overview.trace(fresh, lambda: self.is_closed)
                finally:
                    overview.is_tracing = False
            while fresh.at.position < overview.moves and not self.is_closed:
                fresh = fresh.go(overview.at(min(fresh.at.position + SLICE, overview.moves)))
            with self.lock:
                self.free.append(fresh.along(self.overview.pokes))
        except (Ended, OSError):
            # The run can be looked at without this process.
            pass
        finally:
            with self.come:
                self.coming -= 1
                self.come.notify_all()

    def is_first(self, overview: Overview) -> bool:
        """Whether no other process is led along an overview's frames."""
        with self.lock:
            is_first, overview.is_traced = not overview.is_traced, True
            return is_first

    def close(self) -> None:
        """Ends all processes, also those that are on their way."""
        with self.come:
            self.is_closed = True
            self.come.wait_for(lambda: not self.coming, PATIENCE)
            for each in self.free:
                each.pipe.close()
            self.free = []


class Window(Gathering):
    """The arrays of some thousand moves from a position on."""

    def __init__(self, launch: Launch, table: Table, base: Timeline, pokes: tuple[Poke, ...]):
        super().__init__(launch, table, WINDOW, None, tuple(
            replace(each, position=each.position - base.position) for each in pokes
            if base.position <= each.position < base.position + WINDOW))
        self.base = base.position

    def gather_by(self, pipe: Pipe) -> int:
        """Gathers by a process that stands at the first state; how many moves it has made then."""
        begun = time.monotonic()
        try:
            given = self.begin_window(pipe)
            self.take_places(pipe.ask_text(self.lines(0, self.most)))
            moves = len(self.places) - 1
            self.output = read_output(pipe.ask("out")[0][0])
            self.add(b"P", self.places.tobytes())
            pipe.ask(*[f"back {moves}"] * (moves > 0))
            lines = [given, *self.value_lines(Asked(self.table), 0, moves)]
            self.add_values(pipe.ask_text("\n".join(filter(None, lines)) + "\n"))
            self.seconds = time.monotonic() - begun
            self.add(b"E", json.dumps(self.ended()).encode())
            return moves
        finally:
            self.finish()

    def begin_window(self, pipe: Pipe) -> str:
        """Sends the first state; gives the questions for the values that are known in it."""
        frames = pipe.ask("where")[0]
        function = frames[0].split(" ")[0]
        names = [line.split(" ")[0] for line in pipe.ask("temps")[0] if " = " in line and line.index(" ") <= MOST_NAME]
        top = stack_top(pipe)
        self.places.append(self.table.ids[frames[0]])
        begin = {"base": self.base, "begun": [line.split(" ")[0] for line in reversed(frames)],
                 "given": [self.table.temporaries[function, name] for name in names],
                 "total": None, "pokes": self.pokes, "written": int(pipe.ask("out")[0][0].split(" ")[1]), "top": top}
        self.add(b"B", json.dumps(begin).encode())
        self.add(b"D", data_bytes(pipe, self.table) + live_bytes(pipe, STACK, min(top - STACK, MOST_STACK)))
        return "\n".join(f"print {name}" for name in names)


def stack_top(pipe: Pipe) -> int:
    """The first byte of the stack that isn't live."""
    low, high = STACK, STACK + STACK_BYTES
    while low < high:
        middle = (low + high) // 2
        if pipe.ask(f"mem {middle} 1")[0][0] == "--":
            high = middle
        else:
            low = middle + 1
    return low


class Long:
    """A run by its overview, and one window of it at a time."""

    def __init__(self, launch: Launch, table: Table):
        self.launch, self.table = launch, table
        self.overview = Overview(table)
        self.pool = Pool(launch, self.overview)
        self.begin()

    def begin(self) -> None:
        """Makes the overview in the background."""
        overview, standing = self.overview, self.pool.take(self.overview.moves)
        threading.Thread(target=self.look, args=(overview, standing), daemon=True).start()

    def look(self, overview: Overview, standing: Standing) -> None:
        try:
            self.pool.give(overview.look(standing))
        finally:
            # Who waits for it may end all: by now the pool has the process, or has closed it.
            overview.over.set()

    def change(self, pokes: tuple[Poke, ...], position: int) -> None:
        """Goes on with another run, which has other pokes from a position on."""
        before = self.overview
        before.is_stopped = True
        before.over.wait()
        self.overview = Overview(self.table, pokes)
        self.overview.kept_of(before, min(position, before.moves))
        self.pool.follow(self.overview)
        self.begin()

    def window(self, position: int, base: int | None = None) -> Window:
        """The window around a position; or that from a base on, if the next move is in it."""
        overview = self.overview
        if base is None or not base <= position < base + WINDOW:
            last = overview.moves if overview.is_done else position + WINDOW
            base = max(0, min(position - WINDOW // 2, last - WINDOW))
        begin = overview.at(base)
        window = Window(self.launch, self.table, begin, overview.pokes)
        standing = self.pool.take(base).go(begin)
        moves = window.gather_by(standing.pipe)
        self.pool.give(standing.stands(overview.at(base + moves)))
        return window

    def close(self) -> None:
        self.overview.is_stopped = True
        self.pool.close()
        self.overview.over.wait(PATIENCE)
