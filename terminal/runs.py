"""Runs of a session: to its stops, over and out of calls, forward and back.

If all stops are the debugger's own, the session runs itself, a slice of its limit at a time. If there is more to test
(a condition, a count, a depth), the scratch process looks for the position, and the session goes there by steps.
"""
from __future__ import annotations

from dataclasses import dataclass
from typing import Callable

from .answers import Place
from .frames import Frames
from .levels import MOST_STOPS, CodePlace, Levels, stop_line
from .scratch import MOST_AT_ONCE, Hit, Refused
from .session import Session
from .stops import FRAME_OVER, Answered, Filter, FrameWatch, Stop, SuspicionStop
from .text import Program
from .waiting import Interrupted

STOPPED = "stopped by Ctrl-C"


class Target:
    """A place, in a frame at a depth, at which a run ends.

    A function that doesn't call itself has one frame there. Of another one its calls are counted along the run, where
    that can be done, or else the frames at each hit.
    """

    def __init__(self, program: Program, function: str, label: str, index: int, depth: int):
        self.place, self.depth = (function, label, index), depth
        self.is_again = function in program.again
        self.levels = Levels(program, function)

    def begin(self, session: Session, is_forward: bool, lines: list[str]) -> list[str]:
        """The lines of a run to it, after the existing ones."""
        own = [stop_line(self.place)]
        counted = own + [stop_line(place) for place in self.levels.places if place != self.place]
        self.is_counted = (self.is_again and self.levels.is_counted and not session.timeline.pokes
                           and len(lines) + len(counted) <= MOST_STOPS)
        if not self.is_counted:
            return own
        frames = session.frames()
        inside = frames[:len(frames) - self.depth]
        self.levels.level = sum(frame.function == self.place[0] for frame in inside)
        if not is_forward:
            self.levels.back((session.place.function, session.place.label, session.place.index))
        return counted

    @property
    def questions(self) -> list[str]:
        return ["where"] if self.is_again and not self.is_counted else []

    def is_at(self, place: Place, is_forward: bool, frames: list[str] | None) -> bool:
        """Whether a hit is there; must be asked for each hit of the run."""
        here, level = (place.function, place.label, place.index), 0
        if self.is_counted:
            level = self.levels.forward(here) if is_forward else self.levels.back(here)
        elif frames is not None:
            level = len(frames) - self.depth
        return here == self.place and level == 0


class Places:
    """Places at which a run ends: in any frame; or, if it is said where the frame's caller goes on and how many frames
    there are then, in this frame, and there too."""

    def __init__(self, session: Session, places: list[CodePlace], behind: tuple[CodePlace, int] | None = None):
        self.places, self.behind = places, behind
        self.depth = len(session.frames())

    def begin(self, _session: Session, _is_forward: bool, lines: list[str]) -> list[str]:
        """The lines of a run to them, after the existing ones."""
        wanted = [*self.places, *([self.behind[0]] if self.behind else [])]
        if len(lines) + len(wanted) > MOST_STOPS:
            raise Refused(f"{len(wanted)} places are too many; `tbreak PLACE` and `continue` lead to one of them")
        return [stop_line(place) for place in wanted]

    @property
    def questions(self) -> list[str]:
        return ["where"] if self.behind else []

    def is_at(self, place: Place, _is_forward: bool, frames: list[str] | None) -> bool:
        """Whether a hit is at one of them."""
        here = (place.function, place.label, place.index)
        if self.behind is None:
            return here in self.places
        depth = len(frames or ())
        return here in self.places and depth == self.depth or (here, depth) == self.behind


@dataclass(frozen=True)
class Outcome:
    """How a run ended: in words, and at which stop. Where it made no move, why."""
    reason: str = ""
    stop: Stop | None = None
    refusal: str = ""


@dataclass(frozen=True)
class Suspicious:
    """A position ahead of a run at which a suspicious move comes next, with the stop, and what is said of it."""
    position: int
    stop: SuspicionStop
    said: str


class Runs:
    def __init__(self, session: Session, frames: Frames, budget: int | None):
        self.session, self.frames, self.budget = session, frames, budget
        self.scratch, self.waiting = session.scratch, session.waiting
        self.stops: list[Stop] = []
        # The position at which the last run ended.
        self.ended = 0
        # Finds the suspicious move that a run would come to first, forward or back, if there is one.
        self.find_suspicious: Callable[[SuspicionStop, bool], Suspicious | None] = lambda _stop, _is_forward: None

    def run(self, is_forward: bool, target: Target | Places | None = None) -> Outcome:
        """Runs to a stop, or to the target where there is one."""
        suspicious = self.suspicious_ahead(is_forward)
        if target is None and not suspicious and all(stop.is_plain for stop in self.active):
            outcome = self.run_plainly("continue" if is_forward else "reverse")
        else:
            outcome = self.run_filtered(is_forward, target, suspicious)
        stop, self.ended = outcome.stop, self.session.place.position
        if stop:
            stop.hits += 1
            if stop.is_once or outcome.reason.endswith(FRAME_OVER):
                self.delete(stop)
        return outcome

    def suspicious_ahead(self, is_forward: bool) -> Suspicious | None:
        """The suspicious move that comes first in a run from here, of those that are stopped at."""
        wanted = [stop for stop in self.active if isinstance(stop, SuspicionStop)]
        found = [each for each in (self.find_suspicious(stop, is_forward) for stop in wanted) if each]
        found.sort(key=lambda each: each.position)
        return found[0 if is_forward else -1] if found else None

    def run_plainly(self, command: str) -> Outcome:
        begun = self.session.place.position
        self.look_at_watches()
        while True:
            moved = self.session.move(command)
            if moved.refusal:
                return Outcome(refusal=moved.refusal)
            if moved.reason != "limit":
                return self.outcome_of(moved.reason, command == "continue")
            if self.waiting.is_pressed:
                return Outcome(STOPPED)
            if self.budget and abs(self.session.place.position - begun) >= self.budget:
                return Outcome("limit")
            self.waiting.tell(self.session.place.position)

    def outcome_of(self, reason: str, is_forward: bool) -> Outcome:
        """A reason of the debugger, with the stop that it names and what that says."""
        kind, _, number = reason.partition(" ")
        stop = next((stop for stop in self.stops if number and int(number) in stop.numbers), None)
        if not stop:
            return Outcome(reason)
        said = ""
        if stop.memory:
            now = self.session.memory(stop.memory.address, stop.memory.count)
            told = Filter([], self.session.program, is_forward)
            said = ": " + told.memory_change(stop.memory.value, now, stop.memory.width)
        return Outcome(f"{kind} {stop.number}, {stop.what}{said}", stop)

    def run_filtered(self, is_forward: bool, target: Target | Places | None,
                     suspicious: Suspicious | None = None) -> Outcome:
        here = self.session.timeline
        filter = Filter([stop for stop in self.active if stop.lines], self.session.program, is_forward)
        self.look_at_watches()
        lines = filter.lines + (target.begin(self.session, is_forward, filter.lines) if target else [])
        questions, is_known = filter.questions(target.questions if target else [])
        last = here.position + (self.budget if is_forward else -self.budget) if self.budget else None
        if suspicious and (last is None or abs(suspicious.position - here.position) <= abs(last - here.position)):
            last = suspicious.position
        position, outcome = here.position, None
        counts = filter.counts(questions) if is_known and not target else None
        try:
            hits = self.scratch.go(here).hits(is_forward, lines, questions, MOST_AT_ONCE if is_known else 1, last,
                                              counts)
            for hit in hits:
                if suspicious and last is not None and (hit.position > last if is_forward else hit.position < last):
                    break
                outcome = self.outcome_at(hit, filter, questions, target, is_forward)
                position = hit.position
                if outcome:
                    break
        except Interrupted:
            reached = self.scratch.timeline.position if self.scratch.pipe else position
            position, outcome = (max if is_forward else min)(position, reached), Outcome(STOPPED)
            self.waiting.heed()
        for stop in self.active:
            stop.ignored = filter.left.get(id(stop), stop.ignored)
        if not outcome and suspicious and last == suspicious.position:
            position, outcome = last, Outcome(suspicious.said, suspicious.stop)
        elif not outcome and last is not None and not self.session.place.end and (is_forward or here.position):
            position, outcome = max(last, 0), Outcome("limit")
        if outcome:
            self.session.go(here.at(position))
        return outcome or Outcome(refusal="at end" if is_forward else "at start")

    def outcome_at(self, hit: Hit, filter: Filter, questions: list[str], target: Target | Places | None,
                   is_forward: bool) -> Outcome | None:
        """What ends the run at a hit, or nothing."""
        if hit.stop is None:
            return Outcome("end" if is_forward else "start")
        state = Answered(self.session.program, hit.place, dict(zip(questions, hit.answers)), self.scratch.ask)
        is_there = target and target.is_at(state.place, is_forward, state.answers.get("where"))
        stop, said = filter.chosen(hit.stop, state)
        if stop:
            kind = "break" if stop.place else "watch"
            return Outcome(f"{kind} {stop.number}, {stop.what}" + (f": {said}" if said else ""), stop)
        return Outcome() if is_there else None

    def look_at_watches(self) -> None:
        """What the watches of frames and of stack bytes read where the run begins."""
        session = self.session
        for stop in self.active:
            if stop.memory:
                found = session.memory(stop.memory.address, stop.memory.count)
                if None not in found or not stop.memory.is_on_stack:
                    stop.memory.value = found
                elif session.place.position < self.ended:
                    # The session was taken back to before what they were last.
                    stop.memory.value = []
            elif stop.frame:
                self.look_at_frame(stop.frame)

    def look_at_frame(self, watch: FrameWatch) -> None:
        """Whether the run is inside the frame of a watch, and what the temporary is there."""
        here, frames = self.session.timeline, self.session.frames()
        watch.is_over = here.position >= watch.entry
        if len(frames) >= watch.depth and frames[-watch.depth].function == watch.function:
            there = self.frames.frame(here, len(frames) - watch.depth)
            if self.frames.entry(there).position == watch.entry:
                watch.is_over, watch.value = False, self.scratch.go(there).values(watch.temporary)[0]

    # Stops.

    @property
    def active(self) -> list[Stop]:
        """The stops that are switched on."""
        return [stop for stop in self.stops if stop.is_on]

    def add(self, stop: Stop) -> Stop:
        """Sets a stop: its lines go to the session, and the number of the first is its own."""
        self.switch_on(stop)
        stop.number = stop.numbers[0] if stop.numbers else stop.number
        self.stops.append(stop)
        return stop

    def switch_on(self, stop: Stop) -> None:
        """Has the session stop there, unless it does."""
        if isinstance(stop, SuspicionStop):
            stop.is_set = True
        for line in stop.lines[len(stop.numbers):]:
            answer = self.session.change(line)[0]
            if answer.startswith("no: "):
                self.switch_off(stop)
                raise Refused(f"{line}: {answer[4:]}")
            stop.numbers.append(int(answer.split(" ")[1]))

    def switch_off(self, stop: Stop) -> None:
        """Has the session pass it over; the stop keeps its number."""
        if isinstance(stop, SuspicionStop):
            stop.is_set = False
        for number in stop.numbers:
            self.session.change(f"delete {number}")
        stop.numbers.clear()

    def delete(self, stop: Stop) -> None:
        self.switch_off(stop)
        self.stops.remove(stop)

    # Over calls, and out of them.

    def depth(self) -> int:
        return len(self.session.frames())

    def enters(self, place: Place, index: int) -> bool:
        """Whether the instruction at an index of a place's block is a call into a function of the program."""
        body = self.session.program.functions[place.function].blocks[place.label].body
        if not 0 <= index < len(body) or body[index].operation != "call":
            return False
        return self.session.program.called(body[index]) not in self.session.program.built_in

    def next(self) -> Outcome:
        """A step, or a whole call."""
        place = self.session.place
        if place.end or not self.enters(place, place.index):
            return self.stepped("step")
        return self.run(True, Target(self.session.program, place.function, place.label, place.index + 1, self.depth()))

    def back_over(self) -> Outcome:
        """A step back, or back over a whole call."""
        place = self.session.place
        is_poke = self.session.timeline.poke_at(place.position - 1)
        if place.end or is_poke or not self.enters(place, place.index - 1):
            return self.stepped("back")
        return self.run(False, Target(self.session.program, place.function, place.label, place.index - 1, self.depth()))

    def stepped(self, line: str) -> Outcome:
        moved = self.session.move(line)
        return Outcome(moved.reason, refusal=moved.refusal)

    def finish(self, index: int) -> Outcome:
        """Runs until a frame and those inside it are over."""
        frames = self.session.frames()
        if not frames or self.session.place.end:
            raise Refused("the run is over: there is no frame to run out of")
        if index + 1 >= len(frames):
            return self.run(True)
        caller = frames[index + 1]
        target = Target(self.session.program, caller.function, caller.label, caller.index, len(frames) - index - 1)
        return self.run(True, target)

    def finish_back(self, index: int) -> Outcome:
        """Goes back to before the call that made a frame."""
        frames = self.session.frames()
        if not frames:
            raise Refused("no frame is left; `back` goes to before the return")
        entry = self.frames.entry(self.frames.frame(self.session.timeline, index))
        self.session.go(entry.at(max(entry.position - 1, 0)))
        return Outcome()
