"""Steps by lines that the adapter ends at an unwanted place: each goes on, and only one stop is reported.

*Step Into* doesn't go into functions of the runtime, such as those that an operation on floats was lowered to, and no
step that began elsewhere ends there. *Step Back* goes to the beginning of the first line of a source, if the run came
to it from places without a source.
"""
from __future__ import annotations

import re
import threading
import time
from dataclasses import dataclass, field
from typing import Any, Callable

from .disassembly import Disassembly
from .frames import framed, read, written
from .guard import HOLD, LEAVING as ENDING, OWN_HOLD
from .questions import POSITION

# How a place line goes on behind the position.
PLACE = re.compile(r"#\d+ (\$\S+ @\S+ \d+)$")
# More functions of the runtime than a line calls.
MOST_CALLS = 10_000
# The numbers of the requests from here, which no editor comes to, and neither do those of others that stand here.
OWN = 1 << 42
STEPS = frozenset(("stepIn", "next", "stepOut", "stepBack"))
LEAVING = ENDING | {"pause"}


@dataclass
class Step:
    """A step that the editor asked for by the request of that number, from a position and a place."""

    number: int
    command: str
    position: int
    place: str
    hold_until: float
    # The stop that is told if it can't go on.
    held: bytes = b""
    # Whether it goes back to that stop, which stood better.
    is_return: bool = False
    calls: int = 0
    # Requests from here that aren't answered yet.
    asked: set[int] = field(default_factory=set)


class Stepper:
    """Leads steps on, between the adapter and all that watches its stops."""

    def __init__(self, news: threading.Condition, disassembly: Disassembly, send: Callable[[bytes], None]):
        self.news, self.disassembly, self.send = news, disassembly, send
        self.step: Step | None = None
        self.here = ""
        self.sent = OWN

    # Requests.

    def stand(self, line: str) -> None:
        """Keeps the place line of the state that the editor knows."""
        self.here = line

    def ask(self, number: Any, command: str, given: dict[str, Any], position: int | None) -> None:
        """A request that may be such a step, and where the session stands."""
        is_by_lines = command in STEPS and given.get("granularity") != "instruction"
        if is_by_lines and position is not None and isinstance(number, int) and self.disassembly.has_map():
            self.step = Step(number, command, position, self.here, time.monotonic() + HOLD)

    def hold(self, command: str) -> None:
        """Has a request wait while a step goes on from here."""
        with self.news:
            while self.step and command not in LEAVING and (left := self.step.hold_until - time.monotonic()) > 0:
                self.news.wait(left)
            if self.step and command in LEAVING:
                self.step.calls = MOST_CALLS

    # From the adapter.

    def takes(self, body: bytes) -> bytes | None:
        """A message as it goes on from here; nothing if it is of a request from here."""
        step = self.step
        if step is None:
            return body
        message = read(body)
        if message.get("type") == "response":
            return self.answered(step, message, body)
        if message.get("event") != "stopped":
            return body
        return self.stopped(step, message.get("body", {}), body)

    def answered(self, step: Step, message: dict[str, Any], body: bytes) -> bytes | None:
        number = message.get("request_seq")
        if number == step.number and not message.get("success"):
            self.end()
        if number not in step.asked:
            return body
        step.asked.remove(number)
        # What fails moves nothing.
        return None if message.get("success") else self.ended(step.held)

    def stopped(self, step: Step, stop: dict[str, Any], body: bytes) -> bytes | None:
        """The stop to report, or nothing if the step goes on from there."""
        if step.is_return:
            return self.ended(step.held)
        found = POSITION.match(str(stop.get("description", "")))
        position = int(found[1]) if found else 0
        if step.command == "stepBack":
            return self.went_back(step, stop, position, body)
        again = self.way_on(step, str(stop.get("description"))) if stop.get("reason") == "step" else ""
        if not again or step.calls >= MOST_CALLS:
            return self.ended(body)
        step.calls += 1
        self.go(step, body, again, {"threadId": 1})
        return None

    def way_on(self, step: Step, place: str) -> str:
        """How a step forward goes on, if it may not stand where it does."""
        begun, here = (self.disassembly.at(found[1]) if (found := PLACE.match(each)) else None
                       for each in (step.place, place))
        if begun is None or here is None or begun.is_of_runtime:
            return ""
        if here.is_of_runtime:
            return "stepOut"
        # Behind a call that was passed it goes on to the next line.
        is_within = step.calls and step.command != "stepOut" and here.source in (begun.source, None)
        return step.command if is_within else ""

    def went_back(self, step: Step, stop: dict[str, Any], position: int, body: bytes) -> bytes | None:
        """A step back that led to the start, which is right only where no other line begins between."""
        place, is_step = str(stop.get("description")), stop.get("reason") == "step"
        if not step.held:
            if position or step.position <= 1 or stop.get("reason") != "entry":
                return self.ended(body)
            self.go(step, body, "next" if function_of(place) == function_of(step.place) else "stepIn", {"threadId": 1})
            return None
        if position >= step.position or not is_step:
            step.is_return = True
            self.go(step, step.held, "evaluate", {"expression": f"back {position}", "context": "repl"})
            return None
        here = self.disassembly.at(found[1]) if (found := PLACE.match(place)) else None
        if not here or not here.is_of_runtime:
            return self.ended(body)
        self.go(step, step.held, "stepOut", {"threadId": 1})
        return None

    def go(self, step: Step, held: bytes, command: str, given: dict[str, Any]) -> None:
        """Sends a request from here."""
        self.sent += 1
        step.held, step.hold_until = held, time.monotonic() + OWN_HOLD
        step.asked.add(self.sent)
        self.send(framed(written({"seq": self.sent, "type": "request", "command": command, "arguments": given})))

    def ended(self, body: bytes) -> bytes:
        self.end()
        return body

    def end(self) -> None:
        with self.news:
            self.step = None
            self.news.notify_all()


def function_of(place: str) -> str:
    """The function that a place line names, or nothing at an end."""
    return place.split(" ")[1] if PLACE.match(place) else ""
