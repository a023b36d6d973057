"""Makes runs stop before suspicious moves: a run that went past one is led back to it before its stop is reported.

The adapter knows nothing of suspicions. It makes a run, and its report of the stop is held back here until it is known
whether the run passed a suspicious move. If so the session goes there, by `step` and `back` as typed in the console,
and the editor gets only that stop.
"""
from __future__ import annotations

import re
import threading
import time
from dataclasses import dataclass
from typing import Any, Callable

from .frames import framed, read, written
from .questions import POSITION, Changes
from .suspicions import SECONDS, Search, Searches, Suspicion, chosen_kinds

# What begins a run; which of these run to where a stop might have been met; and which of these go back.
MOVING = frozenset(("continue", "next", "stepIn", "stepOut", "stepBack", "reverseContinue", "restartFrame",
                    "configurationDone"))
WATCHED = MOVING - {"restartFrame"}
BACK = frozenset(("stepBack", "reverseContinue"))
# What waits no longer than other requests, and ends the watch over a run; and lines of the console that do.
CHANGING = frozenset(("setVariable", "setExpression", "writeMemory"))
LEAVING = frozenset(("restart", "terminate", "disconnect"))
MOVES = re.compile(r"(?m)^[ \t]*(step|back|continue|reverse|set|poke)\b")
# Stops at which nothing was met: where a suspicious move comes next there it is told in their place.
PLAIN = frozenset(("step", "entry"))
# That of a fault, which an editor shows as an exception; and so is that of a suspicious move.
FAULT = "exception"
# Seconds for which requests wait behind the beginning of a run, and of a move from here.
HOLD, OWN_HOLD = 0.25, 10.0
# Seconds after which what waits for a run looks again.
LONG = 3600.0
# Seconds after which a run that goes on is asked how far it is, while a suspicious move is known ahead of its start.
LOOK = 0.5
# The numbers of the requests from here, which no editor comes to.
OWN = 1 << 40
# A change that the adapter's console takes as the prompt does.
SIMPLE = re.compile(r"set %\S+ \d+|poke [bhwl] \S+ \d+")


@dataclass
class Run:
    """A run that the editor requested by the request of that number, until its stop is reported."""

    number: int
    search: Search
    changes: Changes
    hold_until: float
    is_forward: bool
    # How many moves it can go back, if they are bounded.
    kept: int | None
    # The response says that it begins, at a position. A run forward stops at a suspicious move behind `passed`, which
    # is one before the start if nothing was known there.
    is_begun: bool = False
    start: int = -1
    passed: int = -1
    # Whether it stands; whether its stop is told with what is known at once; whether no suspicious move is looked for.
    is_standing: bool = False
    is_hurried: bool = False
    is_given_up: bool = False


@dataclass
class Errand:
    """A way to a suspicious move, by requests from here; or back to the stop before it, if that can't be reached."""

    target: int
    # What is told at the target; nothing on the way back, at whose end the stop is told.
    suspicions: list[Suspicion]
    home: int
    stop: bytes
    at: int
    number: int = 0


class Guard:
    """The filters that are on, the watched run, and the last reported stop."""

    def __init__(self, words: list[str], news: threading.Condition, send: Callable[[bytes], None],
                 show: Callable[[bytes, Changes | None], None], remark: Callable[[str], None]):
        self.news, self.send, self.show, self.remark = news, send, show, remark
        self.searches = Searches(words, news)
        self.kinds: frozenset[str] = frozenset()
        self.run: Run | None = None
        self.errand: Errand | None = None
        # What is told of the position at which the session stands.
        self.told: list[Suspicion] = []
        # Where the session stood at its start, if it wasn't known yet whether its first move is suspicious.
        self.unjudged: int | None = None
        self.is_urgent = False
        self.sent = 0
        # Requests from here that aren't answered yet, about a run that goes on.
        self.asked: dict[int, Run] = {}
        self.remarks: set[str] = set()

    # Requests.

    def choose(self, given: dict[str, Any], launch: dict[str, Any], changes: Changes) -> None:
        """Takes the filters that an editor switches on."""
        self.kinds = chosen_kinds(given)
        self.look(launch, changes)

    def look(self, launch: dict[str, Any], changes: Changes) -> None:
        """Begins to look for the suspicious moves of a session's run, if runs stop there."""
        with self.news:
            if launch and self.acts(launch):
                self.searches.of(launch, changes)

    def acts(self, launch: dict[str, Any]) -> bool:
        return bool(self.kinds) and launch.get("noDebug") is not True

    def ask(self, number: int, command: str, launch: dict[str, Any], changes: Changes) -> None:
        """A run is requested."""
        self.run = None
        if command in WATCHED and self.acts(launch):
            kept = launch.get("history")
            self.run = Run(number, self.searches.of(launch, changes), changes, time.monotonic() + HOLD,
                           command not in BACK, kept if isinstance(kept, int) else None)

    def begin(self, number: int, position: int | None, launch: dict[str, Any], changes: Changes) -> None:
        """A response says that what was asked for begins."""
        run = self.run
        if not run or run.number != number:
            return
        run.is_begun, run.changes, run.search = True, changes.copy(), self.searches.of(launch, changes)
        run.start = run.passed = -1 if position is None else position
        if self.unjudged is not None and run.start == self.unjudged:
            run.passed -= 1
        self.news.notify_all()

    def end(self) -> None:
        """A stop is reported, or a run was refused: the run is no longer watched."""
        if self.run and self.run.is_begun:
            self.run = self.errand = None

    def forget(self) -> None:
        """The session is over."""
        self.run = self.errand = self.unjudged = None
        self.told = []
        self.is_urgent = False
        self.remarks.clear()
        self.searches.close()

    def hold(self, command: str, line: str) -> None:
        """Makes a request, or a console line, wait while the session may still be led elsewhere.

        What begins a run waits until the session stands, and others wait for a moment, since a run may take long.
        """
        with self.news:
            while self.run and not self.is_urgent and (left := self.seconds_left(self.run, command)) > 0:
                self.news.wait(left)
            if not self.run:
                return
            if command == "pause":
                self.run.is_hurried = True
            elif command in LEAVING | CHANGING | MOVING or MOVES.search(line):
                self.run.is_given_up = True
            self.news.notify_all()

    @staticmethod
    def seconds_left(run: Run, command: str) -> float:
        """For how long a request waits for a run, if that doesn't stand before."""
        if command not in MOVING:
            return run.hold_until - time.monotonic()
        # A request to which there is no response has begun none.
        return LONG if run.is_begun else run.hold_until + OWN_HOLD - time.monotonic()

    def hurry(self) -> None:
        """Nothing waits any more: the editor leaves."""
        with self.news:
            self.is_urgent = True
            self.news.notify_all()

    # Stops.

    def keeps(self, stop: bytes) -> bool:
        """Whether the stop of a run is held back, since it is reported elsewhere or differently."""
        run = self.run
        body = read(stop).get("body", {})
        found = POSITION.match(str(body.get("description", "")))
        if not run or not run.is_begun or not found:
            self.told = []
            return False
        here, run.is_standing = int(found[1]), True
        met = self.met(run, here, str(body.get("reason")))
        if body.get("reason") == FAULT and not met:
            # The session stood before the move that faulted, or stands behind it already.
            met = self.before(run, here)
        if not met:
            self.told = []
            is_unjudged = body.get("reason") == "entry" and run.search.known <= here and not run.search.is_over
            self.unjudged = here if is_unjudged else None
            if not run.is_given_up:
                self.remark_unknown(run, here)
            return False
        if met[0].position == here or body.get("reason") == FAULT and met[0].position == here - 1:
            # A move that faults is told with its fault, in one stop.
            self.tell(suspicious(stop, met), met, None)
            return True
        run.hold_until = time.monotonic() + OWN_HOLD
        self.errand = Errand(met[0].position, met, here, stop, here)
        self.go(self.errand, here, run.changes)
        return True

    def met(self, run: Run, here: int, reason: str) -> list[Suspicion]:
        """The suspicious move at which a run that stopped here should stand, or nothing."""
        if here == run.start:
            return []
        is_forward = here > run.start
        needed = here + 1 if is_forward else run.start
        with self.news:
            # The stop at the start of a session waits for nothing.
            if run.start >= 0 or here > 0:
                self.news.wait_for(
                    lambda: run.search.known >= needed or run.search.is_over or run.is_hurried or run.is_given_up
                    or is_forward and self.place_met(run, here, reason) is not None, SECONDS)
            place = None if run.is_given_up else self.place_met(run, here, reason)
            return [each for each in run.search.found if each.position == place and each.kind in self.kinds]

    def before(self, run: Run, here: int) -> list[Suspicion]:
        """What is known to be suspicious about the move that led to a run's position."""
        if run.is_given_up or here - 1 not in self.places(run):
            return []
        return [each for each in run.search.found if each.position == here - 1 and each.kind in self.kinds]

    def place_met(self, run: Run, here: int, reason: str) -> int | None:
        """The position of the first suspicious move between a run's start and its stop, by what is known."""
        places = self.places(run)
        if here > run.start:
            inside = [place for place in places if run.passed < place < here]
        else:
            inside = [place for place in reversed(places)
                      if here < place < run.start and self.is_way(run.changes, here, place)]
        if not inside and here in places and reason in PLAIN:
            return here
        return inside[0] if inside else None

    def places(self, run: Run) -> list[int]:
        """The positions before suspicious moves of a run, as far as they are known."""
        places = [each.position for each in run.search.found if each.kind in self.kinds]
        unknown = run.changes.unknown
        return places if unknown is None else [place for place in places if place <= unknown]

    @staticmethod
    def is_way(changes: Changes, here: int, there: int) -> bool:
        """Whether the changes by hand that going back took back can be made again on the way forward."""
        return all(SIMPLE.fullmatch(line) for at, line in changes.lines if here <= at < there)

    def remark_unknown(self, run: Run, here: int) -> None:
        """Says once where no suspicion is known."""
        last = max(here, run.start)
        if run.changes.unknown is not None and last > run.changes.unknown:
            self.say("memory was changed by hand: no suspicion is looked for behind that")
        elif run.search.fault:
            self.say(f"no suspicion is looked for: {run.search.fault}")
        elif run.search.known < last:
            self.say(f"no suspicion is known behind #{run.search.known}")

    def say(self, line: str) -> None:
        if line not in self.remarks:
            self.remarks.add(line)
            self.remark(f"[{line}]\n")

    def tell(self, told: bytes, met: list[Suspicion], changes: Changes | None) -> None:
        """Reports a stop; then waiting requests go on."""
        with self.news:
            self.told, self.unjudged = met, None
        self.show(told, changes)

    # Moves from here.

    def go(self, errand: Errand, here: int, changes: Changes) -> None:
        """Sends the lines that lead to the target of an errand."""
        lines, at = [], here
        for position, line in changes.lines:
            if here <= position < errand.target:
                lines += [f"step {position - at}"] * (position > at) + [line]
                at = position + 1
        away = errand.target - at
        lines += [f"step {away}"] * (away > 0) + [f"back {-away}"] * (away < 0)
        errand.at = here
        errand.number = self.request("evaluate", {"expression": "\n".join(lines), "context": "repl"})

    def request(self, command: str, arguments: dict[str, Any], run: Run | None = None) -> int:
        """Sends a request from here, about a run that goes on if one is given; its number."""
        self.sent += 1
        number = OWN + self.sent
        if run:
            self.asked[number] = run
        self.send(framed(written({"seq": number, "type": "request", "command": command, "arguments": arguments})))
        return number

    def takes(self, body: bytes) -> bool:
        """Whether a message answers a request from here, so that the editor doesn't see it."""
        errand, run = self.errand, self.run
        if not self.asked and not (run and errand):
            return False
        message = read(body)
        if message.get("type") == "response" and (asked := self.asked.pop(message.get("request_seq", 0), None)):
            self.stand(asked, str(message.get("body", {}).get("result", "")))
            return True
        if not run or not errand:
            return False
        if message.get("type") == "response" and message.get("request_seq") == errand.number:
            told = str(message.get("body", {}).get("result", "")).rpartition("\n")[2]
            if not POSITION.match(told):
                self.return_home(errand, errand.at, run)
            return True
        if message.get("event") != "stopped":
            return False
        place = str(message.get("body", {}).get("description", ""))
        found = POSITION.match(place)
        here = int(found[1]) if found else errand.at
        if here == errand.target and errand.suspicions and is_at(place, errand.suspicions):
            self.tell(suspicious(body, errand.suspicions), errand.suspicions, run.changes)
        elif here == errand.target and not errand.suspicions:
            self.tell(errand.stop, [], run.changes)
        elif abs(errand.target - here) < abs(errand.target - errand.at):
            self.go(errand, here, run.changes)
        else:
            self.return_home(errand, here, run)
        return True

    def watch(self) -> None:
        """Asks long runs for their position, if there is a suspicious move ahead of their start."""
        while True:
            with self.news:
                self.news.wait_for(lambda: self.run is not None and self.run.is_begun)
                run = self.run
                self.news.wait_for(lambda: self.run is not run, LOOK)
                is_on = run and run is self.run and run.is_forward and not run.is_standing and not run.is_given_up
                if run and is_on and not self.asked and any(place > run.passed for place in self.places(run)):
                    self.request("evaluate", {"expression": "position", "context": "watch"}, run)

    def stand(self, run: Run, told: str) -> None:
        """Pauses a run that reported its position, if it went past a suspicious move that can be reached from there."""
        place = next((place for place in self.places(run) if place > run.passed), None)
        if run is not self.run or run.is_standing or not told.isdecimal() or place is None:
            return
        if int(told) > place and (run.kept is None or int(told) - place < run.kept):
            self.request("pause", {"threadId": 1}, run)

    def return_home(self, errand: Errand, here: int, run: Run) -> None:
        """Goes back to the stop of the run, since its suspicious move can't be reached, and reports that stop."""
        if errand.suspicions:
            self.say(f"the suspicious move at #{errand.target} can't be reached from here")
        if not errand.suspicions or here == errand.home:
            self.tell(errand.stop, [], run.changes)
            return
        self.errand = Errand(errand.home, [], errand.home, errand.stop, here)
        self.go(self.errand, here, run.changes)

    # What is told.

    def informed(self, body: bytes, position: int | None) -> bytes:
        """The answer to `exceptionInfo` if the session stands before a suspicion, or at the fault of one."""
        message = read(body)
        fault: dict[str, Any] = message.get("body", {}) if message.get("success") else {}
        if not self.told or position is None or self.told[0].position != position - bool(fault):
            return body
        number = message.pop("seq")
        message.pop("message", None)
        suspicion = f"suspicion: {', '.join(each.kind for each in self.told)}"
        told = [self.told[0].first, *(f"  {each.second}" for each in self.told)]
        info = {"exceptionId": "; ".join([*filter(None, [fault.get("exceptionId")]), suspicion]), "breakMode": "always",
                "description": "\n".join([*filter(None, [fault.get("description")]), *told])}
        return written({**message, "success": True, "body": info, "seq": number})


def is_at(place: str, met: list[Suspicion]) -> bool:
    """Whether a place line of the adapter may be that of a suspicious move: its names may be written differently."""
    return place.rpartition(" ")[2] == met[0].first.partition("  ")[0].rpartition(" ")[2]


def suspicious(stop: bytes, met: list[Suspicion]) -> bytes:
    """A stop of the adapter, as reported before a suspicious move, or with the fault of one."""
    message = read(stop)
    number, at = message.pop("seq"), message.get("body", {})
    fault = f"{at.get('text')}; " if at.get("reason") == FAULT else ""
    body = {"reason": FAULT, "description": at.get("description"), "text": f"{fault}suspicious: {met[0].second}"}
    rest = {name: value for name, value in at.items() if name in ("threadId", "allThreadsStopped")}
    return written({**message, "body": {**body, **rest}, "seq": number})
