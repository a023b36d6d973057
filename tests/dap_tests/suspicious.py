"""The filters of an editor by which runs stop before suspicious moves, as `qrev-dap` starts the adapter.

`./qrev --check` says what is suspicious in a text; for examples/squares.ssa README.md has it.
"""
import pathlib
import random
import shutil
import subprocess
import sys
import tempfile
import threading
import time
from collections.abc import Callable, Iterable, Iterator

from harness.running import EXAMPLES, TOP

sys.path.insert(0, str(TOP))

from editors.console.questions import Changes
from editors.console.suspicions import MOST, Search

from .consoles import BUILT, GONE, Console, disconnected
from .driver import ended, expect
from .sessions import FOLDER, Message

TEXTS = TOP / "check" / "testing" / "texts"
# A stand-in for an adapter whose runs go on.
RUNNING = pathlib.Path(__file__).resolve().parent / "running_adapter"
FILTERS = [("suspicions", True), ("strict", False)]
# The first move is suspicious: a load through a number.
FIRST = "data $d = { w 5 }\nexport function w $main() {\n@start\n\t%x =w loadw 65536\n\tret %x\n}\n"
# A suspicious move, and a loop without an end behind it.
ENDLESS = ("data $d = { w 5 }\nexport function $main() {\n@start\n\t%i =l copy 0\n\t%x =w loadw 65536\n@loop\n"
           "\t%i =l add %i, 1\n\tjmp @loop\n}\n")
# A suspicious move behind a loop of 2,000,000 rounds, of three moves each, and the jump before it.
FAR = ("data $d = { w 5, w 6 }\ndata $e = { w 7 }\nexport function w $main() {\n@start\n\tjmp @loop\n@loop\n"
       "\t%i =l phi @start 0, @loop %n\n\t%n =l add %i, 1\n\t%c =w cultl %n, 2000000\n\tjnz %c, @loop, @end\n@end\n"
       "\t%p =l add $d, 8\n\t%x =w loadw %p\n\tret %x\n}\n")
# A load past the end of $d, which is dead memory; and a division by zero, which is no suspicion.
FAULTS = ("data $d = { w 5 }\nexport function w $main() {\n@start\n\t%p =l add $d, 4096\n\t%x =w loadw %p\n"
          "\tret %x\n}\n")
DIVIDES = "export function w $main() {\n@start\n\t%x =w copy 0\n\t%y =w div 1, %x\n\tret %y\n}\n"
# A suspicious load behind 30,000 rounds of three moves, and then as many rounds as there are.
NEAR = ("data $d = { w 5, w 6 }\ndata $e = { w 7 }\nexport function w $main() {\n@start\n\tjmp @loop\n@loop\n"
        "\t%i =l phi @start 0, @loop %n\n\t%n =l add %i, 1\n\t%c =w cultl %n, 30000\n\tjnz %c, @loop, @end\n@end\n"
        "\t%p =l add $d, 8\n\t%x =w loadw %p\n\tjmp @on\n@on\n\tjmp @on\n}\n")
# Seconds that a run without an end goes on before it is paused.
WHILE = 4.0


def checked(program: str, folder: pathlib.Path, text: str, kinds: str = "default") -> list[tuple[str, str]]:
    """The two lines of each suspicion that the command reports for a text, and for words after it."""
    words = [str(TOP / "qrev"), *(["--built"] if BUILT in program else []), "--check", *text.split(), "--kinds", kinds]
    lines = subprocess.run(words, cwd=folder, capture_output=True, text=True, check=False).stdout.splitlines()
    return list(zip(lines[:-1:2], lines[1:-1:2]))


class Stopping:
    """A console whose editor has switched filters on, and where its session stops."""

    def __init__(self, console: Console, program: str, folder: pathlib.Path):
        self.console, self.program, self.folder = console, program, folder

    def begin(self, text: str, filters: Iterable[str] | None = ("suspicions",), **more: object) -> Message:
        """Launches a text; the first stop, where there is one to wait for."""
        self.console.answer("initialize", {"adapterID": "qrev"})
        launched = self.console.answer("launch", {"program": text, **more})
        expect(launched["success"], launched)
        if filters is not None:
            chosen = self.console.answer("setExceptionBreakpoints", {"filters": list(filters)})
            expect(chosen["success"] and chosen.get("body", {}) == {}, chosen)
        self.console.answer("configurationDone")
        return self.console.stopped()

    def stops(self, command: str, **more: object) -> Message:
        answer = self.console.answer(command, {"threadId": 1, **more})
        expect(answer["success"], answer)
        return self.console.stopped()

    def leads(self, command: str, place: str, reason: str) -> Message:
        """A request that leads to a place, by its place line."""
        stop = self.stops(command)
        is_so = (stop["description"], stop["reason"]) == (place, reason)
        expect(is_so, f"{command} leads to {stop}, not to {place} by {reason}")
        return stop

    def is_suspicious(self, stop: Message, wanted: tuple[str, str]) -> None:
        """A stop before a suspicious move, by the two lines about it."""
        first, second = wanted
        place, kind = first.partition("  ")[0], second.split()[0].rstrip(":")
        told: Message = {"reason": "exception", "description": place, "text": f"suspicious: {second.strip()}"}
        expect(stop == {**told, "threadId": 1, "allThreadsStopped": True}, f"{stop} in place of {wanted}")
        info = self.console.answer("exceptionInfo", {"threadId": 1})
        expect(info["success"] and info["body"] == {
            "exceptionId": f"suspicion: {kind}", "description": f"{first}\n{second}", "breakMode": "always"},
            f"{info} in place of {wanted}")

    def typed(self, line: str) -> Message:
        self.console.asked(line)
        return self.console.stopped()

    def outputs(self) -> list[str]:
        """The output of the program, and the console's messages, since the last time."""
        found = [event["body"]["output"] for event in self.console.events if event["event"] == "output"]
        self.console.events.clear()
        return found


def capabilities(at: Stopping) -> None:
    can = at.console.answer("initialize", {"adapterID": "qrev"})["body"]
    found = [(each["filter"], each["default"]) for each in can["exceptionBreakpointFilters"]]
    expect(found == FILTERS and can["supportsExceptionInfoRequest"], f"filters {found}")


def forward_and_back(at: Stopping) -> None:
    """Both suspicions of a text in turn, to the end, and back; the output is sent once."""
    first, second = checked(at.program, at.folder, "digits.ssa")
    at.begin("digits.ssa")
    at.is_suspicious(at.stops("continue"), first)
    at.is_suspicious(at.stops("continue"), second)
    at.leads("continue", "#141 done 822083587", "end")
    info = at.console.answer("exceptionInfo", {"threadId": 1})
    expect(info.get("message") == "no fault", f"at the end: {info}")
    at.is_suspicious(at.stops("reverseContinue"), second)
    at.is_suspicious(at.stops("reverseContinue"), first)
    at.leads("reverseContinue", "#0 $main @start 0", "entry")
    at.is_suspicious(at.stops("continue"), first)
    # As examples/digits.transcript has it.
    expect("".join(at.outputs()) == "7\n42\n12345\n", "another output")


def steps(at: Stopping) -> None:
    """Steps over a call and out of it stop inside; one that ends there reports it; one away from there goes on."""
    [only] = checked(at.program, at.folder, "squares.ssa")
    at.begin("squares.ssa")
    at.is_suspicious(at.stops("next"), only)
    at.leads("stepBack", "#43 $fill @body 3", "step")
    at.is_suspicious(at.stops("stepIn"), only)
    at.leads("stepIn", "#45 $fill @body 5", "step")
    at.is_suspicious(at.stops("stepBack"), only)
    at.leads("stepOut", "#50 $main @start 1", "step")
    at.is_suspicious(at.stops("stepBack"), only)
    at.typed("goto 20")
    at.is_suspicious(at.stops("stepOut"), only)


def off(at: Stopping) -> None:
    at.begin("squares.ssa", filters=[])
    at.leads("continue", "#88 done 30", "end")


def switched(at: Stopping) -> None:
    """Filters that are switched while the session stands."""
    [only] = checked(at.program, at.folder, "squares.ssa")
    at.begin("squares.ssa", filters=[])
    at.console.answer("setExceptionBreakpoints", {"filters": [], "filterOptions": [{"filterId": "suspicions"}]})
    at.is_suspicious(at.stops("continue"), only)
    at.leads("continue", "#88 done 30", "end")
    at.console.answer("setExceptionBreakpoints", {"filters": ["another"]})
    at.leads("reverseContinue", "#0 $main @start 0", "entry")


def not_asked(at: Stopping) -> None:
    """Where an editor asks for no filters none is on."""
    at.begin("squares.ssa", filters=None)
    at.leads("continue", "#88 done 30", "end")


def not_debugged(at: Stopping) -> None:
    at.console.answer("initialize", {"adapterID": "qrev"})
    at.console.answer("launch", {"program": "squares.ssa", "noDebug": True})
    at.console.answer("setExceptionBreakpoints", {"filters": ["suspicions"]})
    at.console.answer("configurationDone")
    while (message := at.console.next()) and message["event"] != "terminated":
        expect(message["event"] == "output", message)


def strict(at: Stopping) -> None:
    """The strict filter has the strict kinds alone, and both have all."""
    load, result, jump = checked(at.program, at.folder, "unset-on-one-path.ssa", "strict")
    at.begin("unset-on-one-path.ssa", filters=["strict"])
    at.is_suspicious(at.stops("continue"), load)
    at.is_suspicious(at.stops("continue"), result)
    at.leads("continue", "#77 done 0", "end")
    at.console.answer("setExceptionBreakpoints", {"filters": ["suspicions", "strict"]})
    at.is_suspicious(at.stops("reverseContinue"), jump)
    at.is_suspicious(at.stops("reverseContinue"), result)
    at.console.answer("setExceptionBreakpoints", {"filters": ["suspicions"]})
    at.is_suspicious(at.stops("continue"), jump)
    at.leads("reverseContinue", "#0 $main @start 0", "entry")


def breakpoints(at: Stopping) -> None:
    """What comes first is reported: a breakpoint before it, or at it, or the suspicion before a breakpoint."""
    [only] = checked(at.program, at.folder, "squares.ssa")
    at.begin("squares.ssa")
    at.typed("goto 40")
    at.console.answer("setFunctionBreakpoints", {"breakpoints": [{"name": "fill @body 2"}, {"name": "main @start 1"}]})
    at.leads("continue", "#42 $fill @body 2", "function breakpoint")
    at.is_suspicious(at.stops("continue"), only)
    at.leads("continue", "#50 $main @start 1", "function breakpoint")
    at.is_suspicious(at.stops("reverseContinue"), only)
    at.leads("reverseContinue", "#42 $fill @body 2", "function breakpoint")
    at.console.answer("setFunctionBreakpoints", {"breakpoints": [{"name": "fill @body 4"}]})
    at.leads("continue", "#44 $fill @body 4", "function breakpoint")
    at.leads("continue", "#88 done 30", "end")


def counted(at: Stopping) -> None:
    """A hit that a run had before it was led back counts once."""
    [only] = checked(at.program, at.folder, "squares.ssa")
    at.begin("squares.ssa")
    place = {"source": {"path": str(at.folder / "squares.ssa")}, "breakpoints": [{"line": 11, "hitCondition": "== 6"}]}
    at.console.answer("setBreakpoints", place)
    at.is_suspicious(at.stops("continue"), only)
    at.leads("continue", "#47 $fill @loop 0", "breakpoint")
    at.is_suspicious(at.stops("reverseContinue"), only)


def at_the_start(at: Stopping) -> None:
    """Where the very first move is suspicious a run stops before it too, as soon as it is known."""
    [only] = checked(at.program, at.folder, "first.ssa")
    stop = at.begin("first.ssa")
    if stop["reason"] == "entry":
        stop = at.stops("continue")
    at.is_suspicious(stop, only)
    at.leads("continue", "#2 done 5", "end")
    at.is_suspicious(at.stops("reverseContinue"), only)


def faulting(at: Stopping) -> None:
    """A suspicious move that faults is reported with its fault, in one stop, however the run got there."""
    [(first, second)] = checked(at.program, at.folder, "faults.ssa")
    # By hand: $d is at 65536, so that 69632 is read, in the second move.
    expect(first.startswith("#1 ") and "bounds" in second, f"{first} {second}")
    told = {"reason": "exception", "description": "#2 fault dead address 69632", "threadId": 1,
            "allThreadsStopped": True, "text": f"dead address 69632; suspicious: {second.strip()}"}
    at.begin("faults.ssa")
    for _ in range(2):
        stop = at.stops("continue")
        expect(stop == told, f"{stop} in place of {told}")
        info = at.console.answer("exceptionInfo", {"threadId": 1})["body"]
        expect(info == {"exceptionId": "dead address 69632; suspicion: bounds", "breakMode": "always",
                        "description": f"#2 fault dead address 69632\n{first}\n{second}"}, f"{info}")
    at.is_suspicious(at.stops("stepBack"), (first, second))
    expect(at.stops("stepIn") == told, "a step to the fault tells otherwise")
    at.console.answer("setExceptionBreakpoints", {"filters": []})
    at.leads("stepBack", "#1 $main @start 1", "step")
    at.leads("continue", "#2 fault dead address 69632", "exception")
    info = at.console.answer("exceptionInfo", {"threadId": 1})["body"]
    expect(info["exceptionId"] == "dead address 69632", f"without filters {info}")


def faulting_alone(at: Stopping) -> None:
    """A fault of a move that isn't suspicious is reported unchanged."""
    expect(checked(at.program, at.folder, "divides.ssa") == [], "the division is suspicious")
    at.begin("divides.ssa")
    stop = at.leads("continue", "#2 fault division by zero", "exception")
    info = at.console.answer("exceptionInfo", {"threadId": 1})["body"]
    expect((stop["text"], info["exceptionId"]) == ("division by zero",) * 2, f"{stop} {info}")


def without_entry(at: Stopping) -> None:
    """A run that goes on from its beginning."""
    [only] = checked(at.program, at.folder, "squares.ssa")
    at.is_suspicious(at.begin("squares.ssa", stopOnEntry=False), only)


def changed(at: Stopping) -> None:
    """Behind a change by hand the changed run counts; where going back went past it the change is made again."""
    at.begin("squares.ssa")
    at.typed("goto 20")
    at.typed("set %square 77")
    stop = at.stops("continue")
    is_later = stop["description"] == "#45 $fill @body 4" and stop["reason"] == "exception"
    expect(is_later, f"one move later it isn't {stop}")
    at.leads("continue", "#89 done 30", "end")
    expect(at.stops("reverseContinue") == stop, "it isn't the same stop on the way back")
    at.typed("goto 21")
    told = [at.console.asked(line) for line in ("print %square", "why %square")]
    expect(told == ["%square = 77", "%square = 77 was set by hand: #20 set %square 77"], told)
    at.leads("reverseContinue", "#0 $main @start 0", "entry")
    at.leads("continue", "#44 $fill @body 4", "exception")


def mended(at: Stopping) -> None:
    """A change that mends the run."""
    at.begin("squares.ssa")
    at.typed("goto 39")
    at.typed("set %more 0")
    at.leads("continue", "#80 done 14", "end")
    at.leads("reverseContinue", "#0 $main @start 0", "entry")


def changed_otherwise(at: Stopping) -> None:
    """Behind a change that can't be said as a line the filters are silent, and say so once."""
    [only] = checked(at.program, at.folder, "squares.ssa")
    at.begin("squares.ssa")
    at.is_suspicious(at.stops("continue"), only)
    at.leads("stepBack", "#43 $fill @body 3", "step")
    at.outputs()
    at.console.answer("setExpression", {"expression": "w[$squares]", "value": "1"})
    at.leads("continue", "#89 done 31", "end")
    said = at.outputs()
    expect(said == ["[memory was changed by hand: no suspicion is looked for behind that]\n"], f"it says {said}")
    at.leads("stepBack", "#88 $main @end 2", "step")
    at.leads("continue", "#89 done 31", "end")
    expect(at.outputs() == [], "it says so again")
    at.typed("goto 40")
    at.is_suspicious(at.stops("continue"), only)


def pipelined(at: Stopping) -> None:
    """Requests that come at once are answered in turn, where the editor is told that the session stands."""
    [only] = checked(at.program, at.folder, "squares.ssa")
    at.begin("squares.ssa")
    at.is_suspicious(at.stops("continue"), only)
    at.typed("goto 20")
    asked = [("continue", {"threadId": 1}), ("stackTrace", {"threadId": 1}), ("exceptionInfo", {"threadId": 1}),
             ("continue", {"threadId": 1}), ("stackTrace", {"threadId": 1}), ("reverseContinue", {"threadId": 1}),
             ("threads", None), ("evaluate", {"expression": "why %place", "context": "repl"})]
    for command, arguments in asked:
        at.console.request(command, arguments)
    got: list[Message] = []
    descriptions: list[str] = []
    while len(got) < len(asked) or len(descriptions) < 3:
        message = at.console.next() or {}
        expect(bool(message), "the end")
        if message["type"] == "response":
            got.append(message)
        elif message["event"] == "stopped":
            descriptions.append(message["body"]["description"])
    got.sort(key=lambda message: int(message["request_seq"]))
    expect(descriptions == ["#44 $fill @body 4", "#88 done 30", "#44 $fill @body 4"], f"it stops at {descriptions}")
    expect(got[1]["body"]["stackFrames"][0]["name"] == "$fill @body 4", f"{got[1]}")
    expect(got[2]["body"]["exceptionId"] == "suspicion: bounds", f"{got[2]}")
    expect(got[4]["body"]["stackFrames"][0]["name"] == "#88 done 30", f"{got[4]}")
    expect("%place = 65552" in str(got[7].get("body")), f"{got[7]}")


def led(command: str, position: int, places: list[int], end: int) -> int:
    """Where a request leads by itself, if the run is of so many moves, and these are the suspicious ones."""
    if command == "continue":
        return min([place for place in places if place > position], default=end)
    if command == "reverseContinue":
        return max([place for place in places if place < position], default=0)
    return min(position + 1, end) if command == "stepIn" else max(position - 1, 0)


def at_random(at: Stopping) -> None:
    """Moves at random, some at once, by a count of positions."""
    places = [int(first.split(" ")[0][1:]) for first, _ in checked(at.program, at.folder, "digits.ssa")]
    chance, position, end = random.Random(7), 0, 141
    at.begin("digits.ssa")
    for _ in range(80):
        there = chance.choice([place for place in (0, 100, 101, 102, 103, 104, 105, 140, 141) if place != position])
        if chance.random() < 0.3:
            position = int(at.typed(f"goto {there}")["description"].split(" ")[0][1:])
            expect(position == there, f"goto {there} leads to #{position}")
        commands = chance.choices(["continue", "reverseContinue", "stepIn", "stepBack"], k=chance.randint(1, 3))
        for command in commands:
            at.console.request(command, {"threadId": 1, "granularity": "instruction"})
        stops: list[Message] = []
        while len(stops) < len(commands):
            message = at.console.next() or {}
            stops += [message["body"]] if message.get("event") == "stopped" else []
        for command, stop in zip(commands, stops):
            start, position = position, led(command, position, places, end)
            wanted = f"#{position} ", position != start and position in places
            expect((stop["description"].partition(" ")[0] + " ", stop["reason"] == "exception") == wanted,
                   f"{command} from #{start} leads to {stop} and not to {wanted}")


def left(at: Stopping) -> None:
    """The editor leaves while it isn't known yet whether something is suspicious."""
    at.begin("squares.ssa")
    at.console.request("continue", {"threadId": 1})
    at.console.request("disconnect")
    while (message := at.console.next()) and message.get("command") != "disconnect":
        pass
    expect(message is not None and message["success"], "disconnect isn't answered")


def gone(at: Stopping) -> None:
    """The editor goes away then, without a word."""
    at.begin("squares.ssa")
    at.console.request("continue", {"threadId": 1})
    begun = time.monotonic()
    status = at.console.end()
    took = time.monotonic() - begun
    expect(status == 0 and took < GONE, f"status {status} after {took:g} seconds")


def not_kept(at: Stopping) -> None:
    """If the suspicious move is before the oldest kept state, the stop is reported unchanged."""
    at.begin("squares.ssa", history=10)
    at.leads("continue", "#88 done 30", "end")
    said = at.outputs()
    expect(said == ["[the suspicious move at #44 can't be reached from here]\n"], f"it says {said}")
    at.leads("stepBack", "#87 $main @end 2", "step")


def limited(at: Stopping) -> None:
    """A run that ends at its limit of moves."""
    [only] = checked(at.program, at.folder, "endless.ssa --limit 1000")
    at.begin("endless.ssa", limit=100_000)
    at.is_suspicious(at.stops("continue"), only)
    stop = at.stops("continue")
    expect(stop["reason"] == "pause" and stop["text"].startswith("the limit of moves"), stop)
    at.console.answer("setExceptionBreakpoints", {"filters": []})
    at.stops("stepBack")
    at.console.answer("setExceptionBreakpoints", {"filters": ["suspicions"]})
    at.is_suspicious(at.stops("reverseContinue"), only)


def paused(at: Stopping) -> None:
    """Requests are answered during a run without an end; if its suspicion is out of reach the pause is reported."""
    at.begin("endless.ssa", history=1_000_000)
    at.console.answer("continue", {"threadId": 1})
    time.sleep(WHILE)
    at.console.answer("threads")
    refused = at.console.asked("why %i")
    expect(refused == "failed: the run goes on: pause it first", f"while it runs: {refused}")
    at.console.answer("pause", {"threadId": 1})
    stop = at.console.stopped()
    position = int(stop["description"].split(" ")[0][1:])
    expect(stop["reason"] == "pause" and position > 1_000_000, stop)
    told = at.console.asked("print %i")
    expect(told.startswith("%i = "), told)


def brought_to_a_stand(at: Stopping) -> None:
    """A run that goes on past a suspicious move is brought to a stand there, though the editor asks for no pause."""
    [only] = checked(at.program, at.folder, "endless.ssa --limit 1000")
    at.begin("endless.ssa")
    at.is_suspicious(at.stops("continue"), only)
    at.console.answer("continue", {"threadId": 1})
    time.sleep(WHILE)
    at.console.answer("pause", {"threadId": 1})
    stop = at.console.stopped()
    expect(stop["reason"] == "pause" and int(stop["description"].split(" ")[0][1:]) > 1, stop)


def again(at: Stopping) -> None:
    """A restart is another session with the same filters."""
    [only] = checked(at.program, at.folder, "squares.ssa")
    at.begin("squares.ssa")
    at.is_suspicious(at.stops("continue"), only)
    restarts: list[Message] = [{}, {"arguments": {"noDebug": False}},
                               {"arguments": {"program": "squares.ssa", "limit": 60}}]
    for arguments in restarts:
        at.console.answer("restart", arguments)
        at.leads("configurationDone", "#0 $main @start 0", "entry")
        at.is_suspicious(at.stops("continue"), only)


def recorded(at: Stopping) -> None:
    """The record has the lines that led to the stop."""
    [only] = checked(at.program, at.folder, "squares.ssa")
    at.begin("squares.ssa", record="record")
    at.is_suspicious(at.stops("continue"), only)
    at.console.answer("disconnect")
    lines = (at.folder / "record").read_text().split("\n")
    expect(lines == ["continue", "back 44", ""], f"the record is {lines}")


def soon(at: Stopping) -> None:
    """A near stop is reported before the whole run is checked; one after a suspicious move is led back to that."""
    [(first, second)] = checked(at.program, at.folder, "near.ssa --limit 200000")
    expect(first.startswith("#90002 "), first)
    launch = {"program": str(at.folder / "near.ssa")}
    search = Search(launch, ["--built"] if BUILT in at.program else [], Changes(), threading.Condition())
    try:
        with search.news:
            is_known = search.news.wait_for(lambda: search.known > 90_002, at.console.seconds)
            found = [each.position for each in search.found]
        expect(is_known and search.known < MOST and found == [90_002], f"#{search.known}: {found} {search.fault}")
    finally:
        search.close()
    at.begin("squares.ssa")


def far(at: Stopping) -> None:
    """Behind the moves that `suspects` looks at the fast pass finds accesses."""
    at.begin("far.ssa", history=1000, limit=20_000_000)
    at.is_suspicious(at.stops("continue"), ("#6000002 $main @end 1  line 13: %x =w loadsw %p",
                                            "  bounds: loadsw at the end of $d (8 bytes), between objects"))
    at.leads("continue", "#6000004 done 0", "end")
    at.leads("reverseContinue", "#6000002 $main @end 1", "exception")


CASES: dict[str, Callable[[Stopping], None]] = {
    "capabilities": capabilities, "forward and back": forward_and_back, "steps": steps, "off": off,
    "switched": switched, "not asked": not_asked, "not debugged": not_debugged, "strict": strict,
    "breakpoints": breakpoints, "counted": counted, "at the start": at_the_start,
    "without a stop at the entry": without_entry, "a fault": faulting, "a fault alone": faulting_alone,
    "changed by hand": changed, "mended by hand": mended, "changed otherwise": changed_otherwise, "at once": pipelined,
    "at random": at_random, "the editor leaves": left, "the editor goes away": gone, "not kept": not_kept,
    "at the limit": limited, "paused": paused, "restarted": again, "recorded": recorded,
    "a long run": brought_to_a_stand, "soon": soon, "far from the start": far,
}
# Cases behind which nobody is left to be asked to end.
ENDED = ("the editor leaves", "the editor goes away", "recorded")


def fault_of(program: str, seconds: float, name: str) -> str | None:
    """What is wrong in a case, or None."""
    with tempfile.TemporaryDirectory(prefix="dap-") as place:
        folder = pathlib.Path(place).resolve()
        for file in [*EXAMPLES.glob("*.ssa"), *TEXTS.glob("*.ssa"), *FOLDER.glob("*.ssa")]:
            shutil.copy(file, folder)
        (folder / "first.ssa").write_text(FIRST)
        (folder / "endless.ssa").write_text(ENDLESS)
        for file_name, text in {"far": FAR, "near": NEAR, "faults": FAULTS, "divides": DIVIDES}.items():
            (folder / f"{file_name}.ssa").write_text(text)
        console = Console(str(RUNNING) if name == "a long run" else program, seconds, folder)
        end = ended if name in ENDED else disconnected
        return end(console, lambda: CASES[name](Stopping(console, program, folder)))


def cases() -> Iterator[tuple[str, Callable[..., str | None], tuple[str, ...]]]:
    for name in CASES:
        yield f"suspicions, {name}", fault_of, (name,)
