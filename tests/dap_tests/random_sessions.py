"""Random sessions of requests on random programs. The adapter of tests/oracle gives the expected answers; their
`Free` parts may be anything. `qrev` plays the record again."""
from __future__ import annotations

import json
import pathlib
import subprocess
from collections.abc import Callable
from random import Random
from typing import Any, Optional, TypeVar

from harness.running import EXAMPLES
from robustness_tests.programs import NUMBERS, random_program
from robustness_tests.scripts import Lines
from oracle.adapter import Adapter
from oracle.shown import DATA, MACHINE, OBJECTS, POINTED, Free

from .driver import Record, frame, messages_in, replay_fault, request_message
from .sessions import FOLDER, Message

T = TypeVar("T")
# A request: its command, and its arguments, if it has some.
Request = tuple[str, Optional[Message]]

REQUESTS = 60
BINARY = ("||", "&&", "|", "^", "&", "==", "!=", "<", "<=", ">", ">=", "<<", ">>", "+", "-", "*", "/", "%")
KINDS = {"next": 12, "stepIn": 12, "stepOut": 6, "stepBack": 12, "continue": 10, "reverseContinue": 8,
         "restartFrame": 4, "configurationDone": 4, "setBreakpoints": 6, "setFunctionBreakpoints": 4,
         "setDataBreakpoints": 5, "dataBreakpointInfo": 5, "breakpointLocations": 2, "stackTrace": 6, "scopes": 3,
         "variables": 10, "setVariable": 8, "evaluate": 8, "console": 14, "readMemory": 4, "writeMemory": 4,
         "exceptionInfo": 3, "completions": 3, "setExpression": 4, "loadedSources": 1, "threads": 1, "pause": 1,
         "setExceptionBreakpoints": 1, "odd": 2, "restart": 1, "terminate": 1}
MOVES = ("next", "stepIn", "stepOut", "stepBack", "continue", "reverseContinue")
# Lines whose answer hangs on what no page settles for an adapter: it ends nothing, and a text isn't a line of bytes.
LEFT_OUT = ("quit", "\xff\xfe")
# Paths in maps of places, numbers in them, and lines of another form.
SOURCES = ("a.hll", "a.hll", "b c.hll", "./a.hll", "/abs/a.hll", "../up//y.hll", "caf\u00e9.hll", "d\\te\\\\t\\n.hll")
NUMBERS_OF_LINES = ("1", "2", "2", "3", "4", "5", "6", "7", "8", "9", "007", "4294967295")
MALFORMED = (b"x", b"x\t", b"\t5", b"5", b"x\t0", b"x\t00", b"x\t4294967296", b"x\t18446744073709551617", b"x\t+1",
             b"x\t-1", b"x\t1\r", b"\r", b"\t", b"\xff\t1", b"caf\xe9.hll\t1", b"x 1", b"x\t1 ", b"x\t1a", b"x\t0x1",
             b"x\t1.0", b"x\t\xd9\xa1", b"x\t1\t", b"x\t1\ty", b"x\t1\ty\t2", b"x\t1\ty\t2\t", b"x\t1\t\t\t",
             b"x\t0\ty\t2\t3", b"\t1\ty\t2\t3", b"x\t1\ty\t+2\t3",
             b"x\t1\ty\t2\t-3", b"x\t1\t\xff\t2\t3", b"x\t1\ty\t2\t3\t4")


def random_place(random: Random) -> bytes:
    """A line of a map: a source and a line of it, and as a rule not what that was made from."""
    place = f"{random.choice(SOURCES)}\t{random.choice(NUMBERS_OF_LINES)}"
    if random.randrange(5) == 0:
        place += (f"\t{random.choice(SOURCES + ('',))}\t{random.choice(NUMBERS_OF_LINES + ('0', '4294967296'))}"
                  f"\t{random.randrange(3)}")
    return place.encode()


def random_map(random: Random, count: int, is_good: bool) -> bytes:
    """A map of places for so many lines of a text, a few more or fewer."""
    lines = [random_place(random) if random.randrange(3) else b""
             for _ in range(max(0, count + random.randrange(-3, 3)))]
    if not is_good:
        lines.insert(random.randrange(len(lines) + 1), random.choice(MALFORMED))
    return b"\n".join(lines) + random.choice((b"", b"\n"))


class Session:
    """The requests of a seed, each chosen where the reference stands, and what it answers."""

    def __init__(self, seed: int, folder: pathlib.Path) -> None:
        self.random = Random(seed)
        self.adapter = Adapter()
        self.messages: list[Message] = []
        self.wanted: list[Message] = []
        self.program, self.record = folder / f"random-{seed}.ssa", folder / f"random-{seed}.script"
        self.arguments: Message = {}
        self.recorded: dict[str, Message] = {}
        if self.random.randrange(5):
            text, arguments = random_program(self.random)
        else:
            places = sorted(EXAMPLES.glob("*.ssa")) + sorted(FOLDER.glob("*.ssa"))
            text, arguments = self.random.choice(places).read_bytes(), []
        self.text, self.args = text, arguments
        self.program.write_bytes(text)
        self.write_maps(folder)

    def write_maps(self, folder: pathlib.Path) -> None:
        """A map beside the text, as a rule; one elsewhere, and one of another form."""
        count = self.text.count(b"\n")
        beside, elsewhere, bad = (folder / f"{name}.map" for name in (self.program.name, "elsewhere", "bad"))
        if self.random.randrange(3):
            beside.write_bytes(random_map(self.random, count, True))
        elsewhere.write_bytes(random_map(self.random, count, True))
        bad.write_bytes(random_map(self.random, count, False))
        self.maps: tuple[Optional[str], ...] = (None,) * 8 + ("", str(elsewhere), str(bad), str(folder / "nowhere.map"))

    # Requests.

    def ask(self, command: str, arguments: Optional[Message] = None) -> None:
        message = request_message(len(self.messages) + 1, command, arguments)
        self.messages.append(message)
        self.wanted += self.adapter.answer(message)

    def launch_arguments(self) -> Message:
        random = self.random
        given: Message = {"program": str(self.program), "record": str(self.record), "args": [
            str(one) if random.randrange(2) else one for one in self.args], "limit": random.choice((1, 2, 7, 50, 200))}
        given.update(random.choice(({}, {}, {"memory": 1}, {"history": "all"}, *(
            {"history": most} for most in (1, 2, 3, 10, 60)))))
        if random.randrange(3) == 0:
            given["stopOnEntry"] = bool(random.randrange(2))
        if random.randrange(15) == 0:
            given["noDebug"] = True
        map_given = random.choice(self.maps)
        if map_given is not None:
            given["map"] = map_given
        return given

    def launch(self) -> None:
        self.arguments = self.launch_arguments()
        self.ask("launch", self.arguments)
        self.note_recorded()

    def note_recorded(self) -> None:
        """Notes the arguments of a session that is open: its record is of these. A restart keeps those before it."""
        open_one = self.adapter.current
        if open_one and open_one.record is not None:
            self.recorded[open_one.record] = self.arguments

    def begin(self) -> bool:
        self.ask("initialize", {name: bool(self.random.randrange(3)) for name in (
            "linesStartAt1", "columnsStartAt1", "supportsVariableType", "supportsMemoryReferences")} | self.one_of(
                {}, {"clientID": "vscode"}, {"clientID": "other"}))
        self.launch()
        return self.adapter.current is not None

    def run(self, requests: int) -> None:
        if self.begin():
            kinds = self.random.choices(list(KINDS), list(KINDS.values()), k=requests)
            for kind in kinds:
                if self.adapter.current is None:
                    self.launch()
                    if self.adapter.current is None:
                        continue
                self.lines = Lines(self.random, self.adapter.debuggee.program)
                self.request(kind)
        self.ask("disconnect")

    def request(self, kind: str) -> None:
        if kind in MOVES:
            granularity = self.one_of({}, {}, {"granularity": "instruction"}, {"granularity": "line"})
            self.ask(kind, {"threadId": 1, **granularity})
            return
        if not hasattr(self, kind):
            self.ask(kind, {"threadId": 1})
            return
        self.ask(*getattr(self, kind)())
        if kind == "restart":
            self.note_recorded()

    def one_of(self, *choices: Message) -> Message:
        return self.random.choice(choices)

    def made_of(self, *makers: Callable[[], T]) -> T:
        """What one of these makes."""
        return self.random.choice(makers)()

    def some(self, make: Callable[[], T], most: int = 4) -> list[T]:
        return [make() for _ in range(self.random.randrange(most))]

    @property
    def depth(self) -> int:
        return self.adapter.debuggee.depth

    def frame(self) -> int:
        return self.random.randrange(1, self.depth + 2)

    def temporary(self, frame: int) -> str:
        """A temporary of the frame of that number, or another name."""
        found = self.adapter.view().frame(frame)
        return "%" + self.lines.temp(self.adapter.debuggee.program.funcs[found.func] if found else None)

    def datum(self) -> str:
        return "$" + self.random.choice(self.lines.datas) if self.lines.datas else "$nope"

    def restartFrame(self) -> Request:
        return "restartFrame", {"frameId": self.frame()}

    def line_number(self) -> int:
        return self.random.randrange(self.text.count(b"\n") + 3)

    def path(self) -> str:
        """The path of the text, of a source that its map names, or of another file."""
        sources = self.adapter.debuggee.sources
        if sources and sources.paths() and self.random.randrange(2):
            path = sources.shown(self.random.choice(list(sources.paths())))
            return self.random.choice((path, path, path, path.rsplit("/", 1)[-1], "/nowhere" + path))
        return str(self.program) if self.random.randrange(8) else self.random.choice(
            (self.program.name, "/nowhere/" + self.program.name, "x" + self.program.name))

    def source_line(self) -> int:
        return self.random.choice((self.line_number(), self.random.randrange(11), 2**32 - 1, 2**32))

    def setBreakpoints(self) -> Request:
        return "setBreakpoints", {"source": {"path": self.path()}, "breakpoints": self.some(
            lambda: {"line": self.source_line(), **self.rule()})}

    # Expressions, and what breakpoints ask for.

    def operand(self) -> str:
        random = self.random
        return self.made_of(
            lambda: self.temporary(1), lambda: self.temporary(1), lambda: self.temporary(self.frame()),
            lambda: self.datum(), lambda: f"{random.choice('bhwlsd')}[{self.datum()} + {random.randrange(12)}]",
            lambda: f"{random.choice('bhwl')}[{self.temporary(1)}]",
            lambda: random.choice(("depth", "position", "0x1f", "0b101", "'a'")),
            lambda: str(random.choice(NUMBERS) % 2**64), lambda: str(random.randrange(9)),
            lambda: random.choice(("1.5", "2e3", "0.25")))

    def expression(self, depth: int = 2) -> str:
        """An expression; now and then what is none."""
        random = self.random
        if depth == 0 or random.randrange(4) == 0:
            return self.operand()
        inner = self.expression(depth - 1)
        return self.made_of(
            lambda: f"{inner} {random.choice(BINARY)} {self.expression(depth - 1)}", lambda: f"({inner})",
            lambda: f"{random.choice('-+~!')}{inner}", lambda: f"{random.choice('us')}({inner})",
            lambda: f"{inner} {random.choice(BINARY)} {self.operand()}", lambda: f"w[{inner}]",
            lambda: random.choice((f"{inner} +", f"({inner}", f"{inner} {inner}", f"x({inner})")))

    def rule(self) -> Message:
        """What a breakpoint asks for besides its place: mostly nothing."""
        random = self.random
        if random.randrange(3):
            return {}
        given: Message = {}
        if random.randrange(2):
            given["condition"] = self.expression(1)
        if random.randrange(3) == 0:
            given["hitCondition"] = random.choice(("1", "2", ">= 2", "< 3", "== 2", "= 1", "> 1", "% 2", "<=2", "x",
                                                   "2 2"))
        if random.randrange(4) == 0:
            given["logMessage"] = (f"at {{{self.operand()}}} and {{{self.expression(1)}}}"
                                   f"{random.choice(('', '}', '{', ' {x}'))}")
        return given

    def format(self) -> Message:
        return self.one_of({}, {}, {"format": {"hex": True}}, {"format": {"hex": False}})

    def setExpression(self) -> Request:
        random = self.random
        expression = self.made_of(lambda: self.temporary(1),
                                  lambda: f"{random.choice('bhwl')}[{self.datum()} + {random.randrange(9)}]",
                                  lambda: self.expression(1))
        return "setExpression", {"expression": expression, "value": self.new_value(), **self.format()}

    def new_value(self) -> str:
        return self.lines.value() if self.random.randrange(2) else self.expression(1)

    def place(self) -> str:
        line = self.lines.line("break").removeprefix("break ")
        return self.random.choice((line, line, line.removeprefix("$"), "nope", "f0 @nope 1", "main @start x"))

    def setFunctionBreakpoints(self) -> Request:
        return "setFunctionBreakpoints", {"breakpoints": self.some(lambda: {"name": self.place(), **self.rule()}, 3)}

    def watched(self) -> str:
        return self.lines.line(self.random.choice(("watch bytes", "watch temp"))).removeprefix("watch ")

    def setDataBreakpoints(self) -> Request:
        return "setDataBreakpoints", {"breakpoints": self.some(lambda: {
            "dataId": self.watched() if self.random.randrange(3) else self.datum(), **self.rule(),
            "accessType": self.random.choice(("write", "write", "write", "read"))}, 3)}

    def dataBreakpointInfo(self) -> Request:
        frame = self.frame()
        given: Message = self.made_of(
            lambda: {"variablesReference": 1, "name": self.temporary(1)},
            lambda: {"variablesReference": frame, "name": self.temporary(frame)},
            lambda: {"variablesReference": DATA, "name": self.datum()},
            lambda: {"variablesReference": MACHINE, "name": "top"},
            lambda: {"name": self.temporary(1)},
            lambda: {"name": self.temporary(frame), "frameId": frame},
            lambda: {"name": self.datum()})
        return "dataBreakpointInfo", given

    def breakpointLocations(self) -> Request:
        first = self.source_line()
        last = {} if self.random.randrange(3) == 0 else {"endLine": first + self.random.randrange(20)}
        return "breakpointLocations", {"source": {"path": self.path()}, "line": first, **last}

    def stackTrace(self) -> Request:
        return "stackTrace", {"threadId": 1, **self.one_of(
            {}, {"startFrame": 0, "levels": 20}, {"startFrame": self.frame() - 1, "levels": self.random.randrange(4)})}

    def scopes(self) -> Request:
        return "scopes", {"frameId": self.frame()}

    def variables(self) -> Request:
        reference = self.random.choice((1, 1, self.frame(), DATA, DATA, MACHINE, self.depth + 1,
                                        OBJECTS + self.random.randrange(4), POINTED + self.random.randrange(8),
                                        POINTED + 65536 + self.random.randrange(4)))
        page = self.one_of({}, {}, {"start": self.random.randrange(6), "count": self.random.randrange(4)})
        return "variables", {"variablesReference": reference, **page, **self.format()}

    def value(self) -> str:
        return self.lines.value() if self.random.randrange(4) else \
            self.random.choice(("x", "1 2", "", str(2**64), "1\n2"))

    def setVariable(self) -> Request:
        reference = self.random.choice((1, 1, 1, DATA, DATA, MACHINE, self.depth + 1))
        name = self.datum() if reference == DATA else "top" if reference == MACHINE else self.temporary(1)
        if name == "$nope" or reference == 1 and not self.depth:
            reference = MACHINE
        # Where nothing can be set, and the value has a newline too, no page says which of both is told.
        value = self.value() if reference in (1, DATA) else self.lines.value()
        return "setVariable", {"variablesReference": reference, "name": name, "value": value}

    def evaluate(self) -> Request:
        frame = self.frame()
        name = self.random.choice((self.temporary(1), self.temporary(frame), self.datum(), "$main", "%nope",
                                   self.expression(), self.expression()))
        context = self.random.choice(("watch", "hover", "repl"))
        if context == "hover" and name[0] in "$%" and self.random.randrange(2):
            name = name[1:]
        where = self.one_of({}, {"frameId": frame})
        return "evaluate", {"expression": name, "context": context, **where, **self.format()}

    def console_line(self) -> str:
        line = self.random.choice(list(self.lines.some(3)))
        return "where" if line.strip(" \t\r").startswith(LEFT_OUT) else line.replace("4294967295", "500")

    def console(self) -> Request:
        lines = [self.console_line() for _ in range(self.random.choice((1, 1, 1, 2, 3)))]
        return "evaluate", {"expression": "\n".join(lines), "context": "repl"}

    def address(self) -> str:
        return str(self.random.choice((65536 + self.random.randrange(40), 2**24 + self.random.randrange(40),
                                       self.random.choice(NUMBERS) % 2**64)))

    def readMemory(self) -> Request:
        return "readMemory", {"memoryReference": self.address(), "count": self.random.choice((0, 1, 5, 16, 300)),
                              **self.one_of({}, {"offset": self.random.randrange(-20, 20)})}

    def writeMemory(self) -> Request:
        data = self.random.choice(("", "AQ==", "AQI=", "AQID", "AQIDBAUGBwgJCgsMDQ4P", "x"))
        return "writeMemory", {"memoryReference": self.address(), "data": data}

    def completions(self) -> Request:
        text = self.random.choice(("s", "re", "print %", "print %w", "break $", "break $main @b", "watch $f", "x",
                                   "set %t"))
        return "completions", {"text": text, "column": len(text) + self.adapter.first_column}

    def odd(self) -> Request:
        command = self.random.choice(("goto", "launch", "initialize", "nonsense", "attach"))
        return command, None if command == "nonsense" else {}

    def restart(self) -> Request:
        self.arguments = self.random.choice((self.arguments, self.launch_arguments()))
        return "restart", {"arguments": self.arguments}


def difference(want: Any, got: Any, place: str = "") -> Optional[str]:
    """Where a message differs from the expected one, or None."""
    if isinstance(want, Free):
        return None
    if isinstance(want, dict) and isinstance(got, dict):
        for name in {**want, **got}:
            if isinstance(want.get(name), Free):
                continue
            if name not in want or name not in got:
                return f"{place}.{name} is {'there' if name in got else 'not there'}"
            fault = difference(want[name], got[name], f"{place}.{name}")
            if fault:
                return fault
        return None
    if isinstance(want, list) and isinstance(got, list) and len(want) == len(got):
        found = (difference(one, other, f"{place}[{at}]") for at, (one, other) in enumerate(zip(want, got)))
        return next(filter(None, found), None)
    is_same = type(want) is type(got) and want == got
    return None if is_same else f"{place} is {json.dumps(got)[:200]} in place of {json.dumps(want, default=vars)[:200]}"


def with_order(message: Message) -> Message:
    """A message without its number, with a body, and with targets in the order of their labels."""
    message = {name: part for name, part in message.items() if name != "seq"}
    if message["type"] == "event" or message.get("success"):
        message.setdefault("body", {})
    if message.get("command") == "completions" and message.get("success"):
        targets = sorted(message["body"].get("targets", []), key=lambda target: str(target.get("label", "")))
        message["body"] = {**message["body"], "targets": targets}
    return message


def answered_fault(session: Session, got: list[Message]) -> Optional[str]:
    """The first message that differs from the reference's, with its request."""
    asked = None
    for at in range(max(len(session.wanted), len(got))):
        if at < len(session.wanted) and session.wanted[at]["type"] == "response":
            asked = session.messages[session.wanted[at]["request_seq"] - 1]
        if at >= len(got) or at >= len(session.wanted):
            return f"{len(got)} messages in place of {len(session.wanted)}, the last request being {json.dumps(asked)}"
        if "wrong" in got[at]:
            return str(got[at]["wrong"])
        fault = difference(with_order(session.wanted[at]), with_order(got[at])) or (
            None if got[at].get("seq") == at + 1 else f"seq {got[at].get('seq')} in place of {at + 1}")
        if fault:
            return f"message {at + 1}, of {json.dumps(asked)}: {fault}"
    return None


def fault_of(program: str, qrev: str, folder: str, seed: int, requests: int, seconds: float) -> Optional[str]:
    """How an adapter differs from the reference in the session of a seed, or None."""
    session = Session(seed, pathlib.Path(folder))
    session.run(requests)
    sent = b"".join(map(frame, session.messages))
    try:
        run = subprocess.run([program], input=sent, capture_output=True, cwd=folder, timeout=seconds)
    except subprocess.TimeoutExpired:
        return f"no end after {seconds:g} seconds"
    fault = answered_fault(session, messages_in(run.stdout))
    if fault or run.returncode != 0:
        return fault or f"exit status {run.returncode}"
    faults = (replayed_fault(qrev, name, given, pathlib.Path(folder), seconds)
              for name, given in session.recorded.items())
    return next(filter(None, faults), None)


def replayed_fault(qrev: str, name: str, given: Message, folder: pathlib.Path, seconds: float) -> Optional[str]:
    """How `qrev` differs on the record of a session with these arguments, or None."""
    words = [given["program"], *map(str, given["args"]), "--limit", str(given["limit"])]
    words += [word for name in ("memory", "history") if name in given for word in (f"--{name}", str(given[name]))]
    return replay_fault(qrev, Record(name, words), folder, seconds)
