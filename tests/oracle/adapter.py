"""The debug adapter once more: requests of the Debug Adapter Protocol as lines of commands, and the answers.

A session moves only by lines, and each is kept with its answer. What the protocol leaves to an adapter, and no page
says, is wrapped in `Free`: another adapter may answer differently there.
"""
from __future__ import annotations

import base64
import binascii
import os
import re
import sys
from collections.abc import Callable, Iterator, Sequence
from typing import IO, Any, NoReturn, Optional

from .asked import Client, Rule, arguments_of, items_in, number_in, plain_path, text_in, texts
from .debuggee import Debuggee, Kind, Place
from .expressions import Memory, Missing, Named, NoExpression, bits_of, is_float, is_true, parse
from .launching import BadLaunch, Launch, launch_of
from .messages import Lost, Message, frame, is_number, read_body, request_in
from .session import COMMANDS, WIDTHS, NUMBER
from .shown import DATA, MACHINE, POINTED, Free, Scene, View, told
from .tokens import Refused

CAPABILITIES = """ConfigurationDoneRequest FunctionBreakpoints DataBreakpoints EvaluateForHovers StepBack SetVariable
RestartFrame ExceptionInfoRequest ReadMemoryRequest WriteMemoryRequest SteppingGranularity TerminateRequest
BreakpointLocationsRequest CompletionsRequest RestartRequest ConditionalBreakpoints HitConditionalBreakpoints LogPoints
SetExpression ValueFormattingOptions""".split()
MOST_READ, MOST_TARGETS = 65536, 1000

# Why a value that can't be had leaves a condition false; for other reasons the run stands, so that they are seen.
PASSING = ("unset", "no such frame", "dead address", "division by zero", "a shift by less than 0 or more than 63",
           "a value of more than 127 bits")
LOOKING = ("print", "temps", "mem", "where", "list", "out", "stops", "break", "watch", "delete")
MOVING = ("step", "accesses", "counts", "frames", "back", "continue", "reverse", "set", "poke")


# What answers a request: of its arguments the body, if there is one.
Method = Callable[[Message], Optional[Message]]
# What a breakpoint asks for: the lines that make its stops, and what is told of it.
Maker = Callable[[Message], tuple[list[str], Message]]


class Failure(Exception):
    """A request that fails, with its message."""


def contents_of(name: str) -> bytes:
    """The bytes of a file, or none where it can't be read."""
    try:
        with open(name, "rb") as file:
            return file.read()
    except (OSError, ValueError):
        return b""


class Adapter:
    """What is kept between requests. `answer` gives the messages that come of one, without their numbers."""

    def __init__(self) -> None:
        self.client, self.sessions = Client({}), 0
        self.current: Optional[Debuggee] = None
        self.launched: Message = {}
        self.events: list[Message] = []
        self.is_left = False

    @property
    def debuggee(self) -> Debuggee:
        """That of the session that is open."""
        assert self.current is not None
        return self.current

    # Messages.

    def answer(self, request: Message) -> list[Message]:
        self.events = []
        response: Message = {"type": "response", "request_seq": request["seq"], "command": request["command"]}
        try:
            body = self.method_of(request["command"])(arguments_of(request))
            response.update(success=True, body={} if body is None else body)
        except Failure as failure:
            response.update(success=False, message=failure.args[0])
        return [response] + self.events

    def method_of(self, command: str) -> Method:
        known = INSIDE if self.current else OUTSIDE
        if command in known:
            method: Method = getattr(self, known[command])
            return method
        message = "no session" if not self.current and command != "attach" else "not supported"

        def refuse(given: Message) -> NoReturn:
            raise Failure(message)
        return refuse

    def tell(self, event: str, **body: object) -> None:
        self.events.append({"type": "event", "event": event, "body": body})

    def tell_stopped(self, reason: str, hits: Optional[list[int]] = None) -> None:
        self.debuggee.tell_output(self.tell)
        self.tell("stopped", **self.debuggee.stopped(reason, hits))

    @property
    def first_column(self) -> int:
        return self.client.first_column

    # Outside of a session.

    def initialize(self, given: Message) -> Message:
        self.client = Client(given)
        return {f"supports{name}": True for name in CAPABILITIES}

    def launch(self, given: Message) -> None:
        self.sessions = 0
        self.load(given)
        self.launched = given

    def record_of(self, launched: Launch) -> Optional[str]:
        """The file that takes the record: a restart keeps those before it, and nothing but a record is written over."""
        if launched.record is None:
            return None
        name = launched.record + (f".{self.sessions + 1}" if self.sessions else "")
        contents = {end: contents_of(name + end) for end in ("", ".transcript")}
        is_record = contents[".transcript"].startswith(b"loaded ")
        if contents[".transcript"] and not is_record or contents[""] and not is_record:
            raise Failure(f"record: not a record: {name}")
        try:
            for end in contents:
                open(name + end, "ab").close()
        except (OSError, ValueError):
            raise Failure(f"record: cannot write {name}") from None
        return name

    def load(self, given: Message) -> None:
        try:
            launched = launch_of(given)
            sources = launched.sources()
            record = self.record_of(launched)
            text = launched.text()
        except BadLaunch as bad:
            raise Failure(str(bad)) from None
        try:
            self.current = Debuggee(launched, text, self.client.first_line, sources, record)
            self.sessions += 1
        except Refused as refused:
            self.tell_refused(launched, refused)
            raise Failure(refused.answer().rstrip("\n")) from None
        self.tell("initialized")

    def tell_refused(self, launched: Launch, refused: Refused) -> None:
        source = launched.source()
        if refused.line is None:
            place: Message = {"source": Free(source), "line": Free(None)}
        else:
            place = {"source": source, "line": refused.line - 1 + self.client.first_line}
        self.tell("output", category="stderr", output=refused.answer(), **place)

    def nothing(self, given: Message) -> None:
        """A request that succeeds and does nothing."""

    def leave(self, given: Message) -> None:
        self.is_left = True
        if self.current:
            self.end_session()

    # The end of a session.

    def end_session(self) -> None:
        launched = self.debuggee.launched
        is_written, record = self.debuggee.write_record(), self.debuggee.record
        self.current = None
        if record is not None:
            line = f"replay: {launched.command_line()} < {record}" if is_written \
                else f"record: cannot write {record}"
            self.tell("output", category="console", output=f"{line}\n")

    def end_of_input(self) -> None:
        if self.current:
            self.debuggee.write_record()

    def terminate(self, given: Message) -> None:
        self.end_session()
        self.tell("terminated")

    def restart(self, given: Message) -> None:
        self.debuggee.write_record()
        self.current = None
        again = given.get("arguments")
        try:
            self.load(again if isinstance(again, dict) and isinstance(again.get("program"), str) else self.launched)
        except Failure:
            self.tell("terminated")
            raise

    def is_open(self, given: Message) -> NoReturn:
        raise Failure("a session is open")

    # Moves.

    def configuration_done(self, given: Message) -> None:
        if self.debuggee.is_configured:
            raise Failure("already configured")
        self.debuggee.is_configured = True
        if self.debuggee.launched.no_debug:
            self.run_out()
        elif self.debuggee.launched.stops_on_entry:
            self.tell_stopped("entry")
        else:
            self.by_line("continue")

    def run_out(self) -> None:
        """Runs to the end past all stops."""
        begun, session = self.debuggee.session.position, self.debuggee.session
        reason = "break"
        while reason.startswith(("break", "watch")) and abs(session.position - begun) < session.limit:
            reason = self.debuggee.reason_of(self.debuggee.line("continue"))
        self.debuggee.tell_output(self.tell)
        self.tell("output", category="console",
                  output=(self.debuggee.ended_elsewhere() or self.debuggee.place()) + "\n")
        self.tell("terminated")

    def by_line(self, line: str) -> None:
        self.travel(lambda: self.debuggee.reason_of(self.debuggee.line(line)))

    def travel(self, move: Callable[[], Optional[str]]) -> None:
        """Goes on by moves until the run stands: breakpoints by their rules, and at the limit of moves anyway. A move
        that gives no reason goes on."""
        begun, session = self.debuggee.session.position, self.debuggee.session
        while True:
            reason = move()
            stands, hits, log = self.judge(reason) if reason else (False, [], "")
            if log:
                self.tell("output", category="console", output=log)
            if reason and stands:
                return self.tell_stopped(reason, hits or None)
            if abs(session.position - begun) >= session.limit:
                return self.tell_stopped("limit")

    def judge(self, reason: str) -> tuple[bool, list[int], str]:
        """Whether the run stands where a reason ended it, at which breakpoints, and what is told there."""
        found, log = self.debuggee.hits(reason), ""
        hits: list[int] = []
        for one in found:
            rule = self.debuggee.rules.get(one)
            if rule is None:
                hits.append(one)
            elif self.rule_holds(rule):
                if rule.message:
                    log += self.log_of(rule.message) + "\n"
                else:
                    hits.append(one)
        return not found or bool(hits), hits, log

    def rule_holds(self, rule: Rule) -> bool:
        try:
            if rule.condition and not is_true(rule.condition.value(Scene(self.view(), 1))):
                return False
        except Missing as missing:
            if missing.args[0] in PASSING:
                return False
        return rule.meets(self.debuggee.session.position)

    def log_of(self, message: str) -> str:
        """A message with what stands in braces worked out."""
        view = self.view()

        def worth(match: re.Match[str]) -> str:
            try:
                return str(view.worth(1, match.group(1))["result"])
            except NoExpression:
                return match.group()
            except Missing as missing:
                return {"dead address": "dead",
                        "no such temporary or global here": match.group()}.get(missing.args[0], "unset")
        return re.sub(r"\{([^{}]*)\}", worth, message)

    def continue_(self, given: Message) -> Message:
        self.by_line("continue")
        return {"allThreadsContinued": True}

    def reverse_continue(self, given: Message) -> None:
        self.by_line("reverse")

    def step_in(self, given: Message) -> None:
        if self.goes_by_lines(given):
            self.to_line(lambda: self.debuggee.reason_of(self.debuggee.line("step")))
        else:
            self.by_line("step")

    def goes_by_lines(self, given: Message) -> bool:
        return self.debuggee.sources is not None and given.get("granularity") != "instruction"

    def next(self, given: Message) -> None:
        depth = self.debuggee.depth
        if given.get("granularity") == "instruction":
            self.by_line("step")
        elif self.goes_by_lines(given):
            self.to_line(lambda: self.debuggee.go_on(depth))
        else:
            self.travel(lambda: self.debuggee.go_on(depth))

    def to_line(self, move: Callable[[], Optional[str]]) -> None:
        """Goes on by moves to another line of the source."""
        start = self.debuggee.stand()

        def on() -> Optional[str]:
            hidden = self.debuggee.depth > start.depth and self.debuggee.is_sourceless()
            reason = self.debuggee.go_on(self.debuggee.depth - 1) if hidden else move()
            return reason if reason != "step" or self.debuggee.has_arrived(start) else None
        self.travel(on)

    def step_out(self, given: Message) -> None:
        depth = self.debuggee.depth - 1
        self.travel(lambda: self.debuggee.go_on(depth))

    def step_back(self, given: Message) -> None:
        if given.get("granularity") == "instruction":
            self.by_line("back")
        elif self.goes_by_lines(given):
            self.travel(self.debuggee.back_by_line)
        else:
            depth = max(1, self.debuggee.depth)
            self.travel(lambda: self.debuggee.go_back(depth))

    def restart_frame(self, given: Message) -> None:
        number = number_in(given, "frameId")
        if number is None or not self.view().frame(number):
            raise Failure("no such frame")
        depth = self.debuggee.depth - number
        self.travel(lambda: self.debuggee.restart_call(depth))

    # Stops.

    def source_asked(self, given: Message) -> Optional[str]:
        """The source that a request is about, by the map's path, or None where it is about the text."""
        source = given.get("source")
        path = text_in(source, "path") if isinstance(source, dict) else None
        mine, asked = self.debuggee.launched.program, path
        path = None if path is None else plain_path(path)
        if asked is not None and os.path.exists(asked) and os.path.realpath(asked) == os.path.realpath(mine):
            return None
        if path and (path == mine or path.endswith("/" + mine) or mine.endswith("/" + path)):
            return None
        found = self.debuggee.sources.path_called(path) if self.debuggee.sources and path is not None else None
        if found is None:
            raise Failure("another file")
        return found

    def set_breakpoints(self, given: Message) -> Message:
        try:
            path = self.source_asked(given)
        except Failure:
            # Editors keep the breakpoints of all files, and send them to each session.
            elsewhere = {"verified": False, "message": "the program isn't made from this file"}
            return {"breakpoints": [elsewhere for _ in items_in(given, "breakpoints")]}
        if path is None:
            return self.replace_stops("text", given, self.text_stop)
        source = path
        return self.replace_stops(("source", path), given, lambda wanted: self.source_stop(source, wanted))

    def replace_stops(self, kind: Kind, given: Message, make: Maker) -> Message:
        self.debuggee.clear(kind)
        return {"breakpoints": [self.item_of(kind, one, make) for one in items_in(given, "breakpoints")]}

    def item_of(self, kind: Kind, wanted: Message, make: Maker) -> Message:
        try:
            rule = self.rule_of(wanted)
            lines, told_of_it = make(wanted)
            number = self.make_stops(kind, lines)
        except Failure as failure:
            return {"verified": False, "message": str(failure)}
        if not rule.is_plain():
            self.debuggee.rules[number] = rule
        return {"id": number, "verified": True, **told_of_it}

    @staticmethod
    def rule_of(wanted: Message) -> Rule:
        try:
            rule = Rule(wanted)
        except NoExpression:
            raise Failure("condition: no expression") from None
        if texts(wanted, "hitCondition") and not rule.hits:
            raise Failure("hitCondition: no count")
        if wanted.get("accessType") in ("read", "readWrite"):
            raise Failure("not supported: accessType")
        return rule

    def make_stops(self, kind: Kind, lines: Sequence[str]) -> int:
        """Makes the stops of a breakpoint; the number of the first, by which it is known."""
        first: Optional[int] = None
        for line in lines:
            answer = self.debuggee.line(line)
            if answer.startswith("no: "):
                if first is None:
                    raise Failure(answer.rstrip("\n"))
                continue
            number = self.debuggee.session.last_stop
            first = number if first is None else first
            self.debuggee.made[kind].append(number)
            self.debuggee.ids[number] = first
            if answer.startswith("break "):
                self.debuggee.stop_places[number] = answer.rstrip("\n").split(" ", 2)[2]
        assert first is not None
        return first

    def line_wanted(self, wanted: Message) -> int:
        line = number_in(wanted, "line")
        if line is None:
            raise Failure("no line")
        return self.debuggee.counted(line)

    def place_from(self, line: int) -> Place:
        place = self.debuggee.place_from(line)
        if place is None:
            raise Failure("no place at or after this line")
        return place

    def text_stop(self, wanted: Message) -> tuple[list[str], Message]:
        place = self.place_from(self.line_wanted(wanted))
        return [f"break {self.debuggee.place_text(*place)}"], \
            {"line": self.debuggee.told(self.debuggee.line_of(*place)), "source": self.debuggee.launched.source()}

    def source_stop(self, path: str, wanted: Message) -> tuple[list[str], Message]:
        found = self.debuggee.mapped.line_from(path, self.line_wanted(wanted))
        if found is None:
            raise Failure("no line of the text is from this line or a later one")
        line, text_line = found
        places = self.debuggee.entries(path, line) or [self.place_from(text_line)]
        return [f"break {self.debuggee.place_text(*place)}" for place in places], \
            {"line": self.debuggee.told(line), "source": self.debuggee.source_of(path)}

    @staticmethod
    def name_in(wanted: Message, member: str) -> str:
        name = text_in(wanted, member)
        if name is None:
            raise Failure("no name")
        if "\n" in name:
            raise Failure("a newline in a name")
        return name

    def function_stop(self, wanted: Message) -> tuple[list[str], Message]:
        name = self.name_in(wanted, "name")
        return [f"break {name if name.startswith('$') else '$' + name}"], {}

    def data_stop(self, wanted: Message) -> tuple[list[str], Message]:
        name = self.name_in(wanted, "dataId")
        if self.view().width_of(name) and self.view().size_of(name):
            return list(self.whole_object(name)), {}
        return [f"watch {name}"], {}

    def whole_object(self, name: str) -> Iterator[str]:
        """The watches of all bytes of a data object."""
        address, left = self.view().address_of(name), self.view().size_of(name)
        assert address is not None
        while left:
            letter, width = next((letter, width) for letter, width in sorted(WIDTHS.items(), key=lambda one: -one[1])
                                 if width <= left)
            yield f"watch {letter} {address}"
            address, left = address + width, left - width

    def set_function_breakpoints(self, given: Message) -> Message:
        return self.replace_stops("function", given, self.function_stop)

    def set_data_breakpoints(self, given: Message) -> Message:
        return self.replace_stops("data", given, self.data_stop)

    def data_breakpoint_info(self, given: Message) -> Message:
        watched, why = self.view().watched(given.get("variablesReference"), text_in(given, "name"),
                                           number_in(given, "frameId"))
        if watched is None:
            return {"dataId": None, "description": why}
        return {"dataId": watched, "description": Free(watched), "accessTypes": ["write"], "canPersist": True}

    def breakpoint_locations(self, given: Message) -> Message:
        path, first, last = self.source_asked(given), number_in(given, "line"), number_in(given, "endLine")
        if first is None:
            return {"breakpoints": []}
        last = first if last is None else last
        found = self.debuggee.lines_between(first, last) if path is None else \
            self.debuggee.source_lines_between(path, first, last)
        return {"breakpoints": [{"line": line} for line in found]}

    # What is shown.

    def view(self, given: Optional[Message] = None) -> View:
        """What is shown, in the format that a request asks for."""
        shown_as = (given or {}).get("format")
        return View(self.debuggee, self.client, isinstance(shown_as, dict) and shown_as.get("hex") is True)

    def threads(self, given: Message) -> Message:
        return {"threads": [{"id": 1, "name": "main"}]}

    def stack_trace(self, given: Message) -> Message:
        frames = self.view().frames()
        start, levels = number_in(given, "startFrame") or 0, number_in(given, "levels") or 0
        return {"stackFrames": frames[start:start + levels if levels else None], "totalFrames": len(frames)}

    def scopes(self, given: Message) -> Message:
        found = self.view().scopes(number_in(given, "frameId"))
        if found is None:
            raise Failure("no such frame")
        return {"scopes": found}

    def variables(self, given: Message) -> Message:
        found = self.view(given).variables(number_in(given, "variablesReference"))
        if found is None:
            raise Failure("no such variables")
        start, count = number_in(given, "start") or 0, number_in(given, "count") or 0
        return {"variables": found[start:start + count if count else None]}

    def set_variable(self, given: Message) -> Message:
        reference, name = number_in(given, "variablesReference"), text_in(given, "name") or ""
        value, view = text_in(given, "value") or "", self.view()
        if "\n" in name + value:
            raise Failure("a newline in a value")
        if reference is not None and (reference > DATA or POINTED <= reference < MACHINE):
            raise Failure("read-only")
        if reference == 1 and view.frame(1):
            return self.set_temporary(name, value, given)
        if reference == DATA:
            letter = view.width_of(name) or "w"
            if not view.width_of(name):
                raise Failure("no such temporary or global here")
            item = next(item for item in view.program.datas if f"${item.name}" == name)
            self.answered(f"poke {letter} {name} {self.words(value, view.letter_of(item))}")
            now = next(one for one in self.view(given).variables(DATA) or [] if one["name"] == name)
            return self.set_body(now)
        raise Failure("read-only" if reference == MACHINE or view.frame(reference) else "no such variables")

    @staticmethod
    def set_body(now: Message) -> Message:
        return {"value": now["value"], "variablesReference": 0, **({"type": now["type"]} if "type" in now else {})}

    def answered(self, line: str) -> None:
        answer = self.debuggee.line(line)
        if answer.startswith("no: "):
            raise Failure(answer.rstrip("\n"))

    def set_temporary(self, name: str, value: str, given: Message) -> Message:
        view = self.view()
        plain = view.names_told.short.get("%" + name.removeprefix("%"), name.removeprefix("%"))
        inner = view.frame(1)
        func = view.machine.funcs[inner.func] if inner else None
        kind = view.names_told.floats.get((func.name, plain), "") if func else ""
        self.answered(f"set %{plain} {self.words(value, kind)}")
        shown = self.view(given).variables(1) or []
        return self.set_body(next(one for one in shown if one["evaluateName"] == f"%{plain}"))

    def words(self, value: str, letter: str, number: int = 1) -> str:
        """A value in the words of a command: it may be an expression. What is none is the session's to refuse."""
        if letter not in ("s", "d") and re.fullmatch("-?[0-9]*", value):
            return value
        try:
            worth = parse(value.split(" <")[0].split(" (-")[0]).value(Scene(self.view(), number))
        except NoExpression:
            return value
        except Missing as missing:
            raise Failure(missing.args[0]) from None
        if letter in ("s", "d"):
            return str(bits_of(worth.number, letter)) if is_float(worth) else value
        return value if is_float(worth) else str(worth.whole() % 2**64)

    def set_expression(self, given: Message) -> Message:
        text, value = text_in(given, "expression") or "", text_in(given, "value") or ""
        asked = number_in(given, "frameId")
        number = 1 if asked is None else asked
        if "\n" in value:
            raise Failure("a newline in a value")
        try:
            part = parse(text)
        except NoExpression:
            raise Failure("no such temporary or global here") from None
        if isinstance(part, Named) and part.name[0] == "%" and number == 1:
            return self.set_temporary(part.name, value, given)
        if not isinstance(part, Memory):
            raise Failure("read-only")
        try:
            address = part.inside.value(Scene(self.view(), number))
        except Missing as missing:
            raise Failure(missing.args[0]) from None
        if is_float(address):
            raise Failure("a float, and a whole number was expected")
        place = address.whole() % 2**64
        letter = {"s": "w", "d": "l"}.get(part.letter, part.letter)
        self.answered(f"poke {letter} {place} {self.words(value, part.letter, number)}")
        view = self.view(given)
        piece = view.now.read(place, WIDTHS[letter])
        assert piece is not None
        now = int.from_bytes(piece, "little")
        return {"value": view.value_text(now, part.letter), "variablesReference": 0, **view.typed(part.letter)}

    def loaded_sources(self, given: Message) -> Message:
        sources = self.debuggee.sources
        paths = [sources.shown(path) for path in sources.paths()] if sources else []
        return {"sources": [self.debuggee.launched.source()] +
                [{"name": path.rsplit("/", 1)[-1], "path": path} for path in paths]}

    def evaluate(self, given: Message) -> Message:
        expression, context = text_in(given, "expression") or "", given.get("context") or ""
        expression = expression.removeprefix("p ")
        frame = number_in(given, "frameId")
        frame = 1 if frame is None else frame
        view = self.view(given)
        if context == "hover" and re.match("[A-Za-z_.]", expression):
            for sigil in "%$":
                try:
                    return view.worth(frame, sigil + expression)
                except NoExpression:
                    continue
                except Missing as missing:
                    if missing.args[0] not in ("no such temporary or global here", "no such frame"):
                        raise Failure(missing.args[0]) from None
            raise Failure("no such temporary or global here")
        try:
            return view.worth(frame, expression)
        except Missing as missing:
            raise Failure(missing.args[0]) from None
        except NoExpression:
            return self.by_command(expression, context)

    def by_command(self, expression: str, context: str) -> Message:
        """What is made of a text that is no expression."""
        if context != "repl" and (context != "watch" or not self.is_command(expression)):
            raise Failure("no such temporary or global here")
        if any(line.split() == ["quit"] for line in expression.split("\n")):
            raise Failure("quit ends no session here")
        moves = any(line.split()[:1] and line.split()[0] in MOVING for line in expression.split("\n"))
        if context == "watch" and moves and self.client.repeats_watches:
            raise Failure("a watch that moves: take it in the console")
        return self.console(expression)

    @staticmethod
    def is_command(text: str) -> bool:
        """Whether a text is a command; of those that the tests send the first word tells."""
        return "\n" not in text and text.split()[:1] != [] and text.split()[0] in LOOKING + MOVING + ("quit",)

    def console(self, expression: str) -> Message:
        answers: list[str] = []
        reason: Optional[str] = None
        for line in expression.split("\n"):
            answer = self.debuggee.line(line)
            answers.append(answer)
            is_move = line.split()[:1] and line.split()[0] in MOVING
            if is_move and not answer.startswith("no: "):
                reason = self.debuggee.reason_of(answer)
        if reason:
            self.tell_stopped(reason)
        return {"result": told("".join(answers).encode("latin-1")).removesuffix("\n"), "variablesReference": 0}

    def completions(self, given: Message) -> Message:
        text, column = text_in(given, "text") or "", number_in(given, "column")
        before = text if column is None else text[:max(0, column - self.first_column)]
        word = before.split(" ")[-1]
        start = len(before) - len(word)
        names = self.view().names(number_in(given, "frameId"))
        if not before[:start].strip() and word[:1] not in ("%", "$", "@"):
            names = sorted(set(COMMANDS) - {"quit"})
        elif word[:1] not in ("%", "$", "@"):
            names = []
        found = [name for name in names if name.startswith(word)][:MOST_TARGETS]
        return {"targets": [{"label": name, "type": Free("text"), "start": start + self.first_column,
                             "length": len(word)} for name in found]}

    def exception_info(self, given: Message) -> Message:
        status = self.debuggee.session.now.status
        if status[0] != "fault" or self.debuggee.ended_elsewhere():
            raise Failure("no fault")
        return {"exceptionId": status[1], "description": self.debuggee.place(), "breakMode": "always"}

    # Memory.

    @staticmethod
    def address_in(given: Message) -> int:
        reference, offset = text_in(given, "memoryReference"), given.get("offset", 0)
        if reference is None or not NUMBER.fullmatch(reference) or int(reference) >= 2**64 or \
                not is_number(offset, -2**63, 2**63 - 1):
            raise Failure("no address")
        return (int(reference) + offset) % 2**64

    def read_memory(self, given: Message) -> Message:
        address, count = self.address_in(given), number_in(given, "count")
        if count is None:
            raise Failure("no count")
        count, data = min(count, MOST_READ), b""
        while len(data) < count and (byte := self.debuggee.byte(address + len(data))) is not None:
            data += byte
        body: Message = {"address": str(address), "data": base64.b64encode(data).decode()}
        if len(data) < count:
            body["unreadableBytes"] = count - len(data)
        return body

    def write_memory(self, given: Message) -> Message:
        address = self.address_in(given)
        try:
            data = base64.b64decode(text_in(given, "data") or "", validate=True)
        except (ValueError, binascii.Error):
            raise Failure("not in base64") from None
        if any(self.debuggee.byte(address + at) is None for at in range(len(data))):
            raise Failure("no: dead address")
        written = len(data)
        while data:
            letter, width = next((letter, width) for letter, width in sorted(WIDTHS.items(), key=lambda one: -one[1])
                                 if width <= len(data))
            self.debuggee.line(f"poke {letter} {address} {int.from_bytes(data[:width], 'little')}")
            address, data = address + width, data[width:]
        return {"bytesWritten": written}


OUTSIDE = {"initialize": "initialize", "launch": "launch", "terminate": "nothing", "disconnect": "leave"}
INSIDE = {
    "initialize": "is_open", "launch": "is_open", "configurationDone": "configuration_done", "terminate": "terminate",
    "disconnect": "leave", "restart": "restart", "setBreakpoints": "set_breakpoints",
    "setFunctionBreakpoints": "set_function_breakpoints", "dataBreakpointInfo": "data_breakpoint_info",
    "setDataBreakpoints": "set_data_breakpoints", "setExceptionBreakpoints": "nothing",
    "breakpointLocations": "breakpoint_locations", "threads": "threads", "stackTrace": "stack_trace",
    "scopes": "scopes", "variables": "variables", "setVariable": "set_variable", "evaluate": "evaluate",
    "continue": "continue_", "reverseContinue": "reverse_continue", "stepIn": "step_in", "next": "next",
    "stepOut": "step_out", "stepBack": "step_back", "restartFrame": "restart_frame", "pause": "nothing",
    "readMemory": "read_memory", "writeMemory": "write_memory", "exceptionInfo": "exception_info",
    "completions": "completions", "setExpression": "set_expression", "loadedSources": "loaded_sources",
}


def plain(message: Any) -> Any:
    """A message with what is free in it, or without where that is nothing."""
    if isinstance(message, dict):
        return {name: plain(value) for name, value in message.items() if not isinstance(value, Free) or value.value}
    if isinstance(message, list):
        return [plain(item) for item in message]
    return plain(message.value) if isinstance(message, Free) else message


def serve(source: IO[bytes], sink: IO[bytes]) -> int:
    """Answers the messages of an input, up to its end; gives the exit status."""
    adapter, number = Adapter(), 0
    while not adapter.is_left:
        try:
            body = read_body(source)
        except Lost:
            return 2
        if body is None:
            adapter.end_of_input()
            return 0
        request = request_in(body)
        for message in adapter.answer(request) if request else []:
            number += 1
            sink.write(frame({"seq": number, **plain(message)}))
        sink.flush()
    return 0


def main() -> int:
    try:
        return serve(sys.stdin.buffer, sys.stdout.buffer)
    except OSError:
        # What is left in the stream has nowhere to go.
        os.dup2(os.open(os.devnull, os.O_WRONLY), sys.stdout.fileno())
        return 2
