"""Starts a session: with the text of its launch, or with what that text is lowered to.

If a launch doesn't say whether to lower its text, the adapter is asked first. Its refusal is held back until it is
known whether `qrev-lower` takes the text. So a text that the adapter takes costs nothing.
"""
from __future__ import annotations

import os
import re
import subprocess
import threading
from dataclasses import dataclass, field
from typing import Any, Callable, NamedTuple

from .frames import framed, read, written
from .lowering import ABOUT, BadLaunch, Lowered, Lowering, Wanted, wanted_of
from .questions import TOP, words_of

# How the adapter refuses a text; that of its start (S), which is looked at last, lowering can't mend.
REFUSED = re.compile(r"refused: ([LPCY])\d+")
# The refusals of what is left out of the language: what lowering says of such a text is told as well.
LEFT_OUT = re.compile(r"refused: (L1|P2|C9)\b")
LINE = re.compile(r"\bline (\d+):")
REFUSED_LINE = re.compile(r"\bline (\d+)$", re.MULTILINE)
RESPONSE, TERMINATED = b'{"type":"response"', b'{"type":"event","event":"terminated"'
# The numbers of the requests from here, which no editor comes to, and neither do those of the guard.
OWN = 1 << 41
# Requests by which sessions begin or end.
ENDS = frozenset(("launch", "restart", "terminate"))
# A request that changes nothing, behind whose response all is told of the one before.
NOTHING = "threads"


# A file as it is: its path, when it was changed, and its size.
Signature = tuple[str, int, int]


@dataclass
class Beginning:
    """A request for a session: what the editor says, what the adapter gets, and what becomes of it."""

    number: int
    given: dict[str, Any]
    launch: dict[str, Any]
    lowered: Lowered | None = None
    # Whether a refusal is kept back, and what is.
    is_trial: bool = False
    held: list[bytes] = field(default_factory=list)
    is_over: bool = False
    # Which text the adapter takes as it is.
    signature: Signature | None = None


class Ways(NamedTuple):
    """What is done for a launcher: requests are sent, what a session has beside it ends, messages go to the editor."""

    send: Callable[[int, bytes], None]
    forward: Callable[[bytes], None]
    end: Callable[[], None]
    show: Callable[[bytes], None]
    respond: Callable[[dict[str, Any], bool, str], None]
    tell: Callable[[dict[str, Any]], None]
    remark: Callable[[list[str]], None]


class Launcher:
    """Begins sessions, and looks after the lowered text of the one that is open."""

    def __init__(self, words: list[str], news: threading.Condition, ways: Ways):
        self.words, self.news, self.ways = words, news, ways
        self.is_open = False
        # Which number the editor gives the first line of a text.
        self.first_line = 1
        # What the editor launched last, with which a restart that names no program begins again; as the adapter has it.
        self.launched: dict[str, Any] = {}
        self.has: dict[str, Any] = {}
        # The text that the adapter took last, as it was then.
        self.taken: Signature | None = None
        # The request that isn't answered yet, and the session's lowered text.
        self.now: Beginning | None = None
        self.current: Lowered | None = None
        # That whose lines a refusal may name; and what the console has still to tell of it.
        self.tried: Lowered | None = None
        self.fresh: list[str] = []
        self.lowering: Lowering | None = None
        self.is_urgent = False
        self.sent = OWN
        # Requests from here that aren't answered yet, by their numbers.
        self.own: dict[int, str] = {}

    # Requests.

    def end(self, message: dict[str, Any], raw: bytes) -> None:
        """Ends a session, so that it is known whether one is open when another is requested."""
        self.ways.end()
        self.ask(Beginning(message.get("seq", 0), {}, {}), raw)

    def begin(self, message: dict[str, Any], given: dict[str, Any], raw: bytes) -> None:
        """Sends what a launch or a restart asks of the adapter, and waits until it is answered."""
        is_restart = message.get("command") == "restart"
        message, given, raw = with_entry_named(message, given, raw)
        launch = self.again(given) if is_restart else given
        plain = Beginning(message.get("seq", 0), launch, launch)
        if self.is_open != is_restart:
            # The adapter says why that can't be.
            return self.ask(plain, raw)
        self.ways.end()
        if is_restart and launch is self.launched and self.has is not self.launched:
            raw = framed(written({**message, "arguments": {**given, "arguments": launch}}))
        try:
            wanted = wanted_of(launch)
        except BadLaunch as bad:
            return self.fail(message, str(bad))
        if wanted and wanted.is_asked:
            self.begin_lowered(message, given, launch, wanted)
        elif wanted and wanted.is_asked is None:
            self.begin_found_out(message, given, wanted, plain, raw)
        else:
            self.ask(plain, raw)

    def again(self, given: dict[str, Any]) -> dict[str, Any]:
        """The launch of a restart."""
        again = given.get("arguments")
        has_program = isinstance(again, dict) and isinstance(again.get("program"), str)
        return again if isinstance(again, dict) and has_program else self.launched

    def begin_lowered(self, message: dict[str, Any], given: dict[str, Any], launch: dict[str, Any],
                      wanted: Wanted) -> None:
        """Begins a session with a text that has to be lowered."""
        lowered, why = self.lower(wanted)
        if lowered:
            self.ask_lowered(message, given, launch, lowered)
        else:
            self.fail(message, why, wanted)

    def begin_found_out(self, message: dict[str, Any], given: dict[str, Any], wanted: Wanted, plain: Beginning,
                        raw: bytes) -> None:
        """Begins a session with a text as it is or, if that is refused, with what it is lowered to.

        A restart that is refused ends the session. So it isn't asked for before it is known what has to be done.
        """
        is_restart = message.get("command") == "restart"
        lowered, why = self.lower(wanted) if is_restart and self.is_refused(plain.launch) else (None, "")
        if not lowered:
            plain.is_trial, plain.signature = True, signature_of(wanted.program)
            self.ask(plain, raw)
        if plain.held and not is_restart:
            lowered, why = self.lower(wanted)
        if lowered:
            self.ask_lowered(message, given, plain.given, lowered)
        elif plain.held:
            self.give_up(plain, why, wanted)

    def ask(self, beginning: Beginning, raw: bytes) -> None:
        """Asks the adapter for a session, and waits until it is known what it says."""
        with self.news:
            self.now, self.tried = beginning, beginning.lowered
        self.ways.send(beginning.number, raw)
        with self.news:
            self.news.wait_for(lambda: beginning.is_over)

    def ask_lowered(self, message: dict[str, Any], given: dict[str, Any], launch: dict[str, Any],
                    lowered: Lowered) -> None:
        arguments = asked = lowered.launch(launch)
        if message.get("command") == "restart":
            arguments = {**given, "arguments": asked}
        self.ask(Beginning(message.get("seq", 0), launch, asked, lowered),
                 framed(written({**message, "arguments": arguments})))

    def give_up(self, beginning: Beginning, why: str, wanted: Wanted) -> None:
        """Reports the refusal of a text that can't be lowered either, and why it can't if it is of whole QBE."""
        ends = [body for body in beginning.held if body.startswith(TERMINATED)]
        for body in beginning.held[:len(beginning.held) - len(ends)]:
            self.ways.show(body)
        if why and LEFT_OUT.match(str(read(beginning.held[0]).get("message"))):
            self.tell_refusal(why, wanted)
        for body in ends:
            self.ways.show(body)

    def tell_refusal(self, why: str, wanted: Wanted) -> None:
        """Shows in the console what qrev-lower says of a refused text, with a link to the line."""
        body: dict[str, Any] = {"category": "stderr", "output": f"{why}\n"}
        if about := ABOUT.match(why):
            path = os.path.join(wanted.folder, about[1])
            body |= {"source": {"name": os.path.basename(path), "path": path},
                     "line": int(about[2]) - 1 + self.first_line}
        self.ways.tell({"type": "event", "event": "output", "body": body})

    def fail(self, message: dict[str, Any], why: str, wanted: Wanted | None = None) -> None:
        """Fails a request, as the adapter does: the console shows the line, and a failed restart ends the session."""
        # All is told of the requests before it then.
        self.ask_from_here(NOTHING)
        self.ways.respond(message, False, why)
        if wanted and ABOUT.match(why):
            self.tell_refusal(why, wanted)
        if message.get("command") == "restart":
            self.ask_from_here("terminate")

    def ask_from_here(self, command: str) -> None:
        number = self.request(command)
        with self.news:
            self.news.wait_for(lambda: number not in self.own)

    def request(self, command: str) -> int:
        """Sends a request from here, whose response isn't passed on; gives its number."""
        with self.news:
            self.sent += 1
            number = self.sent
            self.own[number] = command
        self.ways.forward(framed(written({"seq": number, "type": "request", "command": command})))
        return number

    # Lowering.

    def lower(self, wanted: Wanted) -> tuple[Lowered | None, str]:
        """A text that was lowered, or why it couldn't be."""
        try:
            lowering = Lowering(wanted)
            with self.news:
                self.lowering = lowering
                if self.is_urgent:
                    lowering.end()
            return lowering.lowered(), ""
        except BadLaunch as bad:
            return None, str(bad)
        except (OSError, ValueError) as error:
            return None, f"lowering can't be run: {error}"
        finally:
            with self.news:
                self.lowering = None

    def is_refused(self, launch: dict[str, Any]) -> bool:
        """Whether the debugger refuses the text of a launch for a reason other than how it is started."""
        if self.taken is not None and self.taken == signature_of(str(launch.get("program"))):
            return False
        command = [str(TOP / "qrev"), *self.words, "--plain", *words_of(launch), "--history", "1"]
        try:
            run = subprocess.run(command, stdin=subprocess.DEVNULL, stdout=subprocess.PIPE, stderr=subprocess.DEVNULL)
        except (OSError, ValueError):
            return False
        return REFUSED.match(run.stdout.decode("latin-1")) is not None

    def hurry(self) -> None:
        """Nothing waits any more."""
        with self.news:
            self.is_urgent = True
            if self.lowering:
                self.lowering.end()

    def close(self) -> None:
        """Takes away what is there of folders."""
        for lowered in (self.current, self.now and self.now.lowered):
            if lowered:
                lowered.folder.remove()
        if self.lowering:
            self.lowering.end()
            self.lowering.folder.remove()

    def place(self, line: str, program: str) -> tuple[str, int] | None:
        """The line of a text that a line of an answer, or of qrev-lower, names."""
        if found := LINE.search(line):
            origin = self.current.origin(int(found[1])) if self.current else None
            return (origin.file, origin.number) if origin else (program, int(found[1]))
        if self.current and (about := ABOUT.match(line)):
            return os.path.join(self.current.wanted.folder, about[1]), int(about[2])
        return None

    # From the adapter.

    def takes(self, body: bytes) -> bool:
        """Whether a message isn't for the editor, or not yet."""
        now = self.now
        is_response = body.startswith(RESPONSE)
        if self.own and is_response and (number := read(body).get("request_seq")) in self.own:
            with self.news:
                is_end = self.own.pop(number) == "terminate"
                self.is_open = self.is_open and not is_end
                if now and now.held:
                    now.is_over = True
                self.news.notify_all()
            return True
        if now is None or not now.is_trial or now.is_over:
            return False
        if now.held:
            now.held.append(body)
            return True
        if not is_response or not is_refusal(body, now.number):
            return False
        now.held.append(body)
        self.request(NOTHING)
        return True

    def answered(self, message: dict[str, Any]) -> Beginning | None:
        """Keeps what a response says of sessions; the session that begins by it."""
        command, is_done, now = message.get("command"), bool(message.get("success")), self.now
        if now is None or message.get("request_seq") != now.number or command not in ENDS:
            return None
        self.now, now.is_over = None, True
        if command == "terminate":
            self.is_open = self.is_open and not is_done
        elif is_done:
            self.is_open = True
            self.drop()
            self.current, self.fresh = now.lowered, now.lowered.remarks() if now.lowered else []
            self.taken = now.signature
            if command == "launch":
                self.launched, self.has = now.given, now.launch
            return now
        elif command == "restart":
            self.is_open = False
        if now.lowered:
            self.fresh = now.lowered.told
            now.lowered.folder.remove()
        return None

    def terminated(self) -> None:
        """The adapter reports the end of a session, or of a run that isn't debugged."""
        if not self.is_open:
            self.drop()

    def drop(self) -> None:
        if self.current:
            self.current.folder.remove()
        self.current = None

    def tell_fresh(self) -> None:
        """Shows in the console that a text was lowered, after the response to its request."""
        fresh, self.fresh = self.fresh, []
        if fresh:
            self.ways.remark(fresh)

    def told(self, body: bytes) -> bytes:
        """A message as the editor gets it: by the text that was lowered, in place of what it was lowered to."""
        is_replay = self.current is not None and b'"output":"replay: ' in body[:200]
        is_refusal = self.tried is not None and not self.is_open and b"refused: " in body[:200]
        if not is_replay and not is_refusal:
            return body
        message = read(body)
        if self.current and message.get("body", {}).get("category") == "console":
            message["body"]["output"] = self.current.replayed(message["body"]["output"])
        elif self.tried and is_refusal:
            message = led_back(message, self.tried, self.first_line)
        number = message.pop("seq")
        return written({**message, "seq": number})


def with_entry_named(message: dict[str, Any], given: dict[str, Any], raw: bytes) \
        -> tuple[dict[str, Any], dict[str, Any], bytes]:
    """A launch or a restart, and its arguments, with the entry without its sigil: the adapter takes the bare name."""
    is_restart = message.get("command") == "restart"
    launch = given.get("arguments") if is_restart else given
    entry = launch.get("entry") if isinstance(launch, dict) else None
    if not isinstance(launch, dict) or not isinstance(entry, str) or not re.match(r"\$.", entry):
        return message, given, raw
    launch = {**launch, "entry": entry[1:]}
    given = {**given, "arguments": launch} if is_restart else launch
    message = {**message, "arguments": given}
    return message, given, framed(written(message))


def signature_of(path: str) -> Signature | None:
    try:
        found = os.stat(path)
    except (OSError, ValueError):
        return None
    return os.path.abspath(path), found.st_mtime_ns, found.st_size


def is_refusal(body: bytes, number: int) -> bool:
    """Whether a response says that the text of a request is refused."""
    message = read(body)
    is_failure = message.get("request_seq") == number and not message.get("success")
    return is_failure and REFUSED.match(str(message.get("message"))) is not None


def led_back(message: dict[str, Any], lowered: Lowered, first_line: int) -> dict[str, Any]:
    """A refusal of a lowered text, by the line that was lowered."""
    body = message.get("body", {})
    said = str(message.get("message") or body.get("output"))
    found = REFUSED_LINE.search(said)
    origin = lowered.origin(int(found[1])) if found and said.startswith("refused: ") else None
    if not found or not origin:
        return message
    said = REFUSED_LINE.sub(f"line {origin.number}", said)
    if message.get("type") == "response":
        return {**message, "message": said}
    source = {"name": origin.file.rpartition("/")[2], "path": origin.file}
    return {**message, "body": {**body, "output": said, "line": origin.number - 1 + first_line, "source": source}}
