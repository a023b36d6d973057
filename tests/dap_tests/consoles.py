"""An editor's console as `qrev-dap` starts it: questions that the prompt answers, and all else as the adapter alone
answers it.

README.md and docs/TERMINAL.md have what `why` and the others answer for examples/squares.ssa.
"""
import pathlib
import shutil
import stat
import sys
import tempfile
import time
from collections.abc import Callable, Iterator, Mapping

from harness.running import EXAMPLES, TOP

from . import wire
from .driver import Adapter, Wrong, at_once_fault, ended, frame, play, request_message
from .sessions import FOLDER, Case, Message, is_changing

RELAY = TOP / "editors" / "console" / "main"
BUILT = "crates/"
# Seconds within which an adapter ends when nobody is there any more.
GONE = 60.0

# A line of the console, and what is answered; behind all of them the run stands at #45.
SQUARES = [
    ("why",
     "done 30, at #88, comes of\n  #87 $main @end 2  line 44: ret %total\n  [1] %total = 30\n  [2] the way to @end"),
    ("why w $bias",
     "w $bias+0 = 16: stored by\n  #44 $fill @body 4  line 18: storew %square, %place\n  [1] %square = 16\n"
     "  [2] %place = 65552 ($bias+0)\n  [3] the way to @body"),
    ("why 2",
     "%place = 65552 ($bias+0) was set by\n  #43 $fill @body 3  line 17: %place =l add $squares, %bytes\n"
     "  [1] %bytes = 16\n  [2] the way to @body"),
    ("readers $bias", "#85 $main @end 0  line 42: %bias =w loadsw $bias\n1 read in the run from #0 to #88 done 30"),
    ("suspects", "[1] #44 $fill @body 4  line 18: storew %square, %place\n"
                 "      bounds: storew at the end of $squares (16 bytes), into $bias+0\n"
                 "1 suspicion in 88 moves, done 30"),
    ("goto 44", "#44 $fill @body 4"),
    ("bt", "> 0  $fill @body 4  line 18: storew %square, %place\n  1  $main @start 1  line 27: call $fill()"),
    ("find 9", "65548 $squares+12\n1 place"), ("whatis %square", "%square: w, set at line 14"),
    ("info line 22", "$fill @end 0  line 22: ret"), ("info args", "none"),
    ("calls $fill", "#1 $fill()  called at #0 $main @start 0  line 27: call $fill()\n"
     "1 call of $fill in the run from #0 to #88 done 30"),
    ("bt -1", "  1  $main @start 1  line 27: call $fill()"),
    ("made %place", "%place is made of the address of $squares (16 bytes)"),
    ("goto #44", "$fill @body 4\n$main @start 1"),
    ("set %square 3", "#45 $fill @body 4"),
    ("why %square", "%square = 3 was set by hand: #44 set %square 3"),
    ("print %square", "%square = 3"),
    ("%square + 1", "4"),
]


def words_of(program: str) -> list[str]:
    return ["--adapter", program, *(["--built"] if BUILT in program else [])]


class Console(Adapter):
    """An adapter with the console in front of it."""

    def __init__(self, program: str, seconds: float, folder: pathlib.Path, client: str = "test",
                 environment: Mapping[str, str] | None = None) -> None:
        super().__init__(str(RELAY), seconds, folder, words_of(program), environment)
        self.events: list[Message] = []
        self.client, self.folder = client, folder

    def answer(self, command: str, arguments: Message | None = None) -> Message:
        """The response to a request; events before it are kept."""
        self.request(command, arguments)
        while (message := self.next()) and message["type"] == "event":
            self.events.append(message)
        if not message or message["request_seq"] != self.sent or message["command"] != command:
            raise Wrong(f"{message} to {command}")
        return message

    def asked(self, line: str) -> str:
        """What the console answers to a line, and that it isn't done, in front."""
        message = self.answer("evaluate", {"expression": line, "context": "repl", "frameId": 1})
        return str(message["body"]["result"]) if message["success"] else f"failed: {message['message']}"

    def stopped(self) -> Message:
        while not self.events or self.events[-1]["event"] != "stopped":
            message = self.next()
            if message is None:
                raise Wrong("the end in place of a stop")
            self.events.append(message)
        body: Message = self.events.pop()["body"]
        return body

    def begin(self, program: str, **more: object) -> None:
        self.answer("initialize", {"adapterID": "qrev", "clientID": self.client})
        launched = self.answer("launch", {"program": program, **more})
        if not launched["success"]:
            raise Wrong(f"{launched}")
        self.answer("configurationDone")
        self.stopped()


def squares(console: Console) -> None:
    """The questions of README's example."""
    console.begin("squares.ssa")
    console.answer("continue", {"threadId": 1})
    console.stopped()
    for line, wanted in SQUARES:
        got = console.asked(line)
        if got != wanted:
            raise Wrong(f"{line}: {got!r} in place of {wanted!r}")
        if line.startswith("set"):
            console.stopped()


def another_frame(console: Console) -> None:
    """A question is about the frame that the console is in."""
    console.begin("squares.ssa")
    console.asked("goto 44")
    message = console.answer("evaluate", {"expression": "info locals", "context": "repl", "frameId": 2})
    if "%square" in message["body"]["result"]:
        raise Wrong(f"the caller has {message['body']['result']!r}")
    if "%square = 16" not in console.asked("info locals"):
        raise Wrong("the innermost call lacks %square")
    message = console.answer("evaluate", {"expression": "bt", "context": "repl", "frameId": 2})
    if "\n> 1  $main @start 1  line 27" not in message["body"]["result"]:
        raise Wrong(f"the frames are {message['body']['result']!r}")
    told = console.asked("help made")
    if not told.startswith("made %x\n") or "failed" in told:
        raise Wrong(f"of a word: {told!r}")


def changed(console: Console) -> None:
    """Questions after a value was set in Variables, and after going back undid a change."""
    console.begin("squares.ssa")
    console.asked("goto 44")
    console.stopped()
    console.answer("setVariable", {"variablesReference": 1, "name": "%square", "value": "3"})
    for line, wanted in [("why %square", "%square = 3 was set by hand: #44 set %square 3"),
                         ("goto 43", "#43 $fill @body 3")]:
        got = console.asked(line)
        if got != wanted:
            raise Wrong(f"{line}: {got!r} in place of {wanted!r}")
    console.stopped()
    console.asked("goto 45")
    console.stopped()
    told = console.asked("why w $bias")
    if "[1] %square = 16" not in told:
        raise Wrong(f"behind a change that was taken back: {told!r}")


def links(console: Console) -> None:
    """An editor that makes links gets each place of an answer with its line."""
    console.begin("squares.ssa")
    console.asked("goto 44")
    console.events.clear()
    head = console.asked("why %place")
    if head != "%place = 65552 ($bias+0) was set by":
        raise Wrong(f"the first line is {head!r}")
    place = console.next()
    body = place["body"] if place else {}
    if body.get("line") != 17 or body["source"]["name"] != "squares.ssa" \
            or not body["output"].startswith("  #43 $fill @body 3"):
        raise Wrong(f"no place of line 17: {place}")


def hovers(console: Console) -> None:
    """Expressions of memory and of where the run stands, as a selection in an editor and dap-mode's `dap-eval` ask."""
    console.begin("squares.ssa")
    console.asked("goto 44")
    for expression, wanted in [("w[$squares + 8]", "4"), ("w[$bias]", "0"), ("%i + w[$squares + 12]", "13"),
                               ("b[%place - 4]", "9"), ("depth", "2"), ("position", "44"), ("place", "65552"),
                               ("%square", "16")]:
        message = console.answer("evaluate", {"expression": expression, "context": "hover", "frameId": 1})
        got = message["body"]["result"] if message["success"] else message["message"]
        if not got.startswith(wanted):
            raise Wrong(f"{expression}: {got!r} in place of {wanted!r}")


def watches(console: Console) -> None:
    """Questions that an editor asks as a watch, as Kate's console does with what follows `p`."""
    console.begin("squares.ssa")
    for line, wanted in [("goto 44", "#44 $fill @body 4"), ("why %place", "%place = 65552 ($bias+0) was set by\n"),
                         ("why 2", "control came to @body by\n"), ("suspects", "[1] #44 $fill @body 4  line 18"),
                         ("%square", "16"), ("w[$bias]", "0"), ("x", None)]:
        message = console.answer("evaluate", {"expression": line, "context": "watch", "frameId": 1})
        got = message["body"]["result"] if message["success"] else None
        if got is None or wanted is None:
            if got is not wanted:
                raise Wrong(f"{line}: {message} in place of {wanted!r}")
        elif not got.startswith(wanted):
            raise Wrong(f"{line}: {got!r} in place of {wanted!r}")


def watches_anew(console: Console) -> None:
    """VS Code asks for its watches at each stop: a question there is none."""
    console.begin("squares.ssa")
    message = console.answer("evaluate", {"expression": "why %place", "context": "watch", "frameId": 1})
    if message["success"]:
        raise Wrong(f"{message}")


def while_it_runs(console: Console) -> None:
    """A run without an end: a question waits for a pause, and knows where the run stands then."""
    console.begin("forever.ssa", history=1000)
    console.answer("continue", {"threadId": 1})
    time.sleep(1)
    refused = console.asked("why %i")
    if refused != "failed: the run goes on: pause it first":
        raise Wrong(f"while it runs: {refused}")
    console.answer("pause", {"threadId": 1})
    if console.stopped()["text"] != "paused":
        raise Wrong("it isn't paused")
    told = console.asked("why %i")
    if "%i =l add %i, 1" not in told:
        raise Wrong(f"{told!r}")


def helped(console: Console) -> None:
    """Help, without a session and in one; completions; a question that there is no session for."""
    if "why %x" not in console.asked("help"):
        raise Wrong("no help")
    if console.asked("why") != "failed: no session":
        raise Wrong("a question without a session")
    console.begin("squares.ssa")
    message = console.answer("completions", {"text": "w", "column": 2})
    labels = [target["label"] for target in message["body"]["targets"]]
    if not {"watch", "where", "why", "writers", "when"} <= set(labels) or len(labels) != len(set(labels)):
        raise Wrong(f"completions {labels}")


CASES: dict[str, tuple[Callable[[Console], None], str]] = {
    "squares": (squares, "test"), "changed by hand": (changed, "test"), "another frame": (another_frame, "test"),
    "links": (links, "vscode"), "hovers": (hovers, "test"), "watches": (watches, "Kate"),
    "watches anew": (watches_anew, "vscode"), "while it runs": (while_it_runs, "test"),
    "help": (helped, "test"),
}


def disconnected(console: Console, does: Callable[[], None]) -> str | None:
    """What is wrong in an act at a console, or at the console's end."""
    def whole() -> None:
        does()
        console.answer("disconnect")
    return ended(console, whole)


def fault_in(program: str, seconds: float, does: Callable[[Console], None], client: str = "test") -> str | None:
    """What the console of a new session does wrong, or None."""
    with tempfile.TemporaryDirectory(prefix="dap-") as place:
        folder = pathlib.Path(place).resolve()
        shutil.copy(FOLDER / "forever.ssa", folder)
        shutil.copy(EXAMPLES / "squares.ssa", folder)
        console = Console(program, seconds, folder, client)
        return disconnected(console, lambda: does(console))


def script_for(program: str, folder: pathlib.Path) -> str:
    """A program that is the adapter with the console in front of it."""
    script = folder / "behind-the-console"
    script.write_text(f"#!/bin/sh\nexec '{sys.executable}' '{RELAY}' {' '.join(words_of(program))}\n")
    script.chmod(script.stat().st_mode | stat.S_IXUSR)
    return str(script)


def session_fault(program: str, seconds: float, name: str) -> str | None:
    """A session played with the console, where only the capabilities may differ."""
    path = FOLDER / f"{name}.dap"
    # There are filters here.
    text = path.read_text().replace(', "!exceptionBreakpointFilters": 0', "")
    with tempfile.TemporaryDirectory(prefix="dap-") as place:
        folder = pathlib.Path(place).resolve()
        for file in [*FOLDER.glob("*.ssa"), *EXAMPLES.glob("*.ssa")]:
            shutil.copy(file, folder)
        script = script_for(program, folder)
        log: list[Message] = []
        fault, _ = play(script, name, text, folder, seconds, log)
        return fault or (None if is_changing(text) else at_once_fault(script, text, folder, seconds, log))


def wire_fault(program: str, seconds: float) -> str | None:
    """What is no message, and messages in pieces, come to the adapter as they are."""
    with tempfile.TemporaryDirectory(prefix="dap-") as place:
        script = script_for(program, pathlib.Path(place))
        for name, function, words in wire.cases():
            if name in wire.INPUTS and (fault := function(script, seconds, *words)):
                return f"{name}: {fault}"
    return None


def ended_fault(program: str, seconds: float) -> str | None:
    """Where the editor goes away the adapter ends too."""
    with tempfile.TemporaryDirectory(prefix="dap-") as place:
        console = Console(program, seconds, pathlib.Path(place))
        console.write(frame(request_message(1, "initialize", {"adapterID": "qrev"})))
        console.next()
        return None if console.end() == 0 else "it goes on without an editor"


def killed_fault(program: str, seconds: float) -> str | None:
    """If editors/console is killed during a run, the adapter ends too."""
    with tempfile.TemporaryDirectory(prefix="dap-") as place:
        folder = pathlib.Path(place).resolve()
        shutil.copy(FOLDER / "forever.ssa", folder)
        console = Console(program, seconds, folder)
        console.begin("forever.ssa", history=1000)
        console.answer("continue", {"threadId": 1})
        known = console.process.pid
        children = pathlib.Path(f"/proc/{known}/task/{known}/children").read_text().split()
        console.kill()
        end = time.monotonic() + GONE
        while time.monotonic() < end and any(pathlib.Path(f"/proc/{child}").exists() for child in children):
            time.sleep(0.05)
        left = [child for child in children if pathlib.Path(f"/proc/{child}").exists()]
        return None if children and not left else f"{left or 'no adapter'} of {children}"


def cases() -> Iterator[Case]:
    for name, words in CASES.items():
        yield name, fault_in, words
    # Completions have more words here.
    for path in sorted(set(FOLDER.glob("*.dap")) - {FOLDER / "completions.dap"}):
        yield f"session {path.stem}", session_fault, (path.stem,)
    yield "bytes", wire_fault, ()
    yield "the editor goes away", ended_fault, ()
    yield "it is killed while a run goes on", killed_fault, ()
