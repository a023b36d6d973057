"""Runs without an end: an editor pauses them, asks questions during them, changes breakpoints, and ends the session.

The adapter gets the name of a growing copy of its input, as from `release/with-input-copy`: so it sees that a message
has come.
"""
import pathlib
import shutil
import tempfile
import time
from collections.abc import Callable, Iterator

from .driver import Adapter, Wrong, ended, expect, frame, request_message
from .sessions import FOLDER, Message

LIMIT = 1_000_000
# A run is paused within so many seconds, on a machine that does much else.
PATIENCE = 30.0
# The copies of states may take 64 MiB, and the rest of the adapter not so much.
LITTLE = 128 << 20


class Copied(Adapter):
    """An adapter that gets the name of a growing copy of its input."""

    def __init__(self, program: str, seconds: float, folder: pathlib.Path) -> None:
        self.copy = folder / "input-copy"
        self.copy.touch()
        super().__init__(program, seconds, folder, ["--input-copy", str(self.copy)])

    def write(self, piece: bytes) -> None:
        with self.copy.open("ab") as copy:
            copy.write(piece)
        super().write(piece)

    def answer(self, command: str, arguments: Message | None = None) -> Message:
        """The response to a request; events before it are an error."""
        self.request(command, arguments)
        message = self.next()
        if not message or message["type"] != "response" or message["command"] != command:
            raise Wrong(f"no response to {command}, but {message}")
        if not message["success"]:
            raise Wrong(f"{command}: {message}")
        body: Message = message.get("body", {})
        return body

    def event(self, name: str) -> Message:
        message = self.next()
        if not message or message.get("event") != name:
            raise Wrong(f"no event {name}, but {message}")
        body: Message = message.get("body", {})
        return body

    def is_silent(self, seconds: float) -> bool:
        """Whether no message comes for so long."""
        time.sleep(seconds)
        return self.came.empty()


def begin(adapter: Copied, arguments: Message | None = None, client: Message | None = None) -> None:
    """A session that stands at its start."""
    adapter.answer("initialize", {"adapterID": "qrev", **(client or {})})
    adapter.answer("launch", {"program": "forever.ssa", **(arguments or {})})
    adapter.event("initialized")
    adapter.answer("configurationDone")
    expect(adapter.event("stopped")["reason"] == "entry", "it doesn't stand at its start")


def position(stopped: Message) -> int:
    return int(stopped["description"].split()[0].removeprefix("#"))


def pause(adapter: Copied) -> Message:
    """Pauses a run, and gives where it stands."""
    begun = time.monotonic()
    adapter.answer("pause", {"threadId": 1})
    stopped = adapter.event("stopped")
    expect(time.monotonic() - begun < PATIENCE, "it took too long to pause")
    expect((stopped["reason"], stopped["text"]) == ("pause", "paused"), f"it isn't paused: {stopped}")
    return stopped


def runs_on(adapter: Copied) -> None:
    adapter.answer("continue", {"threadId": 1})
    expect(adapter.is_silent(1), "it doesn't go on")


def past_limit(adapter: Copied) -> int:
    """Runs past the limit of moves in one go, and gives where the run is paused. A busy machine gets more time."""
    at = 0
    for seconds in (1, 4, 16, 64):
        adapter.answer("continue", {"threadId": 1})
        expect(adapter.is_silent(seconds), "it doesn't go on")
        at = position(pause(adapter))
        if at > LIMIT:
            return at
        adapter.answer("reverseContinue", {"threadId": 1})
        expect(position(adapter.event("stopped")) == 0, f"it doesn't go back to the start from #{at}")
    raise Wrong(f"it came to #{at} alone")


def paused_and_back(adapter: Copied, folder: pathlib.Path, arguments: Message | None = None) -> None:
    """It goes past the limit of moves, stands where it is paused, goes back from there, and on."""
    begin(adapter, arguments)
    at = past_limit(adapter)
    adapter.answer("stepBack", {"threadId": 1, "granularity": "instruction"})
    expect(position(adapter.event("stopped")) == at - 1, "one move back is elsewhere")
    runs_on(adapter)
    expect(position(pause(adapter)) > at, "it didn't go on")
    adapter.answer("disconnect")


def paused_with_few(adapter: Copied, folder: pathlib.Path) -> None:
    """The same where few moves can be undone."""
    paused_and_back(adapter, folder, {"history": 1})


def paused_with_little(adapter: Copied, folder: pathlib.Path) -> None:
    """The same where copies of states may take little."""
    paused_and_back(adapter, folder, {"memory": 1})


def stands_already(adapter: Copied, folder: pathlib.Path) -> None:
    """A pause without a run sends nothing."""
    begin(adapter)
    adapter.answer("pause", {"threadId": 1})
    adapter.answer("threads")
    adapter.answer("disconnect")


def asked_while_it_runs(adapter: Copied, folder: pathlib.Path) -> None:
    """Requests that only look are answered, and the run goes on after them."""
    begin(adapter)
    runs_on(adapter)
    adapter.answer("threads")
    frames = adapter.answer("stackTrace", {"threadId": 1})["stackFrames"]
    expect(frames[0]["name"].startswith("$count @loop"), f"it is in {frames[0]}")
    expect(adapter.is_silent(0.5), "it doesn't go on behind a question")
    first = int(adapter.answer("evaluate", {"expression": "%i", "frameId": 1})["result"])
    second = int(adapter.answer("evaluate", {"expression": "%i", "frameId": 1})["result"])
    expect(LIMIT < first <= second, f"%i was {first} and then {second}")
    pause(adapter)
    adapter.answer("disconnect")


def breakpoint_while_it_runs(adapter: Copied, folder: pathlib.Path) -> None:
    """A breakpoint that is set while it runs stops it."""
    begin(adapter)
    runs_on(adapter)
    made = adapter.answer("setBreakpoints",
                          {"source": {"path": str(folder / "forever.ssa")}, "breakpoints": [{"line": 7}]})
    stopped = adapter.event("stopped")
    expect(stopped["reason"] == "breakpoint" and stopped["hitBreakpointIds"] == [made["breakpoints"][0]["id"]],
           f"{stopped}")
    expect(position(stopped) > LIMIT, "it came to it before it was set")
    adapter.answer("disconnect")


def moved_while_it_runs(adapter: Copied, folder: pathlib.Path) -> None:
    """A command that moves brings it to a stand."""
    begin(adapter)
    runs_on(adapter)
    adapter.answer("evaluate", {"expression": "back 1", "context": "repl"})
    expect(adapter.event("stopped")["reason"] == "step", "it doesn't stand behind a command that moves")
    expect(adapter.is_silent(0.3), "it goes on behind a command that moves")
    adapter.answer("disconnect")


def back_to_the_oldest(adapter: Copied, folder: pathlib.Path) -> None:
    """A run back goes to the oldest state that is kept."""
    begin(adapter, {"history": 1_000_000})
    at = past_limit(adapter)
    adapter.answer("reverseContinue", {"threadId": 1})
    stopped = adapter.event("stopped")
    expect(position(stopped) == at - 1_000_000 and stopped["text"].startswith("the oldest state"),
           f"from #{at} back to {stopped}")
    adapter.answer("disconnect")


def back_to_the_start(adapter: Copied, folder: pathlib.Path) -> None:
    """If nothing is said, a run back goes to the start from wherever the run is, in little memory."""
    begin(adapter)
    at = past_limit(adapter)
    used = resident(adapter)
    expect(used < LITTLE, f"{used >> 20} MiB after {at} moves")
    adapter.answer("reverseContinue", {"threadId": 1})
    stopped = adapter.event("stopped")
    expect(position(stopped) == 0 and stopped["reason"] == "entry", f"from #{at} back to {stopped}")
    adapter.answer("disconnect")


def resident(adapter: Copied) -> int:
    """How many bytes of memory the adapter has."""
    status = pathlib.Path(f"/proc/{adapter.process.pid}/status").read_text()
    kibibytes = next(line for line in status.splitlines() if line.startswith("VmRSS:"))
    return int(kibibytes.split()[1]) << 10


def call_without_an_end(adapter: Copied, folder: pathlib.Path) -> None:
    """A step over a call that doesn't return is paused in it."""
    begin(adapter)
    adapter.answer("next", {"threadId": 1})
    expect(adapter.is_silent(1), "it doesn't go on")
    stopped = pause(adapter)
    expect("$count @loop" in stopped["description"], f"it stands elsewhere: {stopped}")
    adapter.answer("disconnect")


def every_move_kept(adapter: Copied, folder: pathlib.Path) -> None:
    """Where each move is kept a run ends at the limit, since it takes memory."""
    adapter.answer("initialize", {"adapterID": "qrev"})
    adapter.answer("launch", {"program": "forever.ssa", "history": "all"})
    adapter.event("initialized")
    adapter.answer("configurationDone")
    adapter.event("stopped")
    adapter.answer("continue", {"threadId": 1})
    expect(position(adapter.event("stopped")) == LIMIT, "it goes on past the limit")
    adapter.answer("disconnect")


def not_debugged(adapter: Copied, folder: pathlib.Path) -> None:
    """A run that isn't debugged goes on past the limit, and is ended."""
    adapter.answer("initialize", {"adapterID": "qrev"})
    adapter.answer("launch", {"program": "forever.ssa", "noDebug": True})
    adapter.event("initialized")
    adapter.answer("configurationDone")
    expect(adapter.is_silent(1), "it doesn't go on")
    adapter.answer("threads")
    expect(adapter.is_silent(0.3), "it doesn't go on behind a question")
    adapter.answer("disconnect")


def recorded(adapter: Copied, folder: pathlib.Path) -> None:
    """The record has a line for each piece, and is written when the session ends."""
    begin(adapter, {"record": "pieces"})
    runs_on(adapter)
    at = position(pause(adapter))
    adapter.request("disconnect")
    while (message := adapter.next()) and message.get("command") != "disconnect":
        pass
    adapter.end()
    lines = (folder / "pieces").read_text().split()
    expect(lines == ["continue"] * (at // LIMIT) and at % LIMIT == 0, f"{len(lines)} lines up to #{at}")


def limit_of_the_launch(adapter: Copied, folder: pathlib.Path) -> None:
    """A launch that says the limit has it."""
    begin(adapter, {"limit": LIMIT})
    adapter.answer("continue", {"threadId": 1})
    stopped = adapter.event("stopped")
    expect(position(stopped) == LIMIT and stopped["text"].startswith("the limit of moves"), f"{stopped}")
    adapter.answer("disconnect")


def left_while_it_runs(adapter: Copied, folder: pathlib.Path) -> None:
    begin(adapter)
    runs_on(adapter)
    adapter.answer("disconnect")


def ended_while_it_runs(adapter: Copied, folder: pathlib.Path) -> None:
    begin(adapter)
    runs_on(adapter)
    adapter.answer("terminate")
    adapter.event("terminated")
    adapter.answer("disconnect")


def restarted_while_it_runs(adapter: Copied, folder: pathlib.Path) -> None:
    begin(adapter)
    runs_on(adapter)
    adapter.answer("restart")
    adapter.event("initialized")
    adapter.answer("configurationDone")
    expect(position(adapter.event("stopped")) == 0, "it doesn't stand at its start again")
    adapter.answer("disconnect")


def progress(adapter: Copied, folder: pathlib.Path) -> None:
    """An editor that shows progress gets that of a long run."""
    begin(adapter, None, {"supportsProgressReporting": True})
    adapter.answer("continue", {"threadId": 1})
    start = adapter.event("progressStart")
    expect(start["title"] == "running" and int(start["message"].removeprefix("#")) > LIMIT, f"{start}")
    update = adapter.event("progressUpdate")
    expect(update["progressId"] == start["progressId"], f"another run: {update}")
    expect(int(update["message"][1:]) > int(start["message"][1:]), f"it goes nowhere: {start} {update}")
    adapter.request("pause", {"threadId": 1})
    names: list[str] = []
    while not names or names[-1] != "stopped":
        message = adapter.next()
        if message is None:
            raise Wrong("the end in place of a stop")
        names.append(message.get("event") or message["type"])
    wanted = ["response", "progressEnd", "stopped"]
    expect([name for name in names if name != "progressUpdate"] == wanted, f"{names}")
    adapter.answer("disconnect")


CASES: dict[str, Callable[[Copied, pathlib.Path], None]] = {
    "paused, back, and on": paused_and_back,
    "paused with few undo records": paused_with_few,
    "paused with few copies": paused_with_little,
    "it stands already": stands_already,
    "asked while it runs": asked_while_it_runs,
    "a breakpoint while it runs": breakpoint_while_it_runs,
    "moved while it runs": moved_while_it_runs,
    "back to the oldest state": back_to_the_oldest,
    "back to the start": back_to_the_start,
    "a call without an end": call_without_an_end,
    "the limit of the launch": limit_of_the_launch,
    "every move kept": every_move_kept,
    "not debugged": not_debugged,
    "recorded": recorded,
    "left while it runs": left_while_it_runs,
    "ended while it runs": ended_while_it_runs,
    "restarted while it runs": restarted_while_it_runs,
    "progress": progress,
}


def fault_of(program: str, seconds: float, name: str) -> str | None:
    """What the adapter does wrong in a case, or None."""
    with tempfile.TemporaryDirectory(prefix="dap-") as place:
        folder = pathlib.Path(place).resolve()
        shutil.copy(FOLDER / "forever.ssa", folder)
        adapter = Copied(program, seconds, folder)
        return ended(adapter, lambda: CASES[name](adapter, folder))


def at_once(program: str, seconds: float) -> str | None:
    """All requests at once: each is answered in turn, and a run that has begun ends by `pause`."""
    with tempfile.TemporaryDirectory(prefix="dap-") as place:
        folder = pathlib.Path(place).resolve()
        shutil.copy(FOLDER / "forever.ssa", folder)
        adapter = Copied(program, seconds, folder)
        launch = {"program": "forever.ssa"}
        asked: list[tuple[str, Message | None]] = [
            ("initialize", {"adapterID": "qrev"}), ("launch", launch), ("configurationDone", None),
            ("continue", {"threadId": 1}), ("threads", None), ("pause", {"threadId": 1}), ("disconnect", None)]
        try:
            adapter.write(b"".join(frame(request_message(at, *one)) for at, one in enumerate(asked, 1)))
            told: list[str] = []
            while (message := adapter.next()) is not None:
                told.append(message.get("event") or message["command"])
            wanted = ["initialize", "launch", "initialized", "configurationDone", "stopped", "continue", "threads",
                      "pause", "stopped", "disconnect"]
            return None if told == wanted else f"{told}"
        finally:
            adapter.kill()


def cases() -> Iterator[tuple[str, Callable[..., str | None], tuple[str, ...]]]:
    for name in CASES:
        yield name, fault_of, (name,)
    yield "all at once", at_once, ()
