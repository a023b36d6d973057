"""The adapter as a process, the form of its messages, and a session that is played with it."""
from __future__ import annotations

import io
import json
import pathlib
import queue
import subprocess
import threading
from collections.abc import Callable, Mapping, Sequence
from typing import IO, Any, NamedTuple, Optional, Union

from harness.running import TOP

from .sessions import Message, Step, has, make_file, read_session

RELEASED = TOP / "release" / "qrev-dap-x86_64-linux"
BUILT = TOP / "crates" / "qrev_dap" / "out" / "qrev_dap"

SHAPES = {"response": {"seq", "type", "request_seq", "success", "command"}, "event": {"seq", "type", "event"}}
# How an adapter tells that there is no record.
UNWRITTEN = "record: cannot write "
MAY_HAVE = {"response": {"message", "body"}, "event": {"body"}}


def adapter_of(program: Optional[str] = None) -> Optional[str]:
    """The tested adapter: this one, or the released one if it fits, or the one that is built, or None."""
    if program:
        return str(pathlib.Path(program).resolve())
    fits = [str(TOP / "release" / "fits"), "qrev-dap"]
    if RELEASED.exists() and subprocess.run(fits, stdout=subprocess.DEVNULL).returncode == 0:
        return str(RELEASED)
    return str(BUILT) if BUILT.exists() else None


class BadMessage(Exception):
    """What an adapter wrote that is no message of an adapter."""


def frame(message: Message) -> bytes:
    body = json.dumps(message).encode()
    return b"Content-Length: %d\r\n\r\n" % len(body) + body


def request_message(number: int, command: str, arguments: Optional[Message] = None) -> Message:
    message = {"seq": number, "type": "request", "command": command}
    return message if arguments is None else {**message, "arguments": arguments}


def read_message(stream: IO[bytes]) -> Optional[Message]:
    """The next message of a stream, or None at its end."""
    line = stream.readline()
    if not line:
        return None
    digits = line.removeprefix(b"Content-Length: ").removesuffix(b"\r\n")
    if not line.startswith(b"Content-Length: ") or not digits.isdigit() or stream.readline() != b"\r\n":
        raise BadMessage(f"no header: {line!r}")
    body = stream.read(int(digits))
    if len(body) != int(digits):
        raise BadMessage(f"a body of {len(body)} bytes in place of {int(digits)}")
    try:
        message: Message = json.loads(body.decode())
        return message
    except ValueError as error:
        raise BadMessage(f"a body that is no JSON, {error}: {body[:100]!r}") from None


def form_fault(message: Any, number: int) -> Optional[str]:
    """What the message of that number has wrong whatever it says, or None."""
    kind: Any = message.get("type") if isinstance(message, dict) else None
    if kind not in SHAPES:
        return f"neither response nor event: {message}"
    if message.get("seq") != number:
        return f"seq {message.get('seq')} in place of {number}"
    if not SHAPES[kind] <= message.keys() <= SHAPES[kind] | MAY_HAVE[kind]:
        return f"members {sorted(message)} of a message of type {kind}"
    if kind == "response" and message["success"] is not True:
        is_text = isinstance(message.get("message"), str) and message["message"]
        if message["success"] is not False or not is_text or "body" in message:
            return f"a failure with no message or with a body: {message}"
    return None


class Wrong(Exception):
    """What was wrong in a case."""


def expect(holds: bool, otherwise: object) -> None:
    if not holds:
        raise Wrong(str(otherwise))


class Adapter:
    """An adapter that runs. Its messages are read beside it, so that none has to wait for a reader."""

    def __init__(self, program: str, seconds: float, folder: pathlib.Path, words: Sequence[str] = (),
                 environment: Optional[Mapping[str, str]] = None) -> None:
        self.seconds, self.sent, self.got = seconds, 0, 0
        self.log: list[Message] = []
        self.process = subprocess.Popen([program, *words], stdin=subprocess.PIPE, stdout=subprocess.PIPE,
                                        stderr=subprocess.PIPE, cwd=folder, env=environment)
        self.came: queue.Queue[Union[Message, BadMessage, None]] = queue.Queue()
        self.errors: list[bytes] = []
        self.readers = [threading.Thread(target=self.read_messages, daemon=True),
                        threading.Thread(target=self.read_errors, daemon=True)]
        for reader in self.readers:
            reader.start()

    def read_messages(self) -> None:
        assert self.process.stdout is not None
        try:
            while (message := read_message(self.process.stdout)) is not None:
                self.came.put(message)
        except BadMessage as bad:
            self.came.put(bad)
        self.came.put(None)

    def read_errors(self) -> None:
        assert self.process.stderr is not None
        self.errors.append(self.process.stderr.read())

    def write(self, piece: bytes) -> None:
        assert self.process.stdin is not None
        try:
            self.process.stdin.write(piece)
            self.process.stdin.flush()
        except BrokenPipeError:
            pass

    def request(self, command: str, arguments: Optional[Message] = None) -> None:
        self.sent += 1
        message = request_message(self.sent, command, arguments)
        self.log.append(message)
        self.write(frame(message))

    def next(self) -> Optional[Message]:
        """The next message, or None at the end; what is wrong with its form is raised."""
        try:
            message = self.came.get(timeout=self.seconds)
        except queue.Empty:
            raise BadMessage(f"nothing came in {self.seconds:g} seconds") from None
        if isinstance(message, BadMessage):
            raise message
        if message is not None:
            self.got += 1
            self.log.append(message)
            fault = form_fault(message, self.got)
            if fault:
                raise BadMessage(fault)
        return message

    def end(self) -> Optional[int]:
        """Closes the input, and gives the exit status, or None where the adapter goes on."""
        assert self.process.stdin is not None
        try:
            self.process.stdin.close()
        except BrokenPipeError:
            pass
        try:
            status = self.process.wait(self.seconds)
        except subprocess.TimeoutExpired:
            return None
        for reader in self.readers:
            reader.join(self.seconds)
        return status

    def kill(self) -> None:
        if self.process.poll() is None:
            self.process.kill()
            self.process.wait()


def ended(adapter: Adapter, does: Callable[[], object]) -> Optional[str]:
    """What is wrong in an act with an adapter, or in the adapter's end after it."""
    try:
        does()
        status = adapter.end()
        return None if status == 0 else f"status {status}"
    except Wrong as wrong:
        return str(wrong)
    finally:
        adapter.kill()


class Record(NamedTuple):
    """A record that a launch asked for, and the words after `qrev` that replay it."""

    name: str
    words: list[str]


def record_of(arguments: object) -> Optional[Record]:
    """The record of a launch, or None."""
    if not isinstance(arguments, dict) or not isinstance(arguments.get("record"), str):
        return None
    words = [arguments["program"], *map(str, arguments.get("args", [])), "--entry", arguments.get("entry", "main"),
             "--limit", str(arguments.get("limit", 1_000_000))]
    for name in ("memory", "history"):
        if name in arguments:
            words += [f"--{name}", str(arguments[name])]
    return Record(arguments["record"], words)


def replay_fault(qrev: str, record: Record, folder: pathlib.Path, seconds: float) -> Optional[str]:
    """How the output of `qrev` for a record differs from the transcript beside it, or None."""
    try:
        with open(folder / record.name, "rb") as script, open(folder / f"{record.name}.transcript", "rb") as kept:
            run = subprocess.run([qrev, *record.words], stdin=script, capture_output=True, cwd=folder, timeout=seconds)
            wanted = kept.read()
    except OSError as error:
        return f"no record: {error}"
    if run.returncode != 0 or run.stdout != wanted:
        return f"the replay of {record.name} has status {run.returncode} and differs from its transcript"
    return None


class Playing:
    """A session that is played."""

    def __init__(self, adapter: Adapter, folder: pathlib.Path) -> None:
        self.adapter, self.folder = adapter, folder
        self.request: Optional[Step] = None
        self.response: Message = {}
        self.launched: Message = {}
        self.records: dict[str, Record] = {}

    def fault_of(self, step: Step) -> Optional[str]:
        """How the messages differ from what a step says, or None."""
        fault: Optional[str] = getattr(self, f"play_{step.kind}")(step)
        return fault

    def play_request(self, step: Step) -> Optional[str]:
        self.adapter.request(step.name, step.value)
        self.request, message = step, self.adapter.next()
        if message is None or message["type"] != "response":
            return f"no response, but {message}"
        self.response = message
        if (message["request_seq"], message["command"]) != (self.adapter.sent, step.name):
            return f"the response to another request: {message}"
        if message["success"] and step.name in ("launch", "restart"):
            self.note_record(step)
        return None

    def note_record(self, step: Step) -> None:
        given = step.value
        if step.name == "launch":
            self.launched = given
        else:
            again = (given or {}).get("arguments", {})
            given = again if "program" in again else self.launched
        record = record_of(given)
        if record:
            self.records[record.name] = record

    def play_response(self, step: Step) -> Optional[str]:
        got = self.response
        if step.value is None:
            is_same = not got["success"] and step.name in (got["message"], "*")
        else:
            is_same = got["success"] and has(got.get("body", {}), step.value)
        return None if is_same else f"the response is {json.dumps(got)}"

    def play_event(self, step: Step) -> Optional[str]:
        got = self.adapter.next()
        is_same = got is not None and got["type"] == "event" and got["event"] == step.name and \
            has(got.get("body", {}), step.value or {})
        if not is_same:
            return f"what comes is {json.dumps(got)}"
        if step.name == "output" and step.value["output"].startswith(UNWRITTEN):
            self.records.pop(step.value["output"].removeprefix(UNWRITTEN).rstrip("\n"), None)
        return None

    def play_given(self, step: Step) -> None:
        make_file(step, self.folder)

    def play_file(self, step: Step) -> Optional[str]:
        try:
            lines = (self.folder / step.name).read_bytes().decode("latin-1").split("\n")
        except OSError as error:
            return str(error)
        return None if lines == [line.encode().decode("latin-1") for line in step.value] + [""] else f"it has {lines}"


def ended_fault(adapter: Adapter) -> Optional[str]:
    """What an adapter does instead of ending without another message."""
    status = adapter.end()
    if status != 0:
        return f"exit status {status} in place of 0"
    rest = adapter.next()
    if rest is not None:
        return f"more than was told: {rest}"
    return f"standard error: {adapter.errors[0][:200]!r}" if adapter.errors[0] else None


def play(program: str, name: str, text: str, folder: pathlib.Path, seconds: float,
         log: Optional[list[Message]] = None) -> tuple[Optional[str], list[Record]]:
    """Plays a session, which was read with its folder; gives its first fault or None, and the records that it asked
    for."""
    adapter = Adapter(program, seconds, folder)
    playing = Playing(adapter, folder)
    fault: Optional[str] = None
    at: Optional[Step] = None
    steps = read_session(text.replace("@DIR", str(folder)))
    try:
        for at in steps:
            fault = playing.fault_of(at)
            if fault:
                break
        else:
            at = None
            fault = ended_fault(adapter)
    except BadMessage as bad:
        fault = str(bad)
    finally:
        adapter.kill()
    if log is not None:
        log.extend(adapter.log)
    place = f"{name}.dap:{at.number}" if at else f"{name}.dap, at its end"
    return (f"{place}: {fault}" if fault else None), list(playing.records.values())


def requests_of(text: str, folder: pathlib.Path) -> bytes:
    """All requests of a session, as one input."""
    steps = [step for step in read_session(text.replace("@DIR", str(folder))) if step.kind == "request"]
    return b"".join(frame(request_message(number, step.name, step.value)) for number, step in enumerate(steps, 1))


def at_once_fault(program: str, text: str, folder: pathlib.Path, seconds: float, log: list[Message]) -> Optional[str]:
    """How an adapter's answers differ if all requests come at once, before the first is answered; or None."""
    try:
        run = subprocess.run([program], input=requests_of(text, folder), capture_output=True, cwd=folder,
                             timeout=seconds)
    except subprocess.TimeoutExpired:
        return f"at once: no end after {seconds:g} seconds"
    wanted = [message for message in log if message.get("type") != "request"]
    got = messages_in(run.stdout)
    if run.returncode != 0:
        return f"at once: exit status {run.returncode}"
    for one, other in zip(wanted, got):
        if one != other:
            return f"at once: {json.dumps(other)} in place of {json.dumps(one)}"
    return None if len(wanted) == len(got) else f"at once: {len(got)} messages in place of {len(wanted)}"


def messages_in(written: bytes) -> list[Message]:
    """The messages that were written; the last is what is wrong where they are none."""
    stream = io.BytesIO(written)
    found: list[Message] = []
    try:
        while (message := read_message(stream)) is not None:
            found.append(message)
    except BadMessage as bad:
        found.append({"wrong": str(bad)})
    return found
