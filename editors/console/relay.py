"""Carries messages between an editor and the adapter, and answers those that are for the prompt."""
from __future__ import annotations

import os
import re
import signal
import subprocess
import sys
import threading
from queue import SimpleQueue
from typing import Any, NoReturn

from .admission import Admission, admitted
from .checking import Check
from .disassembly import Disassembly, with_disassembly
from .frames import Frames, framed, read, renumbered, written
from .guard import CHANGING, MOVING, Guard
from .launching import Beginning, Launcher, Ways
from .questions import HELP, POSITION, TOP, WORDS, Changes, Prompter, is_question
from .stepping import Stepper
from .suspicions import with_filters, without_filters

# Starts an adapter that sees when a message has come, and when the editor, or this, went away.
STARTS = TOP / "release" / "with-input-copy"
STOPPED = b'{"type":"event","event":"stopped"'
# What a hover takes for a name that isn't there, though it is an expression: memory, and where the run stands.
NO_NAME = re.compile(r"\b[bhwlsd]\[|^\s*(depth|position)\s*$")
GOTO = re.compile(r"goto +#?(\d{1,19})$")
# Questions of one word that are asked as a watch too.
ALONE = ("why", "suspects", "path")
# Seconds for which a question waits until the requests before it are answered, and all of them where the editor leaves.
PATIENCE, LEAVE = 2.0, 60.0


class Relay:
    """An editor on standard input and output, and an adapter that is started for it."""

    def __init__(self, adapter: str, words: list[str]):
        self.adapter = subprocess.Popen([str(STARTS), "qrev-dap", adapter], stdin=subprocess.PIPE,
                                        stdout=subprocess.PIPE)
        self.words = words
        self.sent = 0
        self.turn = threading.Lock()
        self.news = threading.Condition()
        self.open: set[int] = set()
        self.is_running = False
        self.position: int | None = None
        # What the session was begun with.
        self.launch: dict[str, Any] = {}
        # Whether the editor makes a link of an output that has a line.
        self.has_links = False
        # What was typed where completions were asked for, by the number of the request.
        self.typed: dict[int, str] = {}
        self.changes = Changes()
        # Requests that may change a value, by their numbers.
        self.changing: dict[int, tuple[str, dict[str, Any]]] = {}
        self.prompter: Prompter | None = None
        self.guard = Guard(words, self.news, self.forward, self.show, self.remark)
        self.disassembly = Disassembly()
        self.stepper = Stepper(self.news, self.disassembly, self.forward)
        self.launcher = Launcher(words, self.news, Ways(self.send_launch, self.forward, self.end_session, self.show,
                                                        self.respond, self.tell, self.tell_lines))
        self.check: Check | None = None
        # What came from the editor and isn't looked at yet.
        self.came: SimpleQueue[Admission | None] = SimpleQueue()
        self.questions: SimpleQueue[tuple[dict[str, Any], str] | None] = SimpleQueue()

    def run(self) -> NoReturn:
        """Carries messages until the adapter ends, and ends with its status."""
        signal.signal(signal.SIGTERM, lambda *_: self.leave())
        threads = [threading.Thread(target=work, daemon=True) for work in (self.carry_answers, self.answer_questions)]
        for thread in threads:
            thread.start()
        for work in (self.read_requests, self.carry_requests, self.guard.watch):
            threading.Thread(target=work, daemon=True).start()
        threads[0].join()
        status = self.adapter.wait()
        self.end_session()
        self.launcher.close()
        sys.stdout.buffer.flush()
        # Not by the interpreter's own end, which would wait for the thread that reads what the editor sends.
        os._exit(status if status >= 0 else 128 - status)

    def leave(self) -> None:
        self.adapter.kill()
        self.drop_helpers()
        self.guard.searches.close()
        self.launcher.close()
        os._exit(143)

    # From the editor.

    def read_requests(self) -> None:
        """Takes what comes, also while a request waits."""
        stream: Any = sys.stdin.buffer
        frames = Frames(stream)
        while True:
            raw, body = frames.next()
            if not raw:
                break
            came = admitted(raw, body) if body is not None else Admission(raw)
            if came.message.get("command") == "disconnect":
                self.leave_soon()
            self.came.put(came)
            if body is None:
                # What comes behind what is no message is for the adapter to judge.
                while rest := stream.read1(1 << 16):
                    self.came.put(Admission(rest))
                break
        self.leave_soon()
        self.came.put(None)

    def leave_soon(self) -> None:
        """Lets nothing wait for long any more."""
        for hurry in (self.guard.hurry, self.launcher.hurry):
            timer = threading.Timer(LEAVE, hurry)
            timer.daemon = True
            timer.start()

    def carry_requests(self) -> None:
        while came := self.came.get():
            if raw := self.carried(came):
                self.forward(raw)
        # No stop is waited for any more.
        self.guard.hold("disconnect", "")
        try:
            self.adapter.stdin.close()  # type: ignore[union-attr]
        except BrokenPipeError:
            pass

    def carried(self, came: Admission) -> bytes:
        """What goes to the adapter of what came: itself, another message, or nothing."""
        if came.notice:
            self.remark(f"a message was passed over: {came.notice}\n")
        elif came.failure:
            self.respond(came.message, False, came.failure)
        elif came.message.get("type") == "request":
            given = came.message.get("arguments")
            return self.request(came.message, given if isinstance(given, dict) else {}, came.raw)
        return came.raw

    def forward(self, raw: bytes) -> None:
        try:
            self.adapter.stdin.write(raw)  # type: ignore[union-attr]
            self.adapter.stdin.flush()  # type: ignore[union-attr]
        except (BrokenPipeError, ValueError):
            pass

    def request(self, message: dict[str, Any], given: dict[str, Any], raw: bytes) -> bytes:
        """What goes to the adapter for a request: itself, another one, or nothing."""
        command = str(message.get("command"))
        line = self.typed_line(given) if command == "evaluate" else ""
        self.stepper.hold(command)
        self.guard.hold(command, line)
        if is_question(line) or line in ("help", "h"):
            self.questions.put((message, line))
            return b""
        if command == "disassemble":
            self.disassemble(message, given)
            return b""
        if command in ("launch", "restart"):
            self.launcher.begin(message, given, raw)
            return b""
        if command == "terminate":
            self.launcher.end(message, raw)
            return b""
        if found := GOTO.match(line):
            return self.moved(message, given, int(found[1]))
        if command == "initialize":
            self.has_links = given.get("clientID") == "vscode"
            self.launcher.first_line = 0 if given.get("linesStartAt1") is False else 1
        elif command == "evaluate" and given.get("context") == "hover" and \
                NO_NAME.search(str(given.get("expression", ""))):
            given = {**given, "context": "variables"}
            raw = framed(written({**message, "arguments": given}))
        elif command == "completions":
            self.typed[message.get("seq", 0)] = str(given.get("text", ""))
        elif command == "setExceptionBreakpoints":
            self.guard.choose(given, self.launch, self.changes)
            raw = without_filters(message, given, raw)
        self.stepper.ask(message.get("seq"), command, given, self.position)
        with self.news:
            self.asked(message, command, given)
        return raw

    def typed_line(self, given: dict[str, Any]) -> str:
        """What is typed in the console, which some editors ask as a watch; nothing of what else is evaluated."""
        line, context = str(given.get("expression", "")).strip(), given.get("context")
        # One that makes links asks for its watches anew at each stop.
        is_watch = context == "watch" and not self.has_links and (" " in line or line in ALONE)
        return line if context == "repl" or is_watch and (is_question(line) or GOTO.match(line)) else ""

    def asked(self, message: dict[str, Any], command: str, given: dict[str, Any]) -> None:
        """Keeps what a request that goes to the adapter means for the run."""
        if isinstance(number := message.get("seq"), int):
            self.open.add(number)
            if command in MOVING:
                self.guard.ask(number, command, self.launch, self.changes)
            if command == "evaluate" or command in CHANGING:
                self.changing[number] = command, given
        if command in MOVING:
            self.is_running = True
        if command == "disconnect":
            self.end_session()

    def send_launch(self, number: int, raw: bytes) -> None:
        """Sends a request by which a session begins."""
        with self.news:
            self.open.add(number)
        self.forward(raw)

    def end_session(self) -> None:
        """Drops what is known of a session, and the searches beside it."""
        with self.news:
            self.changes, self.position = Changes(), None
            self.drop_helpers()
            self.guard.forget()
            self.stepper.end()

    def drop_helpers(self) -> None:
        if self.prompter:
            self.prompter.close()
        if self.check:
            self.check.end()
        self.prompter = self.check = None

    def moved(self, message: dict[str, Any], given: dict[str, Any], target: int) -> bytes:
        """`goto N` as the request for the moves that lead there."""
        if not self.waits():
            self.respond(message, False, "the run goes on: pause it first")
            return b""
        away = target - (self.position or 0)
        line = f"step {away}" if away > 0 else f"back {-away}" if away < 0 else "where"
        with self.news:
            self.open.add(message.get("seq", 0))
        return framed(written({**message, "arguments": {**given, "expression": line}}))

    def waits(self) -> bool:
        """Waits until earlier requests are answered, and says whether the run stands then."""
        with self.news:
            return self.news.wait_for(lambda: not self.open and not self.is_running, PATIENCE) and \
                self.position is not None

    # From the adapter.

    def carry_answers(self) -> None:
        frames = Frames(self.adapter.stdout)  # type: ignore[arg-type]
        while True:
            raw, body = frames.next()
            if body is None:
                break
            if self.launcher.takes(body) or self.guard.takes(body):
                continue
            shown = self.stepper.takes(body)
            if shown is None or shown.startswith(STOPPED) and self.guard.keeps(shown):
                continue
            self.show(self.told(shown))
            self.launcher.tell_fresh()
        if raw:
            with self.turn:
                self.write(raw)

    def told(self, body: bytes) -> bytes:
        """A message as the editor gets it: some answers have more here."""
        head = body[:200]
        if self.typed and b'"command":"completions"' in head:
            return self.completed(body)
        if b'"command":"initialize"' in head:
            return with_disassembly(with_filters(body))
        if b'"command":"stackTrace"' in head:
            return self.disassembly.referenced(body)
        if b'"command":"exceptionInfo"' in head:
            return self.guard.informed(body, self.position)
        return self.launcher.told(body)

    def show(self, body: bytes, changes: Changes | None = None) -> None:
        """Writes a message to the editor; with the changes by hand that hold again there, if some were taken back."""
        # It is kept first: the editor may answer as soon as it is written.
        with self.turn:
            with self.news:
                self.changes = changes or self.changes
            self.note(body)
            self.sent += 1
            self.write(framed(renumbered(body, self.sent)))

    def completed(self, body: bytes) -> bytes:
        """Completions, with the words among them that are answered here."""
        message = read(body)
        begun = self.typed.pop(message.get("request_seq", 0), "")
        targets = message.get("body", {}).get("targets")
        if not isinstance(targets, list) or not begun.isalpha():
            return body
        known = {target.get("label") for target in targets}
        targets += [{"label": word, "type": "keyword", "start": 0, "length": len(begun)} for word in WORDS
                    if word.startswith(begun) and word not in known]
        number = message.pop("seq")
        return written({**message, "seq": number})

    def write(self, raw: bytes) -> None:
        try:
            sys.stdout.buffer.write(raw)
            sys.stdout.buffer.flush()
        except BrokenPipeError:
            os.dup2(os.open(os.devnull, os.O_WRONLY), 1)

    def note(self, body: bytes) -> None:
        """Keeps what a message of the adapter says of the run."""
        if body.startswith(b'{"type":"response"'):
            with self.news:
                self.answered(read(body))
                self.news.notify_all()
        elif body.startswith((STOPPED, b'{"type":"event","event":"terminated"')):
            with self.news:
                self.is_running = False
                self.guard.end()
                self.place(str(read(body).get("body", {}).get("description", "")))
                if not body.startswith(STOPPED):
                    self.launcher.terminated()
                self.news.notify_all()
        elif body.startswith(b'{"type":"event","event":"initialized"'):
            self.guard.look(self.launch, self.changes)

    def answered(self, message: dict[str, Any]) -> None:
        """Keeps what a response says of the run."""
        number, is_done = message.get("request_seq", 0), bool(message.get("success"))
        self.open.discard(number)
        if begun := self.launcher.answered(message):
            self.begun(begun)
        if message.get("command") in MOVING:
            self.guard.begin(number, self.position, self.launch, self.changes)
            if not is_done:
                self.is_running = False
                self.guard.end()
        command, given = self.changing.pop(number, ("", {}))
        result = str(message.get("body", {}).get("result", "")) if message.get("command") == "evaluate" else ""
        if is_done and command and self.position is not None:
            self.changes.note(command, given, self.position, result)
            # A value that is set is a move, of which no event tells.
            self.position += command in ("setVariable", "setExpression")
        self.place(result.rpartition("\n")[2])

    def begun(self, beginning: Beginning) -> None:
        """A session has begun."""
        self.launch, self.is_running = beginning.launch, False
        self.disassembly.begin(self.launch)
        if kinds := beginning.given.get("check"):
            self.check = Check(self.launch, kinds, self.words, self.tell_lines)

    def place(self, line: str) -> None:
        """Keeps the position of a place line, which a stop has, and the last line that the console answers to a
        move."""
        if found := POSITION.match(line):
            self.position = int(found[1])
            self.stepper.stand(line)
            self.changes.stopped(self.position)

    def remark(self, line: str) -> None:
        """Says something in the console."""
        self.tell({"type": "event", "event": "output", "body": {"category": "console", "output": line}})

    def respond(self, message: dict[str, Any], success: bool, told: str) -> None:
        """Answers a request in place of the adapter."""
        response: dict[str, Any] = {"type": "response", "request_seq": message.get("seq"),
                                    "command": message.get("command"), "success": success}
        rest: dict[str, Any] = {"body": {"result": told, "variablesReference": 0}} if success else {"message": told}
        self.tell({**response, **rest})

    def disassemble(self, message: dict[str, Any], given: dict[str, Any]) -> None:
        """Answers with rows of the text."""
        found = self.disassembly.answer(given)
        if isinstance(found, str):
            return self.respond(message, False, found)
        self.tell({"type": "response", "request_seq": message.get("seq"), "command": "disassemble", "success": True,
                   "body": {"instructions": found}})

    def tell(self, message: dict[str, Any]) -> None:
        with self.turn:
            self.sent += 1
            self.write(framed(written({**message, "seq": self.sent})))

    # Questions.

    def answer_questions(self) -> None:
        while asked := self.questions.get():
            message, line = asked
            try:
                self.answer(message, line)
            except OSError as error:
                self.respond(message, False, f"the prompt can't be run: {error.strerror}")

    def answer(self, message: dict[str, Any], line: str) -> None:
        if line in ("help", "h"):
            return self.respond(message, True, HELP)
        if not self.waits():
            why = "the run goes on: pause it first" if self.launcher.is_open else "no session"
            return self.respond(message, False, why)
        with self.news:
            way, is_unknown = self.changes.to(self.position or 0), self.changes.unknown is not None
            if self.prompter is None:
                self.prompter = Prompter(self.launch, self.words)
            prompter = self.prompter
        frame = message.get("arguments", {}).get("frameId")
        told = prompter.answer(way, frame - 1 if isinstance(frame, int) and frame > 1 else 0, line)
        if is_unknown:
            told = "memory was changed by hand; this is told of the run without that\n" + told
        if not self.has_links:
            return self.respond(message, True, told)
        head, *rest = told.split("\n")
        self.respond(message, True, head)
        self.tell_lines(rest)

    def tell_lines(self, lines: list[str]) -> None:
        """Lines of an answer, each with a link to the line of the text that it names."""
        program = os.path.abspath(str(self.launch.get("program", "")))
        for line in lines:
            body: dict[str, Any] = {"category": "console", "output": line + "\n"}
            if self.has_links and (place := self.launcher.place(line, program)):
                path, number = place
                body |= {"line": number, "source": {"name": os.path.basename(path), "path": path}}
            self.tell({"type": "event", "event": "output", "body": body})
