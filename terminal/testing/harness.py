"""A session of the front end at a pseudo-terminal, for tests."""
from __future__ import annotations

import fcntl
import os
import pathlib
import pty
import re
import select
import signal
import struct
import subprocess
import sys
import tempfile
import termios
import time
from typing import Callable, Mapping

from terminal.shell import FAULT

FOLDER = pathlib.Path(__file__).resolve().parent.parent
TOP = FOLDER.parent
PROMPT = "(qrev) "
# What the command line of the check beside a session has.
CHECK = b"/check/main"
PLACE = re.compile(r"#\d+ (?:[$]\S+ @\S+ \d+|done.*|exit.*|fault.*|halted in .*|ended by a signal)")
# How the front end tells an end that the debugger calls a fault.
HALTED = re.compile(r" halted in .*| ended by a signal")
# What a line showed before it was erased: how far a long search has come is shown, and then taken away again.
ERASED = re.compile(r"[^\n]*\r\x1b\[K")


class Silent(Exception):
    """What was waited for didn't come."""


class NoTerminal(Exception):
    """This machine gives no pseudo-terminals, for want of /dev/pts."""


class Terminal:
    """A command at a terminal of its own."""

    def __init__(self, words: list[str], columns: int = 200, seconds: float = 300, folder: str = ".", rows: int = 40,
                 environment: Mapping[str, str] | None = None):
        self.seconds, self.shown = seconds, ""
        self.home = tempfile.TemporaryDirectory(prefix="terminal-")
        variables = {**os.environ, "HOME": self.home.name, "TERM": "dumb", "INPUTRC": "/dev/null",
                     "PYTHONDONTWRITEBYTECODE": "1", **(environment or {})}
        variables.pop("COLUMNS", None)
        size = struct.pack("HHHH", rows, columns, 0, 0)
        # Tests run in threads: behind the fork nothing is done that could wait for one.
        try:
            self.child, self.device = pty.fork()
        except OSError as error:
            raise NoTerminal from error
        if self.child == 0:
            fcntl.ioctl(0, termios.TIOCSWINSZ, size)
            os.chdir(folder)
            os.execvpe(words[0], words, variables)

    def wait_for(self, text: str) -> str:
        """What came up to the text, without the text itself and without what was erased."""
        end = time.monotonic() + self.seconds
        while text not in self.shown:
            if not select.select([self.device], [], [], max(0, end - time.monotonic()))[0]:
                raise Silent(f"no {text!r} in {self.shown[-400:]!r}")
            try:
                piece = os.read(self.device, 65536)
            except OSError:
                piece = b""
            if not piece:
                raise Silent(f"the end, and no {text!r} in {self.shown[-400:]!r}")
            # The two bytes that end a line may come apart.
            self.shown = (self.shown + piece.decode(errors="replace")).replace("\r\n", "\n")
        before, _, self.shown = self.shown.partition(text)
        return ERASED.sub("", before)

    def settle(self, seconds: float) -> None:
        """Waits until nothing has come for so long, and forgets what came: Ctrl-C may make a second prompt."""
        while select.select([self.device], [], [], seconds)[0]:
            os.read(self.device, 65536)
        self.shown = ""

    def type(self, keys: str) -> None:
        os.write(self.device, keys.encode())

    def status(self) -> int:
        """The exit status, once the command ended by itself."""
        end = time.monotonic() + self.seconds
        while time.monotonic() < end:
            found, status = os.waitpid(self.child, os.WNOHANG)
            if found:
                self.child = 0
                return os.waitstatus_to_exitcode(status)
            time.sleep(0.01)
        raise Silent("it doesn't end")

    def close(self) -> None:
        os.close(self.device)
        if self.child:
            os.kill(self.child, signal.SIGKILL)
            os.waitpid(self.child, 0)
        self.home.cleanup()


class Held(Terminal):
    """A session of the front end: lines are typed, and what each shows is kept."""

    def __init__(self, program: str, *words: str, columns: int = 200, memory: int = 512, folder: str = ".",
                 lowered: tuple[str, ...] = (), has_lookout: bool = False,
                 environment: Mapping[str, str] | None = None):
        own = [sys.executable, str(FOLDER / "main"), "--debugger", program, "--memory", str(memory)]
        own += ["--lookout"] * has_lookout
        super().__init__([*own, *(f"--lowered={file}" for file in lowered), "--", *words], columns, folder=folder,
                         environment=environment)
        self.program, self.words, self.folder = program, words, folder
        # How the debugger's own answers are read, where names of the text were made short.
        self.read: Callable[[str], str] = str
        self.told = self.wait_for(PROMPT)
        self.place = last_place(self.told) or ""
        end = time.monotonic() + self.seconds
        while has_lookout and self.is_checking() and time.monotonic() < end:
            # What it finds is told if it is known in time; on a busy machine that may take longer than it is waited
            # for.
            time.sleep(0.02)

    def is_checking(self) -> bool:
        """Whether the run is still being checked beside the session."""
        children = pathlib.Path(f"/proc/{self.child}/task/{self.child}/children").read_text().split()
        return any(CHECK in pathlib.Path(f"/proc/{child}/cmdline").read_bytes() for child in children
                   if pathlib.Path(f"/proc/{child}/cmdline").exists())

    def do(self, line: str) -> str:
        """What a line shows."""
        self.type(line + "\n")
        answer = self.wait_for(PROMPT).partition("\n")[2]
        if FAULT in answer:
            raise Silent(f"{line!r} shows {answer!r}")
        self.place = last_place(answer) or self.place
        return answer

    def replayed_fault(self) -> str | None:
        """How the end of the session's saved script differs from the session's state, or None."""
        script = pathlib.Path(self.home.name) / "saved.script"
        self.do(f"save {script}")
        self.do("frame 0")
        asked = "where\ntemps\nout\n"
        run = subprocess.run([self.program, *self.words], input=script.read_text() + asked, capture_output=True,
                             text=True, timeout=self.seconds, cwd=self.folder)
        told = self.read(run.stdout).split("\n")
        place = [line for line in told if PLACE.fullmatch(line)][-1]
        if place != HALTED.sub(" fault halted", self.place):
            return f"the saved script leads to {place}, and the session stands at {self.place}"
        values = {line.split(" ")[0]: line.split(" ")[-1] for line in told[last_index(told, place):] if line[:1] == "%"}
        shown = {line.split(" ")[0]: re.sub(r" \(.*", "", line).split(" ")[-1]
                 for line in self.do("temps").split("\n") if line[:1] == "%"} if values else {}
        # Of a float its bits are compared.
        shown = {name: value if value.isdigit() or value == "unset" else self.do(f"p/u {name}").split(" = ")[1].strip()
                 for name, value in shown.items()}
        return None if shown == values else f"the saved script gives {values}, and the session has {shown}"


def last_place(text: str) -> str | None:
    found = [line for line in text.split("\n") if PLACE.fullmatch(line)]
    return found[-1] if found else None


def last_index(lines: list[str], line: str) -> int:
    return len(lines) - 1 - lines[::-1].index(line)
