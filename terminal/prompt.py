"""The prompt: lines with history and completion, Ctrl-C, and the end."""
from __future__ import annotations

import os
import re
import sys
from typing import Iterator

try:
    import readline
except ImportError:
    readline = None  # type: ignore[assignment]

from .expressions import WORDS as EXPRESSION_WORDS, Wrong
from .looking import info_words
from .shell import COMMANDS, Command, Leave, Shell, Switched

PROMPT = "(qrev) "
GATHERING = "> "
HISTORY = "~/.qrev_terminal_history"
MOST_HISTORY = 2000
WORD = re.compile(r"(?<![\w%$@<])[a-z]{2,}(?!\w)")


def candidates(shell: Shell, line: str, begun: str) -> Iterator[str]:
    """What the word that was begun could be, at its place of the line."""
    before = line[:len(line) - len(begun)].split()
    if not before:
        yield from COMMANDS
        return
    try:
        command = shell.command_named(before[0].partition("/")[0])
    except Wrong:
        return
    kind = command.completes
    yield from words_of(command)
    program, frames = shell.session.program, shell.session.frames()
    function = frames[shell.session.selected].function if frames else ""
    if kind in ("expression", "watch", "place"):
        yield from program.functions
        if kind == "place" and begun:
            # A function may be typed without its sigil, as in gdb.
            yield from (name.removeprefix("$") for name in program.functions)
        yield from (data.name for data in program.data)
        typed = map(shell.function_named, reversed(before[1:]))
        named = next((name for name in typed if name in program.functions), function)
        if named:
            yield from program.functions[named].temporaries
            yield from program.functions[named].blocks
        yield from EXPRESSION_WORDS
        yield "if"
    elif kind == "command":
        yield from COMMANDS
    elif kind == "checkpoint" or before[1:] == ["checkpoint"]:
        yield from shell.checkpoints
    elif kind == "info":
        yield from info_words()
    elif kind == "file":
        folder, _, name = begun.rpartition("/")
        yield from (f"{folder}/{each}" if folder else each for each in os.listdir(folder or "."))


def words_of(command: Command) -> Iterator[str]:
    """The words that stand as they are in how a command is used; a dash parts words here."""
    for word in WORD.findall(command.usage):
        if word not in command.names:
            yield word


class Prompt:
    def __init__(self, shell: Shell, is_terminal: bool, names: dict[int, str] | None = None):
        self.shell, self.is_terminal = shell, is_terminal
        # What stands before the lines of each session, where there are two.
        self.names = names or {}
        self.found: list[str] = []

    def install(self) -> None:
        """History and completion, where there is readline; and what somebody at a terminal would wait for."""
        self.shell.session.is_followed = self.is_terminal
        if readline is None or not self.is_terminal:
            return
        readline.set_completer_delims(" \t\n[](),+-*!<>=&|^~")
        readline.set_completer(self.complete)
        readline.parse_and_bind("tab: complete")
        readline.set_history_length(MOST_HISTORY)
        try:
            readline.read_history_file(os.path.expanduser(HISTORY))
        except OSError:
            pass

    def complete(self, begun: str, index: int) -> str | None:
        """The readline library asks for one candidate after the other."""
        if index == 0:
            line = readline.get_line_buffer()[:readline.get_endidx()]
            try:
                self.found = sorted({each for each in candidates(self.shell, line, begun) if each.startswith(begun)})
            except Exception:
                # The library shows nothing of what goes wrong here, and the line goes on without a completion.
                self.found = []
        if index >= len(self.found):
            return None
        return self.found[index] + (" " if len(self.found) == 1 else "")

    def read(self) -> str:
        """A line, or the end of the input as an EOFError."""
        if not self.is_terminal:
            line = sys.stdin.readline()
            if not line:
                raise EOFError
            return line
        waiting = self.shell.waiting
        waiting.is_at_prompt = True
        try:
            return input(self.names.get(id(self.shell), PROMPT) if self.shell.gathering is None else GATHERING)
        finally:
            waiting.is_at_prompt = False

    def run(self) -> None:
        """Reads lines and does them, up to the end."""
        was_interrupted = False
        while True:
            try:
                line = self.read()
            except EOFError:
                if self.is_terminal:
                    print()
                break
            except KeyboardInterrupt:
                print()
                if was_interrupted and self.is_leaving():
                    break
                was_interrupted = True
                print("Ctrl-C once more asks whether to leave; `quit` leaves")
                continue
            try:
                self.shell.run(line)
            except Switched:
                self.shell = self.shell.other or self.shell
                self.shell.run("frame") if self.shell.session.frames() else self.shell.show()
            except Leave:
                break
            was_interrupted = self.shell.waiting.is_heard
        self.keep_history()

    def is_leaving(self) -> bool:
        self.shell.waiting.is_at_prompt = True
        try:
            return input("leave the session? (y or n) ").strip().lower().startswith("y")
        except (EOFError, KeyboardInterrupt):
            print()
            return True
        finally:
            self.shell.waiting.is_at_prompt = False

    def keep_history(self) -> None:
        if readline is None or not self.is_terminal:
            return
        try:
            readline.write_history_file(os.path.expanduser(HISTORY))
        except OSError:
            pass
