"""The questions of an editor's console that the prompt answers, and the prompt as a process that is led to a state."""
from __future__ import annotations

import os
import pathlib
import re
import subprocess
import threading
from dataclasses import dataclass, field
from typing import Any

TOP = pathlib.Path(__file__).resolve().parent.parent.parent
# Questions that change nothing, and of `info` those that aren't about the prompt's own stops.
ASKING = frozenset(("why", "readers", "writers", "suspects", "made", "path", "when", "calls", "counts", "disas",
                    "disassemble", "x", "bt", "backtrace", "find", "search", "reverse-search", "whatis", "ptype"))
INFORMING = frozenset(("args", "data", "frame", "functions", "line", "locals", "out", "source", "symbol", "temps"))
WORDS = tuple(sorted((*ASKING, "goto", "help", "info")))
# A line that the prompt answers alike in each state, before and behind an answer.
MARK = 987654321
# Seconds that a prompt may take to end.
ENDING = 5.0
CHANGE = re.compile(r"\s*(set %|poke )")
# How a place line begins, by which a session tells where it stands.
POSITION = re.compile(r"#(\d+) ")
LINE = re.compile(r"\bline (\d+):")
HELP = """In this console:
  step N, back N, continue, reverse, goto N     move
  print %x, temps, where, list, mem ADDRESS N   look; an expression alone is worked out: %x + 1, w[$d+4]
  break $f @b 0, watch w $d, stops, delete N    stop
  set %x 5, poke w $d 5                         change
  why %x, why w $d, why, why N                  where a value comes from, and on from there
  readers $d, writers $d, when %x, path         what read it, wrote it, set it; the way through the function
  calls, calls $f, counts, counts $f            the longest calls, those of a function; how often lines ran
  suspects, made %x                             what no correct compiler's output does; what a value is made of
  disas, x/8xw $d, bt, info locals              the text of a function; memory; the frames
  find 42, search TEXT, whatis %x               where memory holds a value; a line with a text; what a name is
  help why                                      more about a question
docs/DEBUGGER.md and docs/TERMINAL.md have all of it.
"""


def is_question(line: str) -> bool:
    """Whether the prompt answers a line of the console."""
    words = line.split()
    if not words:
        return False
    word = words[0].partition("/")[0]
    behind = words[1] if len(words) > 1 else ""
    if word == "counts" and behind.isdigit():
        # The debugger's own command, which moves.
        return False
    return word in ASKING or word == "info" and behind in INFORMING or word == "help" and behind in {*ASKING, "info"}


@dataclass
class Changes:
    """What was changed by hand in a session, as lines of the prompt, each with its position."""

    lines: list[tuple[int, str]] = field(default_factory=list)
    # Where something was changed first that can't be said as a line here.
    unknown: int | None = None

    def copy(self) -> Changes:
        return Changes(list(self.lines), self.unknown)

    def note(self, command: str, given: dict[str, Any], position: int, result: str) -> None:
        """A request that was answered, and where the session stood before; of a console's lines also their answers."""
        if command == "setVariable" and str(given.get("name", "")).startswith("%"):
            self.lines.append((position, f"set {given['name']} {given.get('value')}"))
        elif command != "evaluate":
            self.note_unknown(position)
        else:
            lines, answers = str(given.get("expression", "")).strip("\n").split("\n"), result.split("\n")
            if len(lines) == len(answers):
                self.lines += [(int(found[1]) - 1, line.strip()) for line, answer in zip(lines, answers)
                               if CHANGE.match(line) and (found := POSITION.match(answer))]
            elif any(CHANGE.match(line) for line in lines):
                self.note_unknown(position)

    def note_unknown(self, position: int) -> None:
        if self.unknown is None:
            self.unknown = position

    def stopped(self, position: int) -> None:
        """A run that stands before a change has taken it back."""
        self.lines = [each for each in self.lines if each[0] < position]
        if self.unknown is not None and position <= self.unknown:
            self.unknown = None

    def to(self, position: int) -> list[str]:
        """The lines that lead the prompt to the same state."""
        way = [line for at, change in self.lines for line in (f"goto {at}", change)]
        return [*way, f"goto {position}"]


def words_of(launch: dict[str, Any]) -> list[str]:
    """The words of the command line for a launch."""
    entry = launch.get("entry")
    return [os.path.abspath(str(launch.get("program", ""))), *map(str, launch.get("args") or []),
            *(["--entry", str(entry)] if entry else [])]


class Prompter:
    """The prompt of qrev on a program, at the position where it was last led."""

    def __init__(self, launch: dict[str, Any], words: list[str]):
        self.process = subprocess.Popen(
            # What runs is the text as the adapter has it, however the file is by now.
            [str(TOP / "qrev"), *words, "--prompt", "--no-lower", *words_of(launch)], stdin=subprocess.PIPE,
            stdout=subprocess.PIPE, stderr=subprocess.STDOUT, text=True, errors="replace",
            env={**os.environ, "PYTHONUNBUFFERED": "1", "NO_COLOR": "1"})
        self.led: list[str] | None = None

    def answer(self, way: list[str], frame: int, question: str) -> str:
        """What the prompt answers to a question, after the lines that lead to a state, in a frame counted from 0."""
        lead = [*way, f"frame {frame}"]
        # What was changed on another way is taken back at the start.
        is_same = self.led is None or self.led[:-2] == way[:-1]
        lines = [] if lead == self.led else lead if is_same else ["goto 0", *lead]
        self.led = lead
        assert self.process.stdin is not None
        try:
            self.process.stdin.write("\n".join([*lines, f"print {MARK}", question, f"print {MARK}", ""]))
            self.process.stdin.flush()
        except BrokenPipeError:
            pass
        before = self.read()
        told = self.read()
        return told if told is not None else (before or "the prompt can't be run").strip().split("\n")[-1]

    def read(self) -> str | None:
        """What comes before the next mark, or None if the process ended before one."""
        assert self.process.stdout is not None
        found: list[str] = []
        for line in self.process.stdout:
            if line.startswith(f"{MARK} = {MARK}"):
                return "".join(found).rstrip("\n")
            found.append(line)
        return None

    def close(self) -> None:
        """Ends the prompt, so that it removes its folder."""
        self.process.terminate()
        threading.Thread(target=self.see_ended, daemon=True).start()

    def see_ended(self) -> None:
        try:
            self.process.wait(ENDING)
        except subprocess.TimeoutExpired:
            self.process.kill()
            self.process.wait()
