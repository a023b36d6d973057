"""Random sessions: any command in any state. The saved lines must lead the plain debugger to the session's state."""
from __future__ import annotations

import os
import random
import subprocess

from harness.shrinking import smaller_lines
from terminal.scratch import Launch
from terminal.shell import Leave, Shell
from terminal.text import Program
from terminal.waiting import Waiting

LIMIT = 2000
# How many sessions are tried for a shorter one that breaks.
MOST_SESSIONS = 120


class QuietShell(Shell):
    """Its output is still made, and goes nowhere."""

    def say(self, *lines: str) -> None:
        pass

    def fault(self, error: Exception) -> None:
        raise error


# Lines with what is made up for each; an empty line repeats.
LINES = {
    "moves": (
        "s", "n", "rs", "rn", "c", "rc", "fin", "rf", "s {number}", "rs {number}", "n {number}", "goto {number}", "run",
        "checkpoint 1", "restart 1", "goto why", "set {temporary} {number}", "poke {width} {address} {number}", ""),
    "stops": (
        "b {place}{condition}", "tb {place}{condition}", "watch {temporary}{condition}", "watch {function} {temporary}",
        "watch {width} {address}{condition}", "watch {number} {address}", "d {number}", "d", "ignore {number} {number}",
        "stops"),
    "looks": (
        "p {temporary}", "p/x {temporary}+{number}", "x/{number}{width}x {address}", "bt", "up", "down", "temps", "l",
        "list {place}", "out", "display {temporary}", "undisplay", "info symbol {address}"),
    "asks": (
        "why", "why {temporary}", "why {width} {address}", "why 1", "why 2", "why 3", "why back", "why jump",
        "why call", "why out {number}", "readers {width} {address}", "writers {width} {address}",
        "when {temporary} == {number}", "when w[{data}] == {number}"),
}
PARTS = {
    "address": ("{data}", "{temporary}", "{data}+{number}", "({temporary}+{number})", "16777216", "16777220"),
    "place": ("{function}", "{label}", "{function} {label}", "{line}"),
    "condition": (
        "", "", " if {temporary} > {number}", " if depth == 2", " if w[{data}] != {number}", " if b[{temporary}] < 9"),
    "width": ("b", "h", "w", "l"),
}


class Typist:
    """Makes up lines about a program: each part of a line by its name."""

    def __init__(self, program: Program, chosen: random.Random):
        self.chosen = chosen
        functions = program.functions.values()
        self.names = {
            "function": list(program.functions),
            "label": [label for function in functions for label in function.blocks],
            "temporary": [name for function in functions for name in function.temporaries] or ["%x"],
            "data": [data.name for data in program.data] or ["65536"],
            "number": ["0", "1", "2", "3", "7", "20", "113"],
            "line": [str(line) for line in range(1, len(program.lines) + 1)],
        }

    def __getitem__(self, part: str) -> str:
        return self.chosen.choice(PARTS[part]).format_map(self) if part in PARTS else \
            self.chosen.choice(self.names[part])

    def line(self) -> str:
        kind = self.chosen.choice(("moves", *LINES))
        return self.chosen.choice(LINES[kind]).format_map(self)


def session_fault(debugger: str, file: str, seed: int, lines: int, history: int | None = None) -> str | None:
    """What breaks in a session of a number of lines, with the fewest of them found to break it; or None."""
    with open(file, "rb") as opened:
        source = opened.read()
    launch = Launch(debugger, file, (), LIMIT, history)
    shell = QuietShell(launch, file, source, Waiting(), budget=LIMIT)
    if shell.session.pipe.refused:
        return None
    # By the name alone, so that every checkout types the same.
    typist = Typist(shell.session.program, random.Random(f"{seed} {os.path.basename(file)}"))
    typed = [typist.line() for _ in range(lines)]
    if not typed_fault(shell, typed):
        return None

    def fails(few: list[str]) -> str | None:
        return typed_fault(QuietShell(launch, file, source, Waiting(), budget=LIMIT), few)

    few = smaller_lines(typed, fails, MOST_SESSIONS)
    return f"seed {seed}: {fails(few)}, as typed by {few}"


def typed_fault(shell: Shell, typed: list[str]) -> str | None:
    """What breaks in a session of these lines, or where its saved lines lead wrong; or None."""
    line = ""
    try:
        for line in typed:
            shell.run(line)
        return state_fault(shell)
    except (Leave, Exception) as error:
        return f"{error!r} at {line!r}"
    finally:
        shell.session.close()


def state_fault(shell: Shell) -> str | None:
    """Whether a run of the saved lines ends where the session is, with the same frames, temporaries and output."""
    asked = ["where", "temps", "out", "stops"]
    launch = shell.session.launch
    words = launch.command(launch.history)
    script = "".join(line + "\n" for line in [*shell.session.lines, *asked])
    run = subprocess.run(words, input=script, capture_output=True, text=True, timeout=600)
    wanted = [line for question in asked for line in shell.session.send(question)]
    told = run.stdout.split("\n")[:-1]
    if told[len(told) - len(wanted):] != wanted:
        return f"the saved lines {shell.session.lines} lead to {told[-len(wanted):]} and not to {wanted}"
    places = [line for line in told[:len(told) - len(wanted)] if line.startswith("#")]
    return None if places[-1] == str(shell.session.place) else f"{places[-1]} and not {shell.session.place}"
