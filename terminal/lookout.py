"""Checks the run beside the session, so its end can report whether something on the way was suspicious.

The check is a process of its own (check/main), started with the session and over the same text. After a run that goes
further than it did, the fast pass looks at the rest. It covers the program's own run: after values were set by hand it
says nothing.
"""
from __future__ import annotations

import os
import pathlib
import re
import subprocess
import sys
import time
from typing import Sequence

from check.fast import program

from .scratch import KEEPING, Launch
from .timeline import Timeline

CHECK = pathlib.Path(__file__).resolve().parent.parent / "check" / "main"
# How many moves are looked at for all kinds, some half a second's work, and how many at most by the fast pass.
MOST, FAR = 50_000, 100_000_000
# How long a session waits for all that at most, in seconds: at the end of a run and at causes, all together.
PATIENCE = 1.0
# How long it waits when that is over: a wait of no time wouldn't even read what a check that has ended wrote.
LEAST = 0.02
# A suspicion: the position of the first move that is one at its place, and what is told of it.
SUSPICION = re.compile(r"^#(\d+) .*\n  (.*)$", re.MULTILINE)


class Check:
    """A check of so many moves, in a process of its own."""

    def __init__(self, words: Sequence[str], limit: int, folder: str):
        """What it writes goes into the folder, so that nothing is left if it is ended."""
        self.limit = limit
        self.found: dict[int, list[str]] | None = None
        self.process = subprocess.Popen([*words, "--limit", str(limit)], stdin=subprocess.DEVNULL,
                                        stdout=subprocess.PIPE, stderr=subprocess.DEVNULL, text=True,
                                        start_new_session=True, env={**os.environ, "TMPDIR": folder})

    def wait(self, seconds: float) -> dict[int, list[str]] | None:
        """The suspicions, by position; None if they aren't known in time."""
        if self.found is None:
            try:
                written, _ = self.process.communicate(timeout=max(seconds, LEAST))
            except subprocess.TimeoutExpired:
                return None
            self.found = {}
            for position, text in SUSPICION.findall(written):
                self.found.setdefault(int(position), []).append(text)
        return self.found

    def close(self) -> None:
        self.process.kill()
        self.process.communicate()


class Lookout:
    def __init__(self, launch: Launch, lowered: Sequence[str], folder: str):
        self.command = [sys.executable, str(CHECK), "--debugger", launch.debugger,
                        *(f"--lowered={file}" for file in lowered)]
        self.asked = ["--", launch.file, *(word for word in launch.words if not word.startswith(KEEPING))]
        self.folder = folder
        self.near = Check([*self.command, *self.asked], MOST, folder)
        # The fast pass, which is begun at the end of the first run that goes further.
        self.far: Check | None = None
        # For how long they may still be waited for, in seconds.
        self.patience = PATIENCE

    def suspicions(self, run: Timeline) -> dict[int, list[str]]:
        """The suspicions of the session's run, by position: those that are known in time. After the first moves these
        are only of the kinds that the fast pass knows."""
        if run.pokes or run.position > FAR:
            return {}
        near = self.waited(self.near)
        if near is None or run.position <= MOST:
            return near or {}
        check = self.far_up_to(run.position)
        far = check and self.waited(check) or {}
        return near | {position: told for position, told in far.items() if position > MOST}

    def far_up_to(self, position: int) -> Check | None:
        """A fast pass up to a position, or further, if there is one that needn't be built first."""
        if self.far is None or self.far.limit < position:
            checker = program(False, False)
            if not checker:
                return None
            if self.far:
                self.far.close()
            words = [*self.command, "--checker", checker, *self.asked, "--fast"]
            self.far = Check(words, min(FAR, 2 * position), self.folder)
        return self.far

    def waited(self, check: Check) -> dict[int, list[str]] | None:
        begun = time.monotonic()
        found = check.wait(self.patience)
        self.patience = max(0.0, self.patience - (time.monotonic() - begun))
        return found

    def at_end(self, run: Timeline) -> list[str]:
        """What to say at the end of a run, if there is something to look at."""
        number = sum(map(len, self.suspicions(run).values()))
        if not number:
            return []
        return [f"{number} suspicion{'s' * (number > 1)} on the way: `suspects` tells {'them' if number > 1 else 'it'}"]

    def of_cause(self, at: Timeline, lines: list[str]) -> list[str]:
        """The lines of a cause, with the suspicion of its move after the line of the move."""
        told = [f"    suspicious, {text}" for text in self.suspicions(at).get(at.position, [])]
        move = next((index for index, line in enumerate(lines) if line.startswith(f"  #{at.position} ")), None)
        return lines if move is None else lines[:move + 1] + told + lines[move + 1:]

    def close(self) -> None:
        for check in (self.near, self.far):
            if check:
                check.close()
