"""What happens while the debugger runs: Ctrl-C, and the progress of a run of over a second."""
from __future__ import annotations

import signal
import sys
import time
from typing import Callable

SHOWN_AFTER = 1.0
SHOWN_EVERY = 0.2
# How long after Ctrl-C a question may still take before its process is ended, in seconds.
PATIENCE = 0.3


class Interrupted(Exception):
    """Ctrl-C was pressed while a question was asked."""


class Waiting:
    """Ctrl-C at the prompt breaks the line off; while a command runs it is only marked, and looked at between moves."""

    def __init__(self) -> None:
        self.pressed_at: float | None = None
        # Whether it was pressed in this command, and is heeded by now.
        self.was_pressed = False
        self.is_at_prompt = False
        self.is_shown = False
        self.begun = self.shown_at = time.monotonic()
        self.first: int | None = None
        # Where progress is shown other than at the prompt.
        self.told: Callable[[str], None] | None = None

    def install(self) -> None:
        signal.signal(signal.SIGINT, self.handle)
        # Where the terminal is closed, or the process is asked to end, what it has made is cleared away.
        for number in (signal.SIGHUP, signal.SIGTERM):
            signal.signal(number, lambda number, _frame: sys.exit(128 + number))

    def handle(self, _number: int, _frame: object) -> None:
        if self.is_at_prompt:
            raise KeyboardInterrupt
        if self.pressed_at is None:
            self.pressed_at = time.monotonic()

    @property
    def is_pressed(self) -> bool:
        return self.pressed_at is not None

    @property
    def is_heard(self) -> bool:
        """Whether it was pressed in this command."""
        return self.is_pressed or self.was_pressed

    def heed(self) -> None:
        """What there is to show now isn't broken off by Ctrl-C that was pressed before."""
        self.was_pressed, self.pressed_at = self.is_heard, None

    def begin(self) -> None:
        """A command begins."""
        self.pressed_at, self.was_pressed, self.first = None, False, None
        self.begun = self.shown_at = time.monotonic()

    def begin_anew(self) -> None:
        """The command goes on with another run, whose speed is its own."""
        self.first, self.begun = None, time.monotonic()

    def check(self) -> None:
        """Breaks a question off once its process was given time to answer."""
        if self.pressed_at is not None and time.monotonic() - self.pressed_at > PATIENCE:
            raise Interrupted

    def stop_if_pressed(self) -> None:
        if self.is_pressed:
            raise Interrupted

    def tell(self, position: int, what: str = "", target: int | None = None) -> None:
        """Shows how far a run is that takes over a second; with a target, how much of it that is and how long it still
        takes."""
        now = time.monotonic()
        if self.first is None:
            self.first, self.begun = position, min(self.begun, now)
        if now - self.begun < SHOWN_AFTER or now - self.shown_at < SHOWN_EVERY or not sys.stdout.isatty():
            return
        self.shown_at = now
        made = abs(position - self.first)
        rate = made / (now - self.begun)
        share = ""
        if target is not None and made:
            left = abs(target - position)
            share = f" of #{target} ({100 * made // (made + left)} %, {left / rate:.0f} s left)"
        self.show(f"{what}#{position}{share}, {rate / 1e6:.1f} million moves a second; Ctrl-C stops")

    def say(self, text: str) -> None:
        """Shows what a command is at that takes over a second."""
        now = time.monotonic()
        if now - self.begun >= SHOWN_AFTER and now - self.shown_at >= SHOWN_EVERY and sys.stdout.isatty():
            self.shown_at = now
            self.show(f"{text}; Ctrl-C stops")

    def show(self, text: str) -> None:
        if self.told:
            self.told(text)
            return
        self.is_shown = True
        sys.stdout.write(f"\r\x1b[K{text}")
        sys.stdout.flush()

    def clear(self) -> None:
        if self.is_shown:
            sys.stdout.write("\r\x1b[K")
            self.is_shown = False
