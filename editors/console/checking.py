"""Shows in the console, beside a session, what `./qrev --check` says of its run."""
from __future__ import annotations

import threading
from typing import Any, Callable

from .suspicions import begin_check

# The words of the kinds, by what a launch says.
KINDS: dict[bool | str, list[str]] = {True: [], "strict": ["--kinds", "strict"]}


class Check:
    """A check of a launch's run, in a process of its own, until it is reported or ended."""

    def __init__(self, launch: dict[str, Any], kinds: bool | str, words: list[str],
                 tell: Callable[[list[str]], None]) -> None:
        limit = launch.get("limit")
        options = KINDS[kinds] + ([] if limit is None else ["--limit", str(int(limit))])
        self.is_ended, self.tell = False, tell
        self.process = begin_check(launch, words, options)
        threading.Thread(target=self.wait, daemon=True).start()

    def wait(self) -> None:
        told = self.process.communicate()[0].splitlines()
        if not self.is_ended:
            self.tell(told or ["the check can't be run"])

    def end(self) -> None:
        self.is_ended = True
        self.process.kill()
