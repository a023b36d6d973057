"""What the arguments of a launch say."""
from __future__ import annotations

import pathlib
import re
from typing import NamedTuple, Optional

from .mapping import GREATEST_MAP, BadMap, SourceMap
from .messages import Message, is_number
from .names import Names
from .tokens import GREATEST_TEXT

GREATEST_ARGUMENT, GREATEST_LIMIT, GREATEST_HISTORY, GREATEST_MEMORY = 2**64 - 1, 2**32 - 1, 1_000_000, 65_536
DEFAULT_LIMIT, DEFAULT_MEMORY = 1_000_000, 64


class BadLaunch(Exception):
    """A launch that is refused, and why."""


class Kept(NamedTuple):
    """How states are kept: by copies of so many MiB, or else by undo records, of the newest moves or of all."""

    memory: Optional[int]
    history: Optional[int]

    def words(self) -> list[str]:
        """The words of a command line that keeps them so."""
        if self.memory is None:
            return ["--history", "all" if self.history is None else str(self.history)]
        return [] if self.memory == DEFAULT_MEMORY else ["--memory", str(self.memory)]


class Launch(NamedTuple):
    program: str
    entry: str
    args: list[int]
    limit: int
    kept: Kept
    stops_on_entry: bool
    record: Optional[str]
    map: Optional[str]
    no_debug: bool = False

    def names(self) -> Names:
        """What the names of the text stand for."""
        name = self.program + ".map" if self.map is None else self.map
        try:
            with open(name.removesuffix(".map") + ".names", "rb") as file:
                return Names(file.read(GREATEST_MAP + 1))
        except (OSError, ValueError):
            return Names()

    def text(self) -> bytes:
        """The bytes of the program; what is beyond the greatest text is one byte at most."""
        try:
            with open(self.program, "rb") as file:
                return file.read(GREATEST_TEXT + 1)
        except (OSError, ValueError):
            raise BadLaunch(f"cannot read {self.program}") from None

    def sources(self) -> Optional[SourceMap]:
        """The map of places, or None."""
        name = self.program + ".map" if self.map is None else self.map
        if not name:
            return None
        try:
            with open(name, "rb") as file:
                given = file.read(GREATEST_MAP + 1)
        except (OSError, ValueError):
            if self.map is None:
                return None
            raise BadLaunch(f"cannot read {name}") from None
        try:
            return SourceMap(name, given)
        except BadMap as bad:
            raise BadLaunch(str(bad)) from None

    def source(self) -> Message:
        return {"name": pathlib.PurePosixPath(self.program).name, "path": self.program}

    def command_line(self) -> str:
        """The words that replay the record."""
        words = ["qrev", self.program, *map(str, self.args), "--entry", self.entry, "--limit", str(self.limit)]
        return " ".join(words + self.kept.words())


def number_or_fail(given: Message, name: str, greatest: int) -> Optional[int]:
    """The number that a member is, if it is there."""
    value: Optional[int] = given.get(name)
    if name in given and not is_number(value, 1, greatest):
        raise BadLaunch(f"{name}: not a number from 1 to {greatest}")
    return value


def kept_of(given: Message) -> Kept:
    """How a launch has states kept."""
    history, memory = given.get("history"), given.get("memory")
    if "history" in given and "memory" in given:
        raise BadLaunch("memory and history: only one of them can be said")
    if "history" not in given and "memory" not in given:
        return Kept(DEFAULT_MEMORY, None)
    if history == "all":
        return Kept(None, None)
    if "history" in given:
        if not is_number(history, 1, GREATEST_HISTORY):
            raise BadLaunch(f"history: not a number from 1 to {GREATEST_HISTORY}, nor all")
        return Kept(None, history)
    if not is_number(memory, 1, GREATEST_MEMORY):
        raise BadLaunch(f"memory: not a number of MiB from 1 to {GREATEST_MEMORY}")
    return Kept(memory, None)


def argument(item: object) -> int:
    value = int(item) if isinstance(item, str) and re.fullmatch("[0-9]+", item) else item
    if not is_number(value, 0, GREATEST_ARGUMENT):
        raise BadLaunch(f"args: not a number from 0 to {GREATEST_ARGUMENT}")
    return value


def launch_of(given: Message) -> Launch:
    """The launch that arguments mean. They are looked at in the order of the page."""
    if not isinstance(given.get("program"), str):
        raise BadLaunch("program: no path")
    entry = given.get("entry", "main")
    if not isinstance(entry, str):
        raise BadLaunch("entry: no name")
    args = given.get("args", [])
    if not isinstance(args, list):
        raise BadLaunch(f"args: not a number from 0 to {GREATEST_ARGUMENT}")
    args = [argument(item) for item in args]
    limit = number_or_fail(given, "limit", GREATEST_LIMIT) or DEFAULT_LIMIT
    kept = kept_of(given)
    stops_on_entry = given.get("stopOnEntry", True)
    if not isinstance(stops_on_entry, bool):
        raise BadLaunch("stopOnEntry: no flag")
    no_debug = given.get("noDebug", False)
    if not isinstance(no_debug, bool):
        raise BadLaunch("noDebug: no flag")
    record = given.get("record")
    if "record" in given and not isinstance(record, str):
        raise BadLaunch("record: no path")
    if "map" in given and not isinstance(given["map"], str):
        raise BadLaunch("map: no path")
    return Launch(given["program"], entry, args, limit, kept, stops_on_entry, record, given.get("map"), no_debug)
