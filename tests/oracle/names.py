"""What the names of a lowered text stand for, by the file beside it."""
from __future__ import annotations


class Names:
    def __init__(self, text: bytes = b"") -> None:
        self.floats: dict[tuple[str, str], str] = {}
        self.data: dict[str, str] = {}
        self.outside: set[str] = set()
        self.runtime: set[str] = set()
        self.old: dict[str, str] = {}
        self.short: dict[str, str] = {}
        for line in text.decode("latin-1").split("\n"):
            self.take(line.split("\t"))

    def take(self, words: list[str]) -> None:
        """What a line says; one of another form says nothing."""
        if words[0] == "float" and len(words) == 4 and words[3] in ("s", "d"):
            self.floats.setdefault((words[1][1:], words[2][1:]), words[3])
        elif words[0] == "data" and len(words) > 3 and words[2] == "0" and words[3][:1] in ("s", "d"):
            self.data.setdefault(words[1][1:], words[3][:1])
        elif words[0] in ("outside", "runtime") and len(words) == 2:
            getattr(self, words[0]).add(words[1][1:])
        elif words[0] == "name" and len(words) == 3:
            self.old.setdefault(words[1], words[2][1:])
            self.short.setdefault(words[2], words[1][1:])

    def ended_in(self, func: str) -> str | None:
        """How a run ended that was halted in a function which isn't the program's own, or None."""
        if func in self.outside:
            return f"halted in ${func}, which isn't there"
        if func not in self.runtime:
            return None
        return "ended by a signal" if func == "ended.by.signal" else f"halted in ${func}"
