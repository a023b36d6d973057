"""Names that were shortened to make a text fit: people read and write the old ones, the debugger the new ones."""
from __future__ import annotations

from .reading.accepted import LOCAL

# Lines with texts of the program in them: of data, and of what it wrote.
TEXTS = ("data ", "out ")


class Renaming:
    """The old names of the new ones, the same in all functions."""

    def __init__(self, old: dict[str, str]):
        self.old = old
        self.new = {name: short for short, name in old.items()}

    def shortened(self, line: str) -> str:
        """A line for the debugger."""
        return LOCAL.sub(lambda match: self.new.get(match.group(), match.group()), line)

    def told(self, text: str) -> str:
        """What the debugger answers, or its text, as people read it."""
        return "\n".join(line if line.startswith(TEXTS) else self.line_told(line) for line in text.split("\n"))

    def line_told(self, line: str) -> str:
        return LOCAL.sub(lambda match: self.old.get(match.group(), match.group()), line)
