"""What was rewritten, by kind with counts, and what could not be, with its place."""
from collections import Counter
from enum import Enum, auto


class Weight(Enum):
    """What a note says of the text that is written."""

    SAME = auto()  # It runs as native code does.
    OTHER = auto()  # It may run otherwise than native code.
    APART = auto()  # It runs otherwise than native code there, and can be reached.
    HALTS = auto()  # It would halt there, and can be reached.


# What stands behind a note.
SAID = {Weight.SAME: "", Weight.OTHER: " (native code may differ)", Weight.APART: " (native code differs)",
        Weight.HALTS: " (would halt)"}


class Report:
    """Collects counts of what was rewritten, and notes with a place."""

    def __init__(self) -> None:
        self.counts: Counter[str] = Counter()
        self.notes: dict[str, Weight] = {}
        self.sizes: list[str] = []

    def count(self, what: str, number: int = 1) -> None:
        if number:
            self.counts[what] += number

    def note(self, path: str, line: int, what: str, weight: Weight = Weight.SAME) -> None:
        self.notes.setdefault(f"{path}:{line}: {what}", weight)

    def note_size(self, lines: list[str]) -> None:
        """Where the bytes of a large text are."""
        self.sizes = lines

    def would_halt(self) -> bool:
        return Weight.HALTS in self.notes.values()

    def told(self) -> list[str]:
        """The notes that are always printed: on what can be reached, and would halt or run differently."""
        return [note + SAID[weight] for note, weight in self.notes.items() if weight in (Weight.APART, Weight.HALTS)]

    def lines(self) -> list[str]:
        """The counts by name, then the notes: first those of what runs as it did, last what would halt."""
        told = [f"{number} {what}" for what, number in sorted(self.counts.items())] + self.sizes
        for weight, behind in SAID.items():
            told += [note + behind for note, has in self.notes.items() if has is weight]
        return told
