"""Where the bytes of a text are: by the texts that it was linked from, and its largest definitions."""
from collections import Counter
from typing import TYPE_CHECKING, NamedTuple

from .runtime import FOLDER

if TYPE_CHECKING:
    from .writing import Chunk

# From so many bytes on the report tells where they are.
LARGE = 1 << 18
MOST_TOLD = 8
RUNTIME = f"{FOLDER.parent.name}/{FOLDER.name}/"


class Sizes(NamedTuple):
    """The bytes of each text, and of each definition."""

    total: int
    by_path: Counter[str]
    by_name: Counter[str]

    def lines(self) -> list[str]:
        def told(counts: Counter[str]) -> str:
            return ", ".join(f"{size} of {name}" for name, size in counts.most_common(MOST_TOLD))
        return [f"{self.total} bytes of text: {told(self.by_path)}", f"the largest definitions: {told(self.by_name)}"]


def told_bytes(chunks: list["Chunk"]) -> Sizes:
    by_path: Counter[str] = Counter()
    by_name: Counter[str] = Counter()
    for chunk in chunks:
        size = sum(map(len, chunk.texts)) + len(chunk.texts)
        # The runtime is told as one.
        by_path["the runtime" if chunk.path.startswith(RUNTIME) else chunk.path or "functions that halt"] += size
        by_name[chunk.symbol.name] += size
    return Sizes(by_path.total(), by_path, by_name)
