"""Shortens a text that is larger than qrev takes: it drops unnecessary spaces, and then gives temporaries and labels
short names, the same for the same name in all functions. Lines stay lines, so the map holds."""
import re
from collections import Counter
from collections.abc import Iterator
from itertools import count, product
from string import ascii_letters, digits
from typing import TYPE_CHECKING

from terminal.reading.accepted import LOCAL

if TYPE_CHECKING:
    from .writing import Chunk

SPACED = re.compile(r" ?([,=(){}+]) ?")


def close(line: str) -> str:
    """A line without spaces beside symbols and at its front; what stands between quotes stays."""
    parts = line.strip().split('"')
    # A quote behind a backslash doesn't end a string: such lines are left alone.
    if '\\"' in line:
        return line.strip()
    parts[::2] = [SPACED.sub(r"\1", part) for part in parts[::2]]
    return '"'.join(parts)


def short_names() -> Iterator[str]:
    """Names, the shortest first."""
    for length in count(1):
        for first, *others in product(ascii_letters, *[ascii_letters + digits] * (length - 1)):
            yield first + "".join(others)


def squeeze_spaces(chunks: list["Chunk"]) -> None:
    for chunk in chunks:
        chunk.texts = [close(line) for line in chunk.texts]


def squeeze_names(chunks: list["Chunk"]) -> dict[str, str]:
    """Gives the shortest names to the temporaries and labels that are written most often; the old names of the new
    ones."""
    functions = [chunk for chunk in chunks if not chunk.symbol.is_data()]
    uses: Counter[str] = Counter(name for chunk in functions for line in chunk.texts for name in LOCAL.findall(line))
    fresh = {"%": short_names(), "@": short_names()}
    new = {name: name[0] + next(fresh[name[0]]) for name, _ in uses.most_common()}
    for chunk in functions:
        chunk.texts = [LOCAL.sub(lambda match: new[match.group()], line) for line in chunk.texts]
    return {short: name for name, short in new.items()}
