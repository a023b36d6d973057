"""Random programs as files, one after the other."""
from __future__ import annotations

import pathlib
import random
from typing import Callable, Iterator

from harness.shrinking import smaller_text
from robustness_tests.programs import random_program


# What makes a random program: its text, and the arguments of its entry.
Maker = Callable[[random.Random], tuple[bytes, list[int]]]


def random_files(place: pathlib.Path, word: str, count: int,
                 make: Maker = random_program) -> Iterator[tuple[int, pathlib.Path, bytes, list[str]]]:
    """The number of each, its file (which exists until the next one is asked for), its text, and the arguments of its
    entry."""
    for number in range(count):
        text, arguments = make(random.Random(f"{word} {number}"))
        file = place / f"{word}-{number}.ssa"
        file.write_bytes(text)
        yield number, file, text, list(map(str, arguments))
        file.unlink()


def small_fault(number: int, file: pathlib.Path, source: bytes, tried: Callable[[bytes], str | None]) -> str:
    """The report on a random program that fails: the smallest one found that also fails, and its fault."""
    def fails(text: bytes) -> str | None:
        file.write_bytes(text)
        return tried(text)

    small = smaller_text(source, fails)
    return f"random program {number}: {fails(small)}, as of {small.decode('latin-1')!r}"
