"""Makes a failure small: leaves out parts of a text, or lines of a script, as long as it still fails.

The test itself decides, and any of its faults will do. Definitions go first, then blocks, then lines, also two at a
time, so that a jump goes with the label after it; a jump becomes a simpler one. This is repeated until nothing can go.
"""
from __future__ import annotations

import re
from collections.abc import Callable, Iterator, Sequence

# How often the test is run at most, so that a slow one tells in time what it found.
MOST_TRIES = 400
DEFINITION = re.compile(r"\s*(?:export|section|data|function|type)\b")
BLOCK = re.compile(r"\s*[@}]")
JUMP = re.compile(r"(\s*)(?:jnz\s.*?,\s*(@\S+?)\s*,\s*(@\S+)|(?:jmp|ret)\b.+)")

Fails = Callable[[list[str]], object]


class Trying:
    """A test, and how often it may still be run."""

    def __init__(self, fails: Fails, most: int):
        self.fails, self.left = fails, most

    def still(self, lines: list[str]) -> bool:
        """Whether it fails, too. What can't be tried, as a text that is refused where none is awaited, doesn't."""
        if self.left <= 0:
            return False
        self.left -= 1
        try:
            return bool(self.fails(lines))
        except Exception:
            return False


def joined(groups: Sequence[list[str]]) -> list[str]:
    return [line for group in groups for line in group]


def grouped(lines: list[str], begins: re.Pattern[str]) -> list[list[str]]:
    """The lines in groups, each from a line of that kind to the next."""
    groups: list[list[str]] = []
    for line in lines:
        if not groups or begins.match(line):
            groups.append([])
        groups[-1].append(line)
    return groups


def without(groups: list[list[str]], trying: Trying) -> list[list[str]]:
    """The groups without those that nothing needs: many at a time first, and the last ones first."""
    size = max(len(groups) // 2, 1)
    while size:
        at = len(groups) - size
        while at >= 0:
            left = groups[:at] + groups[at + size:]
            if left and trying.still(joined(left)):
                groups = left
            # Two at a time begin anywhere.
            at = min(at - (size if size > 2 else 1), len(groups) - size)
        size //= 2
    return groups


def simpler(line: str) -> Iterator[str]:
    """What a jump may become: the bare one first."""
    found = JUMP.fullmatch(line)
    if found:
        yield f"{found[1]}ret"
        yield from (f"{found[1]}jmp {label}" for label in found.groups()[1:] if label)


def with_simpler(lines: list[str], trying: Trying) -> list[str]:
    for at, line in enumerate(lines):
        for other in simpler(line):
            if trying.still(left := [*lines[:at], other, *lines[at + 1:]]):
                lines = left
                break
    return lines


def smaller_lines(lines: Sequence[str], fails: Fails, most: int = MOST_TRIES) -> list[str]:
    """The lines of a script that fails, without those that nothing needs."""
    return joined(without([[line] for line in lines], Trying(fails, most)))


def smaller_text(text: bytes, fails: Callable[[bytes], object], most: int = MOST_TRIES) -> bytes:
    """A program that fails, without definitions, blocks and lines that nothing needs."""
    trying = Trying(lambda lines: fails("\n".join(lines).encode("latin-1")), most)
    lines = text.decode("latin-1").split("\n")
    before: list[str] = []
    while before != lines:
        before = lines
        for begins in (DEFINITION, BLOCK):
            lines = joined(without(grouped(lines, begins), trying))
        lines = with_simpler(lines, trying)
        lines = joined(without([[line] for line in lines], trying))
    return "\n".join(lines).encode("latin-1")
