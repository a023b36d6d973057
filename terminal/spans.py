"""The frames of a run as spans of positions, put together from answers of `frames` that follow each other."""
from __future__ import annotations

from typing import Iterator

from .answers import Span


class OpenFrames:
    """The frames that are there, the outermost first, each with where it begins."""

    def __init__(self, functions: list[str], begin: int = 0):
        self.open = [(begin, function) for function in functions]

    def ended(self, told: list[Span]) -> Iterator[Span]:
        """The frames that end by some moves, each with where it begins."""
        for span in told:
            if span.end is None:
                self.open.append((span.begin or 0, span.function))
            elif span.begin is None:
                begin, function = self.open.pop()
                yield Span(begin, span.end, function, span.below)
            else:
                yield span

    def lasting(self) -> list[Span]:
        return [Span(begin, None, function, below) for below, (begin, function) in enumerate(self.open)]
