"""Where a session's lines go: standard output, with colours at a terminal, and a stop at each full screen.

Colours are those of the terminal's own palette, by what a word of a line is: `%temporary`, `$name`, `@label`,
`#position`, a text, a comment. So a line is the same with and without colours, and no colour carries information of its
own.
"""
from __future__ import annotations

import os
import re
import shutil
import sys
from typing import Iterator, Protocol, TextIO

from .waiting import Waiting

MORE = "--Type RET for more, q to quit, c to continue without paging--"
# Up a line, which the answer to MORE has left, and away with it.
ERASED = "\x1b[A\r\x1b[K"
RESET = "\x1b[0m"
# The codes of what a word may be (ECMA-48, SGR).
COLOURS = {"text": "32", "temporary": "36", "global": "33", "label": "35", "position": "1", "question": "1",
           "fault": "1;31", "stop": "1", "comment": "2", "mark": "1;32"}
NAME = r"[A-Za-z._$][\w.$]*"
WORDS = re.compile(rf"""(?P<text>"(?:[^"\\]|\\.)*")|(?P<temporary>%{NAME})|(?P<global>\${NAME})|(?P<label>@{NAME})"""
                   r"|(?P<position>(?<![\w#])#\d+\b)|(?P<question>^ *\[\d+\])|"
                   r"(?P<fault>(?:(?<=^)|(?<=\d ))(?:fault [a-z ]+|halted in))"
                   r"|(?P<stop>^stop:)")
# A line of the text, with its number: what stands behind # is a comment there.
NUMBERED = re.compile(r"(?P<mark>[> ])(?P<number> *\d+  )(?P<code>.*)", re.DOTALL)
CODE = re.compile(r"""(?:[^"#]|"(?:[^"\\]|\\.)*")*""", re.DOTALL)


class Quit(Exception):
    """The user doesn't want the rest."""


class Output(Protocol):
    """What takes a session's lines."""
    def begin(self) -> None: ...
    def say(self, *lines: str) -> None: ...


def is_plain(stream: TextIO | None = None) -> bool:
    """Whether a stream is no terminal, or one that knows no more than lines."""
    return not (stream or sys.stdout).isatty() or (os.environ.get("TERM") or "dumb") == "dumb"


def words_of(text: str) -> Iterator[tuple[str, str]]:
    """The pieces of a text, each with what it is, or nothing."""
    at = 0
    for found in WORDS.finditer(text):
        if found.start() > at:
            yield "", text[at:found.start()]
        yield found.lastgroup or "", found[0]
        at = found.end()
    if at < len(text):
        yield "", text[at:]


def pieces_of(line: str) -> Iterator[tuple[str, str]]:
    """The same for a line; a line of the text, after its number, may have a comment."""
    numbered = NUMBERED.fullmatch(line)
    if not numbered:
        yield from words_of(line)
        return
    yield "mark" if numbered["mark"] == ">" else "", numbered["mark"]
    yield "", numbered["number"]
    code = CODE.match(numbered["code"])
    behind = code.end() if code else 0
    yield from words_of(numbered["code"][:behind])
    if numbered["code"][behind:]:
        yield "comment", numbered["code"][behind:]


def coloured(line: str) -> str:
    """A line with the colours of its words."""
    return "".join(f"\x1b[{COLOURS[kind]}m{text}{RESET}" if kind else text for kind, text in pieces_of(line))


class Standard:
    """Standard output."""

    def __init__(self, waiting: Waiting):
        self.waiting = waiting
        self.has_colours = not is_plain() and not os.environ.get("NO_COLOR")
        self.is_paged = not is_plain() and sys.stdin.isatty()
        # How many lines the screen has, where that was said; 0 is a screen without an end.
        self.height: int | None = None
        self.begin()

    def begin(self) -> None:
        """What comes next begins a screen."""
        self.shown, self.is_pausing = 0, self.is_paged

    def say(self, *lines: str) -> None:
        self.waiting.clear()
        if not self.is_pausing:
            self.write("".join(f"{line}\n" for line in lines))
            return
        for line in lines:
            for part in line.split("\n"):
                self.take(part)

    def write(self, text: str) -> None:
        if self.has_colours:
            text = "\n".join(map(coloured, text.split("\n")))
        sys.stdout.write(text)
        sys.stdout.flush()

    def take(self, line: str) -> None:
        """A line, after a question if the screen is full."""
        size = shutil.get_terminal_size()
        rows = max(1, -(-len(line) // size.columns))
        height = size.lines if self.height is None else self.height
        if self.is_pausing and height and self.shown and self.shown + rows > height - 1:
            self.pause()
        self.shown += rows
        self.write(f"{line}\n")

    def pause(self) -> None:
        """Asks whether to go on."""
        try:
            # Who sees the question may press Ctrl-C at once.
            self.waiting.is_at_prompt = True
            sys.stdout.write(MORE)
            sys.stdout.flush()
            answer = sys.stdin.readline()
        except KeyboardInterrupt:
            answer = ""
            sys.stdout.write("\n")
        finally:
            self.waiting.is_at_prompt = False
        sys.stdout.write(ERASED)
        self.shown = 0
        if not answer or answer.strip().lower().startswith("q"):
            raise Quit
        self.is_pausing = not answer.strip().lower().startswith("c")
