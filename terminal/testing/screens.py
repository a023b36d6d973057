"""Tests of what a terminal shows besides lines: the full screen, colours, and the question at each full screen.

Each gives what is wrong, or None.
"""
from __future__ import annotations

import fcntl
import os
import re
import select
import struct
import sys
import tempfile
import termios
import time
from typing import Callable

from .cells import Cells
from .habits import ENDLESS, missing, written
from .harness import FOLDER, PROMPT, Held, Silent, Terminal
from .sessions import EXAMPLES, SQUARES

ESCAPES = re.compile(r"\x1b\[[0-9;?]*[A-Za-z]|\x1b[()=>].?|\r")
ROWS, COLUMNS = 30, 100
# How long nothing more is to come before a screen counts as drawn, in seconds.
QUIET, MOST_WAIT = 0.3, 1.5


class Shown(Terminal):
    """A session at a terminal whose screen is kept."""

    def __init__(self, program: str, *words: str, rows: int = ROWS, columns: int = COLUMNS):
        super().__init__([sys.executable, str(FOLDER / "main"), "--debugger", program, "--", *words], columns,
                         rows=rows, environment={"TERM": "xterm-256color"})
        self.cells = Cells(rows, columns)
        self.until(lambda text: PROMPT.strip() in text)

    def resize(self, rows: int, columns: int) -> None:
        self.cells.resize(rows, columns)
        fcntl.ioctl(self.device, termios.TIOCSWINSZ, struct.pack("HHHH", rows, columns, 0, 0))

    def read(self, seconds: float) -> bool:
        if not select.select([self.device], [], [], seconds)[0]:
            return False
        try:
            self.cells.take(os.read(self.device, 65536))
        except OSError:
            raise Silent("the session ended") from None
        return True

    def text(self) -> str:
        return "\n".join(self.cells.lines())

    def until(self, holds: Callable[[str], bool]) -> str:
        """The screen, once it holds and nothing more comes."""
        end = time.monotonic() + self.seconds
        while not holds(self.text()):
            if time.monotonic() > end:
                raise Silent(f"the screen is\n{self.text()}")
            self.read(0.1)
        # How far a run is comes again and again.
        end = time.monotonic() + MOST_WAIT
        while time.monotonic() < end and self.read(QUIET):
            pass
        return self.text()

    def press(self, keys: str, *wanted: str, absent: tuple[str, ...] = ()) -> str:
        """The screen once it has the expected content after some keys."""
        self.type(keys)
        return self.until(lambda text: all(each in text for each in wanted)
                          and not any(each in text for each in absent))


def row_with(text: str, wanted: str) -> str:
    return next((line for line in text.split("\n") if wanted in line), "")


def full_screen(program: str) -> str | None:
    """Text, values, frames, output and stops are on the screen and follow each key; the prompt after it is whole."""
    shown = Shown(program, str(EXAMPLES / "digits.ssa"))
    try:
        text = shown.press("tui\n", "#0 $main @start 0", ">  34 ", "values", "frames", "output", "nothing yet",
                           "? keys")
        shown.press("s", "#1 $main @start 1", ">  35 ", "%count = %count+0")
        shown.press("ss", "#3 $main @loop 0", "*%place = $numbers+0")
        shown.press("b", "#2 $main @start 2", "-> @loop, %place=$numbers+0")
        shown.press("\x1bOB\x1bOB\x1bOB", "#2 $main @start 2")
        text = shown.press(" ", "break 1: $main @loop 0 (line 39)", "stops")
        if not re.search(r"^ b 39 ", text, re.MULTILINE):
            return f"no mark at the breakpoint: {text}"
        shown.press("c", "#3 $main @loop 0", "stop: break 1", ">b 39 ")
        shown.press("n", "#4 $main @loop 1", absent=("stop: break 1",))
        shown.press("nnn", "#7 $main @body 1", ">  44 ", "call $number(w %t3)")
        shown.press("n", "$main @body 2", " 7")
        shown.press("r", "#3 $main @loop 0")
        shown.press(":goto 131\n", "#131 $main @body 2", " 42", " 12345")
        text = shown.press(":why w %count\n", "byte 3 of w frame 0 $main alloc %count+0", "[6] the way to @body")
        shown.press("1", "%t2 = 49 was set by", "%t2 =w add %t1, 48")
        shown.press("g", "#99 $number @digit 1", ">  15 ", "0 $number @digit", "1 $main @body 2")
        shown.press("u", ">1 $main @body 2", ">  44 ")
        shown.press(":display w[%count] & 255\n", " 1: w[%count] & 255 = 2")
        shown.press("q", "(qrev)", "#99 $number @digit 1")
        text = shown.press("p 1+1\n", "1+1 = 2")
        return missing(text, "(qrev) p 1+1") or missing(row_with(text, "15"), "> 15")
    finally:
        shown.close()


def resized(program: str) -> str | None:
    """The screen follows the size of the terminal: beside one another, below one another, and too small."""
    shown = Shown(program, str(SQUARES))
    try:
        text = shown.press("tui\n", "values", ">  27 ")
        if "|- values" not in row_with(text, "values"):
            return f"values don't stand beside the text: {text}"
        shown.resize(24, 60)
        text = shown.until(lambda text: "values" in text and ">  27 " in text)
        if not row_with(text, "values").startswith("- values") or any(len(line) > 60 for line in text.split("\n")):
            return f"values don't stand below the text: {text}"
        shown.resize(5, 60)
        shown.until(lambda text: "too small" in text)
        shown.resize(40, 140)
        shown.until(lambda text: "|- values" in text and ">  27 " in text)
        shown.press("c", "#88 done 30", "the run is over")
        shown.press("w", "done 30, at #88, comes of", "[1] %total = 30")
        shown.press("b", "#87 $main @end 2", "%total=30")
        return None
    finally:
        shown.close()


def stopped_on_screen(program: str) -> str | None:
    """A run without an end shows how far it is, and Ctrl-C stops it; `quit` leaves the session from there."""
    with tempfile.TemporaryDirectory(prefix="endless-") as folder:
        shown = Shown(program, written(folder, "endless.ssa", ENDLESS), "--history", "1000")
        try:
            shown.press("tui\n", "values")
            shown.press("c", "million moves a second")
            shown.press("\x03", "stopped by Ctrl-C", "? keys")
            shown.press("s", "$main @loop", absent=("stopped by",))
            shown.type(":quit\n")
            return None if shown.status() == 0 else "another status than 0"
        finally:
            shown.close()


def no_screen(program: str) -> str | None:
    """Where the terminal knows no more than lines the full screen is refused, and nothing has a colour or is held
    up."""
    session = Held(program, str(SQUARES))
    try:
        fault = missing(session.do("tui"), "needs a terminal")
        many = session.do("help") + "".join(session.do("disas") for _ in range(8))
        return fault or ("\x1b" in many and f"{many!r} has escapes" or None)
    finally:
        session.close()


def coloured(program: str) -> str | None:
    """Names and positions have colours, which NO_COLOR, a TERM of nothing and `set style enabled off` switch off; the
    letters are the same."""
    plain = Held(program, str(SQUARES))
    told = {}
    try:
        told["dumb"] = plain.told + plain.do("bt") + plain.do("goto 44") + plain.do("why %place")
    finally:
        plain.close()
    environments: dict[str, dict[str, str]] = {"colours": {}, "none": {"NO_COLOR": "1"}, "no terminal": {"TERM": ""}}
    for name, environment in environments.items():
        session = Held(program, str(SQUARES), environment={"TERM": "xterm-256color", **environment})
        try:
            told[name] = session.told + session.do("bt") + session.do("goto 44") + session.do("why %place")
            if name == "colours":
                session.do("set style enabled off")
                told["off"] = session.told + session.do("bt") + session.do("goto 44") + session.do("why %place")
        finally:
            session.close()
    words = ("\x1b[33m$fill\x1b[0m", "\x1b[36m%place\x1b[0m", "\x1b[35m@body\x1b[0m", "\x1b[1m#44\x1b[0m")
    absent = [word for word in words if word not in told["colours"]]
    if absent:
        return f"{told['colours']!r} lacks {absent[0]!r}"
    if "\x1b[" in told["no terminal"]:
        return f"colours without a TERM: {told['no terminal']!r}"
    if "\x1b[3" in told["none"] or "\x1b[3" in told["off"].replace(session_told(told["colours"]), ""):
        return f"colours that are switched off: {told['none']!r}"
    return None if ESCAPES.sub("", told["colours"]) == ESCAPES.sub("", told["dumb"]) else \
        f"{ESCAPES.sub('', told['colours'])!r} in place of {ESCAPES.sub('', told['dumb'])!r}"


def session_told(text: str) -> str:
    """What a session said before its first prompt."""
    return text.partition("lists the commands")[0]


def paged(program: str) -> str | None:
    """A long answer stops at each full screen: RET goes on, q ends it, c goes on to its end; `set pagination off` asks
    nothing."""
    session = Held(program, str(EXAMPLES / "digits.ssa"), environment={"TERM": "xterm-256color", "NO_COLOR": "1"})
    more = "--Type RET for more, q to quit, c to continue without paging--"
    try:
        session.do("set height 12")
        session.type("disas $number\n")
        first = session.wait_for(more)
        if first.count("\n") - 1 != 11:
            return f"{first.count(chr(10)) - 1} lines in place of 11: {first!r}"
        session.type("\n")
        second = session.wait_for(more)
        session.type("q\n")
        rest = session.wait_for(PROMPT)
        fault = missing(second, "%t3 =w loadub %from") or ("@last" in rest and f"more behind q: {rest!r}" or None)
        session.type("disas $number\n")
        session.wait_for(more)
        session.type("c\n")
        fault = fault or missing(session.wait_for(PROMPT), "@last", "ret")
        session.do("set pagination off")
        fault = fault or missing(session.do("disas $number"), "@last", "ret")
        session.do("set pagination on")
        session.type("disas $number\n")
        session.wait_for(more)
        session.type("\x03")
        session.wait_for(PROMPT)
        return fault or missing(session.do("p 6 * 7"), "= 42")
    finally:
        session.close()


SCREENS = {"full": full_screen, "resized": resized, "stopped": stopped_on_screen, "none": no_screen,
           "colours": coloured, "pager": paged}
# What needs Python's curses, which a minimal one may lack.
DRAWN = ("full", "resized", "stopped", "none")
