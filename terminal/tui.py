"""`tui`: a session on a full screen, by curses. Each key is a line of the prompt, and its answer is shown below the
panes."""
from __future__ import annotations

import os

try:
    import curses
except ImportError:
    curses = None  # type: ignore[assignment]

from .expressions import Wrong
from .output import Quit, is_plain
from .panes import Panes, Row, row
from .scratch import Refused
from .shell import Leave, Shell, command
from .waiting import Interrupted

# What a key types. Those that aren't here are about the screen itself (`Screenful.own`).
TYPED = {"s": "step", "b": "back", "n": "next", "N": "reverse-next", "p": "reverse-next", "c": "continue",
         "r": "reverse", "f": "finish", "F": "reverse-finish", "l": "next-line", "L": "reverse-next-line", "u": "up",
         "d": "down", "w": "why", "W": "why back", "g": "goto why", "i": "info stops",
         **{str(number): f"why {number}" for number in range(1, 10)}}
KEYS: tuple[str, ...] = ("? keys", "q leave", "s step", "b back", "n next", "N back over", "c continue", "r reverse",
                         "space breakpoint", "w why", "1-9 why N", ": command", "f finish", "F back out", "u/d frame",
                         "g goto why")
HELP = """s, b        a step, a step back             n, N     the same over calls
c, r        run on, run back to a stop      f, F     out of the frame, back to its call
l, L        the next line of a source, back u, d     the frame that called, was called
Up, Down    another line of the text        PageUp, PageDown, Home, End
space       a breakpoint at that line, or none there    Enter    run to that line
w, 1 to 9   why, and why of the N-th        W, g     the cause before, go to it
:           any command of the prompt       i        the stops
?           the keys                        q        back to the prompt
Ctrl-C stops a run. Ctrl-L draws the screen anew.""".split("\n")
# The least screen, and from which width on values stand beside the text.
LEAST_ROWS, LEAST_COLUMNS, WIDE = 8, 30, 76
# How often the size of the terminal is looked at, in milliseconds.
LOOKED_EVERY = 150
ESCAPE, DELETES, ENTERS = 27, (8, 127), (10, 13)
PAIRS = {"text": 2, "temporary": 6, "global": 3, "label": 5, "fault": 1, "mark": 2}


class Kept:
    """Takes what is said, for a pane."""

    def __init__(self) -> None:
        self.lines: list[str] = []

    def begin(self) -> None:
        """Nothing was said yet by the next line."""

    def say(self, *lines: str) -> None:
        self.lines += [part for line in lines for part in line.split("\n")]


class Screenful:
    """The screen, from the first key to the last."""

    def __init__(self, shell: Shell, window: curses.window):
        self.shell, self.window = shell, window
        self.panes, self.kept = Panes(shell), Kept()
        # The line that is marked, if one is; and the one that was shown last.
        self.cursor, self.shown = 0, 1
        self.message: list[str] = []
        self.is_whole, self.first_said = False, 0
        self.typed: str | None = None
        self.typed_before: list[str] = []
        self.progress = ""
        self.attributes = attributes()
        self.size = (0, 0)

    # Drawing.

    def put(self, y: int, x: int, width: int, text: str, attribute: int = 0) -> None:
        """A text in a number of columns; what has no room is left out."""
        if width <= 0 or not 0 <= y < self.size[0]:
            return
        try:
            self.window.addnstr(y, x, "".join(letter if letter.isprintable() else "?" for letter in text), width,
                                attribute)
        except curses.error:
            # The last cell of the screen can't be left behind.
            pass

    def put_row(self, y: int, x: int, width: int, line: Row) -> None:
        base = (curses.A_BOLD if line.is_strong else 0) | (curses.A_REVERSE if line.is_marked else 0)
        if line.is_marked:
            self.put(y, x, width, " " * width, base)
        at = 0
        for kind, text in line.pieces:
            self.put(y, x + at, width - at, text, base | self.attributes.get(kind, 0))
            at += len(text)
        if at > width > 2:
            self.put(y, x + width - 2, 2, "..", base)

    def put_pane(self, y: int, x: int, height: int, width: int, title: str, rows: list[Row],
                 from_end: bool = False) -> None:
        """A pane below its title."""
        if height < 1:
            return
        self.window.hline(y, x, curses.ACS_HLINE, width)
        self.put(y, x + 1, width - 2, f" {title} ", curses.A_BOLD)
        left = len(rows) - (height - 1)
        shown = rows[-(height - 1):] if from_end else rows
        for at, line in enumerate(shown[:height - 1]):
            self.put_row(y + 1 + at, x, width, line)
        if left > 0 and height > 1:
            self.put(y, max(x + 1, x + width - 10), 9, f" {left} more ")

    def draw(self) -> None:
        self.size = self.window.getmaxyx()
        rows, columns = self.size
        self.window.erase()
        if rows < LEAST_ROWS or columns < LEAST_COLUMNS:
            self.put(0, 0, columns, "the screen is too small; q leaves"[:columns])
        else:
            self.put(0, 0, columns, f" {self.panes.title()}".ljust(columns), curses.A_REVERSE)
            said = self.draw_said(rows, columns)
            if not self.is_whole:
                self.draw_panes(rows - 2 - said, columns)
            self.draw_last(rows - 1, columns)
        self.window.refresh()

    def draw_panes(self, height: int, columns: int) -> None:
        """The text, and beside or below it what there is of values, frames, output and stops."""
        if columns < WIDE:
            text = max(3, height * 3 // 5)
            self.put_text(1, 0, text, columns)
            values = (height - text) * 2 // 3
            self.put_pane(1 + text, 0, values, columns, "values", self.panes.values())
            self.put_pane(1 + text + values, 0, height - text - values, columns, "frames", self.panes.frames())
            return
        width = columns * 3 // 5
        x, right = width + 1, columns - width - 1
        self.window.vline(1, width, curses.ACS_VLINE, height)
        output, frames, stops = self.panes.output(), self.panes.frames(), self.panes.stops()
        sizes = shares(height, [len(self.panes.values()), len(frames), len(output), len(stops)])
        self.put_text(1, 0, height, width)
        y = 1
        for size, title, lines in zip(sizes, ("values", "frames", "output", "stops"),
                                      (self.panes.values(), frames, output, stops)):
            self.put_pane(y, x, size, right, title, lines, title == "output")
            y += size

    def put_text(self, y: int, x: int, height: int, width: int) -> None:
        self.shown = self.cursor or self.panes.here() or self.shown
        for at, line in enumerate(self.panes.text(self.shown, height)):
            self.put_row(y + at, x, width, line if self.cursor else Row(line.pieces, line.is_strong))

    def draw_said(self, rows: int, columns: int) -> int:
        """What the last line said, at the bottom or, if it is long, on the whole screen; how many rows that takes."""
        if not self.message:
            return 0
        height = rows - 2 if self.is_whole else len(self.message) + 1
        y = rows - 1 - height
        from_here = self.message[self.first_said:]
        title = "said" if not self.is_whole else "said: Up, Down and the Page keys scroll, RET goes on"
        self.put_pane(y, 0, height, columns, title, [row(line) for line in from_here])
        return height

    def draw_last(self, y: int, columns: int) -> None:
        """The line that is typed, how far a run is, or the keys."""
        if self.typed is not None:
            mark = ":" if self.shell.gathering is None else ">"
            self.put(y, 0, columns - 1, mark + self.typed[-(columns - 3):])
            curses.curs_set(1)
            self.window.move(y, min(1 + len(self.typed), columns - 1))
            return
        hide_cursor()
        keys = KEYS
        while len("  ".join(keys)) > columns - 1:
            keys = keys[:-1]
        self.put(y, 0, columns - 1, self.progress or "  ".join(keys), curses.A_DIM if not self.progress else 0)

    # Keys.

    def run(self) -> None:
        """Takes keys up to the one that leaves."""
        self.window.timeout(LOOKED_EVERY)
        self.has_resized()
        self.draw_whole()
        while True:
            key = self.window.getch()
            if self.has_resized() or key == curses.KEY_RESIZE:
                self.draw_whole()
            if key in (-1, curses.KEY_RESIZE):
                continue
            if not self.take(key):
                return
            self.draw_whole()

    def draw_whole(self) -> None:
        """Draws, though Ctrl-C was pressed before; pressed again it breaks that off, up to the next key."""
        self.shell.waiting.begin()
        try:
            self.panes.moved()
            self.draw()
        except Interrupted:
            pass

    def has_resized(self) -> bool:
        """Follows the size of the terminal: the library of the prompt keeps the signal for it."""
        try:
            size = os.get_terminal_size()
        except OSError:
            return False
        if (size.lines, size.columns) == self.window.getmaxyx():
            return False
        curses.resizeterm(size.lines, size.columns)
        self.window.clear()
        return True

    def take(self, key: int) -> bool:
        """Does what a key says; False if it leaves."""
        if self.typed is not None:
            self.take_typed(key)
        elif self.is_whole and self.has_scrolled(key):
            return True
        elif key == ord("q"):
            return False
        elif key == ESCAPE:
            # A key that this terminal isn't known to have begins so; the rest of it says nothing either.
            curses.flushinp()
            self.message = []
        elif 0 <= key < 256 and chr(key) in TYPED:
            self.do(TYPED[chr(key)])
        else:
            self.own(key)
        return True

    def own(self, key: int) -> None:
        """Keys about the screen: the line that is marked, what stands there, a line that is typed."""
        height = max(self.size[0] - 4, 1)
        steps = {curses.KEY_UP: -1, curses.KEY_DOWN: 1, ord("k"): -1, ord("j"): 1, curses.KEY_PPAGE: -height,
                 curses.KEY_NPAGE: height, curses.KEY_HOME: -1 << 20, curses.KEY_END: 1 << 20}
        if key in steps:
            last = len(self.shell.session.program.lines)
            self.cursor = min(max((self.cursor or self.panes.here() or self.shown) + steps[key], 1), last)
        elif key == ord(" "):
            self.toggle(self.cursor or self.panes.here())
        elif key in ENTERS and self.cursor:
            self.do(f"advance {self.cursor}")
        elif key == ord(":"):
            self.typed = ""
        elif key in (ord("?"), ord("h")):
            self.message, self.first_said, self.is_whole = HELP, 0, len(HELP) >= self.size[0] // 2
        elif key == 12:
            self.window.clear()
        else:
            self.message, self.is_whole = [], False

    def has_scrolled(self, key: int) -> bool:
        """Shows another part of a long answer, or takes it away; whether the key means no more than that."""
        page = max(self.size[0] - 4, 1)
        steps = {curses.KEY_UP: -1, curses.KEY_DOWN: 1, ord("k"): -1, ord("j"): 1, curses.KEY_PPAGE: -page,
                 curses.KEY_NPAGE: page, ord(" "): page}
        if key in steps:
            self.first_said = min(max(self.first_said + steps[key], 0), max(len(self.message) - page, 0))
            return True
        self.is_whole, self.first_said, self.message = False, 0, []
        return key in (ord("q"), ESCAPE, *ENTERS)

    def take_typed(self, key: int) -> None:
        """A key of a line that is typed."""
        if key in ENTERS:
            line, self.typed = self.typed or "", None
            if line:
                self.typed_before.append(line)
            self.do(line)
            self.typed = "" if self.shell.gathering is not None else None
        elif key == ESCAPE:
            self.typed = None
        elif key in DELETES or key == curses.KEY_BACKSPACE:
            self.typed = self.typed[:-1] if self.typed else None
        elif key == curses.KEY_UP and self.typed_before:
            self.typed = self.typed_before[-1]
            self.typed_before = [self.typed_before[-1], *self.typed_before[:-1]]
        elif key == 21:
            self.typed = ""
        elif 32 <= key < 127:
            self.typed = (self.typed or "") + chr(key)

    def toggle(self, line: int) -> None:
        """Sets a breakpoint at a line of the text, or takes those there away."""
        program = self.shell.session.program
        there = [stop.number for stop in self.shell.runs.stops if stop.place and program.line_of(*stop.place) == line]
        self.do(f"delete {' '.join(map(str, there))}" if there else f"break {line}", is_moving=False)

    def do(self, line: str, is_moving: bool = True) -> None:
        """Does a line of the prompt, and keeps what it says; of a move that is why it stopped alone."""
        self.kept.lines.clear()
        before, place = self.shell.session.selected, self.shell.session.place
        is_begun = self.shell.gathering is not None
        self.draw_progress(f"{line} ..")
        self.shell.run(line)
        self.progress = ""
        moved = self.shell.session.place != place or self.shell.session.selected != before
        self.message = without_place(self.kept.lines) if moved else list(self.kept.lines)
        self.first_said = 0
        self.is_whole = not is_begun and len(self.message) >= self.size[0] // 2
        if is_moving and moved:
            self.cursor = 0

    def draw_progress(self, text: str) -> None:
        """How far a run is, on the last line."""
        self.progress = text
        rows, columns = self.window.getmaxyx()
        self.put(rows - 1, 0, columns - 1, text.ljust(columns - 1))
        self.window.refresh()


def without_place(lines: list[str]) -> list[str]:
    """What a stop says besides its place and the text around it, which the panes show."""
    at = next((index for index, line in enumerate(lines) if line.startswith(("#", "frame "))), len(lines))
    rest = lines[at + 1:]
    while rest and (rest[0][:2] in ("  ", "> ") or rest[0].startswith("    ")):
        rest = rest[1:]
    return lines[:at] + rest


def shares(height: int, wanted: list[int]) -> list[int]:
    """How many rows each pane gets, with its title: what it needs, the first ones at least a third, and the rest for
    values."""
    sizes = [0] * len(wanted)
    left = height
    for index in (3, 2, 1):
        if not wanted[index]:
            continue
        sizes[index] = min(wanted[index] + 1, max(3, height // 4), max(left - 3, 0))
        left -= sizes[index]
    sizes[0] = left
    return sizes


def attributes() -> dict[str, int]:
    """The looks of words: colours where the terminal has them and they are wished."""
    found = {"position": curses.A_BOLD, "question": curses.A_BOLD, "stop": curses.A_BOLD, "comment": curses.A_DIM,
             "mark": curses.A_BOLD, "fault": curses.A_BOLD}
    if curses.has_colors() and not os.environ.get("NO_COLOR"):
        curses.start_color()
        curses.use_default_colors()
        for kind, colour in PAIRS.items():
            curses.init_pair(colour, colour, -1)
            found[kind] = found.get(kind, 0) | curses.color_pair(colour)
    return found


def hide_cursor() -> None:
    try:
        curses.curs_set(0)
    except curses.error:
        # A terminal that always shows it.
        pass


@command("tui", "tui", is_repeated=False)
def tui(shell: Shell, rest: str) -> None:
    """The full screen: the text with the line that comes next, values, frames, output and stops, which follow the
    session. `?` lists its keys, `q` leads back to the prompt."""
    if rest not in ("", "enable"):
        raise Wrong(f"{rest}: nothing more was expected")
    if curses is None:
        raise Refused("this Python has no curses, which the full screen needs")
    if is_plain() or not is_reading_keys():
        raise Refused("the full screen needs a terminal that can do more than lines (TERM)")
    if not isinstance(shell.output, Kept):
        held(shell)


def is_reading_keys() -> bool:
    return os.isatty(0)


def held(shell: Shell) -> None:
    """Shows the screen up to its last key, and leaves the terminal as it was."""
    output, told = shell.output, shell.waiting.told
    window = curses.initscr()
    is_left = False
    try:
        curses.noecho()
        curses.cbreak()
        window.keypad(True)
        if hasattr(curses, "set_escdelay"):
            curses.set_escdelay(25)
        screen = Screenful(shell, window)
        shell.output, shell.waiting.told = screen.kept, screen.draw_progress
        screen.run()
    except Leave:
        is_left = True
    finally:
        shell.output, shell.waiting.told = output, told
        window.keypad(False)
        curses.nocbreak()
        curses.echo()
        curses.endwin()
    if is_left:
        raise Leave
    try:
        shell.output.begin()
        shell.show()
    except Quit:
        pass
