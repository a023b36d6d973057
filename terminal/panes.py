"""What the full screen shows of a session, as lines: the text with its stops, values, frames, output. docs/TERMINAL.md
has a picture."""
from __future__ import annotations

from dataclasses import dataclass

from .answers import read_output, read_value
from .expressions import Unset, Wrong
from .looking import selected_values
from .output import pieces_of
from .scratch import Refused
from .screen import readable
from .shell import Shell
from .values import brief, shown_bytes

Piece = tuple[str, str]
# Behind so many moves frames aren't looked through for the names of addresses.
NEAR = 1_000_000


@dataclass(frozen=True)
class Row:
    """A line of a pane: its pieces, each with what it is (output.COLOURS), and whether it is set off."""
    pieces: tuple[Piece, ...]
    is_strong: bool = False
    is_marked: bool = False

    @property
    def text(self) -> str:
        return "".join(text for _, text in self.pieces)


def row(line: str, is_strong: bool = False, is_marked: bool = False) -> Row:
    return Row(tuple(pieces_of(line)), is_strong, is_marked)


class Panes:
    """The panes of a session. Where a value was another one when they were made last, it is set off."""

    def __init__(self, shell: Shell):
        self.shell = shell
        self.before: dict[str, int | None] = {}
        self.now: dict[str, int | None] = {}
        # The state of which these are, and its frame.
        self.position: int | None = None
        self.frame = ("", 0)

    def moved(self) -> None:
        """Notes the values, after each command."""
        session = self.shell.session
        here, frames = session.place.position, session.frames()
        if here == self.position:
            return
        frame = (frames[0].function, len(frames)) if frames else ("", 0)
        self.before = self.now if frame == self.frame else {}
        self.position, self.frame = here, frame
        answer = session.ask("temps") if frames else []
        self.now = {line.split(" ")[0]: read_value(line) for line in answer if line.startswith("%")}

    # The text.

    def here(self) -> int:
        """The line at which the selected frame stands, or 0."""
        session = self.shell.session
        frames = session.frames()
        if not frames:
            return 0
        frame = frames[session.selected]
        # A caller stands behind its call.
        return session.program.line_of(frame.function, frame.label, frame.index - (session.selected > 0))

    def stop_lines(self) -> dict[int, bool]:
        """The lines with breakpoints, and whether one of them is switched on."""
        found: dict[int, bool] = {}
        for stop in self.shell.runs.stops:
            if stop.place:
                line = self.shell.session.program.line_of(*stop.place)
                found[line] = found.get(line, False) or stop.is_on
        return found

    def text(self, cursor: int, height: int) -> list[Row]:
        """So many lines of the text around one of them."""
        lines, here, stops = self.shell.session.program.lines, self.here(), self.stop_lines()
        first = max(1, min(cursor - height // 2, len(lines) - height + 1))
        digits = len(str(len(lines)))
        found = []
        for number in range(first, min(first + height, len(lines) + 1)):
            code = readable(lines[number - 1])
            stop = " " if number not in stops else "b" if stops[number] else "-"
            mark = ">" if number == here else " "
            pieces = list(pieces_of(f"{mark} {number:{digits}}  {code}"))
            pieces[1:1] = [("fault" if stop == "b" else "", stop)]
            if number == here:
                pieces += self.beside()
            found.append(Row(tuple(pieces), number == here, number == cursor))
        return found

    def beside(self) -> list[Piece]:
        """The values that the instruction which comes next reads, and where a jump goes."""
        session, screen = self.shell.session, self.shell.screen
        place = session.place
        if session.selected or not place.function:
            return []
        instruction = session.program.functions[place.function].at(place.label, place.index)
        said = screen.beside(place, instruction)
        return [("", "    "), *pieces_of(", ".join(said))] if said else []

    # What stands beside it.

    def values(self) -> list[Row]:
        """The temporaries of the selected frame that are set."""
        session = self.shell.session
        frames = session.frames()
        if not frames:
            return [row(" the run is over"), *self.displays()]
        function = session.program.functions[frames[session.selected].function]
        values = self.now if not session.selected else selected_values(self.shell)
        rows, unset = [], 0
        for name, value in values.items():
            if value is None:
                unset += 1
                continue
            width = function.temporaries[name]
            is_new = not session.selected and bool(self.before) and self.before.get(name, value) != value
            rows.append(row(f"{'*' if is_new else ' '}{name} = {brief(value, width, self.name(name, value, width))}",
                            is_new))
        rows += [row(f" {unset} unset")] * bool(unset)
        return rows + self.displays() or [row(" no temporaries")]

    def name(self, temporary: str, value: int, width: str) -> str | None:
        """The name of an address, in a few words."""
        session, screen = self.shell.session, self.shell.screen
        if width != "l":
            return None
        if session.selected or session.place.position > NEAR:
            return session.names.of(value)
        return screen.name(value, width, temporary)

    def frames(self) -> list[Row]:
        session = self.shell.session
        found = []
        for index, place in enumerate(session.frames()):
            line = session.program.line_of(place.function, place.label, place.index - (index > 0))
            mark = ">" if index == session.selected else " "
            found.append(row(f"{mark}{index} {place.function} {place.label} {place.index}  line {line}",
                             index == session.selected))
        return found or [row(" none")]

    def stops(self) -> list[Row]:
        return [row(f" {stop}") for stop in self.shell.runs.stops]

    def displays(self) -> list[Row]:
        """What is displayed after each stop, with its value."""
        found = []
        for number, (letters, text) in self.shell.displays.items():
            try:
                found.append(row(f" {number}: {self.shell.shown(text, letters)}"))
            except (Wrong, Unset, Refused) as error:
                found.append(row(f" {number}: {text}: {error}"))
        return found

    def output(self) -> list[Row]:
        """What the program has written, by lines."""
        written = read_output(self.shell.session.ask("out")[0])
        return [row(" " + shown_bytes(line)[1:-1]) for line in written.splitlines()] or [row(" nothing yet")]

    def title(self) -> str:
        """Where the session stands."""
        shell = self.shell
        named = " ".join(shell.named)
        source = shell.screen.map.place(self.here()) if self.here() else ""
        return f"{named}  {shell.screen.place_line()}" + (f"  {source.split(': ')[-1]}" if source else "")
