"""A session that an editor drives: it moves only by lines of commands, and each line is kept with its answer."""
from __future__ import annotations

import collections
from typing import NamedTuple, Optional, Protocol, Union

from .asked import Rule
from .grammar import parse
from .launching import Launch
from .mapping import Origin, SourceMap
from .messages import Message
from .places import line_of, lines_of_code, place_from
from .session import load
from .shown import Free, told
from .tokens import cut

# A place: a function, a block and an instruction, by their numbers.
Place = tuple[int, int, int]
# What stops were made by: "text", "function", "data", or a source with its path.
Kind = Union[str, tuple[str, str]]

DIFFERS = "[the output differs from what was shown]\n"
BOUNDS = {"start": ("entry", "the start: nothing is before it"), "oldest": ("pause", "the oldest state that is kept"),
          "limit": ("pause", "the limit of moves: continue goes on")}
REFUSALS = {"no: at start\n": "start", "no: history ends\n": "oldest", "no: at end\n": "end"}


def whole(piece: bytes) -> bytes:
    """Bytes without a character that their end cuts; as they are where they are no UTF-8."""
    try:
        piece.decode()
    except UnicodeDecodeError as error:
        if error.reason == "unexpected end of data":
            return piece[:error.start]
    return piece


class Stand(NamedTuple):
    depth: int
    origin: Optional[Origin]


class Tell(Protocol):
    """Tells an editor of an event."""

    def __call__(self, event: str, **body: object) -> None: ...


class Debuggee:
    """A session, its lines and answers, and which stops were made by which request."""

    def __init__(self, launched: Launch, text: bytes, first_line: int, sources: Optional[SourceMap],
                 record: Optional[str]) -> None:
        loaded, self.session = load(text, launched.entry, launched.args, launched.limit, launched.kept.history)
        self.launched, self.first_line, self.sources = launched, first_line, sources
        self.names, self.record = launched.names(), record
        self.rules: dict[int, Rule] = {}
        self.ids: dict[int, int] = {}
        self.program = parse(cut(text))
        self.script: list[str] = []
        self.transcript = [loaded]
        self.stop_places: dict[int, str] = {}  # of a breakpoint by its number, as the session tells it
        self.made: collections.defaultdict[Kind, list[int]] = collections.defaultdict(list)
        self.shown, self.is_configured = b"", False

    @property
    def mapped(self) -> SourceMap:
        """The map of places, where there is one."""
        assert self.sources is not None
        return self.sources

    def line(self, text: str) -> str:
        """The answer to a line, which is kept."""
        text = text.encode().decode("latin-1")
        answer = self.session.answer(text)
        self.script.append(text + "\n")
        self.transcript.append(answer)
        return answer

    def write_record(self) -> bool:
        """Writes the record, if there is to be one; whether that went well."""
        name = self.record
        if name is None:
            return True
        try:
            for end, texts in (("", self.script), (".transcript", self.transcript)):
                with open(name + end, "wb") as file:
                    file.write("".join(texts).encode("latin-1"))
        except (OSError, ValueError):
            return False
        return True

    # Where it stands.

    @property
    def depth(self) -> int:
        return len(self.session.now.frames)

    def place(self) -> str:
        return self.session.place().rstrip("\n")

    def byte(self, address: int) -> Optional[bytes]:
        return self.session.now.read(address % 2**64, 1)

    def place_text(self, func: int, block: int, index: int) -> str:
        code = self.program.funcs[func]
        return f"${code.name} @{code.blocks[block].label} {index}"

    def told(self, line: int) -> int:
        """A line as the editor counts."""
        return line - 1 + self.first_line

    def counted(self, line: int) -> int:
        """A line of the editor, counted from 1."""
        return line + 1 - self.first_line

    def line_of(self, func: int, block: int, index: int) -> int:
        return line_of(self.program, func, block, index)

    def place_from(self, line: int) -> Optional[Place]:
        return place_from(self.program, line)

    def shown_line(self, line: int) -> Message:
        """Where a line of the text is shown: its source or the text, and the line there."""
        origin = self.sources.origin(line) if self.sources else None
        if not origin:
            return {"source": self.launched.source(), "line": self.told(line)}
        return {"source": self.source_of(origin.path), "line": self.told(origin.line)}

    def source_of(self, path: str) -> Message:
        shown = self.mapped.shown(path)
        return {"name": shown.rsplit("/", 1)[-1], "path": shown}

    def lines_between(self, first: int, last: int) -> list[int]:
        lines = [self.told(line) for line in lines_of_code(self.program)]
        return [line for line in lines if first <= line <= last]

    def source_lines_between(self, path: str, first: int, last: int) -> list[int]:
        """The lines of a source at which a breakpoint stays."""
        lines = [self.told(line) for line, text_line in self.mapped.lines_of(path) if self.place_from(text_line)]
        return [line for line in lines if first <= line <= last]

    # Lines of sources.

    def origin_at(self, func: int, block: int, index: int) -> Optional[Origin]:
        """Where the line of a place came from, if the text has what is there."""
        part = self.program.funcs[func].blocks[block]
        if index == len(part.insts) and not part.jump.is_written:
            return None
        return self.mapped.origin(line_of(self.program, func, block, index))

    def last_origin(self, func: int, block: int) -> Optional[Origin]:
        """Where the line of the last place of a block came from that the text has."""
        part = self.program.funcs[func].blocks[block]
        line = part.jump.line if part.jump.is_written else part.insts[-1].line if part.insts else part.line
        return self.mapped.origin(line)

    def entries(self, path: str, line: int) -> list[Place]:
        """The places at which a run comes to a line of a source from another line."""
        found = []
        for func, code in enumerate(self.program.funcs):
            for block, part in enumerate(code.blocks):
                for index in range(len(part.insts) + 1):
                    if self.is_entry(func, block, index, (path, line)):
                        found.append((func, block, index))
        return found

    def is_entry(self, func: int, block: int, index: int, wanted: tuple[str, int]) -> bool:
        if self.origin_at(func, block, index) != wanted:
            return False
        for before in range(index - 1, -1, -1):
            origin = self.mapped.origin(line_of(self.program, func, block, before))
            if origin:
                return origin != wanted
        blocks = self.program.funcs[func].blocks
        leads = [number for number, other in enumerate(blocks) if blocks[block].label in other.jump.labels]
        return block == 0 or any(self.last_origin(func, number) != wanted for number in leads)

    def stand(self) -> Stand:
        """How many calls are open, and where the line came from at which the run stands."""
        frames = self.session.now.frames
        if not frames:
            return Stand(0, None)
        frame = frames[-1]
        return Stand(len(frames), self.mapped.origin(line_of(self.program, frame.func, frame.block, frame.at)))

    def has_arrived(self, start: Stand) -> bool:
        now = self.stand()
        return now.origin is not None and (now.depth != start.depth or now.origin != start.origin)

    def is_sourceless(self) -> bool:
        """Whether the innermost call is of a function that came from no source."""
        blocks = self.program.funcs[self.session.now.frames[-1].func].blocks
        return not any(self.mapped.origin(part.line) for block in blocks for part in block.insts + [block.jump])

    def back_by_line(self) -> str:
        """To the beginning of the line of the source at which the run stands then, or of the line before."""
        begun, depth = self.session.position, max(1, self.depth)
        reason: Optional[str] = None
        while reason is None:
            reason = self.go_back(depth)
            if reason == "step" and not self.stand().origin:
                reason = "limit" if begun - self.session.position >= self.session.limit else None
        target = self.stand()
        while reason == "step":
            reason = self.go_back(target.depth)
            now = self.stand()
            if reason == "step" and (now.depth < target.depth or now.origin != target.origin):
                return self.go_on(target.depth)
            if reason == "step" and begun - self.session.position >= self.session.limit:
                return "limit"
        return reason

    def clear(self, kind: Kind) -> None:
        for number in sorted(self.made[kind]):
            self.line(f"delete {number}")
            self.rules.pop(self.ids.pop(number), None)
        self.made[kind] = []

    # Runs over calls. How far they go is looked up first, and they go there by one line.

    def go_on(self, depth: int) -> str:
        """Forward to the first place where no more calls are open than so many; the reason to stand there."""
        return self.moved("step", *self.way_on(depth))

    def way_on(self, depth: int) -> tuple[int, str]:
        session, now, made = self.session, self.session.now, 0
        while not now.is_over:
            before, now, made = now, session.machine.step(now), made + 1
            reason = "end" if now.is_over else session.watch_or_break(before, now)
            if reason:
                return made, reason
            if len(now.frames) <= depth:
                return made, "step"
            if made == session.limit:
                return made, "limit"
        return made, "end"

    def bottom(self) -> str:
        return "start" if self.session.oldest == 0 else "oldest"

    def go_back(self, depth: int) -> str:
        """The same backward."""
        return self.moved("back", *self.way_back(depth))

    def moved(self, word: str, made: int, reason: str) -> str:
        """So many moves are one line, which is none where there are none."""
        if made:
            self.line(f"{word} {made}")
        return reason

    def way_back(self, depth: int) -> tuple[int, str]:
        states, made = self.session.states, 0
        while made < len(states) - 1:
            after, now, made = states[-1 - made], states[-2 - made], made + 1
            reason = self.session.watch_or_break(after, now)
            if reason:
                return made, reason
            if len(now.frames) <= depth and made < len(states) - 1:
                return made, "step"
            if made == self.session.limit and made < len(states) - 1:
                return made, "limit"
        return made, self.bottom()

    def restart_call(self, depth: int) -> str:
        """Back to the call that was made with so many calls open, and into it again; with none back to the start."""
        states = self.session.states
        made = next((made for made in range(len(states)) if len(states[-1 - made].frames) <= depth), None)
        if made is None:
            if len(states) > 1:
                self.line(f"back {len(states) - 1}")
            return self.bottom()
        self.line(f"back {made}")
        return self.reason_of(self.line("step"))

    # Why it stands.

    @staticmethod
    def reason_of(answer: str) -> str:
        """Why a line let it stand, by its answer."""
        if answer.startswith("stop: "):
            return answer.split("\n")[0][len("stop: "):]
        return REFUSALS.get(answer, "step")

    def stopped(self, reason: str, hits: Optional[list[int]] = None) -> Message:
        """The body of the event that says so; of which breakpoints, if it isn't all at the place."""
        end = self.ended_elsewhere()
        if end:
            return {"reason": "end", "description": end, "text": Free(None), "threadId": 1, "allThreadsStopped": True}
        hits = self.hits(reason) if hits is None else hits
        word, text = self.words(reason, hits)
        body: Message = {"reason": word, "description": self.place(), "text": text, "threadId": 1,
                         "allThreadsStopped": True}
        return {**body, "hitBreakpointIds": hits} if hits else body

    def ended_elsewhere(self) -> Optional[str]:
        """How the run ended, if it was halted in a function that isn't the program's own."""
        now = self.session.now
        if now.status != ("fault", "halted"):
            return None
        return self.names.ended_in(self.program.funcs[now.frames[-1].func].name)

    def hits(self, reason: str) -> list[int]:
        """The breakpoints at which the run stands, if a stop ended it."""
        kind, _, number = reason.partition(" ")
        if not number or kind not in ("break", "watch"):
            return []
        found, now = {self.ids.get(int(number), int(number))}, self.session.now
        here = self.session.frame_text(now.frames[-1]) if now.frames else None
        for numbers in self.made.values():
            found |= {self.ids[one] for one in numbers if self.stop_places.get(one) == here and here}
        return sorted(found)

    def words(self, reason: str, hits: list[int]) -> tuple[str, Union[str, Free]]:
        status = self.session.now.status
        if status[0] == "fault":
            return "exception", status[1]
        if status[0] != "running":
            return "end", "end of the run"
        if reason in BOUNDS:
            return BOUNDS[reason]
        kind = reason.partition(" ")[0]
        if kind in ("entry", "step"):
            return kind, Free(None)
        if kind == "watch":
            return "data breakpoint", Free(None)
        on_function = hits and any(self.ids[one] == hits[0] for one in self.made["function"])
        return "function breakpoint" if on_function else "breakpoint", Free(None)

    def tell_output(self, tell: Tell) -> None:
        """Tells what is new of the output, by `tell`."""
        output, shown = self.session.now.output, self.shown
        same = next((at for at, (old, new) in enumerate(zip(shown, output)) if old != new),
                    min(len(shown), len(output)))
        new = output[same:] if self.session.now.is_over else whole(output[same:])
        if not new:
            return
        if same < len(shown):
            tell("output", category="console", output=DIFFERS)
        tell("output", category="stdout", output=told(new))
        self.shown = output[:same] + new
