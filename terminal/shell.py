"""The prompt's lines: what each does, and what it prints. The commands themselves are in modules by their kinds."""
from __future__ import annotations

import re
import shlex
from dataclasses import dataclass
from typing import Callable, Sequence

from .answers import Place, live
from .causes import Cause, Causes
from .elsewhere import is_elsewhere, not_known
from .expressions import Missing, Node, Unknown, Unset, Value, Wrong, evaluate, parse, parts_of, whole
from .frames import Frames
from .lookout import Lookout
from .lowered import lowered_of
from .output import Output, Quit, Standard
from .pipe import Ended
from .runs import STOPPED, Outcome, Runs
from .scratch import SLICE, Launch, Refused
from .screen import Screen
from .session import Session
from .sourcemap import SourceMap
from .timeline import Timeline
from .typed import as_typed
from .values import BITS, FLOATS, FORMATS, as_float, bits_of, formatted, remarks, unsigned
from .waiting import Interrupted, Waiting

MEGABYTE = 1 << 20
FAULT = "a fault of the front end"
MEMORY_TOLD = 512
# An address in an object of data.
IN_DATA = re.compile(r"(\$[\w.$]+)(?:\s*\+\s*(0x[0-9a-fA-F]+|[0-9]+))?")
# How deeply files of commands, and commands at stops, may lead to one another.
MOST_NESTED = 16


@dataclass(frozen=True)
class Command:
    """A command: its names (the first is the one shown), how it is used, and what completes its words."""
    names: tuple[str, ...]
    usage: str
    call: Callable[[Shell, str], None]
    completes: str
    is_repeated: bool

    @property
    def help(self) -> str:
        return " ".join((self.call.__doc__ or "").split())


COMMANDS: dict[str, Command] = {}


Call = Callable[["Shell", str], None]


def command(names: str, usage: str, completes: str = "", is_repeated: bool = True) -> Callable[[Call], Call]:
    """Makes a function of the shell and the rest of the line a command."""
    def register(call: Call) -> Call:
        made = Command(tuple(names.split()), usage, call, completes, is_repeated)
        for name in made.names:
            COMMANDS[name] = made
        return call
    return register


class Leave(Exception):
    """The session is to end."""


class Switched(Exception):
    """The session of the other text is to go on, where two are compared."""


def check_format(letters: str) -> None:
    if letters and letters not in FORMATS:
        raise Wrong(f"/{letters}: one of {', '.join('/' + letter for letter in FORMATS)} was expected")


class FrameState:
    """The state of the selected frame, as expressions look at it."""

    def __init__(self, shell: Shell):
        self.shell = shell

    def temporary(self, name: str) -> tuple[int, str]:
        value, width = self.shell.temporary(name)
        if value is None:
            raise Unset(f"{name} is unset")
        return value, width

    def bytes(self, address: int, count: int) -> int:
        found = live(self.shell.session.memory(address, count))
        if found is None:
            raise Unset(f"address {address} isn't live")
        return int.from_bytes(found, "little")

    def address(self, name: str) -> int:
        return self.shell.address_of(name)

    def word(self, name: str) -> int:
        session = self.shell.session
        return len(session.frames()) if name == "depth" else session.place.position


class Shell:
    def __init__(self, launch: Launch, file: str, source: bytes, waiting: Waiting, budget: int | None = None,
                 memory_told: int = MEMORY_TOLD, lowered: Sequence[str] = ()):
        self.launch, self.waiting = launch, waiting
        self.output: Output = Standard(waiting)
        self.lookout: Lookout | None = None
        # What stands for the program on a command line of ./qrev, and what comes last there.
        end = lowered.index("--") if "--" in lowered else len(lowered)
        self.named, self.texts = ["--lower", *lowered[:end]] if lowered else [file], lowered[end:]
        self.session = Session(launch, source, waiting)
        if self.session.pipe.refused:
            return
        self.lowered = lowered_of(file)
        self.lowered.tell_classes(self.session.program)
        self.frames = Frames(self.session.program, self.session.names, self.session.scratch)
        self.runs = Runs(self.session, self.frames, budget)
        sources = SourceMap.beside(file)
        self.causes = Causes(self.session.program, self.session.names, self.frames, self.session.scratch, sources.place,
                             self.lowered)
        self.screen = Screen(self.session, self.frames, sources, self.lowered, self.causes.origins)
        self.memory_told = memory_told * MEGABYTE
        self.displays: dict[int, tuple[str, str]] = {}
        self.checkpoints: dict[str, Timeline] = {}
        self.chain: list[Cause] = []
        self.suspects: list[Timeline] = []
        # The first and the last line that `list` showed, of the text and of a source.
        self.lines_shown: tuple[int, int] | None = None
        self.line_listed: tuple[str, int, int] | None = None
        # The sources of which it was told that they aren't found.
        self.told_absent: set[str] = set()
        # What was searched for in the text, and the line that was found last.
        self.sought, self.line_found = "", 0
        self.examined, self.unit, self.format = 0, "w", "x"
        self.list_size = 11
        self.last = ""
        self.has_said_end = False
        # The commands of a stop, while their lines are being typed; and how many files and stops the line at hand comes
        # from.
        self.gathering: list[str] | None = None
        self.nested = 0
        # Where two texts are compared: the session of the other one, which of them this is, and the state before the
        # move by which the runs part, if a move does.
        self.other: Shell | None = None
        self.is_good = False
        self.parted: Timeline | None = None

    # What is said.

    def say(self, *lines: str) -> None:
        self.output.say(*map(as_typed, lines))

    def loaded_told(self, line: str) -> str:
        """The line about the loaded text, where it isn't a function of the runtime that isn't in SSA form: of the
        program's own then only those that stand behind it may not be."""
        about, _, form = line.partition(" ssa ")
        name, functions = form.split(" ")[1] if form.startswith("no ") else "", list(self.session.program.functions)
        if name not in functions or self.lowered.is_own(name):
            return line
        is_known = not any(self.lowered.is_own(behind) for behind in functions[functions.index(name):])
        return f"{about} ssa yes" if is_known else about

    def begin(self) -> None:
        """What is said before the first line."""
        try:
            self.say(*map(self.loaded_told, self.session.pipe.loaded[:1]))
            self.show()
            self.say("`help` lists the commands")
        except Quit:
            pass

    def replayed(self, script: str) -> str:
        """The command that plays a saved script to the same state."""
        words = [*self.named, *self.launch.words]
        words += ["--limit", str(self.launch.limit)] if self.launch.limit != SLICE else []
        words += ["--history", str(self.launch.history)] if self.launch.history else []
        return f"./qrev {shlex.join([*words, *self.texts])} < {shlex.quote(script)}"

    def line_of(self, text: str) -> int:
        """The line of a number, a function, a label of the selected frame's function, or data."""
        program, frames = self.session.program, self.session.frames()
        word = text.split()[0]
        if word.isdigit():
            return min(max(int(word), 1), len(program.lines))
        if self.function_named(word) in program.functions:
            return program.functions[self.function_named(word)].line
        blocks = program.functions[frames[self.session.selected].function].blocks if frames else {}
        if word in blocks:
            return blocks[word].line
        found = [data.line for data in program.data if data.name == word]
        if not found:
            raise Wrong(f"{word}: a line, a function, data, or a label of this function was expected")
        return found[0]

    def function_named(self, word: str) -> str:
        """A word as the name of a function, which may be typed without its sigil, as in gdb."""
        return f"${word}" if f"${word}" in self.session.program.functions else word

    def show(self, reason: str = "") -> None:
        """A stop: why, the place line, the text around it, and what is displayed."""
        self.waiting.heed()
        if reason:
            self.say(f"stop: {reason}")
        self.say(self.screen.place_line(), *self.screen.place_lines())
        self.list_anew()
        for number, (letters, text) in self.displays.items():
            self.show_display(number, letters, text)
        self.tell_memory()

    def list_anew(self) -> None:
        """`list` begins around where the session is looked at now."""
        self.lines_shown = self.line_listed = None
        self.line_found = 0

    def show_display(self, number: int, letters: str, text: str) -> None:
        try:
            shown = self.shown(text, letters)
        except (Wrong, Unset, Refused) as error:
            shown = str(error) if str(error).startswith(f"{text}: ") else f"{text}: {error}"
        self.say(f"{number}: {shown}")

    def outcome(self, outcome: Outcome) -> None:
        """Shows how a run ended; where it made no move, says why."""
        if outcome.refusal:
            raise Refused(REFUSALS.get(outcome.refusal, outcome.refusal))
        self.show(outcome.reason)
        if outcome.reason == "end" and not self.has_said_end:
            self.has_said_end = True
            self.say("the run is over: `why` says what it comes of, `back` goes back into it")
            seen = self.lookout.at_end(self.session.timeline) if self.lookout else []
            if seen:
                self.say(*seen)
        if outcome.stop and outcome.stop.commands:
            self.do_nested(outcome.stop.commands)

    def do_nested(self, lines: Sequence[str]) -> None:
        """Does lines that weren't typed here."""
        if self.nested >= MOST_NESTED:
            raise Refused("commands that lead to commands are nested too deeply")
        self.nested += 1
        try:
            for line in lines:
                self.do(line)
                if self.waiting.is_heard:
                    break
        finally:
            self.nested -= 1
            self.last = ""

    def tell_memory(self) -> None:
        taken = self.session.memory_taken()
        if taken > self.memory_told:
            self.memory_told = 2 * taken
            self.say(f"the session takes {taken // MEGABYTE} MB, some 28 bytes a move; without --history it would keep "
                     "copies of states, in 64 MB, and `back` would go as far")

    # What lines are made of.

    def temporary(self, name: str) -> tuple[int | None, str]:
        """The value of a temporary of the selected frame, and its class."""
        frames = self.session.frames()
        if not frames:
            raise Refused("the run is over and no frame is left; `back` goes to before the last return")
        function = frames[self.session.selected].function
        classes = self.session.program.functions[function].temporaries
        if name not in classes:
            raise Wrong(f"{name}: {function} has no such temporary")
        if self.session.selected == 0:
            return self.session.value(name), classes[name]
        there = self.frames.frame(self.session.timeline, self.session.selected)
        return self.session.scratch.go(there).values(name)[0], classes[name]

    def address_of(self, name: str) -> int:
        addresses = self.session.program.addresses
        if name not in addresses:
            raise Wrong(f"{name}: the program has no such data or function")
        return addresses[name]

    def sized(self, text: str) -> str:
        """An address in an object of data, with the width of the item that begins there before it; any other text as it
        is."""
        found = IN_DATA.fullmatch(text.strip())
        data = next((each for each in self.session.program.data if found and each.name == found[1]), None)
        if not found or not data:
            return text
        offset = int(found[2] or "0", 0)
        floats = [cls for cls in FLOATS if self.lowered.float_at(data, data.address + offset, BITS[cls] // 8) == cls]
        letter = floats[0] if floats else data.letter_at(offset)
        if letter is None:
            raise Wrong(f"{text}: no item of {data.name} with a width begins there, so say one: w {text}")
        return f"{letter} {text}"

    def evaluate(self, text: str) -> Value:
        return evaluate(self.parsed(text), FrameState(self))

    def parsed(self, text: str) -> Node:
        if not text.strip():
            raise Missing("an expression was expected")
        try:
            node = parse(text)
        except Unknown as error:
            raise Wrong(f"{error}{self.name_meant(error.word)}") from None
        for part in parts_of(node):
            if part.kind == "global":
                self.address_of(part.text)
        return node

    def name_meant(self, word: str) -> str:
        """What a word without its sigil may stand for."""
        program, frames = self.session.program, self.session.frames()
        known = program.functions[frames[self.session.selected].function].temporaries if frames else {}
        meant = [name for name in (f"%{word}", f"${word}") if name in known or name in program.addresses]
        return f"; there is {' and '.join(meant)}" if meant else ""

    def number(self, text: str) -> int:
        """The value of an expression as 64 bits."""
        value = self.whole(text)
        if not -(1 << 63) <= value < 1 << 64:
            raise Wrong(f"{text}: {value} doesn't fit into 64 bits")
        return value % (1 << 64)

    def whole(self, text: str) -> int:
        """The value of an expression as a whole number."""
        return whole(self.evaluate(text))

    def count(self, text: str, most: int, default: int = 1) -> int:
        """A number of times, as a command takes it."""
        value = self.whole(text) if text.strip() else default
        if not 1 <= value <= most:
            raise Wrong(f"{text.strip()}: a number from 1 to {most} was expected")
        return value

    def shown(self, text: str, letters: str) -> str:
        """An expression and its value, in the format of a letter or as it is read best."""
        value = self.evaluate(text)
        width = value.width or "l"
        check_format(letters)
        if isinstance(value.number, float):
            width = width if width in FLOATS else "d"
            bits = bits_of(value.number, width)
            return f"{text} = {formatted(bits, FLOATS[width], letters) if letters else as_float(bits, width)}"
        number = unsigned(value.number, width)
        if letters and letters != "a":
            return f"{text} = {formatted(number, width, letters)}"
        name = self.address_told(text, number, "l" if letters else value.width)
        if letters:
            return f"{text} = {number}" + (f" {name}" if name else "")
        said = remarks(number, value.width, name) if value.width else []
        return f"{text} = {number if value.width else value.number}" + (f" ({', '.join(said)})" if said else "")

    def address_told(self, text: str, value: int, width: str) -> str | None:
        """The name of an address that an expression gives: of a temporary, or of eight bytes of memory, also which slot
        of a frame that is over it was made in."""
        at, node = self.session.timeline, self.parsed(text)
        if node.kind == "temporary" and self.session.frames():
            return self.causes.address_told(value, width, at, node.text,
                                            frame=self.frames.frame(at, self.session.selected))
        if node.kind == "memory" and node.text == "l":
            address = whole(evaluate(node.parts[0], FrameState(self))) % (1 << 64)
            return self.causes.address_told(value, width, at, address=address)
        return self.frames.name(value, width, at)

    # Lines.

    def run(self, line: str) -> None:
        """Does what a line asks, and says what came of it or what is wrong with it."""
        self.waiting.begin()
        self.output.begin()
        before = self.session.place
        try:
            self.do_and_tell(line, before)
        except (Quit, Interrupted):
            # What is said at last can be broken off too.
            pass
        except Ended as end:
            self.say(f"the debugger ended ({end}); `save FILE` still writes the session's lines")
        except RecursionError:
            self.say("the expression is nested too deeply")
        except (Leave, Switched):
            raise
        except Exception as error:
            self.fault(error)
        finally:
            self.waiting.clear()
            self.output.begin()
            for news in self.session.news:
                self.say(news)
            self.session.news.clear()

    def do_and_tell(self, line: str, before: Place) -> None:
        """Does what a line asks, and says why it got no further."""
        try:
            self.do(line)
        except (Wrong, Unset, Refused) as error:
            self.say(str(error))
            self.show_if_moved(before)
        except Interrupted:
            self.waiting.heed()
            self.say(STOPPED)
            self.show_if_moved(before)

    def fault(self, error: Exception) -> None:
        """A fault of this program itself, which isn't to cost whoever typed the line the session."""
        self.say(f"{FAULT}: {error!r}; the session goes on")
        self.session.scratch.drop()

    def show_if_moved(self, before: Place) -> None:
        """Where a command got no further than a part of its way."""
        if self.session.place != before:
            self.show()

    def do(self, line: str) -> None:
        line = line.strip()
        if self.gathering is not None:
            if line == "end":
                self.gathering = None
            elif line:
                self.gathering.append(line)
            return
        if not line:
            line = self.last
            if not line:
                return
        word, _, rest = line.partition(" ")
        word, slash, letters = word.partition("/")
        found = self.command_named(word)
        self.last = line if found.is_repeated else ""
        try:
            found.call(self, (slash + letters + " " if slash else "") + rest.strip())
        except Missing:
            if rest.strip():
                raise
            raise Wrong(f"{found.usage} was expected") from None

    def command_named(self, word: str) -> Command:
        """The command of that name, or the only one whose full name begins so."""
        if word in COMMANDS:
            return COMMANDS[word]
        if is_elsewhere(word):
            raise Wrong(not_known(word, COMMANDS))
        begun = {found.names[0]: found for name, found in COMMANDS.items() if name.startswith(word) and word}
        shortest = min(begun, key=len, default="")
        # Of two names one of which begins with the other the shorter one is meant.
        if begun and all(name.startswith(shortest) for name in begun):
            return begun[shortest]
        if begun:
            raise Wrong(f"{word}: could be {', '.join(sorted(begun))}")
        raise Wrong(not_known(word, COMMANDS))


REFUSALS = {
    "at end": "the run is over; `back` and `reverse` go back, `run` begins again",
    "at start": "this is the start of the run",
    "history ends": "the moves before are no longer kept (--history)",
}
