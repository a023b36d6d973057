"""Commands that show the current state of the session, and change nothing."""
from __future__ import annotations

import pathlib
import shlex

from .answers import Place, live, read_output
from .expressions import Unset, Wrong
from .habits import save_stops
from .scratch import Refused
from .shell import COMMANDS, Shell, check_format, command
from .sources import lines_listed, list_source, source_told
from .values import BYTES, FORMATS, formatted, numbered_lines, shown_bytes

MOST_UNITS = 4096
SIZES = {"b": "b", "h": "h", "w": "w", "l": "l", "g": "l"}
PER_LINE = {"b": 8, "h": 8, "w": 4, "l": 2}
# The units of formats that have one of their own, as in gdb.
UNITS = {"c": "b", "a": "l"}


@command("print p inspect", "print[/FORMAT] EXPRESSION", "expression")
def print_(shell: Shell, rest: str) -> None:
    """Shows a value: of a temporary of the selected frame (%i), of memory (w[$table+8]; b, h, w, l), of an expression.
    FORMAT is d signed, u unsigned, x hexadecimal, o octal, t binary, c characters, f float, a address."""
    letters, text = formatted_words(rest)
    if not text:
        raise Wrong("print EXPRESSION was expected")
    try:
        shell.say(shell.shown(text, letters))
    except Unset as error:
        shell.say(f"{text} unset" if str(error) == f"{text} is unset" else f"{text}: {error}")


def formatted_words(rest: str) -> tuple[str, str]:
    """The letters after a slash, and the rest."""
    if not rest.startswith("/"):
        return "", rest.strip()
    letters, _, text = rest[1:].partition(" ")
    return letters, text.strip()


@command("x", "x/NUF ADDRESS", "expression")
def examine(shell: Shell, rest: str) -> None:
    """Shows memory: N units of U (b, h, w, l; g is l) in the format F (d u x o t c f a, or s for a text up to its zero
    byte), from an address on: x/4wx $table+8, x/s %text. Without a unit, c shows bytes and a addresses. Without an
    address it goes on after the last one."""
    letters, text = formatted_words(rest)
    count, unit, letter = read_format(shell, letters)
    address = shell.number(text) if text else shell.examined
    if letter == "s":
        shell.say(*texts_at(shell, address, count))
        return
    size = BYTES[unit]
    found = shell.session.memory(address, count * size)
    per_line = PER_LINE[unit]
    for first in range(0, count, per_line):
        shown = []
        for at in range(first, min(first + per_line, count)):
            piece = live(found[at * size:(at + 1) * size])
            shown.append("--" if piece is None else unit_shown(shell, piece, unit, letter, address + at * size))
        there = address + first * size
        shell.say(f"{named(shell, there)}: {'  '.join(shown)}")
    shell.examined = address + count * size
    # An empty line goes on from there.
    shell.last = f"x/{letters}"


def read_format(shell: Shell, letters: str) -> tuple[int, str, str]:
    """The count, unit and format of x; what isn't given is as it was."""
    digits = letters[:len(letters) - len(letters.lstrip("0123456789"))]
    count = int(digits) if digits else 1
    units = [SIZES[letter] for letter in letters[len(digits):] if letter in SIZES]
    formats = [letter for letter in letters[len(digits):] if letter in FORMATS]
    if len(digits) + len(units) + len(formats) < len(letters):
        raise Wrong(f"/{letters}: a number, a unit of b h w l, and a format of {' '.join(FORMATS)} were expected")
    if formats:
        shell.format = formats[-1]
        shell.unit = UNITS.get(shell.format, shell.unit)
    if units:
        shell.unit = units[-1]
    if not 1 <= count <= MOST_UNITS:
        raise Wrong(f"/{letters}: from 1 to {MOST_UNITS} units were expected")
    return count, shell.unit, shell.format


def unit_shown(shell: Shell, piece: bytes, unit: str, letter: str, address: int) -> str:
    value = int.from_bytes(piece, "little")
    if letter == "a":
        name = shell.causes.address_told(value, unit, shell.session.timeline, address=address) if unit == "l" else None
        return f"{value} {name}" if name else named(shell, value)
    if letter == "x":
        return f"0x{value:0{2 * BYTES[unit]}x}"
    return formatted(value, unit, letter)


def texts_at(shell: Shell, address: int, count: int) -> list[str]:
    """Texts one after the other, each up to its zero byte; `--` where a byte isn't live, `..` where a text goes on."""
    found = []
    for _ in range(count):
        text, byte = text_at(shell, address)
        shown = [shown_bytes(text)] * bool(text or byte is not None) + ["--"] * (byte is None) + [".."] * bool(byte)
        found.append(f"{named(shell, address)}: {' '.join(shown)}")
        address += len(text) + (not byte)
    shell.examined = address
    return found


def text_at(shell: Shell, address: int) -> tuple[bytes, int | None]:
    """The bytes from an address up to the first that is zero or isn't live, and that byte."""
    text = bytearray()
    while True:
        byte = shell.session.memory(address + len(text), 1)[0]
        if not byte or len(text) == MOST_UNITS:
            return bytes(text), byte
        text.append(byte)


def named(shell: Shell, address: int) -> str:
    """An address with its name."""
    name = shell.frames.name(address, "l", shell.session.timeline)
    return f"{address} {name}" if name else str(address)


@command("mem", "mem ADDRESS [N]", "expression")
def mem(shell: Shell, rest: str) -> None:
    """Shows N bytes (16 if it isn't said) in hexadecimal; -- is a byte that isn't live. `x` has other formats."""
    address, count = (rest.rsplit(" ", 1) + ["16"])[:2] if " " in rest else (rest, "16")
    shell.session.memory(shell.number(address), 1)
    found = shell.session.memory(shell.number(address), shell.count(count, MOST_UNITS))
    shell.say(" ".join("--" if byte is None else f"{byte:02x}" for byte in found))


@command("display", "display[/FORMAT] [EXPRESSION]", "expression", is_repeated=False)
def display(shell: Shell, rest: str) -> None:
    """Shows an expression after each stop; without one, shows all that are displayed now."""
    letters, text = formatted_words(rest)
    if not text:
        for number, (each, shown) in shell.displays.items():
            shell.show_display(number, each, shown)
        return
    check_format(letters)
    shell.parsed(text)
    number = max(shell.displays, default=0) + 1
    shell.displays[number] = (letters, text)
    shell.show_display(number, letters, text)


@command("undisplay", "undisplay [N]", is_repeated=False)
def undisplay(shell: Shell, rest: str) -> None:
    """Takes a display away by its number; without one, all."""
    if not rest:
        shell.displays.clear()
    elif not rest.isdigit() or int(rest) not in shell.displays:
        raise Wrong(f"{rest}: the number of a display was expected; there are: "
                    f"{', '.join(map(str, shell.displays)) or 'none'}")
    else:
        del shell.displays[int(rest)]


@command("bt backtrace where", "bt [full] [N | -N]", "")
def backtrace(shell: Shell, rest: str) -> None:
    """Shows the frames, or the N innermost or with -N the N outermost of them, with the lines where they stand. The
    innermost is frame 0; the selected one is marked. With `full` the temporaries of each that are set are shown too."""
    frames = shell.session.frames()
    if not frames:
        raise Refused("no frame: the run is over")
    is_full = rest.split(" ")[0] in ("full", "-full")
    rest = rest.partition(" ")[2].strip() if is_full else rest
    count = shell.count(rest.removeprefix("-"), 1000, len(frames))
    shown = range(len(frames))[-count:] if rest.startswith("-") else range(len(frames))[:count]
    for index in shown:
        shell.say(frame_told(shell, index, frames[index]))
        if is_full:
            shell.say(*(f"     {line}" for line in locals_of(shell, index)))


def frame_told(shell: Shell, index: int, place: Place) -> str:
    # A caller stands behind its call, which is the line to show.
    at = place.index - (index > 0)
    line = shell.session.program.line_of(place.function, place.label, at)
    mark = ">" if index == shell.session.selected else " "
    source = shell.screen.map.place(line)
    instruction = shell.session.program.functions[place.function].at(place.label, at)
    text = shell.lowered.written(shell.session.program.functions[place.function], instruction)
    return f"{mark} {index}  {place.function} {place.label} {place.index}  line {line}: {text}" + \
        (f"  ({source})" if source else "")


def locals_of(shell: Shell, index: int) -> list[str]:
    """What `info locals` shows in a frame."""
    selected = shell.session.selected
    shell.session.selected = index
    try:
        return locals_told(shell, "")
    finally:
        shell.session.selected = selected


def select(shell: Shell, index: int) -> None:
    frames = shell.session.frames()
    if not frames:
        raise Refused("no frame: the run is over")
    if not 0 <= index < len(frames):
        raise Refused("this is the innermost frame" if index < 0 else f"the outermost frame is {len(frames) - 1}")
    shell.session.selected = index
    shell.list_anew()
    place = frames[index]
    shell.say(f"frame {index} {place.function} {place.label} {place.index}")
    if index:
        # It stands behind its call.
        shell.say(*shell.screen.place_lines(Place(0, place.function, place.label, place.index - 1)))
    else:
        shell.say(*shell.screen.place_lines())


@command("up", "up [N]")
def up(shell: Shell, rest: str) -> None:
    """Selects the frame that called this one, so that print, temps and expressions look there."""
    select(shell, shell.session.selected + shell.count(rest, 1000))


@command("down", "down [N]")
def down(shell: Shell, rest: str) -> None:
    """Selects the frame that this one called."""
    select(shell, shell.session.selected - shell.count(rest, 1000))


@command("frame f", "frame [N | function $f]")
def frame(shell: Shell, rest: str) -> None:
    """Selects a frame by its number in `bt`, or the innermost one of a function; without a word, shows the selected
    frame."""
    word, _, name = rest.partition(" ")
    if word == "function" and name.strip():
        function = shell.function_named(name.strip())
        frames = [each.function for each in shell.session.frames()]
        if function not in frames:
            raise Refused(f"{function}: no frame of it; `bt` shows those that are there")
        select(shell, frames.index(function))
        return
    rest = name.strip() if word == "level" else rest
    if rest and not rest.isdigit():
        raise Wrong(f"{rest}: the number of a frame was expected, or `function $f`")
    select(shell, int(rest) if rest else shell.session.selected)


def selected_values(shell: Shell) -> dict[str, int | None]:
    """The temporaries of the selected frame, None for one that is unset."""
    session = shell.session
    if not session.frames():
        raise Refused("no frame: the run is over")
    return session.scratch.go(shell.frames.frame(session.timeline, session.selected)).temporaries()


@command("temps locals", "temps")
def temps(shell: Shell, rest: str) -> None:
    """Shows all temporaries of the selected frame. `info locals` leaves out those that are unset."""
    values = selected_values(shell)
    if not values:
        shell.say("none")
    for name, value in values.items():
        shell.say(f"{name} unset" if value is None else shell.shown(name, ""))


@command("list l", "list [-ssa] [LINE | LINE,LINE | FILE:LINE | $f | @b | -]", "place")
def list_(shell: Shell, rest: str) -> None:
    """Shows the source around where the run stands, if there is one, and else the text, then on from there; or around a
    line, from a line on (N,), up to one (,N), from one to another (N,N), or what is before (-). With -ssa, or around a
    function or a label, it is the text."""
    is_text, rest = rest.split(" ")[0] == "-ssa", rest.removeprefix("-ssa").strip()
    # An empty line goes on from there.
    back = " -" * (rest == "-")
    if not is_text and list_source(shell, rest):
        shell.last = "list" + back
        return
    program, place = shell.session.program, shell.session.place
    here = 0
    frames, selected = shell.session.frames(), shell.session.selected
    if frames:
        # A caller stands behind its call.
        frame = frames[selected]
        here = program.line_of(frame.function, frame.label, frame.index - (selected > 0))
    size = shell.list_size
    first, last = lines_listed(rest, shell.line_of, size, shell.lines_shown, here or 1 + size // 2)
    if first > len(program.lines):
        raise Refused(f"the text has {len(program.lines)} lines")
    beside = []
    if here and not place.end and not selected and first <= here <= last:
        instruction = program.functions[place.function].at(place.label, place.index)
        beside = shell.screen.beside(place, instruction)
    shell.say(*shell.screen.text_lines(first, last, here, beside))
    shell.lines_shown, shell.last = (first, last), "list -ssa" + back


@command("out", "out")
def out(shell: Shell, rest: str) -> None:
    """Shows all that the program has written up to here, each line after the number of its first byte: `why out N` asks
    about a byte."""
    shell.say(*numbered_lines(read_output(shell.session.ask("out")[0])))


@command("info i",
         "info stops|locals|args|stack|frame|display|checkpoints|functions|data|source|line PLACE|"
         "symbol ADDRESS|session", "info")
def info(shell: Shell, rest: str) -> None:
    """Shows the stops, the temporaries, the parameters, the frames, what is displayed, the checkpoints, the functions,
    the data, the sources, the place of a line, whose an address is, or how large the session is."""
    typed, _, more = rest.partition(" ")
    word = info_word(typed)
    if word == "watchpoints":
        watches = [str(stop) for stop in shell.runs.stops if any(line.startswith("watch ") for line in stop.lines)]
        shell.say(*watches or ["none"])
    elif word in KNOWN:
        COMMANDS[KNOWN[word]].call(shell, "")
    else:
        shell.say(*OTHERS[word](shell, more))


# What `info` shows as a command does; `info s` is the stack in gdb.
KNOWN = {"stops": "stops", "breakpoints": "stops", "b": "stops", "watchpoints": "stops", "temps": "temps",
         "registers": "temps", "display": "display", "frame": "frame", "f": "frame", "out": "out", "stack": "bt",
         "s": "bt"}


def info_word(typed: str) -> str:
    """The word typed after `info`, or the only one that begins with it."""
    words = [*KNOWN, *OTHERS]
    if typed in words:
        return typed
    begun = [word for word in words if word.startswith(typed) and typed]
    if len(begun) == 1:
        return begun[0]
    expected = begun or info_words()
    raise Wrong(f"{typed or 'info'}: one of {', '.join(expected)} was expected")


def info_words() -> list[str]:
    """The words after `info` that its help has."""
    return [each.split(" ")[0] for each in COMMANDS["info"].usage.partition(" ")[2].split("|")]


def functions_told(shell: Shell, _rest: str) -> list[str]:
    return [f"line {function.line}: {name}({', '.join(' '.join(each) for each in function.parameters)})"
            for name, function in shell.session.program.functions.items()]


def data_told(shell: Shell, _rest: str) -> list[str]:
    return [f"line {data.line}: {data.name} {data.address}, {data.size} bytes"
            for data in shell.session.program.data] or ["none"]


def symbol_told(shell: Shell, rest: str) -> list[str]:
    return [named(shell, shell.number(rest))]


def checkpoints_told(shell: Shell, _rest: str) -> list[str]:
    return [f"{name}: #{there.position}" for name, there in shell.checkpoints.items()] or ["none"]


def session_told(shell: Shell, _rest: str) -> list[str]:
    session = shell.session
    return [f"{shlex.join(shell.named)}: #{session.place.position}, {len(session.lines)} lines, "
            f"{session.memory_taken() // (1 << 20)} MB"]


def locals_told(shell: Shell, _rest: str) -> list[str]:
    """The temporaries that are set, and how many aren't."""
    values = selected_values(shell)
    left = sum(value is None for value in values.values())
    shown = [shell.shown(name, "") for name, value in values.items() if value is not None]
    return shown + ([f"{left} unset"] if left else []) or ["none"]


def args_told(shell: Shell, _rest: str) -> list[str]:
    """The parameters of the selected frame, as they are now."""
    values = selected_values(shell)
    function = shell.session.program.functions[shell.session.frames()[shell.session.selected].function]
    return [shell.shown(name, "") if values[name] is not None else f"{name} unset"
            for _, name in function.parameters] or ["none"]


OTHERS = {"functions": functions_told, "locals": locals_told, "args": args_told, "data": data_told,
          "variables": data_told, "symbol": symbol_told, "checkpoints": checkpoints_told, "session": session_told,
          "source": source_told}


@command("save", "save FILE | save breakpoints FILE", "file", is_repeated=False)
def save(shell: Shell, rest: str) -> None:
    """Writes the session's lines to a file: a script that leads to the same state, and says how to play it. With
    `breakpoints` it writes commands that set the stops again, for `source`."""
    if not rest:
        raise Wrong("save FILE was expected")
    word, _, file = rest.partition(" ")
    if word in ("breakpoints", "stops"):
        save_stops(shell, file.strip())
        return
    try:
        pathlib.Path(rest).write_text("".join(script_line(shell, line) + "\n" for line in shell.session.lines))
    except OSError as error:
        raise Refused(f"{rest}: {error.strerror}") from None
    shell.say(f"{len(shell.session.lines)} lines; to play them: {shell.replayed(rest)}")


def script_line(shell: Shell, line: str) -> str:
    """A line of the session as the debugger reads it."""
    renaming = shell.launch.renaming
    return renaming.shortened(line) if renaming else line


@command("help h", "help [COMMAND]", "command", is_repeated=False)
def help_(shell: Shell, rest: str) -> None:
    """Lists the commands, or says what one does."""
    if rest:
        found = shell.command_named(rest)
        names = f"   also: {', '.join(found.names[1:])}" if len(found.names) > 1 else ""
        shell.say(found.usage + names, *shell.screen.filled(found.help, "    "))
        return
    for title, names in TOPICS.items():
        shell.say(*shell.screen.filled(f"{title}: " + ", ".join(short(name) for name in names.split()), "  "))
    shell.say(*shell.screen.filled(HELP, ""))


def short(name: str) -> str:
    """A command with the shortest of its other names."""
    others = [other for other in COMMANDS[name].names if len(other) <= 2 and other != name]
    return f"{name} ({others[0]})" if others else name


HELP = "An empty line repeats. `help COMMAND` tells more; Ctrl-C stops a run; docs/TERMINAL.md has it all."
TOPICS = {
    "move": "step next until advance finish continue run start back reverse-next reverse-finish reverse goto "
            "checkpoint restart",
    "move by lines of a source": "step-line next-line reverse-step-line reverse-next-line",
    "look": "print x display undisplay bt up down frame temps list search reverse-search disas mem find whatis out "
            "info directory",
    "stop": "break tbreak watch ignore condition commands disable enable stops delete",
    "ask": "suspects made why path calls readers writers when counts compare blame",
    "change": "set poke",
    "session": "tui save source other help quit",
}
