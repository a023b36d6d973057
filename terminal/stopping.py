"""Commands about stops: breakpoints, watches, and the conditions under which one of them counts."""
from __future__ import annotations

import re

from .elsewhere import names_meant, no_label
from .expressions import Node, Wrong, as_bytes, temporaries_of
from .moving import address_word, no_checkpoint
from .scratch import Refused
from .shell import COMMANDS, Shell, command
from .sources import place_in_source
from .stops import FrameWatch, MemoryWatch, Stop, SuspicionStop
from .suspecting import add_suspicion_stop
from .values import BITS, FLOATS

PIECES = (("l", 8), ("w", 4), ("h", 2), ("b", 1))
MOST_RANGE = 512
# How the name of an address on the stack begins.
FRAME = re.compile(r"^frame \d+ ")
RANGE = re.compile(r"(\d+)-(\d+)")


def with_condition(shell: Shell, rest: str) -> tuple[str, Node | None, str]:
    """What precedes `if`, and the condition after it."""
    what, has_condition, text = f" {rest} ".partition(" if ")
    if not has_condition:
        return rest.strip(), None, ""
    return what.strip(), shell.parsed(text), text.strip()


def place_of(shell: Shell, text: str) -> tuple[str, str, int]:
    """A place: of a line, $f, @b in this function, $f @b, with an index after it; without a word that of the run."""
    session, words = shell.session, text.split()
    frames = session.frames()
    if not words:
        if not frames:
            raise Refused("the run is over: a line, $f or $f @b was expected")
        return frames[0].function, frames[0].label, frames[0].index
    if words[0].isdigit() and len(words) == 1:
        found = session.program.place_at(int(words[0]))
        if not found:
            raise Wrong(f"{text}: no code at that line or behind it; the text has {len(session.program.lines)} lines")
        return found
    in_source = place_in_source(shell, text)
    if in_source:
        return in_source
    if words[0].startswith("@"):
        if not frames:
            raise Refused(f"{text}: the run is over; write the function before the label")
        words.insert(0, frames[session.selected].function)
    return checked_place(shell, words)


def checked_place(shell: Shell, words: list[str]) -> tuple[str, str, int]:
    functions = shell.session.program.functions
    words = [shell.function_named(words[0]), *words[1:]]
    if words[0] not in functions:
        meant = names_meant(words[0], list(functions))
        raise Wrong(f"{words[0]}: a line, $f, @b or $f @b was expected, of {meant}")
    function = functions[words[0]]
    label = words[1] if len(words) > 1 else function.first
    if label not in function.blocks:
        raise Wrong(no_label(function.name, list(function.blocks), label))
    index = words[2] if len(words) > 2 else "0"
    most = len(function.blocks[label].body) - 1
    if not index.isdigit() or int(index) > most:
        raise Wrong(f"{index}: an index from 0 to {most} was expected")
    if len(words) > 3:
        raise Wrong(f"{words[3]}: nothing more was expected, but `if`")
    return function.name, label, int(index)


def add_breakpoint(shell: Shell, rest: str, is_once: bool) -> None:
    what, condition, text = with_condition(shell, rest)
    place = place_of(shell, what)
    if condition:
        known = shell.session.program.functions[place[0]].temporaries
        for name in temporaries_of(condition):
            if name not in known:
                raise Wrong(f"{name}: {place[0]} has no such temporary")
    line = shell.session.program.line_of(*place)
    stop = Stop(f"{place[0]} {place[1]} {place[2]} (line {line})", [f"break {place[0]} {place[1]} {place[2]}"], [],
                place, condition, text, is_once=is_once)
    stop.typed = f"{'tbreak' if is_once else 'break'} {' '.join(map(str, place))}" + (f" if {text}" if text else "")
    shell.say(f"break {shell.runs.add(stop)}")


@command("break b br", "break [LINE | FILE:LINE | $f | @b | $f @b [K] | suspect [KINDS]] [if CONDITION]", "place",
         is_repeated=False)
def break_(shell: Shell, rest: str) -> None:
    """A breakpoint at a line of the text or of a source, a function, a label, or the K-th instruction after a label.
    With a condition it stops only where that holds: `b @loop if %i > 3`, also `if depth == 2` for one depth of frames.
    `break suspect` stops before each move that no correct compiler's output makes, forward and back."""
    first, _, kinds = rest.partition(" ")
    if first in ("suspect", "suspects"):
        add_suspicion_stop(shell, kinds.strip())
        return
    add_breakpoint(shell, rest, False)


@command("tbreak tb", "tbreak PLACE [if CONDITION]", "place", is_repeated=False)
def tbreak(shell: Shell, rest: str) -> None:
    """A breakpoint that is removed when it stops."""
    add_breakpoint(shell, rest, True)


@command("watch w", "watch %x | $f %x | $d | WIDTH ADDRESS | N ADDRESS [if CONDITION]", "watch", is_repeated=False)
def watch(shell: Shell, rest: str) -> None:
    """Stops where a value changes: %x of this frame alone, %x of any frame of $f, the item of data at $d or $d+8,
    memory of a WIDTH b h w l, or s d of floats, or a range of N bytes. A write of the same value is no change; on the
    stack bytes that are dead in between aren't either."""
    what, condition, text = with_condition(shell, rest)
    # gdb needs a word for what all watches of memory do here: they stay at the address.
    what = shell.sized(as_bytes(re.sub(r"^-l(?:ocation)? ", "", what)))
    words = what.split()
    if not words:
        raise Wrong("watch %TEMPORARY, $DATA, $FUNCTION %TEMPORARY, WIDTH ADDRESS or N ADDRESS was expected")
    if len(words) == 2 and words[0].startswith("$") and words[1].startswith("%"):
        stop = Stop(what, [f"watch {what}"], [])
    elif len(words) == 1 and words[0].startswith("%"):
        stop = frame_watch(shell, words[0])
    elif words[0] in BITS or words[0].isdigit():
        stop = memory_watch(shell, words[0], what.partition(" ")[2])
    else:
        raise Wrong(f"{words[0]}: %TEMPORARY, $DATA, $FUNCTION %TEMPORARY, a width (b, h, w, l, s, d) or a number of "
                    "bytes was expected")
    stop.condition, stop.condition_text = condition, text
    if stop.memory:
        # The address that is watched, whatever the temporaries in it hold when the line is typed again.
        address = stop.memory.address
        stop.typed = f"watch {words[0]} {shell.frames.names.of(address) or address}" + (f" if {text}" if text else "")
    elif not stop.frame:
        stop.typed = f"watch {rest}"
    shell.say(f"watch {shell.runs.add(stop)}")


def frame_watch(shell: Shell, name: str) -> Stop:
    """A watch of a temporary of the selected frame."""
    value, width = shell.temporary(name)
    frames = shell.session.frames()[shell.session.selected:]
    function = frames[0].function
    back = frames[1] if len(frames) > 1 else None
    first = shell.session.program.functions[function].first
    stop = Stop(f"{name} of this call of {function}", [f"watch {function} {name}"], [])
    entry = shell.frames.entry(shell.frames.frame(shell.session.timeline, shell.session.selected)).position
    stop.frame = FrameWatch(name, function, len(frames), back, first, entry, value, width=width)
    return stop


def memory_watch(shell: Shell, width: str, text: str) -> Stop:
    """A watch of memory, by as many of the debugger's as it takes."""
    if not text.strip():
        raise Wrong(f"watch {width}: an address was expected")
    address, count = shell.number(text), BITS.get(width, 0) // 8 or int(width)
    if not 1 <= count <= MOST_RANGE:
        raise Wrong(f"{width}: from 1 to {MOST_RANGE} bytes were expected")
    # The number of a frame is that of one state, and the watch stays.
    name = FRAME.sub("", shell.frames.name(address, "l", shell.session.timeline) or str(address))
    if width in BITS:
        lines = [f"watch {FLOATS.get(width, width)} {address_word(shell, text.strip())}"]
    else:
        lines, at = [], 0
        while at < count:
            letter, size = next(piece for piece in PIECES if piece[1] <= count - at)
            lines.append(f"watch {letter} {address + at}")
            at += size
    return Stop(f"{width} {name}" if width in BITS else f"{count} bytes from {name}", lines, [],
                memory=MemoryWatch(address, count, width=width))


def conditional(shell: Shell, text: str) -> Stop:
    """A stop that may have a condition or a count."""
    stop = stop_named(shell, text)
    if isinstance(stop, SuspicionStop):
        raise Refused(f"stop {stop.number} has no condition and no count: it stops before each suspicious move")
    return stop


def stop_named(shell: Shell, text: str) -> Stop:
    known = {str(stop.number): stop for stop in shell.runs.stops}
    if text == "last" and known:
        # For lines of a file, which don't know the numbers.
        return shell.runs.stops[-1]
    if text not in known:
        raise Wrong(f"{text or 'nothing'}: the number of a stop was expected; there are: {', '.join(known) or 'none'}")
    return known[text]


def stops_named(shell: Shell, rest: str) -> list[Stop]:
    """Stops by their numbers and ranges of them, also after a word of gdb; without a number all."""
    words = rest.removeprefix("breakpoints").split()
    return [stop for word in words for stop in stops_of(shell, word)] or list(shell.runs.stops)


def stops_of(shell: Shell, word: str) -> list[Stop]:
    """The stop of a number, or those of a range as 2-5, which has at least one."""
    typed = RANGE.fullmatch(word)
    found = [stop for stop in shell.runs.stops
             if typed and isinstance(stop.number, int) and int(typed[1]) <= stop.number <= int(typed[2])]
    return found or [stop_named(shell, word)]


@command("delete d", "delete [N ..] | delete checkpoint NAME | delete display N", is_repeated=False)
def delete(shell: Shell, rest: str) -> None:
    """Takes stops away by their numbers, or a range of them as 2-5; without one, all. `delete checkpoint NAME` takes a
    checkpoint away, and `delete display N` a display."""
    word, _, name = rest.partition(" ")
    if word in ("checkpoint", "checkpoints", "bookmark"):
        delete_checkpoint(shell, name.strip())
        return
    if word == "display":
        COMMANDS["undisplay"].call(shell, name.strip())
        return
    for stop in stops_named(shell, rest):
        shell.runs.delete(stop)
        shell.say(f"deleted {stop.number}")


def delete_checkpoint(shell: Shell, name: str) -> None:
    if name and name not in shell.checkpoints:
        raise Wrong(no_checkpoint(shell, name))
    for each in [name] if name else list(shell.checkpoints):
        del shell.checkpoints[each]
        shell.say(f"deleted checkpoint {each}")


@command("stops", "stops", is_repeated=False)
def stops(shell: Shell, rest: str) -> None:
    """Lists the stops, with their conditions and how often they stopped."""
    shell.say(*map(str, shell.runs.stops) if shell.runs.stops else ["none"])


@command("ignore", "ignore N COUNT", is_repeated=False)
def ignore(shell: Shell, rest: str) -> None:
    """Passes a stop over the next COUNT times that it would stop."""
    number, _, count = rest.partition(" ")
    stop = conditional(shell, number)
    value = shell.whole(count)
    if not 0 <= value < 1 << 32:
        raise Wrong(f"{count}: a number from 0 was expected")
    stop.ignored = value
    shell.say(str(stop))


@command("condition", "condition N [CONDITION]", is_repeated=False)
def condition(shell: Shell, rest: str) -> None:
    """Gives a stop a condition, or takes it away."""
    number, _, text = rest.partition(" ")
    stop = conditional(shell, number)
    stop.condition = shell.parsed(text) if text.strip() else None
    stop.condition_text = text.strip()
    if stop.typed:
        what = stop.typed.partition(" if ")[0]
        stop.typed = f"{what} if {stop.condition_text}" if stop.condition else what
    shell.say(str(stop))
