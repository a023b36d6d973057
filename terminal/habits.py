"""Commands that users of gdb type by habit: runs to a place, disabled stops, commands at a stop, files of commands."""
from __future__ import annotations

import pathlib

from .elsewhere import names_meant
from .expressions import Unset, Wrong
from .moving import ARGUMENTS
from .runs import Places
from .scratch import Refused
from .shell import Shell, command
from .stopping import place_of, stop_named, stops_named
from .timeline import Timeline


@command("start", "start", is_repeated=False)
def start(shell: Shell, rest: str) -> None:
    """Goes to the start of the run, and stays there. Stops stay; pokes are taken back."""
    if rest:
        raise Wrong(f"{rest}: nothing more was expected; {ARGUMENTS}")
    shell.session.go(Timeline())
    shell.show()


@command("advance adv", "advance PLACE", "place", is_repeated=False)
def advance(shell: Shell, rest: str) -> None:
    """Runs to a place, in whichever frame, or to a stop before it."""
    if not rest:
        raise Wrong("advance PLACE was expected")
    shell.outcome(shell.runs.run(True, Places(shell.session, [place_of(shell, rest)])))


@command("until u", "until [PLACE]", "place")
def until(shell: Shell, rest: str) -> None:
    """Runs on to a line of this frame that comes after this one in the text: out of a loop, at its jump back. With a
    place it runs there. In both cases it ends where the frame is over."""
    session = shell.session
    frames = session.frames()
    if session.place.end or not frames:
        raise Refused("the run is over; `back` and `reverse` go back, `run` begins again")
    behind = place_behind_frame(shell)
    if rest:
        shell.outcome(shell.runs.run(True, Places(session, [place_of(shell, rest)], behind)))
        return
    here = frames[0]
    line = session.program.line_of(here.function, here.label, here.index)
    outcome = shell.runs.next()
    if not (outcome.reason or outcome.refusal) and is_behind(shell, here.function, line):
        outcome = shell.runs.run(True, Places(session, later_blocks(shell, here.function, line), behind))
    shell.outcome(outcome)


def place_behind_frame(shell: Shell) -> tuple[tuple[str, str, int], int] | None:
    """Where the caller of the innermost frame goes on, and how many frames there are then; None for the outermost
    frame."""
    frames = shell.session.frames()
    if len(frames) < 2:
        return None
    return (frames[1].function, frames[1].label, frames[1].index), len(frames) - 1


def is_behind(shell: Shell, function: str, line: int) -> bool:
    """Whether the run stands in that function, at that line or one before it: it jumped back."""
    place = shell.session.place
    return place.function == function and \
        shell.session.program.line_of(place.function, place.label, place.index) <= line


def later_blocks(shell: Shell, function: str, line: int) -> list[tuple[str, str, int]]:
    """The beginnings of the blocks of a function whose first instruction is after a line."""
    blocks = shell.session.program.functions[function].blocks.values()
    return [(function, block.label, 0) for block in blocks if block.body[0].line > line]


@command("disas disassemble", "disas [$f]", "place", is_repeated=False)
def disas(shell: Shell, rest: str) -> None:
    """Shows the whole text of a function, by default that of the selected frame."""
    program, frames, rest = shell.session.program, shell.session.frames(), shell.function_named(rest)
    if rest and rest not in program.functions:
        raise Wrong(f"{rest}: a function was expected, of {names_meant(rest, list(program.functions))}")
    if not rest and not frames:
        raise Refused("no frame: the run is over; `disas $f` shows a function")
    selected = frames[shell.session.selected] if frames else None
    name = rest or (selected.function if selected else "")
    function, here = program.functions[name], 0
    if selected and selected.function == name:
        # A caller stands behind its call.
        here = program.line_of(name, selected.label, selected.index - (shell.session.selected > 0))
    last = max(instruction.line for _, _, instruction in function.places())
    shell.say(*shell.screen.text_lines(function.line, last + 1, here, []))


@command("disable", "disable [N ..]", is_repeated=False)
def disable(shell: Shell, rest: str) -> None:
    """Switches stops off by their numbers; without one, all. `enable` switches them on again."""
    for stop in stops_named(shell, rest):
        shell.runs.switch_off(stop)
        shell.say(str(stop))


@command("enable", "enable [N ..]", is_repeated=False)
def enable(shell: Shell, rest: str) -> None:
    """Switches stops on again by their numbers; without one, all."""
    for stop in stops_named(shell, rest):
        shell.runs.switch_on(stop)
        shell.say(str(stop))


@command("commands", "commands [N]", is_repeated=False)
def commands(shell: Shell, rest: str) -> None:
    """Takes lines up to `end`, and types them each time that stop N stops, or the last one that was set. Without lines,
    none are typed any more."""
    if not rest and not shell.runs.stops:
        raise Refused("there is no stop yet")
    stop = stop_named(shell, rest) if rest else shell.runs.stops[-1]
    stop.commands = []
    shell.gathering = stop.commands


@command("source", "source FILE", "file", is_repeated=False)
def source(shell: Shell, rest: str) -> None:
    """Types the lines of a file, as if they were typed here. Empty lines, and those that begin with #, are passed
    over."""
    if not rest:
        raise Wrong("source FILE was expected")
    try:
        lines = pathlib.Path(rest).read_text(errors="replace").splitlines()
    except OSError as error:
        raise Refused(f"{rest}: {error.strerror}") from None
    try:
        for number, line in enumerate(lines, 1):
            if line.strip() and not line.lstrip().startswith("#"):
                shell.do_nested([line])
    except (Wrong, Unset, Refused) as error:
        raise Refused(f"{rest}:{number}: {error}") from None
    finally:
        shell.gathering = None


def save_stops(shell: Shell, file: str) -> None:
    """Writes lines that set the stops again, for `source`."""
    if not file:
        raise Wrong("save breakpoints FILE was expected")
    lines, left = [], []
    for stop in shell.runs.stops:
        if not stop.typed:
            left.append(stop)
            continue
        lines.append(stop.typed)
        lines += [f"ignore last {stop.ignored}"] * bool(stop.ignored)
        lines += [] if stop.is_on else ["disable last"]
        lines += ["commands", *stop.commands, "end"] if stop.commands else []
    try:
        pathlib.Path(file).write_text("".join(line + "\n" for line in lines))
    except OSError as error:
        raise Refused(f"{file}: {error.strerror}") from None
    count = len(shell.runs.stops) - len(left)
    shell.say(f"{count} {'stop' if count == 1 else 'stops'}; `source {file}` sets them again",
              *(f"left out, as it is about one frame: {stop}" for stop in left))
