"""Lines of a source: breakpoints at them, what is around them, and moves from one to the next."""
from __future__ import annotations

import os
import pathlib
import re
import shlex
from dataclasses import replace
from typing import Callable

from .answers import Place
from .expressions import Wrong
from .moving import repeated
from .runs import Outcome
from .scratch import Refused
from .screen import readable
from .shell import Shell, command
from .sourcemap import Line

# A place of a source as it is typed: FILE:LINE, and lines of it: FILE:LINE,LINE.
TYPED = re.compile(r"([^\s$@%][^\s]*):(\d+)")
TYPED_LINES = re.compile(r"([^\s$@%][^\s]*):(\d+,?\d*|,\d+)")
NUMBERED = re.compile(r"(?:\d+,?\d*|,\d+|-)?")
LISTED = 11
MOST_OF_A_LINE = 1_000_000


def place_in_source(shell: Shell, text: str) -> tuple[str, str, int] | None:
    """The first place of a line of a source that is typed as FILE:LINE, or None where it isn't typed so."""
    typed = TYPED.fullmatch(text)
    if not typed:
        return None
    found = shell.screen.map.lines_from(typed.group(1), int(typed.group(2)))
    if not found and is_text(shell, typed.group(1)):
        return shell.session.program.place_at(int(typed.group(2)))
    if not found:
        files = ", ".join(shell.screen.map.files()) or "none, since the text has no map with debug lines"
        raise Wrong(f"{text}: no code at that line or behind it; the sources are: {files}"[:240])
    program = shell.session.program
    own = [program.place_at(line) for line in found[1] if program.place_at(line)]
    exact = [place for place, line in zip(own, found[1]) if place and program.line_of(*place) == line]
    return next(iter(exact or own), None)


def is_text(shell: Shell, file: str) -> bool:
    """Whether a file is the text that runs, which isn't one that was lowered."""
    name = shell.named[0]
    return name == file or name.endswith("/" + file)


def source_here(shell: Shell, place: Place | None = None) -> Line | None:
    """The line of the source at which the innermost frame stands, or that of a place."""
    frames = shell.session.frames() if place is None else [place]
    if not frames or not frames[0].function:
        return None
    return shell.screen.map.source(shell.session.program.line_of(frames[0].function, frames[0].label, frames[0].index))


def source_selected(shell: Shell) -> Line | None:
    """The line of the source at which the selected frame stands; of a caller it is that of its call."""
    frames, selected = shell.session.frames(), shell.session.selected
    if not selected or not frames:
        return source_here(shell)
    return source_here(shell, replace(frames[selected], index=frames[selected].index - 1))


def source_lines(shell: Shell, file: str, first: int, last: int, marked: int) -> list[str]:
    """Lines of a source with their numbers; nothing where it isn't found."""
    lines = shell.screen.map.read(file)
    last = min(last, len(lines))
    digits = len(str(last))
    return [shell.screen.cut(f"{'>' if at == marked else ' '} {at:{digits}}  {readable(lines[at - 1])}")
            for at in range(max(first, 1), last + 1)]


def lines_listed(rest: str, line_of: Callable[[str], int], size: int, shown: tuple[int, int] | None,
                 here: int) -> tuple[int, int]:
    """The first and the last line that `list` shows for what was typed: around a line, from one on (`N,`), up to one
    (`,N`), from one to another (`N,N`), before those that were shown last (`-`), or behind them."""
    first, _, last = (part.strip() for part in rest.partition(","))
    if rest == "-":
        begin = (shown[0] if shown else here - size // 2) - size
        if begin + size < 2:
            raise Refused("the first line was shown already")
    elif first and last:
        return line_of(first), line_of(last)
    elif last:
        begin = line_of(last) - size + 1
    elif rest:
        begin = line_of(first or rest) - (0 if "," in rest else size // 2)
    else:
        begin = shown[1] + 1 if shown else here - size // 2
    return begin, begin + size - 1


def list_source(shell: Shell, rest: str) -> bool:
    """Shows lines of the source, where there is one; whether it did."""
    here, typed = source_selected(shell), TYPED_LINES.fullmatch(rest)
    if typed:
        found = shell.screen.map.lines_from(typed.group(1), 1)
        file, rest = found[0].file if found else typed.group(1), typed.group(2)
    elif here and NUMBERED.fullmatch(rest):
        file = here.file
    else:
        return False
    marked = here.number if here and here.file == file else 0
    shown = shell.line_listed[1:] if shell.line_listed and shell.line_listed[0] == file else None
    first, last = lines_listed(rest, int, LISTED, shown, here.number if here else 1)
    lines = source_lines(shell, file, first, last, marked)
    if not lines and typed:
        raise Refused(absent_told(shell, file))
    if not lines and file not in shell.told_absent and not shell.screen.map.read(file):
        shell.told_absent.add(file)
        shell.say(f"{absent_told(shell, file)}; this is the text")
    if lines:
        shell.say(file, *lines)
        shell.line_listed = (file, first, last)
    return bool(lines)


def absent_told(shell: Shell, file: str) -> str:
    """Why lines of a source can't be shown."""
    count = len(shell.screen.map.read(file))
    return f"{file}: the source has {count} lines" if count else \
        f"{file}: the source isn't found, or is empty; `directory DIR` says where sources are"


def source_told(shell: Shell, _rest: str) -> list[str]:
    sources, here = shell.screen.map, source_selected(shell)
    told = [f"here: {here.file}:{here.number}" if here else "here: no line of a source"]
    for file, count in sources.files().items():
        path = sources.path_of(file)
        where = "" if path == pathlib.Path(file) else f", found at {path}"
        told.append(f"{file}: {count} lines in the text" + (where if path else ", which isn't found"))
        if not path:
            told += [f"  looked for at {each}" for each in dict.fromkeys(sources.tried(file))]
            told.append("  `directory DIR` says where sources are")
    return told + [f"looked in first: {folder}" for folder in sources.folders]


@command("directory dir", "directory [DIR ..]", "file", is_repeated=False)
def directory(shell: Shell, rest: str) -> None:
    """Looks for sources in a folder first, by as much of their paths as is there: the end of a path, or the name alone,
    is enough. The folder that is named last goes before those named earlier. Without a folder, all are forgotten."""
    try:
        words = [part for word in shlex.split(rest) for part in word.split(os.pathsep) if part]
    except ValueError as error:
        raise Wrong(f"directory: {error}") from None
    named = [pathlib.Path(word).expanduser().absolute() for word in words]
    absent = [str(folder) for folder in named if not folder.is_dir()]
    if absent:
        raise Refused(f"{absent[0]}: no such folder")
    # Both runs of a comparison come of the same sources.
    for each in filter(None, (shell, shell.other)):
        each.screen.map.look_in(list(dict.fromkeys([*named, *each.screen.map.folders])) if named else [])
        each.told_absent.clear()
        each.list_anew()
    shell.say(*directory_told(shell))


def directory_told(shell: Shell) -> list[str]:
    """Where sources are looked for, and which aren't found there."""
    sources = shell.screen.map
    files = list(sources.files())
    if not files:
        return ["the text has no map with debug lines, so it has no sources"]
    absent = [file for file in files if not sources.path_of(file)]
    where = ", ".join(map(str, sources.folders)) + ", then at their paths" if sources.folders else "at their paths"
    found = f"{len(files) - len(absent)} of {len(files)} {'is' if len(files) == 1 else 'are'} found"
    return [f"sources are looked for in {where} and beside the text; {found}" if sources.folders else
            f"sources are looked for {where} and beside the text; {found}",
            *(f"  {file} isn't found" for file in absent)]


# Moves by lines of the source.

def goes_in(shell: Shell, index: int) -> bool:
    """Whether the instruction at an index of the block calls a function that has lines of a source."""
    place, program = shell.session.place, shell.session.program
    instruction = program.functions[place.function].at(place.label, index)
    called = program.called(instruction) if instruction.operation == "call" else None
    function = program.functions.get(called or "")
    return function is not None and shell.lowered.is_own(function.name) and \
        any(shell.screen.map.source(each.line) for _, _, each in function.places())


def is_over(shell: Shell, outcome: Outcome) -> bool:
    """Whether moves end for another reason than a line."""
    return bool(outcome.stop or outcome.refusal or outcome.reason or shell.session.place.end
                or shell.waiting.is_pressed)


def to_other_line(shell: Shell, move: Callable[[], Outcome]) -> Outcome:
    """Moves until the line of the source is another one, or the frame is."""
    begun, depth = source_here(shell), len(shell.session.frames())
    if not begun and not shell.screen.map.files():
        raise Refused("the text has no map with debug lines: `step` and `next` go by its own lines")
    for _ in range(MOST_OF_A_LINE):
        outcome = move()
        here = source_here(shell)
        if is_over(shell, outcome) or here and (here != begun or len(shell.session.frames()) != depth):
            return outcome
    return Outcome("a line of more than a million moves")


def to_beginning(shell: Shell, is_in: bool) -> tuple[Outcome, bool]:
    """Goes back to the first place of the line of the source, in the frame that is there, or in that of a call on the
    way if calls are gone into; whether that is another place."""
    line, depth, begun = source_here(shell), len(shell.session.frames()), shell.session.timeline
    while True:
        before = shell.session.timeline
        if is_in and is_behind_call(shell) and line_before(shell) == line:
            shell.session.move("back")
            return to_beginning(shell, is_in)[0], True
        outcome = shell.runs.back_over()
        if outcome.stop or outcome.reason:
            return outcome, True
        if outcome.refusal or source_here(shell) not in (line, None) or len(shell.session.frames()) != depth:
            shell.session.go(before)
            return Outcome(), before != begun


def back_by_line(shell: Shell, is_in: bool) -> Outcome:
    """Goes back to the beginning of the line, and from there to that of the line before."""
    if source_here(shell) and not shell.session.place.end:
        outcome, has_moved = to_beginning(shell, is_in)
        if has_moved:
            return outcome
    outcome = to_other_line(shell, (lambda: back_in(shell)) if is_in else shell.runs.back_over)
    return outcome if is_over(shell, outcome) else to_beginning(shell, is_in)[0]


def step_in(shell: Shell) -> Outcome:
    """A move into a function that has lines of a source, or over any other."""
    place = shell.session.place
    if not place.function or not goes_in(shell, place.index):
        return shell.runs.next()
    return Outcome(refusal=shell.session.move("step").refusal)


def is_behind_call(shell: Shell) -> bool:
    """Whether the move before ended a call of such a function."""
    place = shell.session.place
    return bool(place.function and place.index and goes_in(shell, place.index - 1))


def line_before(shell: Shell) -> Line | None:
    """The line of the source of the instruction before, in the same block."""
    place = shell.session.place
    return shell.screen.map.source(shell.session.program.line_of(place.function, place.label, place.index - 1))


def back_in(shell: Shell) -> Outcome:
    """The same back: into the end of such a function from after its call."""
    if not is_behind_call(shell):
        return shell.runs.back_over()
    return Outcome(refusal=shell.session.move("back").refusal)


@command("next-line nl", "next-line [N]", "expression")
def next_line(shell: Shell, rest: str) -> None:
    """Moves forward to the next line of the source, or N, and over calls. A stop inside a call ends it."""
    repeated(shell, rest, lambda: to_other_line(shell, shell.runs.next))


@command("step-line sl", "step-line [N]", "expression")
def step_line(shell: Shell, rest: str) -> None:
    """Moves forward to the next line of the source, or N, also into calls of functions that have lines of a source."""
    repeated(shell, rest, lambda: to_other_line(shell, lambda: step_in(shell)))


@command("reverse-next-line rnl", "reverse-next-line [N]", "expression")
def reverse_next_line(shell: Shell, rest: str) -> None:
    """Moves back to the beginning of the line of the source, and from there to that of the line before, or of N, over
    calls."""
    repeated(shell, rest, lambda: back_by_line(shell, False))


@command("reverse-step-line rsl", "reverse-step-line [N]", "expression")
def reverse_step_line(shell: Shell, rest: str) -> None:
    """Moves back to the beginning of the line of the source, and from there to that of the line before, or of N, also
    into calls from their end."""
    repeated(shell, rest, lambda: back_by_line(shell, True))
