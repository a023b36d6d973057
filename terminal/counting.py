"""How often the lines of a text ran in the whole run, as the debugger's `counts` tells it."""
from __future__ import annotations

from collections import Counter
from typing import Iterator

from .answers import read_count
from .asking import counted, told_bounds, whole_run
from .elsewhere import names_meant
from .expressions import Wrong
from .scratch import Scratch
from .screen import readable
from .shell import Shell, command
from .text import Function
from .timeline import Timeline

Site = tuple[str, str, int]
MOST_FUNCTIONS = 40
RUNTIME = "the runtime"


@command("counts", "counts [$f]", "place")
def counts(shell: Shell, rest: str) -> None:
    """Shows how often each line of a function ran in the whole run: up to here, and on to its end. Alone it shows how
    many moves were made in each function, and how often it was entered. It doesn't move the session."""
    program = shell.session.program
    name = shell.function_named(rest) if rest else ""
    if name and name not in program.functions:
        raise Wrong(f"{rest}: a function was expected; there are {names_meant(rest, list(program.functions))}")
    run = whole_run(shell)
    found = moves_by_place(shell.session.scratch, run)
    if name:
        function = program.functions[name]
        shell.say(*lines_told(shell, function, found))
        shell.say(f"{name}: {told(function, found)} {told_bounds(shell, run)}")
    else:
        shell.say(*functions_told(shell, found))
        shell.say(f"{counted(found.total(), 'move')} {told_bounds(shell, run)}")


def moves_by_place(scratch: Scratch, run: Timeline) -> Counter[Site]:
    """How many moves of a run were made from each place."""
    found: Counter[Site] = Counter()
    for answer in scratch.along(run.at(0), run, lambda moves: f"counts {moves}"):
        for count, place in filter(None, map(read_count, answer)):
            found[place.function, place.label, place.index] += count
    return found


def moves_of(function: Function, found: Counter[Site]) -> int:
    return sum(found[function.name, label, index] for label, index, _ in function.places() if index >= 0)


def told(function: Function, found: Counter[Site]) -> str:
    # No jump leads to the first block.
    entered = found[function.name, function.first, 0]
    return f"{counted(moves_of(function, found), 'move')}, entered {counted(entered, 'time')}"


def lines_told(shell: Shell, function: Function, found: Counter[Site]) -> Iterator[str]:
    """The lines of a function behind how often each was done: those of its source if there is one. Of several
    instructions in a line the one that was done most often counts. Labels and phis are part of the jumps that lead
    there."""
    at = {instruction.line: found[function.name, label, index]
          for label, index, instruction in function.places() if index >= 0}
    source = source_of(shell, at)
    if source:
        file, at = source
        yield file
    texts = shell.screen.map.read(source[0]) if source else shell.session.program.lines
    first, last = min(at) if source else function.line, max(at)
    width, digits = len(str(max(at.values()))), len(str(last))
    for number in range(first, last + 1):
        count = str(at[number]) if number in at else ""
        yield shell.screen.cut(f"{count:>{width}}  {number:{digits}}  {readable(texts[number - 1])}")


def source_of(shell: Shell, at: dict[int, int]) -> tuple[str, dict[int, int]] | None:
    """The source that most instructions come from, or the text that was lowered, if it is found; and its lines with the
    greatest count of each."""
    origins = {line: shell.screen.map.origins(line) for line in at}
    sources = {line: shell.screen.map.source(line) for line in at}
    files = Counter(source.file for source in sources.values() if source) or \
        Counter(found[-1].file for found in origins.values() if found)
    if not files:
        return None
    file, lines = files.most_common(1)[0][0], Counter[int]()
    for line, count in at.items():
        for origin in origins[line]:
            if origin.file == file:
                lines[origin.number] = max(count, lines[origin.number])
    return (file, lines) if len(shell.screen.map.read(file)) >= max(lines) else None


def functions_told(shell: Shell, found: Counter[Site]) -> Iterator[str]:
    """The functions that ran, the one with most moves first, with those of the runtime as one."""
    moves: Counter[str] = Counter()
    for function in shell.session.program.functions.values():
        own = shell.lowered.is_own(function.name)
        moves[function.name if own else RUNTIME] += moves_of(function, found)
    ran = [(name, count) for name, count in moves.most_common() if count]
    width = len(str(max(moves.values(), default=0)))
    for name, count in ran[:MOST_FUNCTIONS]:
        share = f"{100 * count / found.total():5.1f}%"
        entered = found[name, shell.session.program.functions[name].first, 0] if name != RUNTIME else 0
        yield f"{count:>{width}}  {share}  {name}" + (f", entered {counted(entered, 'time')}" if entered else "")
    if len(ran) > MOST_FUNCTIONS:
        yield f"and {len(ran) - MOST_FUNCTIONS} others"
