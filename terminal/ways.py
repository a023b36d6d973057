"""The way that control took through a call, and why it didn't reach a block."""
from __future__ import annotations

from dataclasses import replace
from itertools import islice
from typing import Sequence

from .causes import ASKED, Cause
from .elsewhere import names_meant, no_label
from .expressions import Wrong
from .frames import steps_begun
from .levels import MOST_STOPS, begins, own_hits, stop_line
from .scratch import FAR, Refused
from .shell import Shell, command
from .text import Function
from .timeline import Timeline

# How many blocks a round of a loop has at most, for rounds to be told as one.
MOST_BLOCKS_IN_ROUND = 32
MOST_TOLD = 200
# How many blocks of a call are looked for at most, from the last one back.
MOST_BLOCKS = 4_000


@command("path", "path [$f]", "place", is_repeated=False)
def path(shell: Shell, rest: str) -> None:
    """Shows the blocks through which the call of the selected frame went up to here, with rounds of a loop as one line;
    of $f the innermost call of it, or the last one that is over."""
    function, at = call_of(shell, shell.function_named(rest.strip()))
    blocks = blocks_of(shell, function, at)
    rounds = folded([label for _, label in blocks])
    shown: list[str] = []
    number = 0
    for labels, times in rounds:
        shown.append(f"  #{blocks[number][0]}  {' '.join(labels)}" + (f"  x {times}" if times > 1 else ""))
        number += len(labels) * times
    if len(shown) > MOST_TOLD:
        shown[:-MOST_TOLD] = [f"  .. {len(shown) - MOST_TOLD} lines before are left out"]
    told = f"{len(blocks)} blocks" if len(blocks) > 1 else "1 block"
    # No jump leads to the first block, so that a way which begins in another one is the last part of a longer one.
    more = "" if blocks[0][1] == function.first else " and more, of which these are the last"
    shell.say(f"{function.name} went through {told}{more}, from #{blocks[0][0]} to #{at.position}", *shown)


def call_of(shell: Shell, name: str) -> tuple[Function, Timeline]:
    """A function, and the last state in which a call of it was the innermost frame."""
    session, functions = shell.session, shell.session.program.functions
    if name and name not in functions:
        raise Wrong(f"{name}: a function was expected, of {names_meant(name, list(functions))}")
    at = shell.frames.before_end(session.timeline)
    frames = shell.frames.where(at)
    index = session.selected if session.frames() else 0
    if name:
        index = next((index for index, frame in enumerate(frames) if frame.function == name), -1)
    if index < 0:
        return functions[name], last_call(shell, name, at)
    return functions[frames[index].function], shell.frames.frame(at, index)


def last_call(shell: Shell, name: str, at: Timeline) -> Timeline:
    """The last state before one in which a call of that function was about to return."""
    returns = [(name, label, index) for label, index, instruction in shell.session.program.functions[name].places()
               if instruction.operation == "ret"]
    lines = [stop_line(place) for place in returns[:MOST_STOPS]]
    hit = next(shell.session.scratch.go(at).hits(False, lines, most=1), None) if lines else None
    if hit is None or hit.stop is None:
        raise Refused(f"no call of {name} is over before #{at.position}, and none goes on")
    return at.at(hit.position)


def blocks_of(shell: Shell, function: Function, at: Timeline, most: int = MOST_BLOCKS) -> list[tuple[int, str]]:
    """The blocks through which a call went, each with the position at which it was entered, the first one first; of a
    long way the last ones."""
    labels = list(function.blocks)
    found: set[tuple[int, str]] = set()
    here = shell.frames.where(at)[0]
    if here.index == 0:
        found.add((at.position, here.label))
    # A run takes a bounded number of stops, of which some may be wanted to tell the calls of the function apart.
    size, low = MOST_STOPS // 2, 0
    for first in range(0, len(labels), size):
        places = [(label, 0) for label in labels[first:first + size]]
        hits = list(islice(own_hits(shell.session.program, shell.session.scratch, at, function.name, places),
                           most))
        found.update((position, place[0]) for position, place in hits)
        low = max(low, hits[-1][0]) if len(hits) == most else low
    # Behind a poke, a state stands at the place of the one before.
    return sorted(each for each in found if each[0] >= low and not at.poke_at(each[0] - 1))[-most:]


def folded(labels: Sequence[str]) -> list[tuple[list[str], int]]:
    """The same labels, where what comes several times in a row is one entry with its number. The shortest round
    counts."""
    found: list[tuple[list[str], int]] = []
    at = 0
    while at < len(labels):
        size, times = next(((size, times) for size in range(1, MOST_BLOCKS_IN_ROUND + 1)
                            if (times := repetitions(labels, at, size)) > 1), (1, 1))
        found.append((list(labels[at:at + size]), times))
        at += size * times
    return joined(found)


def repetitions(labels: Sequence[str], at: int, size: int) -> int:
    """How often the labels from one on, so many of them, come in a row."""
    times = 1
    while labels[at:at + size] == labels[at + size * times:at + size * (times + 1)] and at + size * times < len(labels):
        times += 1
    return times


def joined(rounds: list[tuple[list[str], int]]) -> list[tuple[list[str], int]]:
    """The same with what came once in one entry with what came once before."""
    found: list[tuple[list[str], int]] = []
    for labels, times in rounds:
        if times == 1 and found and found[-1][1] == 1:
            found[-1] = (found[-1][0] + labels, 1)
        else:
            found.append((labels, times))
    return found


def why_not(shell: Shell, label: str) -> Cause:
    """Each jump that could have led to a block of the selected frame's function, with the way that it took last."""
    frames = shell.session.frames()
    if not frames:
        raise Refused("the run is over; `back` goes into it, where a frame can be asked about")
    at = shell.frames.frame(shell.session.timeline, shell.session.selected)
    function = shell.session.program.functions[frames[shell.session.selected].function]
    # A label may be typed without its sigil, as a function may.
    label = f"@{label}" if f"@{label}" in function.blocks else label
    if label not in function.blocks:
        raise Wrong(no_label(function.name, list(function.blocks), label))
    jumps = [(block.label, len(block.body) - 1) for block in function.blocks.values() if label in block.body[-1].labels]
    if not jumps:
        return Cause(at, [f"no jump of {function.name} leads to {label}"])
    reached = last_times(shell, function, at, [*jumps, (label, 0)])
    here = shell.frames.where(at)[0]
    last = at.position if (here.label, here.index) == (label, 0) else reached.get((label, 0))
    came = steps_begun(at.at(last)) if last is not None else None
    told = f"control came to {label} at #{came}; since then it could have by" if came is not None else \
        f"control didn't come to {label} in this call of {function.name}; it could have by"
    cause, when = Cause(at, [told]), "in this call" if came is None else "since then"
    for place in jumps:
        is_told = reached.get(place, -1) >= (came or 0)
        tell_jump(shell, cause, function, at.at(reached[place]) if is_told else None, place, when)
    return cause


def last_times(shell: Shell, function: Function, at: Timeline, places: list[tuple[str, int]],
               far: int = FAR) -> dict[tuple[str, int], int]:
    """For each place of a call, the last position before this one at which it stood there, if it did.

    What isn't found in so many moves back is first looked for from the start on: there a run forward tells sooner that
    no call came to a place than a run back."""
    found: dict[tuple[str, int], int] = {}
    program, scratch = shell.session.program, shell.session.scratch
    if begins(program, scratch, at, function.name):
        return found
    for first in range(0, len(places), MOST_STOPS // 2):
        left, there = places[first:first + MOST_STOPS // 2], at
        last = None if at.pokes else at.position - far
        while left:
            # What is found isn't stopped at any more: a round of a loop may come to it often.
            hits = own_hits(program, scratch, there, function.name, left, last)
            hit = next((hit for hit in hits if hit[1] in left or not at.pokes), None)
            if hit and hit[1] in left:
                found[hit[1]], there = hit[0], at.at(hit[0])
                left = [place for place in left if place != hit[1]]
            elif hit or last is None or last <= 0:
                break
            else:
                left, last = came_to(shell, function, at, left), None
    return found


def came_to(shell: Shell, function: Function, at: Timeline, places: list[tuple[str, int]]) -> list[tuple[str, int]]:
    """The places of a function that any call of it reached before a state after which there are no pokes."""
    there = at.at(0)
    start = shell.session.scratch.go(there).where()[0]
    # Where the run begins it doesn't stop.
    found = [place for place in places if (start.function, start.label, start.index) == (function.name, *place)]
    left = [place for place in places if place not in found]
    while left:
        lines = [stop_line((function.name, *place)) for place in left]
        hit = next(shell.session.scratch.go(there).hits(True, lines, last=at.position), None)
        if hit is None or hit.stop is None or hit.position >= at.position:
            break
        place, there = left[hit.stop], at.at(hit.position)
        found.append(place)
        left = [each for each in left if each != place]
    return found


def tell_jump(shell: Shell, cause: Cause, function: Function, there: Timeline | None, place: tuple[str, int],
              when: str) -> None:
    """Adds a jump to what is told, with the value by which it went another way, which can be asked about; of one that
    wasn't made, that it wasn't."""
    block, index = place
    jump = function.at(block, index)
    if there is None:
        cause.lines.append(
            f"  line {jump.line}: {jump.written()}  of {block}, which control didn't come to {when}")
        return
    causes = shell.causes
    cause.lines.append(causes.line_told(there, *causes.innermost(there)))
    taken = shell.session.scratch.go(there.at(there.position)).ask("step 1", "back 1")[0][-1].split()[2]
    condition = jump.operands[0].text if jump.operands else ""
    if not condition.startswith("%"):
        cause.questions.append(causes.control(there, causes.innermost(there)[0]))
    else:
        cause.questions.append(replace(causes.temporary(condition, there), note=f"so it went to {taken}"))
    cause.lines.append(ASKED)
