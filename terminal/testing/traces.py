"""What set each temporary and each byte, worked out along a run, move by move.

The front end finds the same by going back to breakpoints and watches. Here nothing is searched: the frames are kept
along the run, and each move notes what it set.
"""
from __future__ import annotations

import random
from dataclasses import dataclass
from typing import Callable

from check.shadow import Object
from terminal.answers import Place, read_place, read_value
from terminal.causes import Question
from terminal.expressions import parse
from terminal.holds import Held, Readings, forward, held_spans
from terminal.pipe import Pipe
from terminal.scratch import FAR, SLICE, Launch, frames_of
from terminal.shell import Shell
from terminal.suspecting import followed
from terminal.text import ALLOCATIONS, DATA, JUMPS, LOADED, STORED, Instruction, Program
from terminal.timeline import Timeline
from terminal.values import is_stack
from terminal.waiting import Waiting
from terminal.ways import blocks_of, last_times

from .soak import QuietShell

MOST_MOVES = 700
MOST_LISTED = 100


@dataclass
class State:
    """A state of the run: its frames, the values of the innermost one, and what set each thing up to here."""
    frames: list[Place]
    values: dict[str, int | None]
    setters: dict[str, int]
    writers: int


@dataclass
class Trace:
    """The states of a run, and each write to memory in turn; a state knows how many were made up to it."""
    states: list[State]
    writes: list[tuple[range, int]]

    def writer(self, byte: int, state: State) -> int:
        """The position of the last move up to a state that wrote a byte, or -1."""
        return next((position for span, position in reversed(self.writes[:state.writers]) if byte in span), -1)


Frame = dict[str, int]


def trace_of(debugger: str, file: str, program: Program) -> Trace:
    """A run's first moves."""
    pipe = Pipe([debugger, file])
    answers = pipe.ask(*["where", "temps", "step"] * MOST_MOVES)
    pipe.close()
    stack: list[Frame] = [{}]
    trace = Trace([], [])
    for at in range(0, len(answers), 3):
        frames = frames_of(answers[at])
        values = {line.split(" ")[0]: read_value(line) for line in answers[at + 1] if line[:1] == "%"}
        if trace.states:
            stack = moved(program, trace, frames, stack, values)
        if not frames:
            break
        trace.states.append(State(frames, values, dict(stack[-1]), len(trace.writes)))
        if answers[at + 2][0].startswith("no: ") or read_place(answers[at + 2][0]).end:
            break
    return trace


def moved(program: Program, trace: Trace, frames: list[Place], stack: list[Frame],
          values: dict[str, int | None]) -> list[Frame]:
    """Notes what the move after the last state has set; gives the frames after it."""
    before, position = trace.states[-1], len(trace.states) - 1
    place = before.frames[0]
    function = program.functions[place.function]
    instruction = function.at(place.label, place.index)
    if len(frames) > len(before.frames):
        return [*stack, {name: position for _, name in program.functions[frames[0].function].parameters}]
    if len(frames) < len(before.frames):
        stack = stack[:-1]
        if frames:
            caller = program.functions[frames[0].function].at(frames[0].label, frames[0].index - 1)
            note(stack[-1], caller.result, position)
        return stack
    if instruction.operation in JUMPS:
        for phi in function.blocks[frames[0].label].phis:
            note(stack[-1], phi.result, position)
    else:
        note(stack[-1], instruction.result, position)
    written = bytes_written(program, instruction, before.values, values)
    if written:
        trace.writes.append((written, position))
    return stack


def note(frame: Frame, name: str | None, position: int) -> None:
    if name:
        frame[name] = position


def bytes_written(program: Program, instruction: Instruction, before: dict[str, int | None],
                  after: dict[str, int | None]) -> range:
    if instruction.operation in ALLOCATIONS:
        text = instruction.operands[0].text
        begin, taken = after[instruction.result or ""], before.get(text)
        assert begin is not None
        return range(begin, begin + (int(text) if taken is None else taken))
    size = STORED.get(instruction.operation) or (instruction.count if instruction.operation == "blit" else 0)
    if not size:
        return range(0)
    text = instruction.operands[1].text
    begin = address_of(program, before, text)
    return range(begin, begin + size)


def address_of(program: Program, values: dict[str, int | None], text: str) -> int:
    """That of an operand which a move reads or writes through: it is set."""
    value = values[text] if text in values else program.addresses[text]
    assert value is not None
    return value


def setter_faults(debugger: str, file: str, seed: int, questions: int) -> list[str]:
    """Where `why` goes to another move than the one that set a temporary, or the bytes that a load reads."""
    shell, trace, chosen = begun(debugger, file, seed)
    try:
        found = []
        for _ in range(questions):
            position = chosen.randrange(len(trace.states))
            found.append(temporary_fault(shell, trace.states[position], position, chosen))
            found.append(memory_fault(shell, trace, position))
        return [fault for fault in found if fault]
    finally:
        shell.session.close()


def temporary_fault(shell: Shell, state: State, position: int, chosen: random.Random) -> str | None:
    if not state.values:
        return None
    name = chosen.choice(sorted(state.values))
    at = Timeline(position)
    cause = shell.causes.of(shell.causes.temporary(name, at))
    is_unset = state.values[name] is None
    if name not in state.setters:
        # A parameter of the first frame comes from the command line, and what is unset from nowhere.
        well = is_unset == (f"{name} is unset" in cause.lines[0]) or cause.at.position == 0
        return None if well else f"{name} at #{position}: {cause.lines}"
    wanted = state.setters[name]
    return None if cause.at.position == wanted else f"{name} at #{position}: #{cause.at.position} and not #{wanted}"


def memory_fault(shell: Shell, trace: Trace, position: int) -> str | None:
    """Of the bytes that are going to be read: the latest of the moves that wrote one of them."""
    state = trace.states[position]
    place = state.frames[0]
    instruction = shell.session.program.functions[place.function].at(place.label, place.index)
    size = LOADED.get(instruction.operation)
    if not size:
        return None
    text = instruction.operands[0].text
    address = address_of(shell.session.program, state.values, text)
    if None in shell.session.scratch.go(Timeline(position)).memory(address, size):
        # The load is a fault, and nothing has set dead bytes.
        return None
    cause = shell.causes.of(Question("memory", Timeline(position), "it", address=address, count=size))
    wanted = max(trace.writer(address + offset, state) for offset in range(size))
    if wanted < 0:
        return None if "so since the start" in cause.lines[-1] else f"{address} at #{position}: {cause.lines}"
    return None if cause.at.position == wanted else f"{address} at #{position}: #{cause.at.position} and not #{wanted}"


def origin_faults(debugger: str, file: str, seed: int, questions: int) -> list[str]:
    """Where an address on the stack isn't told to be of a frame that is over, with its slot and its end, as the shadow
    of the run says that it is (check/following.py), which follows each address from its alloc on."""
    shell, trace, chosen = begun(debugger, file, seed)
    try:
        return [fault for _ in range(questions)
                for fault in origins_at(shell, trace, chosen.randrange(len(trace.states)))]
    finally:
        shell.session.close()


def origins_at(shell: Shell, trace: Trace, position: int) -> list[str]:
    state, at = trace.states[position], Timeline(position)
    on_stack = {name: value for name, value in state.values.items() if value is not None and is_stack(value)}
    if not on_stack:
        return []
    shadows, found = followed(shell, at, position, frozenset())[0].frames[-1].shadows, []
    for name, value in on_stack.items():
        made = shadows[name].made
        wanted = None
        if isinstance(made, Object) and made.kind == "slot" and made.died is not None:
            # A move from the position at which a frame returned makes the next state, in which it is over.
            wanted = (made.name, value - made.address, made.died + 1)
        over = shell.causes.origins.over(value, at, name)
        given = (f"{over.function} {over.name}", over.offset, over.position) if over else None
        if wanted != given:
            found.append(f"{name} at #{position}: {given} and not {wanted}")
    return found


def access_faults(debugger: str, file: str, seed: int, questions: int) -> list[str]:
    """Where the stores and loads that are found of some bytes aren't those of the run."""
    shell, trace, chosen = begun(debugger, file, seed)
    try:
        program, run = shell.session.program, Timeline(len(trace.states) - 1)
        stores = touched(program, trace, True)
        loads = touched(program, trace, False)
        found = []
        for _ in range(questions):
            for is_write, moves in ((True, stores), (False, loads)):
                if moves:
                    byte = chosen.choice(moves)[0].start
                    wanted = [position for span, position in moves if byte in span]
                    survey = shell.causes.accesses.survey(is_write, run, byte, 1, 0, len(moves) + 1)
                    given = [access.position for access in survey.found]
                    found.append(None if given == wanted else f"byte {byte}: {given} and not {wanted}")
        return [fault for fault in found if fault]
    finally:
        shell.session.close()


def touched(program: Program, trace: Trace, is_write: bool) -> list[tuple[range, int]]:
    """The bytes that each move wrote or read by a store, a load or a blit, but for the last state's."""
    found = []
    for position, state in enumerate(trace.states[:-1]):
        place = state.frames[0]
        instruction = program.functions[place.function].at(place.label, place.index)
        size = (STORED if is_write else LOADED).get(instruction.operation)
        if instruction.operation == "blit":
            size = instruction.count
        if size:
            text = instruction.operands[1 if is_write else 0].text
            begin = address_of(program, state.values, text)
            found.append((range(begin, begin + size), position))
    return found


def condition_faults(debugger: str, file: str, seed: int, questions: int) -> list[str]:
    """Where the positions at which a temporary has a value aren't those of the run."""
    shell, trace, chosen = begun(debugger, file, seed)
    try:
        found = []
        for _ in range(questions):
            position = chosen.randrange(len(trace.states))
            state = trace.states[position]
            values = {name: value for name, value in state.values.items() if value is not None}
            if values:
                name = chosen.choice(sorted(values))
                function = state.frames[0].function
                node = parse(f"u({name}) == {values[name]}")
                wanted = spans_of(trace, function, name, values[name])
                run, stops = Timeline(len(trace.states) - 1), [f"watch {function} {name}"]
                for find, more in ways_to_find(shell, function):
                    spans, _ = find(Readings(shell, node, [*more, f"print {name}"], function, run), stops)
                    found.append(None if spans == wanted else
                                 f"{name} of {function}, {find.__name__}: {spans} and not {wanted}")
        return [fault for fault in found if fault]
    finally:
        shell.session.close()


def ways_to_find(shell: Shell, function: str) -> list[tuple[Callable[[Readings, list[str]], tuple[list[Held], str]],
                                                            list[str]]]:
    """How the spans of a condition are found, and what is asked besides."""
    back = (held_spans, ["where"])
    return [back] if function in shell.session.program.again else [back, (forward, list[str]())]


def spans_of(trace: Trace, function: str, name: str, value: int) -> list[tuple[int, int | None]]:
    """Where a temporary of the innermost frame of a function has a value, state by state."""
    spans: list[tuple[int, int | None]] = []
    begin: int | None = None
    live: list[tuple[str, dict[str, int | None]]] = []
    unset: dict[str, int | None] = {}
    for position, state in enumerate(trace.states):
        live = live[:len(state.frames) - 1] + [(state.frames[0].function, state.values)]
        values = next((values for owner, values in reversed(live) if owner == function), unset)
        if values.get(name) == value and begin is None:
            begin = position
        elif values.get(name) != value and begin is not None:
            spans.append((begin, position))
            begin = None
    return spans + ([(begin, None)] if begin is not None else [])


def way_faults(debugger: str, file: str, seed: int, questions: int) -> list[str]:
    """Where `path` tells other blocks of a call than it went through, also where the call has just begun; and where
    `why not` has other last times at its blocks and jumps, of a run in slices of five moves."""
    shell, trace, chosen = begun(debugger, file, seed, 5)
    try:
        found: list[str | None] = []
        begins = [position for position, state in enumerate(trace.states) if state.frames[0].index == 0]
        for _ in range(questions):
            position = chosen.choice(chosen.choice((begins, range(len(trace.states)))))
            function = shell.session.program.functions[trace.states[position].frames[0].function]
            told, wanted = blocks_of(shell, function, Timeline(position)), way_of(trace, position)
            found.append(None if told == wanted else f"the way to #{position} is {told} and not {wanted}")
            places = [(block.label, index) for block in function.blocks.values() for index in (0, len(block.body) - 1)]
            far = chosen.choice((10, FAR))
            times = last_times(shell, function, Timeline(position), list(dict.fromkeys(places)), far)
            before = times_of(trace, position, places)
            found.append(None if times == before else f"before #{position} it stood at {times} and not at {before}")
        return [fault for fault in found if fault]
    finally:
        shell.session.close()


def times_of(trace: Trace, position: int, places: list[tuple[str, int]]) -> dict[tuple[str, int], int]:
    """For each of these places the last state before one in which its innermost frame stood there."""
    depth = len(trace.states[position].frames)
    found: dict[tuple[str, int], int] = {}
    for at in range(position - 1, -1, -1):
        frames = trace.states[at].frames
        if len(frames) < depth:
            # The frame begins behind this state.
            break
        here = (frames[0].label, frames[0].index)
        if len(frames) == depth and here in places:
            found.setdefault(here, at)
    return found


def way_of(trace: Trace, position: int) -> list[tuple[int, str]]:
    """The blocks that the innermost frame of a state went through, with the positions at which it came to them."""
    stack: list[list[tuple[int, str]]] = []
    for at, state in enumerate(trace.states[:position + 1]):
        here, depth = state.frames[0], len(state.frames)
        if depth > len(stack):
            stack.append([])
        del stack[depth:]
        if here.index == 0:
            # Only a jump, or a call, leads to the beginning of a block.
            stack[-1].append((at, here.label))
    return stack[-1]


def begun(debugger: str, file: str, seed: int, limit: int = SLICE) -> tuple[Shell, Trace, random.Random]:
    with open(file, "rb") as opened:
        source = opened.read()
    shell = QuietShell(Launch(debugger, file, (), limit), file, source, Waiting())
    return shell, trace_of(debugger, file, shell.session.program), random.Random(seed)


def text_faults(debugger: str, file: str) -> list[str]:
    """Where the reader of texts has another instruction at a place than the debugger lists there."""
    with open(file, "rb") as opened:
        source = opened.read()
    pipe = Pipe([debugger, file])
    if pipe.refused or not pipe.loaded[0].startswith("loaded "):
        return []
    program = Program(source)
    size = int(pipe.loaded[0].split(" ")[3])
    end = program.data[-1].address + program.data[-1].size - DATA if program.data else 0
    found = [] if size == end else [f"{end} bytes of data and not {size}"]
    answers = pipe.ask(*["where", "list", "step"] * MOST_LISTED)
    pipe.close()
    for at in range(0, len(answers), 3):
        frames = frames_of(answers[at])
        if frames:
            block = program.functions[frames[0].function].blocks[frames[0].label]
            own = [phi.written() for phi in block.phis] + [each.written() for each in block.body]
            listed = [line[2:].partition(" ")[2] for line in answers[at + 1][1:]]
            if list(map(words_of, own)) != list(map(words_of, listed)):
                found.append(f"{own} and not {listed}")
    return found[:1]


def words_of(text: str) -> list[str | int]:
    """The words of an instruction's text, numbers as their 64 bits."""
    words = "".join(" " if letter in ",()" else letter for letter in text).split()
    return [int(word) % (1 << 64) if word.lstrip("-").isdigit() else word for word in words]


def run_faults(debugger: str, file: str, seed: int, questions: int) -> list[str]:
    """Where a run ends elsewhere than in the state that is found by looking at each state in turn."""
    shell, trace, chosen = begun(debugger, file, seed)
    try:
        found = []
        for _ in range(questions):
            position = chosen.randrange(len(trace.states))
            line, wanted = chosen.choice((over, out_of, at_condition, of_frame))(trace, position, chosen)
            if wanted is not None:
                shell.session.go(Timeline(position))
                for each in line.split("; "):
                    shell.run(each)
                given = shell.session.place.position
                found.append(None if given == wanted else f"{line} at #{position} leads to #{given} and not #{wanted}")
                shell.run("d")
        return [fault for fault in found if fault]
    finally:
        shell.session.close()


def first_where(trace: Trace, positions: range, holds: Callable[[State], bool]) -> int | None:
    return next((position for position in positions if holds(trace.states[position])), None)


def over(trace: Trace, position: int, chosen: random.Random) -> tuple[str, int | None]:
    """Over a call, forward or back, or over another instruction."""
    depth, behind = len(trace.states[position].frames), range(position + 1, len(trace.states))
    before = range(position - 1, -1, -1)

    def is_same(state: State) -> bool:
        return len(state.frames) <= depth
    if chosen.random() < 0.5:
        return "n", first_where(trace, behind, is_same)
    if trace.states[position - 1].frames and position and len(trace.states[position - 1].frames) < depth:
        return "rn", position - 1
    return "rn", first_where(trace, before, is_same)


def out_of(trace: Trace, position: int, chosen: random.Random) -> tuple[str, int | None]:
    depth = len(trace.states[position].frames)
    index = chosen.randrange(depth)

    def is_out(state: State) -> bool:
        return len(state.frames) < depth - index
    line, positions = chosen.choice((("fin", range(position + 1, len(trace.states))),
                                     ("rf", range(position - 1, -1, -1))))
    select = f"frame {index}; " if index else ""
    return select + line, first_where(trace, positions, is_out) if depth - index > 1 else None


def at_condition(trace: Trace, position: int, chosen: random.Random) -> tuple[str, int | None]:
    """To a place of some state, with the value of one of its temporaries as the condition, or its depth."""
    goal = chosen.choice(trace.states)
    place, depth = goal.frames[0], len(goal.frames)
    names = [name for name, value in goal.values.items() if value is not None]
    where = (place.function, place.label, place.index)
    name = chosen.choice(names) if names and chosen.random() < 0.7 else None
    condition = f"u({name}) == {goal.values[name]}" if name else f"depth == {depth}"

    def holds(state: State) -> bool:
        top = state.frames[0]
        is_there = (top.function, top.label, top.index) == where
        return is_there and (state.values.get(name) == goal.values[name] if name else len(state.frames) == depth)
    line, positions = chosen.choice((("c", range(position + 1, len(trace.states))),
                                     ("rc", range(position - 1, -1, -1))))
    return f"b {' '.join(map(str, where))} if {condition}; {line}", first_where(trace, positions, holds)


def of_frame(trace: Trace, position: int, chosen: random.Random) -> tuple[str, int | None]:
    """To a change of a temporary of this frame alone, or to the frame's end."""
    state = trace.states[position]
    if not state.values:
        return "", None
    depth, name = len(state.frames), chosen.choice(sorted(state.values))

    def holds(later: State) -> bool:
        is_other = len(later.frames) == depth and later.values[name] != state.values[name]
        return len(later.frames) < depth or is_other
    return f"watch {name}; c", first_where(trace, range(position + 1, len(trace.states)), holds)
