"""The command `when`: at which positions of the whole run a condition begins to hold, and ceases to."""
from __future__ import annotations

from .answers import Place
from .asking import MOST_SHOWN, counted, told_bounds, whole_run
from .conditions import is_exact, quick_test
from .expressions import Node, Unset, Wrong, evaluate, fixed, parts_of, temporaries_of
from .scratch import Refused, frames_of
from .shell import Shell, command
from .stops import Answered, questions_of
from .timeline import Timeline
from .values import FLOATS
from .waiting import Interrupted

# From where on a condition holds, and from where on it doesn't any more, None if it holds at the end.
Held = tuple[int, int | None]


@command("when", "when CONDITION", "expression", is_repeated=False)
def when(shell: Shell, rest: str) -> None:
    """Lists the positions at which a condition of this function's temporaries and of memory begins to hold, and ceases
    to. Of a recursive function the innermost frame counts. Where a value is unset or dead it doesn't hold."""
    if not rest:
        raise Wrong(f"when CONDITION was expected; the session stands at #{shell.session.place.position}")
    node = shell.parsed(rest)
    program, frames = shell.session.program, shell.session.frames()
    known = questions_of(node, program)
    if known is None or any(part.kind == "word" for part in parts_of(node)):
        raise Wrong(f"{rest}: temporaries of one function and memory at fixed addresses were expected, and neither "
                    "depth nor position")
    names = temporaries_of(node)
    if names and not frames:
        raise Refused("the run is over: go back to a frame of the function that is meant")
    function = frames[shell.session.selected].function if frames else ""
    for name in names:
        shell.temporary(name)
    stops = [f"watch {function} {name}" for name in names]
    stops += [f"watch {FLOATS.get(part.text, part.text)} {fixed(part.parts[0], program.addresses)}"
              for part in parts_of(node) if part.kind == "memory"]
    if not stops:
        raise Wrong(f"{rest}: a condition of temporaries or memory was expected")
    run = whole_run(shell)
    bounds = told_bounds(shell, run)
    # Where only temporaries of a function that is called once at a time count, a place tells whether it has a frame.
    is_plain = not names or len(stops) == len(names) and function not in program.again
    questions = known if is_plain else ["where", *known]
    readings = Readings(shell, node, questions, function if names else "", run)
    find = forward if is_plain and readings.quick and is_exact(node) and not run.pokes else held_spans
    spans, stopped = find(readings, stops)
    for begin, end in spans[:MOST_SHOWN]:
        shell.say(f"holds from #{begin}" + (f", no longer from #{end}" if end is not None else " on"))
    shell.say(f"{counted(len(spans), 'time')} {bounds}" +
              (f"; only {stopped}, since Ctrl-C stopped the search" if stopped else ""))


def forward(readings: Readings, stops: list[str]) -> tuple[list[Held], str]:
    """The spans in which a condition holds whose quick test is exact, by going along the changes of what it is about;
    and up to where that went, in words, if not to the end of the run. A function of which there is one frame at a time
    has none where a change leads into another function."""
    run, spans, begin = readings.run, list[Held](), 0
    is_held = readings.at_start()

    def counts(_: int, line: str, answers: list[list[str]]) -> bool:
        return readings.is_quickly(line, answers) != is_held
    position, scratch = 0, readings.scratch.go(run.at(0))
    try:
        for hit in scratch.hits(True, stops, readings.questions, last=run.position, counts=counts):
            if hit.stop is None or hit.position > run.position:
                break
            position = hit.position
            if readings.is_quickly(hit.line, hit.answers) != is_held:
                is_held, begin = not is_held, position if not is_held else begin
                spans += [(begin, position)] * (not is_held)
    except Interrupted:
        readings.shell.waiting.heed()
        return spans + [(begin, None)] * is_held, f"up to #{position}"
    # An end is no change: the run stops there by itself.
    is_over = is_held and not readings.is_held_at_end()
    return spans + [(begin, run.position if is_over else None)] * is_held, ""


def held_spans(readings: Readings, stops: list[str]) -> tuple[list[Held], str]:
    """The same for each condition, by going back; and how far back that went."""
    run = readings.run
    scratch = readings.scratch.go(run)
    changes = [(run.position, readings.at_end())]
    stopped, low = "", 0
    try:
        for hit in scratch.hits(False, stops, readings.questions, last=0):
            changes.append((hit.position, readings.holds(hit.place, hit.answers)))
    except Interrupted:
        readings.shell.waiting.heed()
        low = changes[-1][0]
        stopped = f"from #{low} on"
    spans: list[Held] = []
    end: int | None = None
    was_held = False
    for position, known in changes:
        is_held = readings.in_caller(position) if known is None else known
        if was_held and not is_held:
            spans.append((position + 1, end))
        elif is_held and not was_held:
            end = None if position == run.position else position + 1
        was_held = is_held
    return (spans + [(low, end)] * was_held)[::-1], stopped


class Readings:
    """Whether a condition holds at the changes of what it is about: a temporary of a function reads what it is in the
    innermost frame of that function, which needn't be the innermost frame of all."""

    def __init__(self, shell: Shell, node: Node, questions: list[str], function: str, run: Timeline):
        self.shell, self.node, self.questions, self.function, self.run = shell, node, questions, function, run
        self.scratch, self.program = shell.session.scratch, shell.session.program
        classes = self.program.functions[function].temporaries if function else {}
        self.quick = quick_test(node, questions, classes, self.program.addresses)

    def is_quickly(self, line: str, answers: list[list[str]]) -> bool:
        """Whether it holds in a state whose place line and answers are known, by the quick test."""
        return (not self.function or f" {self.function} " in line) and self.quick is not None and self.quick(answers)

    def at_start(self) -> bool:
        scratch = self.scratch.go(self.run.at(0))
        return self.is_quickly(f" {scratch.place.function} ", scratch.ask(*self.questions))

    def is_held_at_end(self) -> bool:
        """Whether it holds in the last state, if it holds in the one before."""
        self.scratch.go(self.run)
        return not self.scratch.place.end or bool(self.at_end())

    def at_end(self) -> bool | None:
        """Of the state in which the run ends, where the process stands."""
        if self.function:
            return None if any(frame.function == self.function for frame in self.scratch.where()) else False
        return self.value(self.scratch.place, dict(zip(self.questions, self.scratch.ask(*self.questions))))

    def holds(self, place: Place, answers: list[list[str]]) -> bool | None:
        """Of a state whose answers are known; None where the frame that is meant isn't the innermost one."""
        is_there = not self.function or place.function == self.function
        if is_there and self.quick and not self.quick(answers):
            return False
        known = dict(zip(self.questions, answers))
        if not is_there:
            return None if self.is_in_caller(place, known) else False
        return self.value(place, known)

    def is_in_caller(self, place: Place, known: dict[str, list[str]]) -> bool:
        """Whether a frame of the function calls the one of a place in another function."""
        if "where" in known:
            return any(frame.function == self.function for frame in frames_of(known["where"]))
        # A temporary changes here by the return into its frame, or by the call that makes it.
        instruction = self.program.functions[place.function].at(place.label, place.index)
        return instruction.operation == "ret"

    def value(self, place: Place, known: dict[str, list[str]]) -> bool:
        try:
            return evaluate(self.node, Answered(self.program, place, known, self.scratch.ask)).number != 0
        except Unset:
            return False

    def in_caller(self, position: int) -> bool:
        """The temporaries of a frame that isn't the innermost are those of the state before its call."""
        at = self.run.at(position)
        frames = self.scratch.go(at).where()
        known = dict(zip(self.questions, self.scratch.ask(*self.questions)))
        index = next(index for index, frame in enumerate(frames) if frame.function == self.function)
        names = [f"print {name}" for name in temporaries_of(self.node)]
        known.update(zip(names, self.scratch.go(self.shell.frames.frame(at, index)).ask(*names)))
        return self.value(Place(position, self.function), known)
