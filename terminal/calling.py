"""The calls of the whole run: those of a function, each with its arguments and where it is made; and the longest of
all as a tree."""
from __future__ import annotations

from dataclasses import dataclass, field
from typing import Sequence

from .accesses import MOST_COUNTED
from .answers import Span, read_spans, read_value
from .asking import MOST_SHOWN, counted, told_bounds, told_search, whole_run
from .conditions import quick_test
from .elsewhere import names_meant
from .expressions import Node, Unset, Wrong, evaluate, temporaries_of
from .scratch import Counts, Hit
from .shell import Shell, command
from .spans import OpenFrames
from .stopping import with_condition
from .stops import Answered, questions_of
from .text import Function
from .timeline import Timeline
from .values import brief
from .waiting import Interrupted

# The longest calls: how many are shown, of how much of the run at least, and how deep they are indented.
MOST_FRAMES, MOST_PARTS, MOST_INDENT = 40, 2000, 30


@dataclass
class Calls:
    """The calls that were found: those nearest to where the search began, and how many there are."""
    total: int = 0
    shown: list[Hit] = field(default_factory=list)
    is_stopped: bool = False
    # From where to where the run was looked at.
    low: int = 0
    high: int = 0


class Search:
    """A search for the calls of a function whose arguments are as a condition says."""

    def __init__(self, shell: Shell, function: Function, condition: Node | None, run: Timeline):
        self.shell, self.function, self.condition, self.run = shell, function, condition, run
        self.scratch, self.program = shell.session.scratch, shell.session.program
        self.names = [name for _, name in function.parameters]
        self.asked = [f"print {name}" for name in self.names]
        self.questions = list(dict.fromkeys(self.asked + (questions_of(condition, self.program) or [])
                                            if condition else self.asked))
        self.counts = quickly(condition, self.questions, shell, function) if condition else None

    def around(self, here: int) -> Calls:
        """The calls before a position and from it on."""
        # A run makes a move before it stops, so one back to here begins behind it.
        here, behind = min(here, self.run.position), min(here + 1, self.run.position)
        found = Calls(low=behind, high=behind)
        try:
            found.low = self.along(found, behind, False)
            found.high = self.along(found, here, True)
        except Interrupted:
            self.shell.waiting.heed()
            found.is_stopped = True
        found.shown.sort(key=lambda hit: (abs(hit.position - here), hit.position))
        found.shown = sorted(found.shown[:MOST_SHOWN], key=lambda hit: hit.position)
        return found

    def along(self, found: Calls, begin: int, is_forward: bool) -> int:
        """Finds those of one direction; how far the run was looked at."""
        stop, count = f"break {self.function.name} {self.function.first} 0", 0
        hits = self.scratch.go(self.run.at(begin)).hits(
            is_forward, [stop], self.questions, last=self.run.position if is_forward else 0, counts=self.counts)
        for hit in hits:
            if is_forward:
                found.high = hit.position
            else:
                found.low = hit.position
            if hit.stop is not None and self.is_call(hit):
                found.total, count = found.total + 1, count + 1
                found.shown += [hit] * (count <= MOST_SHOWN)
                if count >= MOST_COUNTED:
                    return hit.position
        return self.run.position if is_forward else 0

    def is_call(self, hit: Hit) -> bool:
        """Whether a call leads to a state at the beginning of the function; a value by hand may, too, and so is the
        start of the run one."""
        if not 0 < hit.position <= self.run.position or self.run.poke_at(hit.position - 1):
            return False
        if self.condition is None:
            return True
        try:
            state = Answered(self.program, hit.place, dict(zip(self.questions, hit.answers)), self.scratch.ask)
            return evaluate(self.condition, state).number != 0
        except Unset:
            return False

    def told(self, hit: Hit) -> str:
        """A line for a call."""
        place = self.scratch.go(self.run.at(hit.position - 1)).place
        line = self.program.line_of(place.function, place.label, place.index)
        source = self.shell.screen.map.place(line)
        values = [read_value(answer[0]) for answer in hit.answers]
        text = self.program.functions[place.function].at(place.label, place.index).written()
        return f"#{hit.position} {call_told(self.shell, self.function, values)}  called at {place}  line {line}: " \
               f"{text}" + (f"  ({source})" if source else "")


def call_told(shell: Shell, function: Function, values: Sequence[int | None]) -> str:
    """A function with the values of its parameters."""
    given = []
    for (_, name), value in zip(function.parameters, values):
        width = function.temporaries[name]
        called = shell.session.names.of(value) if width == "l" and value is not None else None
        given.append(f"{name}={brief(value, width, called)}")
    return f"{function.name}({', '.join(given)})"


def quickly(condition: Node, questions: list[str], shell: Shell, function: Function) -> Counts | None:
    """A quick test of whether a call may count."""
    test = quick_test(condition, questions, function.temporaries, shell.session.program.addresses)
    if test is None:
        return None
    known = test
    return lambda _, line, answers: known(answers)


def longest(shell: Shell, run: Timeline) -> list[Span]:
    """The frames of a run that take most moves, in the order in which they begin, but none of the runtime. One that is
    left out has none inside it that is shown, since that would be no longer."""
    scratch, least = shell.session.scratch, max(1, run.position // MOST_PARTS)
    start = scratch.go(run.at(0)).where()
    frames, found = OpenFrames([place.function for place in reversed(start)]), list[Span]()
    for answer in scratch.along(run.at(0), run, lambda moves: f"frames {moves} {least}"):
        found += [span for span in frames.ended(read_spans(answer)) if length_of(span, run) >= least]
    found = [span for span in found + frames.lasting() if shell.lowered.is_own(span.function)]
    found.sort(key=lambda span: (-length_of(span, run), span.begin or 0, span.below))
    return sorted(found[:MOST_FRAMES], key=lambda span: (span.begin or 0, span.below))


def length_of(span: Span, run: Timeline) -> int:
    return (run.position if span.end is None else span.end) - (span.begin or 0)


def tree_told(shell: Shell, run: Timeline) -> None:
    """The longest calls of a run, each below the one that makes it; those in which the session stands are marked."""
    here = shell.session.place.position
    for span in longest(shell, run):
        mark = ">" if (span.begin or 0) <= here and (span.end is None or here < span.end) else " "
        share = 100 * length_of(span, run) / max(1, run.position)
        end = "on" if span.end is None else f"to #{span.end}"
        function = shell.session.program.functions[span.function]
        there = shell.session.scratch.go(run.at(span.begin or 0))
        told = call_told(shell, function, there.values(*(name for _, name in function.parameters)))
        shell.say(f"{mark}{share:5.1f}%  {'  ' * min(span.below, MOST_INDENT)}{told}  from #{span.begin} {end}")
    shell.say(f"the longest calls {told_bounds(shell, run)}")


@command("calls", "calls [$f [if CONDITION]]", "place", is_repeated=False)
def calls(shell: Shell, rest: str) -> None:
    """Lists the calls of a function in the whole run, with the arguments of each and where it is made; those nearest to
    where the session stands, if there are many. A condition is about the parameters. Alone it shows which calls take
    most moves, each below its caller. It doesn't move the session."""
    if not rest.strip():
        tree_told(shell, whole_run(shell))
        return
    program = shell.session.program
    what, condition, _ = with_condition(shell, rest)
    if not what:
        raise Wrong("calls $FUNCTION was expected before `if`")
    name = shell.function_named(what)
    if name not in program.functions:
        raise Wrong(f"{what}: a function was expected; there are {names_meant(what, list(program.functions))}")
    function = program.functions[name]
    for each in temporaries_of(condition) if condition else ():
        if each not in [parameter for _, parameter in function.parameters]:
            raise Wrong(f"{each}: {name} has no such parameter")
    if condition and questions_of(condition, program) is None:
        raise Wrong(f"{rest.strip()}: parameters and memory at fixed addresses were expected")
    run, here = whole_run(shell), shell.session.place.position
    search = Search(shell, function, condition, run)
    found = search.around(here)
    shell.say(*(search.told(hit) for hit in found.shown))
    shell.say(f"{counted(found.total, 'call')} of {name}"
              f"{told_search(shell, run, found.total, range(found.low, found.high), found.is_stopped)}")
