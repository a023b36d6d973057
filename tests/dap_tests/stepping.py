"""Steps by the lines of a source, as `qrev-dap` starts the adapter: over the runtime, and back to a first line.

Lines and places are counted by hand in the texts below.
"""
from __future__ import annotations

import pathlib
import tempfile
from collections.abc import Callable, Iterator

from terminal.testing.lowering import COMPARE

from .consoles import Console, disconnected
from .driver import expect
from .lowering import FLOATS
from .sessions import Case, Message

# The runtime calls a function of the program: 2 numbers are sorted, by one comparison at least.
SORTS = f"""data $n = {{ w 2, w 1 }}
export function w $main() {{
@start
	call $qsort(l $n, l 2, l 4, l $compare)
	%x =w loadw $n
	ret %x
}}
{COMPARE}"""
# One line of a source has a product and a call: 3 * 1.5 is 4.5, and its half 2.25.
ON_ONE_LINE = """export function w $main() {
@start
	%a =d mul d_3, d_1.5
	%b =d call $half(d %a)
	%c =d add %b, d_0.25
	%d =w dtosi %c
	ret %d
}
function d $half(d %x) {
@start
	%y =d div %x, d_2
	ret %y
}
"""
ONE_LINE_MAP = "\n\none.hll\t1\none.hll\t1\none.hll\t1\none.hll\t2\none.hll\t3\n\n\n\none.hll\t7\none.hll\t8\n\n"
# The first move is of no source.
PLAIN = """function w $main() {
@start
	%a =w copy 1
	%x =w add 2, 3
	%y =w add %x, 1
	%z =w add %y, 1
	ret %z
}
"""
PLAIN_MAP = "\n\n\nplain.hll\t2\nplain.hll\t2\nplain.hll\t3\nplain.hll\t4\n\n"
# The first move is a call, on a line that goes on behind it.
CALLS = """function w $main() {
@start
	%a =w call $f()
	%b =w add %a, 1
	%c =w add %b, 1
	%d =w add %c, 1
	ret %d
}
function w $f() {
@start
	%x =w copy 1
	ret %x
}
"""
CALLS_MAP = ("\n\ncalls.hll\t1\ncalls.hll\t1\ncalls.hll\t2\ncalls.hll\t2\ncalls.hll\t3\n\n\n\ncalls.hll\t6\n"
             "calls.hll\t7\n\n")
FILES = {"calls.ssa": CALLS, "calls.ssa.map": CALLS_MAP, "calls.hll": "b = f() + 1\nd = b + 2\nreturn d\n",
         "floats.ssa": FLOATS, "sorts.ssa": SORTS, "one.ssa": ON_ONE_LINE, "one.ssa.map": ONE_LINE_MAP,
         "one.hll": "x = half(3 * 1.5) + 0.25\ny = int(x)\nreturn y\n", "plain.ssa": PLAIN,
         "plain.ssa.map": PLAIN_MAP, "plain.hll": "first\nx = 2 + 3 + 1\nz = x + 1\nreturn z\n"}


class Stepping:
    """A console whose editor steps."""

    def __init__(self, console: Console, folder: pathlib.Path) -> None:
        self.console, self.folder = console, folder

    def begin(self, text: str, **more: object) -> None:
        self.console.begin(str(self.folder / text), **more)

    def goes(self, command: str, place: str, reason: str = "step", **more: object) -> Message:
        """A request that leads to a line of a file, as `FILE:LINE`, or to an end that its place line has."""
        answer = self.console.answer(command, {"threadId": 1, **more})
        expect(answer["success"], f"{command}: {answer}")
        stop = self.console.stopped()
        frame = self.console.answer("stackTrace", {"threadId": 1})["body"]["stackFrames"][0]
        shown = f"{pathlib.Path(frame.get('source', {}).get('path', '')).name}:{frame['line']}"
        is_so = (shown == place if ":" in place else stop["description"].endswith(place)) and stop["reason"] == reason
        expect(is_so, f"{command} leads to {stop}, {shown}, and not to {place} by {reason}")
        return stop


def into(at: Stepping) -> None:
    """Operations on floats are passed, and calls of the program's own functions are gone into."""
    at.begin("floats.ssa")
    for line in (4, 10, 11, 12, 5, 6):
        at.goes("stepIn", f"floats.ssa:{line}")
    at.goes("stepIn", "done 7", "end")


def into_by_instruction(at: Stepping) -> None:
    """A step by one instruction goes into the runtime, and one by lines goes on there."""
    at.begin("floats.ssa")
    first = at.goes("stepIn", "float.add.d @start 0", granularity="instruction")
    second = at.goes("stepIn", "float.sum @start 0")
    expect(first["description"].startswith("#1 ") and second["description"].startswith("#2 "), f"{first} {second}")
    at.goes("stepOut", "float.add.d @start 1")
    at.goes("stepOut", "floats.ssa:4")


def into_on_one_line(at: Stepping) -> None:
    """After an operation that is passed, the step enters the call on the same line, and nothing after it."""
    at.begin("one.ssa")
    at.goes("stepIn", "one.hll:7")
    at.goes("stepIn", "one.hll:8")
    at.goes("stepIn", "one.hll:1")
    at.goes("stepIn", "one.hll:2")
    at.goes("stepIn", "one.hll:3")


def met_inside(at: Stepping) -> None:
    """A breakpoint in the runtime stops a step that passes it."""
    at.begin("floats.ssa")
    at.console.answer("setFunctionBreakpoints", {"breakpoints": [{"name": "float.sum"}]})
    at.goes("stepIn", "float.sum @start 0", "function breakpoint")
    at.goes("stepOut", "float.add.d @start 1")


def out_of(at: Stepping) -> None:
    """A step out of a function that the runtime calls doesn't end in the runtime."""
    at.begin("sorts.ssa")
    at.console.answer("setFunctionBreakpoints", {"breakpoints": [{"name": "compare"}]})
    at.goes("continue", "sorts.ssa:10", "function breakpoint")
    at.goes("stepOut", "sorts.ssa:5")
    at.goes("reverseContinue", "sorts.ssa:10", "function breakpoint")
    for line in (11, 12, 13, 5, 6):
        at.goes("next", f"sorts.ssa:{line}")
    at.goes("next", "done 1", "end")


def back_to_a_first_line(at: Stepping) -> None:
    """The beginning of a line to which the run comes from places of no source."""
    at.begin("plain.ssa")
    at.goes("next", "plain.hll:2")
    at.goes("next", "plain.hll:3")
    stop = at.goes("stepBack", "plain.hll:2")
    expect(stop["description"] == "#1 $main @start 1", f"{stop}")
    at.goes("stepIn", "plain.hll:2", granularity="instruction")
    stop = at.goes("stepBack", "plain.hll:2")
    expect(stop["description"] == "#1 $main @start 1", f"from within the line {stop}")
    stop = at.goes("stepBack", "plain.ssa:3", "entry")
    expect(stop["description"] == "#0 $main @start 0", f"from its beginning {stop}")
    at.goes("next", "plain.hll:2")


def back_over_a_call(at: Stepping) -> None:
    """A line to which the run comes over or by the call that is its first move, and the line of that call itself."""
    at.begin("floats.ssa")
    for line in (4, 10, 11):
        at.goes("stepIn", f"floats.ssa:{line}")
    at.goes("stepBack", "floats.ssa:10")
    at.goes("stepBack", "floats.ssa:4")
    at.goes("stepBack", "floats.ssa:3", "entry")
    at.console.answer("terminate")
    at.console.events.clear()
    at.console.answer("launch", {"program": str(at.folder / "calls.ssa")})
    at.console.answer("configurationDone")
    at.console.stopped()
    for line in (6, 7):
        at.goes("stepIn", f"calls.hll:{line}")
    at.goes("stepBack", "calls.hll:6")
    at.goes("stepBack", "calls.hll:1", "entry")
    at.goes("next", "calls.hll:2")
    at.goes("stepBack", "calls.hll:1", "entry")
    at.goes("next", "calls.hll:2")
    # Within the second line, and within the first.
    at.goes("stepIn", "calls.hll:2", granularity="instruction")
    stop = at.goes("stepBack", "calls.hll:2")
    expect(stop["description"].endswith("$main @start 2"), f"{stop}")
    at.goes("stepBack", "calls.hll:1", granularity="instruction")
    stop = at.goes("stepBack", "calls.hll:1", "entry")
    expect(stop["description"] == "#0 $main @start 0", f"{stop}")


def at_once(at: Stepping) -> None:
    """Requests that come right after a step are answered where it ends."""
    at.begin("floats.ssa")
    commands = ["stepIn", "stackTrace", "stepIn", "stackTrace", "stepBack", "stackTrace"]
    for command in commands:
        at.console.request(command, {"threadId": 1})
    frames: list[str] = []
    places: list[str] = []
    while len(frames) < 3 or len(places) < 3:
        message = at.console.next() or {}
        expect(bool(message), "the end")
        if message.get("command") == "stackTrace":
            frames.append(message["body"]["stackFrames"][0]["name"])
        elif message.get("event") == "stopped":
            places.append(message["body"]["description"].partition(" ")[2])
    wanted = ["$main @start 1", "$half @start 0", "$main @start 1"]
    expect((frames, places) == (wanted, wanted), f"{frames} {places}")


def recorded(at: Stepping) -> None:
    """The record has the moves, and each request one stop."""
    at.begin("floats.ssa", record=str(at.folder / "record"))
    at.goes("stepIn", "floats.ssa:4")
    at.goes("stepIn", "floats.ssa:10")
    told = [message for message in at.console.log if message.get("event") == "stopped"]
    expect(len(told) == 3, f"{len(told)} stops")
    position = told[-1]["body"]["description"].split(" ")[0][1:]
    at.console.answer("terminate")
    moves = sum(int(line.split(" ")[1]) if " " in line else 1
                for line in (at.folder / "record").read_text().splitlines())
    expect(str(moves) == position, f"{moves} moves in the record, at #{position}")


CASES: dict[str, Callable[[Stepping], None]] = {
    "into": into, "by instruction": into_by_instruction, "on one line": into_on_one_line, "met inside": met_inside,
    "out of": out_of, "back to a first line": back_to_a_first_line, "back over a call": back_over_a_call,
    "at once": at_once, "recorded": recorded,
}


def fault_of(program: str, seconds: float, name: str) -> str | None:
    """What is wrong in a case, or None."""
    with tempfile.TemporaryDirectory(prefix="dap-") as place:
        folder = pathlib.Path(place).resolve()
        for file, lines in FILES.items():
            (folder / file).write_text(lines)
        console = Console(program, seconds, folder)
        return disconnected(console, lambda: CASES[name](Stepping(console, folder)))


def cases() -> Iterator[Case]:
    for name in CASES:
        yield f"stepping, {name}", fault_of, (name,)
