"""Texts of whole QBE in an editor, as `qrev-dap` starts the adapter: they are lowered by themselves.

Expected values are worked out by hand, or are what native code writes (lower/test-data/programs/native.json), or what
`./qrev --lower` and `./qrev --check` answer at a prompt.
"""
from __future__ import annotations

import json
import os
import pathlib
import shlex
import shutil
import signal
import subprocess
import tempfile
import time
from collections.abc import Callable, Iterator

from harness.running import EXAMPLES, TOP, Skipped

from . import schema
from .consoles import BUILT, GONE, RELAY, Console, disconnected, words_of
from .driver import Adapter, Wrong, ended, expect, frame, messages_in, request_message
from .sessions import FOLDER, Case, Fault, Message
from .suspicious import ENDLESS

DATA, RUNTIME = TOP / "lower" / "test-data", TOP / "lower" / "runtime"
# (1.5 + 2) / 2 * 4 is 7. Lines are counted from that of $main, which is 1.
FLOATS = """export function w $main() {
@start
	%a =d add d_1.5, d_2
	%b =d call $half(d %a)
	%c =w dtosi %b
	ret %c
}
function d $half(d %x) {
@start
	%y =d div %x, d_2
	%z =d mul %y, d_4
	ret %z
}
"""
# Opens the file that its first word names, and gives its second byte.
OPENS = """data $mode = { b "r", b 0 }
export function w $main(w %argc, l %argv) {
@start
	%place =l add %argv, 8
	%name =l loadl %place
	%file =l call $fopen(l %name, l $mode)
	%a =w call $fgetc(l %file)
	%b =w call $fgetc(l %file)
	ret %b
}
"""
# Calls of the C library alone keep this from being a text of the debugger.
LENGTH = """data $word = { b "four", b 0 }
export function w $main() {
@start
	%n =l call $strlen(l $word)
	%r =w copy %n
	ret %r
}
"""
PRINTS = """data $word = { b "four", b 0 }
data $form = { b "%s has %d, %.2f\\012", b 0 }
export function w $main() {
@start
	%n =l call $strlen(l $word)
	%half =d swtof 3
	%r =w call $printf(l $form, ..., l $word, w %n, d %half)
	ret %r
}
"""
READS = """export function w $main() {
@start
	%a =w call $getchar()
	%b =w call $getchar()
	%c =w call $getchar()
	%x =w call $putchar(w %b)
	%y =w call $putchar(w %a)
	ret %c
}
"""
# Writes its words and the name before them, and returns their number.
ECHOES = """data $form = { b "%s|", b 0 }
export function w $main(w %argc, l %argv) {
@start
@loop
	%at =l phi @start %argv, @word %next
	%word =l loadl %at
	jnz %word, @word, @end
@word
	%w =w call $printf(l $form, ..., l %word)
	%next =l add %at, 8
	jmp @loop
@end
	ret %argc
}
"""
USES = "export function w $main() {\n@start\n\t%d =d call $third(d d_10)\n\t%r =w dtosi %d\n\tret %r\n}\n"
THIRD = "export function d $third(d %x) {\n@start\n\t%y =d div %x, d_3\n\tret %y\n}\n"
# Stores behind the end of $d, in line 8.
BEHIND = """data $d = { w 1, w 2 }
data $e = { w 3 }
export function w $main() {
@start
	%f =d add d_4, d_4
	%p =l dtosi %f
	%q =l add $d, %p
	storew 5, %q
	%r =w loadw $e
	ret 0
}
"""
TEXTS = {"floats": FLOATS, "length": LENGTH, "prints": PRINTS, "reads": READS, "echoes": ECHOES, "uses": USES,
         "opens": OPENS, "behind": BEHIND, "endless": ENDLESS, "wrong": FLOATS.replace("w dtosi", "q dtosi"),
         "large": FLOATS.replace("\t%c", "\t%p =w loadw $big\n\t%c")
         + "\n# It is too large.\ndata $big = { z 2000000 }\n",
         # What is wrong here both refuse.
         "undefined": FLOATS.replace("ret %z", "ret %nothing")}
LOWERED = "{} is of whole QBE: it was lowered, and is shown by its own lines\n"


class Lowering:
    """A console whose editor launches texts of whole QBE."""

    def __init__(self, console: Console, program: str, folder: pathlib.Path):
        self.console, self.program, self.folder = console, program, folder

    def launch(self, text: str, client: str = "test", **more: object) -> Message:
        """The response to a launch; what the console shows before the session is initialized is kept."""
        self.console.answer("initialize", {"adapterID": "qrev", "clientID": client})
        return self.again(text, **more)

    def again(self, text: str, **more: object) -> Message:
        return self.console.answer("launch", {"program": str(self.folder / text), **more})

    def begin(self, text: str, client: str = "test", **more: object) -> list[str]:
        """A session that stands at its start, and the console's messages up to there."""
        response = self.launch(text, client, **more)
        expect(response["success"], f"{response}")
        return self.configure()

    def configure(self) -> list[str]:
        self.console.answer("configurationDone")
        expect(self.console.stopped()["reason"] == "entry", "it doesn't stand at its start")
        return self.outputs()

    def outputs(self, category: str = "console") -> list[str]:
        """The output of the program, or the console's messages, since the last time."""
        found = [event["body"]["output"] for event in self.console.events
                 if event["event"] == "output" and event["body"]["category"] == category]
        self.console.events = [event for event in self.console.events
                               if event["event"] != "output" or event["body"]["category"] != category]
        return found

    def goes(self, command: str, place: str) -> None:
        """A request that leads to a line of a file, as `FILE:LINE`, into a text of the runtime, or to an end that its
        place line has."""
        self.console.answer(command, {"threadId": 1})
        stop = self.console.stopped()
        frames = self.console.answer("stackTrace", {"threadId": 1})["body"]["stackFrames"]
        source = frames[0].get("source", {})
        shown = f"{source.get('path')}:{frames[0]['line']}"
        wanted = str(self.folder / place)
        is_so = shown == wanted if ":" in place else source.get("path") == str(RUNTIME / place) or \
            stop["description"].endswith(place)
        expect(is_so, f"{command} leads to {stop['description']}, {shown}, and not to {place}")

    def breaks(self, text: str, *lines: int) -> None:
        """Breakpoints that stay at lines of a file."""
        asked = self.console.answer("setBreakpoints", {"source": {"path": str(self.folder / text)},
                                                       "breakpoints": [{"line": line} for line in lines]})
        made = [(each["verified"], each.get("line")) for each in asked["body"]["breakpoints"]]
        expect(made == [(True, line) for line in lines], f"{asked}")

    def fails(self, response: Message, why: str) -> None:
        expect(not response["success"] and response.get("message") == why, f"{response} in place of {why}")

    def prompt(self, *words: str, script: str = "") -> subprocess.CompletedProcess[str]:
        """What the command line answers to the same."""
        built = ["--built"] if BUILT in self.program else []
        return subprocess.run([str(TOP / "qrev"), *built, *words], input=script, cwd=self.folder, capture_output=True,
                              text=True, check=False)

    def next_event(self, name: str) -> Message:
        message = self.console.next()
        expect(message is not None and message.get("event") == name, f"{message} in place of {name}")
        body: Message = (message or {}).get("body", {})
        return body

    @property
    def left(self) -> list[str]:
        """The folders that are there of what was lowered."""
        return os.listdir(self.folder / "tmp")

    def is_empty_soon(self) -> None:
        end = time.monotonic() + GONE
        while self.left and time.monotonic() < end:
            time.sleep(0.05)
        expect(not self.left, f"{self.left} is left")


def floats(at: Lowering) -> None:
    """Stops at lines of the text, forward and back, in the order in which they come."""
    told = at.begin("floats.ssa")
    expect(told == [LOWERED.format("floats.ssa")], f"the console was told {told}")
    at.breaks("floats.ssa", 5, 11, 10)
    for command, place in [("continue", "floats.ssa:10"), ("continue", "floats.ssa:11"), ("continue", "floats.ssa:5"),
                           ("continue", "done 7"), ("reverseContinue", "floats.ssa:5"),
                           ("reverseContinue", "floats.ssa:11"), ("reverseContinue", "floats.ssa:10")]:
        at.goes(command, place)
    caller = at.console.answer("stackTrace", {"threadId": 1})["body"]["stackFrames"][1]
    expect((caller["line"], caller["source"]["path"]) == (4, str(at.folder / "floats.ssa")), f"called by {caller}")
    at.goes("continue", "floats.ssa:11")
    shown = at.console.answer("variables", {"variablesReference": 1})["body"]["variables"]
    expect(("%y", "1.75") in [(each["name"], each["value"]) for each in shown], f"{shown}")
    expect("/tmp/qrev-" not in json.dumps(at.console.log), "a message has the folder of what was lowered")


def steps(at: Lowering) -> None:
    at.begin("floats.ssa")
    for command, place in [("next", "floats.ssa:4"), ("stepIn", "floats.ssa:10"), ("next", "floats.ssa:11"),
                           ("stepBack", "floats.ssa:10"), ("stepOut", "floats.ssa:5"), ("next", "floats.ssa:6"),
                           ("stepBack", "floats.ssa:5"), ("stepIn", "floats.ssa:6"), ("stepIn", "done 7")]:
        at.goes(command, place)


def relative(at: Lowering) -> None:
    """A path that goes from where the adapter was started, in the launch and for a breakpoint."""
    (at.folder / "late.ssa").write_text("# Lines in front.\n\n\n" + FLOATS)
    at.console.answer("initialize", {"adapterID": "qrev"})
    expect(at.console.answer("launch", {"program": "late.ssa"})["success"], "it isn't launched")
    asked = at.console.answer("setBreakpoints", {"source": {"path": "late.ssa"}, "breakpoints": [{"line": 8}]})
    [made] = asked["body"]["breakpoints"]
    expect((made["verified"], made["line"]) == (True, 8), f"{made}")
    at.configure()
    at.goes("continue", "late.ssa:8")


def library(at: Lowering) -> None:
    """Calls of the C library; some are the only part of whole QBE in a text."""
    expect(at.begin("length.ssa") == [LOWERED.format("length.ssa")], "it isn't told that it was lowered")
    at.goes("continue", "done 4")
    at.console.answer("terminate")
    at.next_event("terminated")
    at.console.events.clear()
    response = at.again("prints.ssa")
    expect(response["success"], f"{response}")
    at.configure()
    at.goes("continue", "done 17")
    written = at.outputs("stdout")
    expect("".join(written) == "four has 4, 3.00\n", f"it writes {written}")


def as_at_the_prompt(at: Lowering) -> None:
    """A real front end's texts end as at the prompt, and where the console asks, it answers for these too."""
    for name in ("floaty", "structval", "tagged"):
        told = at.prompt("--lower", f"{name}.ssa", script="continue\n").stdout.splitlines()[-1]
        response = at.again(f"{name}.ssa")
        expect(response["success"], f"{name}: {response}")
        at.configure()
        at.goes("continue", told.partition(" ")[2])
        at.goes("stepBack", f"{name}.ssa:{line_of_last_ret(at.folder / f'{name}.ssa')}")
        at.console.answer("terminate")
        at.next_event("terminated")
    at.again("floats.ssa")
    at.configure()
    at.goes("continue", "done 7")
    told = at.console.asked("why")
    expect(f"ret %c  ({at.folder}/floats.ssa:6)" in told, f"why: {told}")


def line_of_last_ret(text: pathlib.Path) -> int:
    """The line of the jump that ends `main`."""
    lines = text.read_text().splitlines()
    begin = next(at for at, line in enumerate(lines) if line.startswith("function $main"))
    return next(at for at in range(begin, len(lines)) if lines[at].strip() == "ret") + 1


def linked(at: Lowering) -> None:
    """Other files of the same program, by paths from its folder and by whole ones; native code writes the same."""
    told = at.begin("uses.ssa", lower=["more/third.ssa"])
    expect(told == ["uses.ssa was lowered with third.ssa, and is shown by its own lines\n"], f"{told}")
    at.breaks("more/third.ssa", 3)
    at.goes("continue", "more/third.ssa:3")
    at.goes("continue", "done 3")
    at.console.answer("terminate")
    at.next_event("terminated")
    wanted, status = json.loads((DATA / "programs" / "native.json").read_text())["matrix"]
    response = at.again("matrix.ssa", lower=[str(DATA / "library" / "pool.ssa"), str(DATA / "library" / "writer.ssa")])
    expect(response["success"], f"{response}")
    at.configure()
    at.goes("continue", f"done {status}")
    written = "".join(at.outputs("stdout"))
    expect(written == wanted, f"it writes {written!r}")


def reads(at: Lowering) -> None:
    (at.folder / "given").write_bytes(b"ab\xff")
    at.begin("reads.ssa", input="given")
    at.goes("continue", "done 255")
    expect(at.outputs("stdout") == ["ba"], "it writes otherwise")


def finds(at: Lowering) -> None:
    """A file that a launch gives, and one that a word of the program names."""
    (at.folder / "found").write_bytes(b"x\377y")
    at.begin("opens.ssa", files=["found"], argv=["found"])
    at.goes("continue", "done 255")
    (at.folder / "found").write_bytes(b"xz")
    again = at.console.answer("restart", {"arguments": {"program": str(at.folder / "opens.ssa"), "argv": ["found"]}})
    expect(again["success"], f"{again}")
    at.configure()
    at.goes("continue", "done 122")


def words(at: Lowering) -> None:
    """The texts of a main with argc and argv, after the name of the program, as after `--` at the prompt."""
    at.begin("echoes.ssa", argv=["a", "", "b c", "--", "\u00e9"])
    at.goes("continue", "done 6")
    expect("".join(at.outputs("stdout")) == "echoes|a||b c|--|\u00e9|", "it writes otherwise")
    again = at.console.answer("restart", {"arguments": {"program": str(at.folder / "echoes.ssa"), "argv": []}})
    expect(again["success"], f"{again}")
    at.configure()
    at.goes("continue", "done 1")
    told = at.prompt("--lower", "echoes.ssa", "--", script="continue\n").stdout
    expect(told.endswith(" done 1\n"), f"the prompt tells {told}")


def with_sigil(at: Lowering) -> None:
    """The entry may have its sigil, as the text writes it: of a lowered text and of one that is run as it is, and in a
    restart; one that names no program has that of the launch."""
    at.begin("floats.ssa", entry="$main")
    at.goes("continue", "done 7")
    for launch, end in (({"program": "squares.ssa", "entry": "$fill"}, "done"),
                        ({"program": "squares.ssa", "entry": "main"}, "done 30"),
                        ({"program": "length.ssa", "entry": "$main"}, "done 4")):
        given = {**launch, "program": str(at.folder / launch["program"])}
        again = at.console.answer("restart", {"arguments": given})
        expect(again["success"], f"{again}")
        at.configure()
        at.goes("continue", end)
    at.console.answer("restart")
    at.configure()
    at.goes("continue", "done 7")


def own_name(at: Lowering) -> None:
    """Without words a main of argc and argv has the name of the program, as native code has it."""
    at.begin("echoes.ssa")
    at.goes("continue", "done 1")
    expect("".join(at.outputs("stdout")) == "echoes|", "it writes otherwise")


def plain(at: Lowering) -> None:
    """A text that the debugger takes isn't lowered unless the launch asks for it; `"lower": false` prevents
    lowering."""
    expect(at.begin("squares.ssa") == [] and not at.left, f"it was lowered: {at.left}")
    at.console.answer("terminate")
    at.next_event("terminated")
    expect(at.again("squares.ssa", lower=True)["success"], "it isn't lowered")
    expect(at.configure() == ["squares.ssa was lowered, and is shown by its own lines\n"], "it isn't told")
    expect(len(at.left) == 1, f"{at.left}")
    at.goes("continue", "done 30")
    at.console.answer("terminate")
    at.next_event("terminated")
    at.fails(at.again("floats.ssa", lower=False), "refused: P2 line 3")
    expect(not at.left, f"{at.left} is left")


def restarted(at: Lowering) -> None:
    """A restart has the text as it is then: changed, no more of whole QBE, wrong, and as it was."""
    text = at.folder / "floats.ssa"
    at.begin("floats.ssa")
    at.goes("continue", "done 7")
    [first] = at.left
    integers = "export function w $main() {\n@start\n\t%x =w add 3, 5\n\tret %x\n}\n"
    line = LOWERED.format("floats.ssa")
    texts: list[tuple[str, list[str], str]] = [
        (FLOATS.replace("d_4", "d_8"), [line], "done 14"), (integers, [], "done 8"), (FLOATS, [line], "done 7")]
    for changed, lines, end in texts:
        text.write_text(changed)
        expect(at.console.answer("restart")["success"], "it doesn't begin again")
        told = at.configure()
        expect(told == lines, f"the console was told {told}")
        expect(len(at.left) == len(lines) and first not in at.left, f"{at.left} is left")
        at.goes("next", "floats.ssa:4")
        at.goes("continue", end)
    text.write_text(TEXTS["undefined"])
    alone = alone_fault(at, "floats.ssa", "restart")
    expect(at.console.answer("restart")["message"] == alone, "it is refused otherwise than by the adapter")
    expect(at.next_event("output")["output"] == f"{alone}\n", "the refusal isn't told")
    at.next_event("output")
    at.next_event("terminated")
    expect(not at.left, f"{at.left} is left")
    text.write_text(FLOATS)
    expect(at.again("floats.ssa", lower=True)["success"], "no launch behind a restart that failed")
    at.configure()
    text.write_text(TEXTS["wrong"])
    at.fails(at.console.answer("restart"), at.prompt("--lower", "floats.ssa").stderr.strip())
    expect(at.next_event("output")["line"] == 5, "no link to the line")
    at.next_event("terminated")
    at.fails(at.console.answer("threads"), "no session")


def alone_fault(at: Lowering, text: str, command: str) -> str:
    """What the adapter alone says of a text."""
    adapter = Adapter(at.program, at.console.seconds, at.folder)
    try:
        adapter.request("launch", {"program": str(at.folder / text)})
        message = adapter.next() or {}
        return str(message.get("message"))
    finally:
        adapter.kill()


def refused(at: Lowering) -> None:
    """What neither takes is refused as usual, and another launch may follow; the message of the lowering is shown
    too."""
    alone = alone_fault(at, "undefined.ssa", "launch")
    expect(alone == "refused: P2 line 3", f"the adapter alone says {alone}")
    at.fails(at.launch("undefined.ssa"), alone)
    body = at.next_event("output")
    expect((body["output"], body["line"]) == (f"{alone}\n", 3), f"{body}")
    body = at.next_event("output")
    said = at.prompt("--lower", "undefined.ssa").stderr
    expect(said.startswith("undefined.ssa:12: ") and body == {
        "category": "stderr", "output": said, "line": 12,
        "source": {"name": "undefined.ssa", "path": str(at.folder / "undefined.ssa")}}, f"{body}, and not {said}")
    # What is too large is refused by the line of the text as it was written.
    at.fails(at.again("large.ssa"), "refused: Y1 line 17")
    said = at.prompt("--lower", "large.ssa").stderr
    told = [at.next_event("output")["output"] for _ in said.splitlines()]
    expect("2000000 bytes of data" in said and "2000000 of $big" in said and "".join(told) == said,
           f"{said} isn't told")
    body = at.next_event("output")
    expect((body["output"], body["line"], body["source"]["name"]) == ("refused: Y1 line 17\n", 17, "large.ssa"),
           f"{body}")
    # What is no more of whole QBE than of the debugger's language is refused with no line more.
    at.fails(at.again("wrong-integer.ssa"), "refused: C6 line 4")
    at.next_event("output")
    at.fails(at.again("wrong.ssa", lower=True), at.prompt("--lower", "wrong.ssa").stderr.strip())
    expect(at.next_event("output")["line"] == 5, "no link to the line")
    at.fails(at.again("floats.ssa", entry="nothing", lower=True),
             at.prompt("--lower", "floats.ssa", "--entry", "nothing").stderr.strip())
    at.next_event("output")
    expect(not at.left, f"{at.left} is left")
    expect(at.again("floats.ssa")["success"], "no launch behind those that failed")
    at.fails(at.again("floats.ssa"), "a session is open")
    at.fails(at.again("floats.ssa", lower=True), "a session is open")
    at.configure()
    at.goes("continue", "done 7")


def wrong_members(at: Lowering) -> None:
    """What a member may not be, in the manner of the adapter."""
    no_list, nowhere = "lower: no flag and no list of paths", at.folder / "nowhere"
    at.console.answer("initialize", {"adapterID": "qrev"})
    cases: list[tuple[Message, str]] = [
        ({"lower": 1}, no_list), ({"lower": "yes"}, no_list), ({"lower": [1]}, no_list),
        ({"lower": [""]}, no_list),
        ({"lower": None}, no_list), ({"input": 1}, "input: no path"), ({"input": ""}, "input: no path"),
        ({"files": "a"}, "files: no list of paths"), ({"files": [""]}, "files: no list of paths"),
        ({"files": ["nowhere"]}, f"cannot read {nowhere}"),
        ({"lower": False, "files": []}, "files: not without lowering"),
        ({"argv": "a"}, "argv: no list of texts"), ({"argv": [1]}, "argv: no list of texts"),
        ({"argv": ["a\0b"]}, "argv: no list of texts"), ({"check": "loose"}, 'check: no flag and no "strict"'),
        ({"check": 1}, 'check: no flag and no "strict"'),
        ({"lower": False, "input": "given"}, "input: not without lowering"),
        ({"lower": False, "argv": []}, "argv: not without lowering"),
        ({"argv": ["a"], "args": [1]}, "argv: not beside args"),
        ({"lower": ["nowhere"]}, f"cannot read {nowhere}"), ({"lower": [str(nowhere)]}, f"cannot read {nowhere}"),
        ({"input": "nowhere"}, f"cannot read {nowhere}"), ({"input": "more"}, f"cannot read {at.folder}/more"),
        ({"lower": True, "program": str(nowhere)}, f"cannot read {nowhere}"),
        ({"lower": True, "entry": "a\0b"}, "lowering can't be run: embedded null byte"),
        ({"lower": True, "program": 7}, "program: no path"), ({"lower": True, "entry": 7}, "entry: no name"),
        ({"lower": True, "map": 7}, "map: no path"), ({"lower": True, "map": "nowhere"}, "cannot read nowhere"),
        ({"lower": True, "map": "given.map"}, "map: no path and line in line 2"),
        ({"lower": True, "limit": 0}, "limit: not a number from 1 to 4294967295")]
    (at.folder / "given.map").write_text("a\t1\nb\n")
    for given, why in cases:
        at.fails(at.again("floats.ssa", **given), why)
    expect(not at.left, f"{at.left} is left")
    expect(at.again("floats.ssa", argv=[])["success"], "no launch behind those that failed")


def looked_at(at: Lowering) -> None:
    """A stop before a suspicious move, and the disassembly, are those of the text that was lowered."""
    at.launch("behind.ssa")
    at.console.answer("setExceptionBreakpoints", {"filters": ["suspicions"]})
    at.configure()
    at.goes("continue", "behind.ssa:8")
    [first, second, _] = at.prompt("--check", "--lower", "behind.ssa").stdout.splitlines()
    info = at.console.answer("exceptionInfo", {"threadId": 1})["body"]["description"]
    expect(info.replace(f"{at.folder}/", "") == f"{first}\n{second}", f"{info} in place of {first}, {second}")
    [top] = at.console.answer("stackTrace", {"threadId": 1})["body"]["stackFrames"]
    rows = at.console.answer("disassemble", {"memoryReference": top["instructionPointerReference"],
                                             "instructionOffset": -3, "instructionCount": 4})["body"]["instructions"]
    shown = [(row["instruction"], row["location"]["path"], row["line"]) for row in rows]
    lines = ["%f =d add d_4.0, d_4.0", "%p =l dtosi %f", "%q =l add $d, %p", "storew 5, %q"]
    wanted = [(line, str(at.folder / "behind.ssa"), number) for number, line in enumerate(lines, 5)]
    expect(shown == wanted, f"the rows {shown}")


def outside(at: Lowering) -> None:
    """What the prompt writes on standard error before a session is shown in the console."""
    (at.folder / "outside.ssa").write_text(LENGTH.replace("strlen", "popen"))
    at.launch("outside.ssa", client="vscode")
    said = at.prompt("--lower", "outside.ssa").stderr
    expect("outside.ssa:4: $popen is defined nowhere" in said, f"the prompt says {said}")
    expect(at.next_event("output")["output"] == LOWERED.format("outside.ssa"), "it isn't told that it was lowered")
    told = at.next_event("output")
    path = str(at.folder / "outside.ssa")
    expect(told == {"category": "console", "output": said, "line": 4, "source": {"name": "outside.ssa", "path": path}},
           f"the console was told {told}")
    at.next_event("initialized")
    at.configure()
    at.goes("continue", "halted in $popen, which isn't there")


def sources(at: Lowering) -> None:
    """Debug lines and a map beside the text lead on to a source that is there, and else the text itself is shown."""
    lines = FLOATS.splitlines()
    debug = "\n".join(['dbgfile "from/floats.hll"', *lines[:2], "\tdbgloc 1", lines[2], "\tdbgloc 2", *lines[3:], ""])
    (at.folder / "debug.ssa").write_text(debug)
    at.begin("debug.ssa")
    at.goes("next", "debug.ssa:7")
    (at.folder / "from").mkdir()
    (at.folder / "from" / "floats.hll").write_text("a = 1.5 + 2\nreturn half(a)\n")
    expect(at.console.answer("restart")["success"], "it doesn't begin again")
    at.configure()
    at.breaks("from/floats.hll", 2)
    at.goes("continue", "from/floats.hll:2")
    at.console.answer("terminate")
    at.next_event("terminated")
    (at.folder / "floats.ssa.map").write_text("\n\nfloats.hll\t1\nfloats.hll\t2\n")
    maps: list[tuple[Message, str]] = [({}, "floats.hll:2"), ({"map": ""}, "floats.ssa:4"),
                                       ({"map": "more/other.map"}, "more/x:9")]
    for more, place in maps:
        (at.folder / "more" / "other.map").write_text("\n\nx\t8\nx\t9\n")
        expect(at.again("floats.ssa", **more)["success"], f"no launch with {more}")
        at.configure()
        at.goes("next", place)
        at.console.answer("terminate")
        at.next_event("terminated")


def recorded(at: Lowering) -> None:
    """The line that the console shows replays the record, byte for byte."""
    (at.folder / "given").write_bytes(b"ab\xff")
    launches: list[tuple[str, Message]] = [
        ("floaty.ssa", {}), ("reads.ssa", {"input": "given", "limit": 100_000}),
        ("echoes.ssa", {"argv": ["a b", "c"]}), ("echoes.ssa", {}),
        ("uses.ssa", {"lower": ["more/third.ssa"], "history": 1000})]
    for number, (text, more) in enumerate(launches):
        record = str(at.folder / f"record-{number}")
        expect(at.again(text, record=record, **more)["success"], f"{text}: no launch")
        at.configure()
        at.console.answer("setFunctionBreakpoints", {"breakpoints": [{"name": "main"}]})
        at.console.answer("next", {"threadId": 1})
        at.console.stopped()
        at.console.answer("continue", {"threadId": 1})
        at.console.stopped()
        at.console.asked("temps")
        at.console.answer("restart")
        at.configure()
        at.console.answer("terminate")
        line = at.next_event("output")["output"]
        at.next_event("terminated")
        at.console.events.clear()
        command, _, script = line.removeprefix("replay: ").rstrip("\n").partition(" < ")
        expect(line.startswith("replay: qrev --lower ") and script == f"{record}.2", f"{text}: {line}")
        run = at.prompt(*shlex.split(command)[1:], script=pathlib.Path(record).read_text())
        kept = pathlib.Path(f"{record}.transcript").read_text()
        expect(run.stdout == kept and kept.count("\n") > 5, f"{text}: {command} writes {run.stdout!r}, not {kept!r}")


def checked(at: Lowering) -> None:
    """The console shows what --check does, for the launched run."""
    cases: list[tuple[str, Message, list[str], list[str]]] = [
        ("squares.ssa", {}, [], []), ("squares.ssa", {"limit": 40}, [], ["--limit", "40"]),
        ("behind.ssa", {}, ["--lower"], []), ("unset-on-one-path.ssa", {}, [], []),
        ("unset-on-one-path.ssa", {"check": "strict"}, [], ["--kinds", "strict"]),
        ("echoes.ssa", {"argv": ["a"]}, ["--lower"], ["--", "a"])]
    for text, more, front, behind in cases:
        expect(at.again(text, **{"check": True, **more})["success"], f"{text}: no launch")
        at.configure()
        wanted = at.prompt("--check", *front, text, *behind).stdout.splitlines(keepends=True)
        got: list[str] = []
        while len(got) < len(wanted) and (message := at.console.next()):
            at.console.events.append(message)
            # Whole paths stand where the prompt has those that it was given.
            got += [line.replace(f"{at.folder}/", "") for line in at.outputs()]
        expect(got == wanted != [], f"{text} {more}: {got} in place of {wanted}")
        at.console.answer("terminate")
        at.next_event("terminated")
        at.console.events.clear()


def check_links(at: Lowering) -> None:
    """An editor that makes links gets the lines of the text that was lowered."""
    at.launch("behind.ssa", client="vscode", check=True)
    while not any(event.get("body", {}).get("line") for event in at.console.events) and \
            (message := at.console.next()):
        at.console.events.append(message)
    [linked] = [event["body"] for event in at.console.events if event.get("body", {}).get("line")]
    expect(linked["line"] == 8 and linked["source"]["path"] == str(at.folder / "behind.ssa"), f"{linked}")


# Seconds that a session may take beside a check that takes longer.
HELD = 30.0


def beside(at: Lowering) -> None:
    """A check that goes on for long holds nothing up, and ends with the session."""
    begun = time.monotonic()
    at.begin("endless.ssa", check=True, limit=100_000_000, history=1000)
    at.console.answer("threads")
    at.console.answer("disconnect")
    expect(at.console.end() == 0, "it doesn't end")
    expect(time.monotonic() - begun < HELD, "it was held up")
    end = time.monotonic() + GONE
    while processes_of(at.folder) and time.monotonic() < end:
        time.sleep(0.05)
    expect(not processes_of(at.folder), f"{processes_of(at.folder)} goes on")


def processes_of(folder: pathlib.Path) -> list[str]:
    """The processes that have a file of a folder on their command line."""
    found = []
    for file in pathlib.Path("/proc").glob("[0-9]*/cmdline"):
        try:
            words = file.read_bytes().decode("latin-1").split("\0")
        except OSError:
            # It is over.
            continue
        found += [" ".join(words)] if any(word.startswith(f"{folder}/") for word in words) else []
    return found


def at_once(at: Lowering) -> None:
    """All requests of a session at once are answered as one after the other."""
    path = str(at.folder / "floats.ssa")
    asked: list[tuple[str, Message]] = [
        ("initialize", {"adapterID": "qrev"}), ("launch", {"program": path}),
        ("setBreakpoints", {"source": {"path": path}, "breakpoints": [{"line": 11}]}), ("configurationDone", {}),
        ("continue", {"threadId": 1}), ("stackTrace", {"threadId": 1}), ("restart", {}), ("configurationDone", {}),
        ("terminate", {}), ("launch", {"program": str(at.folder / "undefined.ssa")}),
        ("launch", {"program": path, "lower": True}), ("restart", {"arguments": {"program": path, "lower": 5}}),
        ("launch", {"program": path, "argv": []}), ("disconnect", {})]
    for command, arguments in asked:
        at.console.answer(command, arguments)
        if command in ("configurationDone", "continue"):
            at.console.stopped()
    status = at.console.end()
    while at.console.next() is not None:
        pass
    wanted = [message for message in at.console.log if message["type"] != "request"]
    sent = b"".join(frame(request_message(number, *each)) for number, each in enumerate(asked, 1))
    run = subprocess.run([str(RELAY), *words_of(at.program)], input=sent, cwd=at.folder, capture_output=True,
                         timeout=at.console.seconds, env={**os.environ, "TMPDIR": str(at.folder / "tmp")})
    got = messages_in(run.stdout)
    expect((status, run.returncode) == (0, 0), f"status {status}, {run.returncode}")
    for one, other in zip(wanted, got):
        expect(one == other, f"{other} in place of {one}")
    expect(len(got) == len(wanted) > len(asked) and not at.left, f"{len(got)} messages, and {at.left}")


def closed_input(at: Lowering) -> None:
    at.begin("floats.ssa")
    expect(len(at.left) == 1, f"{at.left}")
    expect(at.console.end() == 0, "it doesn't end")
    expect(not at.left, f"{at.left} is left")


def stopped_by(number: signal.Signals) -> Callable[[Lowering], None]:
    """A signal ends it while a session is open."""
    def does(at: Lowering) -> None:
        at.begin("floats.ssa")
        expect(len(at.left) == 1, f"{at.left}")
        at.console.process.send_signal(number)
        at.console.process.wait(at.console.seconds)
        at.is_empty_soon()
    return does


def crashed(at: Lowering) -> None:
    """The adapter itself is killed."""
    at.begin("floats.ssa")
    pid = at.console.process.pid
    for child in pathlib.Path(f"/proc/{pid}/task/{pid}/children").read_text().split():
        os.kill(int(child), signal.SIGKILL)
    expect(at.console.process.wait(at.console.seconds) == 128 + signal.SIGKILL, "another status")
    expect(not at.left, f"{at.left} is left")


def no_room(at: Lowering) -> None:
    """Where no folder can be made the launch fails, and the next one may be of a plain text."""
    (at.folder / "tmp").rmdir()
    at.fails(at.launch("floats.ssa", lower=True),
             "lowering needs a folder for what it writes; TMPDIR can name another one")
    expect(at.again("squares.ssa")["success"], "no launch behind it")
    (at.folder / "tmp").mkdir()


def by_the_definitions(at: Lowering) -> Fault:
    """All messages are those of the protocol's definitions."""
    at.fails(at.launch("wrong.ssa", lower=True, client="vscode"), at.prompt("--lower", "wrong.ssa").stderr.strip())
    at.next_event("output")
    at.again("behind.ssa", check=True)
    at.configure()
    at.goes("continue", "done 0")
    at.console.answer("terminate")
    at.next_event("terminated")
    found = dict(schema.faults({"lowering": at.console.log}, at.console.seconds))
    return next((fault for fault in found.values() if isinstance(fault, Skipped)),
                next((fault for fault in found.values() if fault), None))


CASES: dict[str, Callable[[Lowering], Fault]] = {
    "floats": floats, "steps": steps, "relative paths": relative, "the C library": library,
    "as at the prompt": as_at_the_prompt, "linked files": linked, "input": reads, "files": finds, "words": words,
    "a name of its own": own_name, "an entry with its sigil": with_sigil, "plain texts": plain,
    "restarted": restarted, "refused": refused,
    "wrong members": wrong_members, "looked at": looked_at, "functions from outside": outside,
    "sources": sources, "recorded": recorded, "checked": checked, "checked, with links": check_links,
    "checked beside": beside, "at once": at_once, "closed input": closed_input,
    "a signal": stopped_by(signal.SIGTERM), "killed": stopped_by(signal.SIGKILL),
    "hung up": stopped_by(signal.SIGHUP), "crashed": crashed, "no room": no_room,
    "by the definitions": by_the_definitions,
}
# Cases behind which nobody is left to be asked to end.
ENDED = ("checked beside", "at once", "closed input")
KILLED = ("a signal", "killed", "hung up", "crashed")


def fault_of(program: str, seconds: float, name: str) -> Fault:
    """What is wrong in a case, or None."""
    with tempfile.TemporaryDirectory(prefix="dap-") as place:
        folder = pathlib.Path(place).resolve()
        for file in [*EXAMPLES.glob("*.ssa"), *FOLDER.glob("*.ssa"), *(DATA / "real").glob("*.ssa"),
                     TOP / "check" / "testing" / "texts" / "unset-on-one-path.ssa", DATA / "programs" / "matrix.ssa"]:
            shutil.copy(file, folder)
        shutil.copy(FOLDER / "wrong.ssa", folder / "wrong-integer.ssa")
        for text, lines in TEXTS.items():
            (folder / f"{text}.ssa").write_text(lines)
        for each in ("more", "tmp"):
            (folder / each).mkdir()
        (folder / "more" / "third.ssa").write_text(THIRD)
        at = Lowering(console_in(folder, program, seconds), program, folder)
        console = at.console
        found: list[Fault] = []
        if name in KILLED:
            return killed_fault(at, CASES[name])
        end = ended if name in ENDED else disconnected
        fault = end(console, lambda: found.append(CASES[name](at)))
        return fault or (f"{at.left} is left" if at.left else found[0])


def console_in(folder: pathlib.Path, program: str, seconds: float) -> Console:
    """A console that a hangup ends, also where these tests run under `nohup`, whose children don't mind one."""
    before = signal.signal(signal.SIGHUP, signal.SIG_DFL)
    try:
        return Console(program, seconds, folder, environment={**os.environ, "TMPDIR": str(folder / "tmp")})
    finally:
        signal.signal(signal.SIGHUP, before)


def killed_fault(at: Lowering, does: Callable[[Lowering], Fault]) -> Fault:
    """What is wrong in a case after which nothing may still run."""
    try:
        return does(at)
    except Wrong as wrong:
        return str(wrong)
    finally:
        at.console.kill()


def cases() -> Iterator[Case]:
    for name in CASES:
        yield f"lowering, {name}", fault_of, (name,)
