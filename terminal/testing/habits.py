"""Tests of a session at a terminal beyond its commands: Ctrl-C, completion, bad input, failures, and speed.

Each gives what is wrong, or None.
"""
from __future__ import annotations

import os
import pathlib
import re
import shlex
import signal
import subprocess
import sys
import tempfile
import time
from types import SimpleNamespace
from typing import Any, Callable

from terminal import tui
from terminal.scratch import Launch
from terminal.shell import FAULT, Shell
from terminal.waiting import Interrupted, Waiting

from .harness import FOLDER, PROMPT, TOP, Held, Silent, Terminal, last_place
from .sessions import EXAMPLES, SQUARES

ENDLESS = """export function w $main() {
@start
	jmp @loop
@loop
	%i =l phi @start 0, @loop %j
	%j =l add %i, 1
	jmp @loop
}
"""
# Seconds after which a prompt waits for keys.
READY = 0.2
# What is typed for a run of so many moves, and how many seconds of a processor `why` may take behind it.
SPEEDS = ((1_000_000, 1.0), (10_000_000, 5.0))
# A round of the loop below takes eight moves, and stores at an address that only the run tells.
LONG = """data $first = align 4 {{ w 0 }}
export function w $main() {{
@start
	%sum =l alloc8 8
	storew 7, $first
	jmp @loop
@loop
	%i =l phi @start 0, @body %next
	%more =w csltl %i, {rounds}
	jnz %more, @body, @end
@body
	%old =l loadl %sum
	%new =l add %old, 1
	storel %new, %sum
	%next =l add %i, 1
	%same =w loadw $first
	jmp @loop
@end
	%r =w loadw $first
	ret %r
}}
"""


# Each of 900 calls hands the address of a variable of $main on.
DEEP = """function w $down(w %n, l %at) {
@start
	%local =l alloc4 4
	storew %n, %local
	jnz %n, @more, @bottom
@bottom
	%value =w loadw %at
	ret %value
@more
	%less =w sub %n, 1
	%result =w call $down(w %less, l %at)
	ret %result
}
export function w $main() {
@start
	%variable =l alloc4 4
	storew 5, %variable
	%result =w call $down(w 900, l %variable)
	ret %result
}
"""
# Seconds of a processor that a stop may take there.
AT_ONCE = 2.0


def written(folder: str, name: str, text: str) -> str:
    path = pathlib.Path(folder) / name
    path.write_text(text)
    return str(path)


def missing(text: str, *wanted: str) -> str | None:
    absent = [each for each in wanted if each not in text]
    return f"{text!r} lacks {absent[0]!r}" if absent else None


def interrupted(program: str) -> str | None:
    """Ctrl-C in a run without an end stops it, with its progress shown before; the session goes on from there."""
    with tempfile.TemporaryDirectory(prefix="endless-") as folder:
        session = Held(program, written(folder, "endless.ssa", ENDLESS), "--history", "1000")
        try:
            session.type("c\n")
            session.wait_for("million moves a second")
            session.type("\x03")
            answer = session.wait_for(PROMPT)
            session.settle(READY)
            position = re.search(r"^#(\d+) \$main", answer, re.MULTILINE)
            if "stopped by Ctrl-C" not in answer or not position or int(position[1]) < 1_000_000:
                return f"Ctrl-C shows {answer!r}"
            if f"#{int(position[1]) + 2} $main" not in session.do("s 2"):
                return "the session doesn't go on behind Ctrl-C"
            session.do("b @loop if %i < 0")
            session.type("c\n")
            session.wait_for("million moves a second")
            session.type("\x03")
            answer = session.wait_for(PROMPT)
            session.settle(READY)
            session.place = last_place(answer) or session.place
            return missing(answer, "stopped by Ctrl-C") or session.replayed_fault()
        finally:
            session.close()


def interrupted_at_the_prompt(program: str) -> str | None:
    """The second Ctrl-C asks whether to leave, and leaves where that is wished."""
    session = Held(program, str(SQUARES))

    def press() -> None:
        # The library of the prompt doesn't see a key between writing the prompt and waiting for one.
        time.sleep(READY)
        session.type("\x03")
    try:
        for answer in "ny":
            press()
            session.wait_for(PROMPT)
            press()
            session.wait_for("leave the session? (y or n) ")
            session.type(answer + "\n")
            if answer == "n":
                session.wait_for(PROMPT)
                fault = missing(session.do("s"), "#1 $fill @start 0")
        return fault or (None if session.status() == 0 else "another status than 0")
    finally:
        session.close()


def left(program: str) -> str | None:
    """`quit` and the end of the input end a session."""
    for keys in ("quit\n", "q\n", "\x04"):
        session = Held(program, str(SQUARES))
        try:
            session.type(keys)
            if session.status() != 0:
                return f"{keys!r}: another status than 0"
        finally:
            session.close()
    return None


def completed(program: str) -> str | None:
    """Commands, temporaries of the frame, functions, data, labels and checkpoints are completed by the tabulator."""
    session = Held(program, str(SQUARES))
    try:
        for keys, wanted in (("conti\t\n", "#88 done 30"), ("watch w $bi\t\n", "watch 1: w $bias+0"),
                             ("b fi\t @bo\t\n", "$fill @body 0"), ("d 2\n", "deleted 2"),
                             ("reverse-c\t\n", "#44 $fill @body 4"),
                             ("p %squ\t\n", "%square = 16"), ("b $fi\t @bo\t\n", "$fill @body 0"),
                             ("checkpoint here\n", "here"), ("restart he\t\n", "#44"),
                             ("help undis\t\n", "undisplay [N]"), ("chec\t other\n", "other"),
                             ("delete checkp\t ot\t\n", "deleted checkpoint other"), ("goto en\t\n", "#88 done 30"),
                             ("resta he\t\n", "#44"), ("list -s\t\n", " 18 "),
                             ("why ou\t\n", "nothing was written yet"), ("why no\t @en\t\n", "to @end"),
                             ("suspects\n", "1 suspicion"), ("goto sus\t 1\n", "#44"),
                             ("p $bias+%squ\t*2\n", "= 65584"), ("info chec\t\n", "here: #44")):
            session.type(keys)
            answer = session.wait_for(PROMPT)
            session.place = last_place(answer) or session.place
            fault = missing(answer, wanted)
            if fault:
                return f"{keys!r}: {fault}"
        # Two lines up is the command before the last.
        session.type("\x10\x10\n")
        session.wait_for("= 65584")
        session.wait_for(PROMPT)
        return session.replayed_fault()
    finally:
        session.close()


WRONG = [
    "frob", "step x", "step 0", "step 99999999999", "back -1", "b", "b 999", "b $none", "b $main @none",
    "b $main @start 99", "b @none", "b 3 if", "b 3 if %zz > 1", "b 3 4 5", "watch", "watch q", "watch w",
    "watch w $none", "watch 600 $bias", "watch $fill %zz", "watch $none %i", "watch %zz", "delete 9", "delete x",
    "ignore 1", "condition 7 1", "set", "set %zz 1", "set %i", "set i 1", "set %more 99999999999999999999999", "poke",
    "poke w", "poke q 1 1", "poke w $bias", "poke w 1 1", "p", "p %", "p (1", "p 1 +", "p 1 2", "p @", "p/z 1",
    "p 1/0", "p 1 << 99", "p w[", "p w[1", "p 'ab'", "x/q 1", "x/0x 1", "x/99999x 1", "x", "mem", "mem $none",
    "mem 0 0", "display %", "undisplay 4", "frame x", "frame 9", "up 99", "down", "list @none", "list 0x", "info",
    "info frob", "goto", "goto x", "goto -1", "restart", "restart no", "why %zz", "why q", "why 3", "why w",
    "why out 5", "why back", "why 99 $bias", "readers", "readers $none", "writers w", "when", "when 1",
    "when depth > 1", "when %zz", "compare", "compare /nowhere", "save", "save /nowhere/x", "help frob",
    "checkpoint a b", "\x01\x02", "p " + "(" * 60, "s " * 300, "é", "p é", "b $fill if é", "p %i%", "p --", "x/4w",
    "b 14 if w[$none] > 1", "p $none", "p " + "(" * 2000, "p " + "1+" * 1500 + "1", "p " + "9" * 3000,
    "p " + "*".join(["99999999999999999999"] * 100), "when w[$none]", "condition 1 w[$none]",
    "why out", "d $fill", "c 0", "stops 1 2", "f -1", "/", "p/", "x/", "$", "%", "@", ";", "p $", "watch 0 $bias",
    "watch w 5 6", "made", "info st", "rwatch w $bias",
]


def bad_lines(program: str) -> str | None:
    """Any line is answered in words, and the session stands where it stood."""
    session = Held(program, str(SQUARES))
    try:
        session.do("s 2")
        for line in WRONG:
            answer = session.do(line.replace("\x01", "").replace("\x02", ""))
            if "Traceback" in answer or PROMPT in answer:
                return f"{line!r} shows {answer!r}"
        # Two words of them name what they are about and what was expected.
        fault = missing(session.do("watch q"), "q: ", "was expected")
        fault = fault or missing(session.do("b @none"), "@none: $fill has no such label")
        return fault or missing(session.do("info session"), "#2,") or session.replayed_fault()
    finally:
        session.close()


def refused(program: str) -> str | None:
    """A program that is refused is shown beside its line, and the status is the debugger's."""
    with tempfile.TemporaryDirectory(prefix="refused-") as folder:
        text = SQUARES.read_text().replace("mul %i, %i", "mul %i, %j")
        words = [os.path.join(TOP, "terminal", "main"), "--debugger", program, "--"]
        for file, wanted, status in ((written(folder, "a.ssa", text), "a.ssa:14: C6: ", 1),
                                     (os.path.join(folder, "none.ssa"), "none.ssa: No such file or directory", 2),
                                     (written(folder, "c.ssa", text.replace("mul %i, %j", "copy d_-3.0")),
                                      "c.ssa:14: L1: a constant of a float, which is left out here; `./qrev --lower`",
                                      1),
                                     (written(folder, "d.ssa", text.replace("mul %i, %j", "call $printf(l 0)")),
                                      "d.ssa:14: C9: a global that is nowhere defined; `./qrev --lower` has much", 1),
                                     (written(folder, "b.ssa", ""), "S1", 1)):
            terminal = Terminal([*words, file])
            try:
                terminal.wait_for(wanted)
                if terminal.status() != status:
                    return f"{file}: another status than {status}"
            finally:
                terminal.close()
        for more in (["--limit", "0"], ["--history", "x"], ["--memory", "0"], ["--memory", "1", "--history", "9"],
                     ["--replay", "0"], ["--replay", "--history", "9"], ["--nothing"],
                     [str(SQUARES), "7", "8"]):
            run = subprocess.run([*words, *more], capture_output=True, text=True, stdin=subprocess.DEVNULL, timeout=600)
            if run.returncode not in (1, 64) or "Traceback" in run.stderr:
                return f"{more}: {run}"
    return None


def children_of(process: int) -> list[int]:
    return [int(word) for word in pathlib.Path(f"/proc/{process}/task/{process}/children").read_text().split()]


def processor_seconds(session: Held) -> float:
    """What the front end and its processes have used of the processor: other work on the machine isn't in it."""
    used = 0.0
    for process in (session.child, *children_of(session.child)):
        fields = pathlib.Path(f"/proc/{process}/stat").read_text().rpartition(")")[2].split()
        used += (int(fields[11]) + int(fields[12])) / os.sysconf("SC_CLK_TCK")
    return used


def broken(program: str) -> str | None:
    """Where the debugger's process is ended, another one is led to the same state."""
    session = Held(program, str(SQUARES))
    try:
        session.do("watch w $bias")
        session.do("c")
        for child in children_of(session.child):
            os.kill(child, signal.SIGKILL)
        fault = missing(session.do("p w[$squares+4]"), "= 1", "the debugger ended (signal 9)")
        fault = fault or missing(session.do("why w $bias"), "#44 $fill @body 4")
        for child in children_of(session.child):
            os.kill(child, signal.SIGKILL)
        return fault or missing(session.do("rc"), "#44 $fill @body 4") or session.replayed_fault()
    finally:
        session.close()


def narrow(program: str) -> str | None:
    """At a terminal of 20 columns the text is cut and values stand below it."""
    session = Held(program, str(SQUARES), columns=20)
    try:
        session.do("goto 44")
        answer = session.do("goto 44")
        wide = [line for line in answer.split("\n") if re.match(r"[> ] +\d+  ", line) and len(line) > 20]
        return f"{wide[0]!r} is too wide" if wide else missing(answer, "%square=16", "%place=$bias+0") or \
            missing(session.do("help"), "break (b)") or session.replayed_fault()
    finally:
        session.close()


def without_readline(program: str) -> str | None:
    with tempfile.TemporaryDirectory(prefix="plain-") as folder:
        written(folder, "readline.py", "raise ImportError('none here')\n")
        session = Held(program, str(SQUARES), environment={"PYTHONPATH": folder})
        try:
            return missing(session.do("c"), "#88 done 30") or session.replayed_fault()
        finally:
            session.close()


def wrapped(program: str) -> str | None:
    """The script at the top starts the front end at a terminal; after --plain, and with a script, it doesn't."""
    wrapper = str(TOP / "qrev")
    choices: tuple[list[str], ...] = ([], ["--plain"], ["--prompt"])
    for words in choices:
        terminal = Terminal([wrapper, *words, str(SQUARES)], seconds=60)
        try:
            terminal.wait_for("#0 $main @start 0")
            if words != ["--plain"]:
                terminal.wait_for(PROMPT)
            terminal.type("continue\n")
            if PROMPT in terminal.wait_for("#88 done 30\n"):
                return f"{words}: a prompt before the answer"
        finally:
            terminal.close()
    with tempfile.TemporaryDirectory(prefix="python-") as folder:
        os.chmod(written(folder, "python3", "#!/bin/sh\nexit 1\n"), 0o755)
        run = subprocess.run([wrapper, "--prompt", str(SQUARES)], input="continue\n", capture_output=True, text=True,
                             timeout=600, env={**os.environ, "PATH": f"{folder}:{os.environ['PATH']}"})
    fault = missing(run.stderr, "lines are read plainly") or missing(run.stdout, "stop: end\n#88 done 30")
    if fault:
        return fault
    run = subprocess.run([wrapper, "--prompt", str(SQUARES)], input="c\nwhy\n", capture_output=True, text=True,
                         timeout=600)
    return missing(run.stdout, "#88 done 30", "[1] %total = 30") or \
        ("a prompt at a pipe" if PROMPT in run.stdout else None)


def memory_told(program: str) -> str | None:
    session = Held(program, str(SQUARES), memory=1)
    try:
        return missing(session.do("c") + session.told, " MB", "without --history") or session.replayed_fault()
    finally:
        session.close()


def bounded(program: str) -> str | None:
    """With few moves kept a cause is still found, and a position out of reach is reported."""
    with tempfile.TemporaryDirectory(prefix="bounded-") as folder:
        session = Held(program, written(folder, "long.ssa", LONG.format(rounds=200_000)), "--history", "10")
        try:
            fault = missing(session.do("c"), "done 7") or missing(session.do("why"), "[1] %r = 7")
            fault = fault or missing(session.do("why w $first"), "line 5: storew 7, $first", "#1 $main @start 1")
            oldest = int(session.place[1:].split()[0]) - 10
            fault = fault or missing(session.do("goto 5"), "keeps its last 10 moves, which end here",
                                     f"#{oldest} $main")
            return fault or session.replayed_fault()
        finally:
            session.close()


def fast(program: str) -> str | None:
    """The time of `why` after runs of many moves, including the second process's way to the end."""
    for moves, seconds in SPEEDS:
        with tempfile.TemporaryDirectory(prefix="long-") as folder:
            session = Held(program, written(folder, "long.ssa", LONG.format(rounds=moves // 8 + 1)), memory=4096)
            try:
                fault = missing(session.do("c"), "done 7")
                if fault or int(session.place[1:].split()[0]) < moves:
                    return fault or f"{session.place} is before #{moves}"
                for line, wanted in (("why", "[1] %r = 7"), ("why 1", "[1] w $first+0 = 7"),
                                     ("why 1", "line 5: storew 7, $first"),
                                     ("back", "%r=7"), ("why l %sum", "storel %new, %sum"), ("why %i", "for @body"),
                                     ("why %sum", "line 4: %sum =l alloc8 8"),
                                     ("why w $first", "line 5: storew 7, $first")):
                    begun = processor_seconds(session)
                    fault = missing(session.do(line), wanted)
                    taken = processor_seconds(session) - begun
                    if fault or taken > seconds:
                        return fault or f"{line} takes {taken:.2f} seconds behind {moves} moves"
            finally:
                session.close()
    return None


def followed(program: str) -> str | None:
    """The process for questions keeps up with a long run at a terminal, and answers as one that goes there when it is
    asked."""
    lines = ["step 20000000", "why", "why l %sum", "set %old 7", "step 10000000", "why l %sum", "back 25000000",
             "why l %sum", "step 24000000", "why l %sum", "goto 100", "why l %sum"]
    with tempfile.TemporaryDirectory(prefix="long-") as folder:
        file = written(folder, "long.ssa", LONG.format(rounds=10_000_000))
        run = subprocess.run([sys.executable, str(TOP / "terminal" / "main"), "--debugger", program, "--", file],
                             input="\n".join(lines), capture_output=True, text=True, timeout=600)
        session = Held(program, file)
        try:
            told = session.do(lines[0])
            if len(children_of(session.child)) != 2:
                return "no process follows a run of 20,000,000 moves"
            for line in lines[1:]:
                told = session.do(line).rpartition("\r\x1b[K")[2]
                if told not in run.stdout:
                    return f"{line} is answered {told!r}, and without following otherwise"
            return session.replayed_fault()
        finally:
            session.close()


def suspected(program: str) -> str | None:
    """The end of a run reports suspicions on the way, only for the program's own run."""
    for file, lines, is_told in ((SQUARES, ["c"], True), (TOP / "examples" / "sum.ssa", ["c"], False),
                                 (SQUARES, ["step 10", "set %i 3", "c"], False)):
        session = Held(program, str(file), has_lookout=True)
        try:
            told = [session.do(line) for line in lines][-1]
            if (told.split("\n")[-2] == "1 suspicion on the way: `suspects` tells it") != is_told:
                return f"{file.stem}, {lines}: {told!r}"
        finally:
            session.close()
    return None


def gone_round(program: str) -> str | None:
    """The way through a loop of many rounds is shown from its end, and an unreached block is found at once. @loop comes
    at #1 and then each second move, so that the 4,000th from #1000001 back is at #992003."""
    with tempfile.TemporaryDirectory(prefix="round-") as folder:
        text = ENDLESS.replace("jmp @loop\n}", "jnz 1, @loop, @end\n@end\n\tret 0\n}")
        session = Held(program, written(folder, "endless.ssa", text))
        try:
            session.do("goto 1000001")
            begun = processor_seconds(session)
            told = "$main went through 4000 blocks and more, of which these are the last, from #992003 to #1000001"
            fault = missing(session.do("path"), told, "  #992003  @loop  x 4000")
            fault = fault or missing(session.do("why not @end"), "control didn't come to @end in this call of $main",
                                     "#1000000 $main @loop 1  line 7: jnz 1, @loop, @end")
            taken = processor_seconds(session) - begun
            return fault or (f"it takes {taken:.1f} seconds" if taken > 3 else None)
        finally:
            session.close()


def far(program: str) -> str | None:
    """After a long run too, an unreached block is found in little more than the time of the run. Other work on the
    machine can make one of them several times as slow as the other, so it is tried up to three times."""
    taken = ""
    for _ in range(3):
        fault, run, search = searched_far(program)
        if fault or search <= 2.5 * run:
            return fault
        taken += f", {search:.1f} seconds beside {run:.1f} of the run"
    return f"it takes{taken[1:]}"


def searched_far(program: str) -> tuple[str | None, float, float]:
    """What is wrong, and the seconds that a run of 40,000,000 moves and then the search take."""
    with tempfile.TemporaryDirectory(prefix="far-") as folder:
        text = ENDLESS.replace("jmp @loop\n}", "jnz 1, @loop, @end\n@end\n\tret 0\n}")
        session = Held(program, written(folder, "endless.ssa", text))
        try:
            begun = processor_seconds(session)
            session.do("goto 40000001")
            session.do("why jump")
            there = processor_seconds(session)
            fault = missing(session.do("why not @end"), "control didn't come to @end in this call of $main",
                            "#40000000 $main @loop 1  line 7: jnz 1, @loop, @end")
            return fault, there - begun, processor_seconds(session) - there
        finally:
            session.close()


def looked_at(program: str) -> str | None:
    """Ctrl-C breaks off a look at the whole run for what is suspicious, and the session goes on."""
    with tempfile.TemporaryDirectory(prefix="looked-") as folder:
        session = Held(program, written(folder, "endless.ssa", ENDLESS))
        try:
            session.do("goto 900000")
            for line, told in (("suspects", "looking at up to "), ("break suspect", "gathered up to "),
                               ("made %i", "gathered up to ")):
                session.type(f"{line}\n")
                # Some of the run is gathered or looked at by then, and all of it isn't.
                session.wait_for(told)
                session.type("\x03")
                fault = missing(session.wait_for(PROMPT), "stopped by Ctrl-C")
                if fault:
                    return f"{line}: {fault}"
                session.settle(READY)
            return missing(session.do("stops"), "none") or missing(session.do("s"), "#900001 $main @loop")
        finally:
            session.close()


class Pressed(Shell):
    """A session in which Ctrl-C breaks each command off at #101, which takes long to show. It may be pressed once
    more then."""

    def begin_kept(self, is_pressed_again: bool) -> None:
        self.said: list[str] = []
        self.is_pressed_again = is_pressed_again

    def say(self, *lines: str) -> None:
        self.said += lines

    def do(self, line: str) -> None:
        self.session.move("step 101")
        self.session.scratch.drop()
        self.waiting.pressed_at = time.monotonic() - 1
        raise Interrupted

    def show(self, reason: str = "") -> None:
        if self.is_pressed_again:
            raise Interrupted
        super().show(reason)


def shown_at_last(program: str) -> str | None:
    """Where Ctrl-C stopped a command the session shows what comes next, and for %at.next of the digits another process
    is asked; a second one costs the rest of what is shown, and not the session."""
    file = EXAMPLES / "digits.ssa"
    for is_again in (False, True):
        shell = Pressed(Launch(program, str(file), ()), str(file), file.read_bytes(), Waiting())
        shell.begin_kept(is_again)
        try:
            shell.run("finish")
        except Interrupted:
            return f"it ends the session, {'pressed again' if is_again else 'pressed once'}"
        finally:
            shell.session.close()
        place = [] if is_again else ["#101 $number @digit 3", "%at.next=frame 1 $main alloc %count+3"]
        fault = missing("\n".join(shell.said), "stopped by Ctrl-C", *place)
        if fault:
            return fault
    return None


def drawn_at_last(_program: str) -> str | None:
    """Ctrl-C that was pressed while nothing ran breaks off no drawing of the full screen, and a second one ends it."""
    screen: Any = object.__new__(tui.Screenful)
    waiting = Waiting()
    drawn: list[bool] = []

    def draw() -> None:
        waiting.check()
        drawn.append(True)
        waiting.pressed_at = time.monotonic() - 1
        waiting.check()

    screen.shell, screen.panes = SimpleNamespace(waiting=waiting), SimpleNamespace(moved=lambda: None)
    screen.draw = draw
    waiting.pressed_at = time.monotonic() - 1
    screen.draw_whole()
    return None if drawn else "nothing is drawn"


def closed(program: str) -> str | None:
    """Without a standard output a line says so; input that is closed is empty."""
    for main in (FOLDER / "main", TOP / "check" / "main"):
        for closing, wanted in (("out", (2, "qrev: standard output is closed\n")), ("in", None)):
            words = shlex.join([str(main), "--debugger", program, "--", str(SQUARES)])
            run = subprocess.run(["sh", "-c", f"{words} {'>&-' if closing == 'out' else '<&-'}"], capture_output=True,
                                 text=True, stdin=subprocess.DEVNULL)
            if wanted and (run.returncode, run.stderr) != wanted or run.stderr.count("\n") > 1:
                return f"{main}, {closing}: {run.returncode}, {run.stderr!r}"
    return None


def gone(program: str) -> str | None:
    """A check whose two outputs are one pipe that nobody reads says so by its status."""
    reading, writing = os.pipe()
    os.close(reading)
    run = subprocess.run([str(TOP / "check" / "main"), "--debugger", program, "--", str(SQUARES)], stdout=writing,
                         stderr=writing, stdin=subprocess.DEVNULL)
    os.close(writing)
    return None if run.returncode == 2 else f"{run.returncode}"


def long_named(program: str) -> str | None:
    """A temporary whose name is too long for its value to be asked for has none beside its line."""
    name = "%" + "x" * 300
    with tempfile.TemporaryDirectory(prefix="long-") as folder:
        text = (f"function w $main() {{\n@start\n\t{name} =w copy 1\n\tjnz {name}, @end, @end\n"
                f"@end\n\tret {name}\n}}\n")
        session = Held(program, written(folder, "long.ssa", text))
        try:
            shown = session.do("s") + session.do("s") + session.do("c")
        finally:
            session.close()
    return f"{shown!r}" if FAULT in shown else missing(shown, "#1 $main @start 1", "#2 $main @end 0", "#3 done 1")


def deep(program: str) -> str | None:
    """Far inside calls an address is named by its frame, callers are looked at, and no stop takes long for it."""
    with tempfile.TemporaryDirectory(prefix="deep-") as folder:
        session = Held(program, written(folder, "deep.ssa", DEEP))
        try:
            session.do("b $down @bottom")
            begun = processor_seconds(session)
            fault = missing(session.do("c"), "%at=frame 901 $main alloc %variable+0")
            taken = processor_seconds(session) - begun
            if taken > AT_ONCE:
                return f"the stop takes {taken:.2f} seconds"
            fault = fault or missing(session.do("up 450"), "frame 450 $down @more 2")
            fault = fault or missing(session.do("p %n"), "%n = 450")
            fault = fault or missing(session.do("p %local"), "(frame 450 $down alloc %local+0)")
            fault = fault or missing(session.do("why %at"), "[2] %at = 16777216 (frame 450 $main alloc %variable+0)")
            return fault or missing(session.do("fin"), "given back: %result = 5") or session.replayed_fault()
        finally:
            session.close()


def saved_and_compared(program: str) -> str | None:
    """A saved script with another limit, what a recorded script parts by, and a transcript that no longer holds."""
    with tempfile.TemporaryDirectory(prefix="compared-") as folder:
        recorded = written(folder, "a.script", (EXAMPLES / "squares.script").read_text())
        transcript = (EXAMPLES / "squares.transcript").read_text()
        written(folder, "a.transcript", transcript)
        session = Held(program, str(SQUARES), "--limit", "50")
        try:
            session.do("c")
            if session.place != "#50 $main @start 1":
                return f"the limit of 50 leads to {session.place}"
            fault = session.replayed_fault()
            fault = fault or missing(session.do(f"compare {recorded}"), "here the end, there `watch w $bias`")
            fault = fault or missing(session.do(f"save {folder}/b.script"), "--limit 50")
        finally:
            session.close()
        session = Held(program, str(SQUARES))
        try:
            for line in (EXAMPLES / "squares.script").read_text().split("\n"):
                session.do(line)
            fault = fault or missing(session.do(f"compare {recorded}"), "the same 6 lines", "the same state, #89",
                                     "a.transcript is what the program answers")
            session.do("goto 40")
            fault = fault or missing(session.do(f"compare {recorded}"), "the same states up to #40")
            written(folder, "a.transcript", transcript.replace("%i = 4", "%i = 5"))
            return fault or missing(session.do(f"compare {recorded}"), "now %i = 4, recorded %i = 5")
        finally:
            session.close()


def mapped(program: str) -> str | None:
    """The places that a map has for a line are shown: of the text that was lowered, and of the source, whose lines are
    listed around the selected frame's. The call in $main stands on line 27 of the text."""
    with tempfile.TemporaryDirectory(prefix="mapped-") as folder:
        written(folder, "a.ssa", SQUARES.read_text())
        places = [f"my\\tsquares.ssa\t{number // 2}" if number > 5 else "" for number in range(1, 50)]
        places[17 - 1] += "\tlib\\\\a.my\t3\t0"
        places[18 - 1] += "\tsquares.my\t4\t7"
        places[27 - 1] += "\tsquares.my\t30\t0"
        written(folder, "a.ssa.map", "\n".join(places) + "\n")
        written(folder, "squares.my", "".join(f"my {number}\n" for number in range(1, 41)))
        session = Held(program, "a.ssa", folder=folder)
        try:
            fault = missing(session.do("goto 44"), "  source: my\tsquares.ssa:9: squares.my:4:7  my 4\n")
            fault = fault or missing(session.do("bt"), "(my\tsquares.ssa:13: squares.my:30)\n")
            fault = fault or missing(session.do("s"), "  source: my\tsquares.ssa:9\n")
            session.do("back")
            fault = fault or missing(session.do("why %place"), "  (my\tsquares.ssa:8: lib\\a.my:3)\n")
            fault = fault or missing(session.do("list"), "squares.my\n", " my 4\n")
            session.do("up")
            fault = fault or missing(session.do("list"), "squares.my\n", "> 30  my 30\n")
            fault = fault or missing(session.do("info source"), "here: squares.my:30\n")
            return fault or session.replayed_fault()
        finally:
            session.close()


COUNT = """export function w $main(w %count, l %texts) {
@start
	ret %count
}
"""


READ = """export function w $main() {
@start
	%byte =w call $getchar()
	ret %byte
}
"""


def lowered(program: str) -> str | None:
    """Texts of whole QBE: the places of their own lines, and saved scripts that say how to play them."""
    struct = "lower/test-data/real/structval.ssa"
    with tempfile.TemporaryDirectory(prefix="lowered-") as folder:
        count = written(folder, "count.ssa", COUNT)
        # The function `add` begins on line 76 of its text. The name of the program is a text of `main` too.
        read, given = written(folder, "read.ssa", READ), written(folder, "given", "Q")
        return played(folder, [struct], "b $add\nc\n", f"  source: {struct}:76\n", "#14 $add @start.") or \
            played(folder, ["--input", given, read], "c\n", "done 81\n", " done 81\n") or \
            played(folder, [count, "--", "a", "b c"], "c\n", "done 3\n", " done 3\n")


def played(folder: str, words: list[str], lines: str, shown: str, place: str) -> str | None:
    """What a session over lowered texts shows wrong, or where its saved script leads wrong; or None."""
    scratch, script = pathlib.Path(folder) / "scratch", pathlib.Path(folder) / "saved.script"
    scratch.mkdir(exist_ok=True)
    session = Terminal([str(TOP / "qrev"), "--lower", *words], seconds=60, folder=str(TOP),
                       environment={"TMPDIR": str(scratch)})
    try:
        session.wait_for(PROMPT)
        session.type(lines)
        session.wait_for(shown)
        session.type(f"save {script}\n")
        session.wait_for("to play them: ")
        told = session.wait_for("\n")
        session.type("quit\n")
        status = session.status()
    finally:
        session.close()
    wanted = f"./qrev {shlex.join(['--lower', *words])} < {script}"
    run = subprocess.run(["bash", "-c", told], text=True, capture_output=True, cwd=TOP, timeout=600)
    left_over = list(scratch.iterdir())
    return missing(run.stdout, place) or (f"{told!r} in place of {wanted!r}" if told != wanted else None) or \
        (f"status {status}, and {left_over} are left" if status or left_over else None)


def bare(program: str) -> str | None:
    """Without a program the script at the top says what is wrong, and starts nothing."""
    session = Terminal([str(TOP / "qrev")], seconds=60)
    try:
        session.wait_for("Usage: qrev")
        status = session.status()
        return None if status == 64 else f"status {status}"
    finally:
        session.close()


def stops_kept(program: str) -> str | None:
    """Stops that were written to a file are set again from it, and one about a frame is reported as left out; a file
    that reads itself ends, and what is wrong in a file is reported with its place."""
    with tempfile.TemporaryDirectory(prefix="stops-") as place:
        file, own, wrong = (pathlib.Path(place) / name for name in ("stops", "own", "wrong"))
        own.write_text(f"source {own}\n")
        wrong.write_text("# a comment\n\np 1 + 1\nprint\np 3\n")
        session = Held(program, str(SQUARES))
        try:
            for line in ("b 14 if %i > 2", "commands\np %i\nend", "tbreak $fill", "watch w $bias", "ignore 3 1",
                         "disable 3", "watch %i", "goto 27", "watch w %place if 1"):
                session.do(line)
            told = session.do(f"save breakpoints {file}")
            if "4 stops" not in told or "left out, as it is about one frame: 4: %i of this call of $main" not in told:
                return f"{told!r}"
            session.do("delete")
            session.do("goto 44")
            session.do(f"source {file}")
            found = session.do("stops").splitlines()
            wanted = ["$fill @body 0 (line 14), if %i > 2, types `p %i`", "$fill @start 0 (line 8), once",
                      "w $bias+0, the next 1 are passed over, switched off", "w $squares+8, if 1"]
            if [line.partition(": ")[2] for line in found] != wanted:
                return f"{found} in place of {wanted}"
            told = session.do(f"source {own}")
            if "nested too deeply" not in told:
                return f"a file that reads itself: {told!r}"
            told = session.do(f"source {wrong}")
            if told != f"1 + 1 = 2\n{wrong}:4: print EXPRESSION was expected\n":
                return f"a file with something wrong: {told!r}"
            return session.replayed_fault()
        finally:
            session.close()


HABITS = {call.__name__.replace("_", " "): call for call in (
    interrupted, interrupted_at_the_prompt, left, completed, bad_lines, refused, broken,
    narrow, without_readline, wrapped, memory_told, bounded, fast, followed, suspected, looked_at,
    shown_at_last, drawn_at_last, closed, gone, long_named, gone_round, far, deep, saved_and_compared, stops_kept,
    mapped, lowered, bare)}


def tried(call: Callable[[str], str | None], program: str) -> str | None:
    try:
        return call(program)
    except (Silent, OSError, subprocess.SubprocessError) as error:
        return f"{error}"
