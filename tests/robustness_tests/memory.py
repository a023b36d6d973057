"""Each allocation of the program refused in turn, by a preloaded library (refusing.c)."""
from __future__ import annotations

import subprocess
import tempfile
from collections.abc import Callable, Collection, Iterator, Sequence

from harness.preloaded import Run, library
from harness.running import FIRST, LOADED, LOOP, Case, Running, quoted
import oracle
from oracle.session import No, lines_of, read_command

from . import counts

# What is wrong with a run, or None.
Judge = Callable[[Run], "str | None"]
# How many moves back are kept; None for all, or COPIES.
History = int | str | None

MOST = 20_000  # refused allocations that are tried before a run must meet none

# A small program with each kind of definition and of move.
PROGRAM = rb"""data $s = align 8 { b "hi\n" 0, l $main $f, z 24 }
data $d = { w 5, h 6 }
function w $f(w %a, l %b, sb %c) {
@f
	%p =l alloc8 4096
	storel %b, %p
	jmp @loop
@loop
	%i =w phi @f 0, @loop %j
	%x =l phi @f 1, @loop %y
	%y =l phi @f 2, @loop %z
	%z =l phi @f 3, @loop %x
	%j =w add %i, 1
	%more =w csltw %j, 3
	jnz %more, @loop, @end
@end
	ret %c
}
function $main() {
@start
	%q =l alloc16 100
	storew 7, %q
	%r =l add %q, 16
	%big =l add %q, 50
	blit %q, %r, 8
	blit %q, %big, 40
	%v =w call $f(w 1, l %q, sb 255)
	%t =w call $puts(l $s)
	%t =w call $putchar(w 65)
	call $exit(w %v)
	ret
}
"""
SCRIPT = rb"""break $f @loop 1
watch w $d
watch $f %x
stops
step 3
temps
set %v 9
poke w $d 77
continue
where
list
mem $d 6
continue
set %j 5
reverse
delete 3
continue
step
step 2
out
continue
poke b 16777216 1
out
print %v
back 3
mem $s 40
continue
back 1000
where
continue
temps
step
poke l $s+8 1
out
reverse
set %q 9
step 5
"""
LOAD = b"data $d = { w 5 }\nfunction w $main() {\n@start\n\t%x =w loadw $d\n\tret %x\n}\n"
HELLO = rb"""data $str = { b "hello world", b 0 }
export function w $main() {
@start
	%r =w call $puts(l $str)
	call $exit(w 7)
	ret 0
}
"""
# A text of 200 kB, with as many temporaries as lines.
LONG = b"function $main() {\n@start\n" + b"".join(b"\t%%x%d =w add %d, 1\n" % (n, n)
                                                  for n in range(9_000)) + b"\tret\n}\n"


def each_refused(running: Running, words: Sequence[str], script: bytes, judge: Judge) -> str | None:
    """Runs with the first allocation refused, the second, and so on until a run meets none; what is wrong, or None."""
    with library() as made:
        for which in range(1, MOST):
            run = Run(running, made, which, words, script)
            fault = judge(run)
            if fault:
                return f"allocation {which}: {fault}"
            if not run.was_refused:
                return None if which > 1 else "no allocation was met: the library isn't in use"
    return f"more than {MOST} allocations"


def with_file(running: Running, text: bytes, words: Sequence[str], script: bytes, judge: Judge) -> str | None:
    with tempfile.NamedTemporaryFile(prefix="hostile-", suffix=".ssa") as file:
        file.write(text)
        file.flush()
        return each_refused(running, [file.name, *words], script, judge)


def wanting(start: str, session: oracle.Session, script: bytes, written: bytes) -> list[tuple[str, int]] | str:
    """How `written` is a transcript of a session at its start in which moves wanted memory: a list of (line, moves
    made), or what is wrong. `start` are its load lines."""
    rest = written.decode("latin-1")
    if not rest.startswith(start):
        return f"{quoted(written[:80])} in place of the load lines"
    rest = rest[len(start):]
    wants: list[tuple[str, int]] = []
    for line in lines_of(script):
        if rest.startswith("stop: memory\n"):
            # The place says how many moves were made; it must be one that the command comes to before its end.
            told, _, behind = rest[len("stop: memory\n"):].partition("\n")
            made = moves_made(session, line, told + "\n")
            if made is None:
                return f"{quoted(line.encode())}: stop: memory, {told}"
            wants.append((line, made))
            rest = behind
            continue
        answer = session.answer(line)
        if not rest.startswith(answer):
            return f"{quoted(line.encode())}: {quoted(rest[:80].encode())} in place of {quoted(answer.encode())}"
        rest = rest[len(answer):]
    return wants if not rest else f"{quoted(rest.encode())} behind the last answer"


def moves_made(session: oracle.Session, line: str, place: str) -> int | None:
    """How many moves a command made that wanted memory at that place, fewer than it would make; the session makes them.

    None where the command takes no memory, is refused, or isn't on its way there."""
    try:
        read = read_command(line)
    except No:
        return None
    if read is None:
        return None
    command, values = read
    if command in ("set", "poke"):
        kept = list(session.states), session.oldest
        refused = session.answer(line).startswith("no:")
        session.states, session.oldest = kept
        return 0 if not refused and session.place() == place else None
    if command not in ("step", "continue") or session.now.is_over:
        return None
    count = values[0] if values else 1
    most = count if command == "step" and isinstance(count, int) else session.limit
    made = 0
    while session.place() != place:
        before = session.now
        session.add(session.machine.step(before))
        made += 1
        if made >= most or session.now.is_over:
            return None
        if command == "continue" and session.watch_or_break(before, session.now):
            return None
    return made


# What a session keeps: an undo record of each move, of so many, or copies of states, as it does by default.
COPIES = "copies"


def words_of(history: History) -> list[str]:
    return ["--memory", "1"] if history == COPIES else ["--history", "all" if history is None else str(history)]


def session_refused(running: Running, text: bytes, script: bytes, history: History, limit: int,
                    must_want: Collection[str]) -> str | None:
    """A session whose allocations are refused: nothing is written, or it goes on and says where memory was wanting.

    `must_want` are commands of which some run must have said so, behind moves if it is said with a `+`."""
    kept = history if isinstance(history, int) else None
    words = ["--limit", str(limit)] + words_of(history)
    ample, status = oracle.transcript(text, script, limit=limit, history=kept)
    start, loaded = oracle.load(text, limit=limit, history=kept)
    seen: set[str] = set()
    loads = 0

    def judge(run: Run) -> str | None:
        nonlocal loads
        if run.errors:
            return f"standard error: {quoted(run.errors)}"
        if run.status == 3:
            loads += 1
            return want_while_loading(run)
        if run.status != status:
            return f"status {run.status} in place of {status} or 3"
        if not run.was_refused:
            return None if run.written == ample else "another transcript, though none was refused"
        wants = wanting(start, loaded.again(), script, run.written)
        if isinstance(wants, str):
            return wants
        if len(wants) > 1:
            return f"one allocation was refused, and memory was wanting {len(wants)} times"
        seen.update(line.split(" ")[0] + ("+" if made else "") for line, made in wants)
        return None

    fault = with_file(running, text, words, script, judge)
    if fault:
        return fault
    if not loads:
        return "no run wanted memory while loading"
    lacks = set(must_want) - seen
    return f"no run wanted memory in {sorted(lacks)}, only in {sorted(seen)}" if lacks else \
        f"memory was wanting in {sorted(seen)}" if not must_want and seen else None


HELLO_LOADED, LOAD_LOADED = (LOADED.replace(b"0 data", b"%d data" % count) for count in (12, 4))

# Scripts with what they are answered, and what they may be answered where one allocation behind the load was refused.
# The command that meets the refusal makes no move, and can be made again; of the line that is written there is all or
# nothing.
AGAIN = b'#2 exit 7\nout 12 "hello world\\012"\n'
HELLO_TWICE = (HELLO, b"step 9\nout\nback 9\nstep 9\nout\n", HELLO_LOADED + AGAIN + b"#0 $main @start 0\n" + AGAIN,
               [HELLO_LOADED + b'stop: memory\n#0 $main @start 0\nout 0 ""\nno: at start\n' + AGAIN])
SET_TWICE = (LOAD, b"set %x 7\nprint %x\nset %x 8\nprint %x\n",
             LOAD_LOADED + b"#1 $main @start 0\n%x = 7\n#2 $main @start 0\n%x = 8\n",
             [LOAD_LOADED + b"stop: memory\n#0 $main @start 0\n%x unset\n#1 $main @start 0\n%x = 8\n"])
POKED_TWICE = (LOAD, b"poke w $d 9\nmem $d 4\npoke b 65537 1\nmem $d 4\n",
               LOAD_LOADED + b"#1 $main @start 0\n09 00 00 00\n#2 $main @start 0\n09 01 00 00\n",
               [LOAD_LOADED + b"stop: memory\n#0 $main @start 0\n05 00 00 00\n#1 $main @start 0\n05 01 00 00\n"])
STEPPED_TWICE = (FIRST, b"step\nprint %x\nstep\n", LOADED + b"#1 $main @start 1\n%x = 5\n#2 done 5\n",
                 [LOADED + b"stop: memory\n#0 $main @start 0\n%x unset\n#1 $main @start 1\n"])
STATED = {"a line that is written": HELLO_TWICE, "a temporary that is set": SET_TWICE,
          "bytes that are poked": POKED_TWICE, "a step": STEPPED_TWICE}


def want_while_loading(run: Run) -> str | None:
    """What is wrong where memory was wanting for the load, or None: nothing is written, and no line is read."""
    return "memory was wanting where none was refused" if not run.was_refused else \
        f"{quoted(run.written)} was written" if run.written else \
        f"{run.script_read} bytes of the script were read" if run.script_read else None


def as_stated(running: Running, name: str, history: History) -> str | None:
    """A session that answers as it is stated where no allocation is refused, and where one is; each answer must come.

    With a bound of the history only what is written takes memory, and it alone may be wanting; with copies of states
    only what is set."""
    text, script, plain, wants = STATED[name]
    words = words_of(history)
    may_want = not script.startswith(b"step") if history == COPIES else history is None or text == HELLO
    wants = wants if may_want else []
    seen: set[bytes] = set()

    def judge(run: Run) -> str | None:
        if run.status == 3:
            seen.add(b"")
            return want_while_loading(run)
        if run.written != plain:
            seen.add(run.written)
        lawful = [plain, *wants] if run.was_refused else [plain]
        return None if run.written in lawful and not run.status and not run.errors else \
            f"{quoted(run.written)}, status {run.status}, standard error: {quoted(run.errors)}"

    fault = with_file(running, text, words, script, judge)
    return fault or (f"only {len(seen)} answers of {len(wants) + 1} came" if seen != {b"", *wants} else None)


def answer_refused(running: Running, text: bytes | None, words: Sequence[str], lawful: tuple[bytes, int]) -> str | None:
    """A program or a command line without a session: what it answers else, or status 3 and nothing written."""
    def judge(run: Run) -> str | None:
        got = run.written, run.status
        if run.status == 3 and run.was_refused:
            return f"{quoted(run.written)} was written" if run.written else None
        return None if got == lawful else f"{got} in place of {lawful}"

    if text is None:
        return each_refused(running, words, b"", judge)
    return with_file(running, text, words, b"", judge)


def help_refused(running: Running) -> str | None:
    """Help is printed whole, or status 3."""
    run = subprocess.run([running.program, "--help"], capture_output=True, timeout=running.seconds)
    return answer_refused(running, None, ["--help"], (run.stdout, 0))


def cases() -> Iterator[Case]:
    yield Case("a session, each allocation refused", session_refused,
               (PROGRAM, SCRIPT, None, 1_000_000, ("step", "continue", "continue+")))
    yield Case("a session that keeps 3 moves, each allocation refused", session_refused,
               (PROGRAM, SCRIPT, 3, 1_000_000, ("step", "continue+")))
    yield Case("a loop, each allocation refused", session_refused,
               (LOOP, b"continue\nback\ncontinue\nreverse\nstep 5\n", None, 1000, ("continue", "continue+")))
    yield Case("a loop that keeps 3 moves wants memory only while loading", session_refused,
               (LOOP, b"continue\nback\ncontinue\nreverse\nstep 5\n", 3, 1000, ()))
    yield Case("a text of 200 kB, each allocation refused", session_refused, (LONG, b"back\n", None, 1000, ()))
    yield Case("a step that wants memory at its first move", session_refused,
               (LOOP, b"back\nstep 9\nout\nback 9\nstep 9\n", None, 1000, ("step",)))
    yield Case("pokes, each allocation refused", session_refused,
               (PROGRAM, b"set %v 1\nset %v 2\npoke w $d 1\npoke b $d 2\nback 9\nmem $d 4\n" * 3, None, 1000, ("set",)))
    yield Case("pokes among copies of states, each allocation refused", session_refused,
               (PROGRAM, b"set %v 1\nset %v 2\npoke w $d 1\npoke b $d 2\nback 9\nmem $d 4\n" * 3, COPIES, 1000,
                ("set",)))
    yield Case("a session over copies of states wants memory only while loading", session_refused,
               (PROGRAM,
                b"".join(line for line in SCRIPT.splitlines(True) if line.split()[:1] not in ([b"set"], [b"poke"])),
                COPIES, 1_000_000, ()))
    yield Case("a loop over copies of states wants memory only while loading", session_refused,
               (LOOP, b"continue\nback\ncontinue\nreverse\nstep 5\n", COPIES, 1000, ()))
    for name, (moves, own) in counts.OWN.items():
        for history in (None, 3, COPIES):
            yield Case(f"the moves of {name}, {' '.join(words_of(history))}, each allocation refused", session_refused,
                       (counts.own_text(name), b"step\ntemps\nout\n" * moves + b"back 99\nstep 99\n", history, 1000,
                        () if history == COPIES else ("step",) if own or history is None else ()))
    for name in STATED:
        for history in (None, 3, COPIES):
            yield Case(" ".join([name, *words_of(history)]) + ", each allocation refused", as_stated, (name, history))
    yield Case("a refused program, each allocation refused", answer_refused,
               (PROGRAM + b"data $d = { }\n", [], (b"refused: C1 line 33\n", 1)))
    yield Case("a text that can't be cut, each allocation refused", answer_refused,
               (b"a b c ?", [], (b"refused: L1 line 1\n", 1)))
    yield Case("a missing program, each allocation refused", answer_refused, (None, ["/no/such/program"], (b"", 2)))
    yield Case("an unknown option, each allocation refused", answer_refused, (None, ["--nope"], (b"", 64)))
    yield Case("help, each allocation refused", help_refused)
    yield from counts.cases()
