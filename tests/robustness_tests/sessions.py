"""Scripts: long ones, and random ones on random programs against the model of tests/oracle."""
from __future__ import annotations

import re
from collections.abc import Callable, Iterable, Iterator
from random import Random
from typing import TypedDict

from harness.running import FIRST, LOADED, TOP, Case, Running
import oracle
from oracle.session import lines_of

from . import single_lines
from .programs import random_program
from .scripts import random_script

SEEDS = 600
LINES = 60
# The rows that go to and fro over each kind of move, with pokes between.
ROUNDS = [f"rounds-of-pokes-{what}" for what in ("and-calls", "and-output", "and-phis", "and-three-phis", "at-a-fault")]


class Options(TypedDict):
    """The bound of a run, and that of the history, if it has one."""

    limit: int
    history: int | None


def options_of(random: Random) -> Options:
    """A bound of runs, and one of the history or none."""
    return {"limit": random.choice((1, 2, 7, 50, 200)), "history": random.choice((None, None, 1, 2, 3, 10, 60))}


def words_of(arguments: Iterable[int], limit: int, history: int | None) -> list[str]:
    bound = [] if history is None else ["--history", str(history)]
    return [str(argument) for argument in arguments] + ["--limit", str(limit)] + bound


def seeded(seed: int, lines: int) -> tuple[bytes, list[int], bytes, Options]:
    """The program, arguments, script and options of a seed."""
    random = Random(seed)
    text, arguments = random_program(random)
    script = random_script(random, text, lines)
    # A `step`, `accesses`, `counts` or `frames` without a bound of its own could go on for ever.
    script = re.sub(rb"\b(step|accesses|counts|frames) 4294967295\b", rb"\1 500", script)
    return text, arguments, script, options_of(random)


def against_model(running: Running, seed: int, lines: int = LINES) -> str | None:
    """The transcript of a random script on a random program is the model's."""
    text, arguments, script, options = seeded(seed, lines)
    wanted, status = oracle.transcript(text, script, args=arguments, **options)
    return running.fault(text, script, words_of(arguments, **options), wanted, status)


def unbounded(text: bytes, arguments: Iterable[int], script: bytes, limit: int) -> tuple[bytes, int, int]:
    """The transcript and the status without a bound of the history, and the greatest position, or 1."""
    try:
        written, session = oracle.load(text, args=arguments, limit=limit)
    except oracle.Refused as refused:
        return refused.answer().encode("latin-1"), 1, 1
    answers, greatest = [written], 1
    for line in lines_of(script):
        answers.append(session.answer(line))
        if session.is_ended:
            break
        greatest = max(greatest, session.position)
    return "".join(answers).encode("latin-1"), 0, greatest


def bound_not_met(running: Running, seed: int, lines: int = LINES) -> str | None:
    """Over copies of states, over all undo records, and over as many as a session makes moves, it is the same."""
    text, arguments, script, options = seeded(seed, lines)
    limit = options["limit"]
    wanted, status, moves = unbounded(text, arguments, script, limit)
    choices: list[list[str]] = [[], ["--memory", "1"], ["--history", "all"], ["--history", str(moves)]]
    for kept in choices:
        fault = running.fault(text, script, words_of(arguments, limit, None) + kept, wanted, status)
        if fault:
            return f"with {' '.join(kept) or 'no option'}: {fault}"
    return None


GREATEST = 2**24

# Commands with the answers that they have one after the other, again and again from the start.
ROUND = [(b"step", b"#1 $main @start 1\n"), (b"print %x", b"%x = 5\n"), (b"where", b"$main @start 1\n"),
         (b"list", b"$main @start\n  0 %x =w add 2, 3\n> 1 ret %x\n"), (b"mem 65536 2", b"-- --\n"),
         (b"step 9", b"#2 done 5\n"), (b"step", b"no: at end\n"), (b"temps", b"no: no frame\n"),
         (b"out", b'out 0 ""\n'), (b"stops", b"none\n"), (b"back 2", b"#0 $main @start 0\n"), (b"temps", b"%x unset\n"),
         (b"fly", b"no: unknown command\n"),
         (b"set %x -1", b"#1 $main @start 0\n"), (b"", b""), (b"reverse", b"stop: start\n#0 $main @start 0\n")]


def long_script() -> tuple[bytes, list[bytes]]:
    """A script of 2^24 bytes, most lines as long as they may be, the last without a newline; and its transcript."""
    lines: list[bytes] = []
    answers, length = [LOADED], 0
    while length < GREATEST:
        for number, (command, answer) in enumerate(ROUND):
            # One line in each round has a byte more than a line may have.
            is_long = number == 14
            line = (command + b" " * 300)[:257 if is_long else 256]
            line = line[:GREATEST - length]
            lines.append(line + b"\n")
            length += len(line) + 1
            if length > GREATEST:
                # There is no room for the newline; what is left of the line must still be the command.
                lines[-1] = line
            answers.append(b"no: line too long\n" if is_long else answer)
            if length >= GREATEST:
                break
    script = b"".join(lines)
    return script, answers


def greatest_script(running: Running) -> str | None:
    """A script of 2^24 bytes is answered whole."""
    script, answers = long_script()
    if len(script) != GREATEST or len(script.rsplit(b"\n", 1)[-1]) < 20:
        return f"a script of {len(script)} bytes"
    return running.fault(FIRST, script, [], b"".join(answers), 0)


def too_long_script(running: Running) -> str | None:
    """With one byte more the line that isn't ended among the first 2^24 bytes has no answer."""
    script, answers = long_script()
    return running.fault(FIRST, script + b" ", [], b"".join(answers[:-1]), 2)


def rounds_bounded(running: Running, name: str, bound: int) -> str | None:
    """A row of rounds answers with a bound of the history as the model does."""
    row = TOP / "rows" / name
    text, script = (row / "program.ssa").read_bytes(), (row / "script").read_bytes()
    wanted, status = oracle.transcript(text, script, history=bound)
    return running.fault(text, script, ["--history", str(bound)], wanted, status)


def scripted(running: Running, script: bytes | Callable[[], bytes], answers: bytes, status: int) -> str | None:
    """A script, or what makes one, on the first example."""
    return running.fault(FIRST, script if isinstance(script, bytes) else script(), [], LOADED + answers, status)


# A script, or what makes one; what is answered, and the status.
SCRIPTS: dict[str, tuple[bytes | Callable[[], bytes], bytes, int]] = {
    "quit, then more than a script may have": (lambda: b"quit\n" + b"\n" * GREATEST, b"", 0),
    "256 letters": (b"a" * 256 + b"\n", b"no: unknown command\n", 0),
    "257 letters": (b"a" * 257 + b"\n", b"no: line too long\n", 0),
    "257 spaces": (b" " * 257 + b"\n", b"no: line too long\n", 0),
    "256 spaces": (b" " * 256 + b"\n", b"", 0),
    "256 letters at the end": (b"a" * 256, b"no: unknown command\n", 0),
    "257 letters at the end": (b"a" * 257, b"no: line too long\n", 0),
    "2^24 letters": (lambda: b"a" * GREATEST, b"no: line too long\n", 0),
    "2^24 letters and one": (lambda: b"a" * (GREATEST + 1), b"", 2),
    "2^24 - 1 letters and a newline": (lambda: b"a" * (GREATEST - 1) + b"\n", b"no: line too long\n", 0),
    "2^24 letters and a newline": (lambda: b"a" * GREATEST + b"\n", b"", 2),
    "2^24 bytes 0": (lambda: b"\0" * GREATEST, b"no: line too long\n", 0),
    "2^24 - 5 newlines, then step": (lambda: b"\n" * (GREATEST - 5) + b"step\n", b"#1 $main @start 1\n", 0),
    "2^24 - 4 newlines, then step": (lambda: b"\n" * (GREATEST - 4) + b"step", b"#1 $main @start 1\n", 0),
    "2^24 - 4 newlines, then step and a newline": (lambda: b"\n" * (GREATEST - 4) + b"step\n", b"", 2),
    "a refused line a million times": (lambda: b"x\n" * 1_000_000, b"no: unknown command\n" * 1_000_000, 0),
    "each byte as a line": (lambda: b"".join(bytes([n]) + b"\n" for n in range(256)),
                            b"no: unknown command\n" * (256 - 4), 0),
    "each byte behind a command": (lambda: b"".join(b"where " + bytes([n]) + b"\n" for n in range(256) if n != 10),
                                   b"".join(b"$main @start 0\n" if chr(n) in " \t\r" else b"no: extra word\n"
                                            for n in range(256) if n != 10), 0),
    "a line feed in a word": (b"st\nep\n", b"no: unknown command\n" * 2, 0),
    "a number of 200 zeros": (b"step " + b"0" * 200 + b"1\n", b"#1 $main @start 1\n", 0),
    "a number of 200 nines": (b"step " + b"9" * 200 + b"\n", b"no: bad word\n", 0),
    "a name of 200 bytes": (b"print %" + b"x" * 200 + b"\n", b"no: unknown temporary\n", 0),
    "more stops than may be, again and again": (
        b"break $main\n" * 70 + b"delete 64\nbreak $main\nbreak $main\n",
        b"".join(b"break %d $main @start 0\n" % n for n in range(1, 65)) + b"no: too many stops\n" * 6
        + b"deleted 64\nbreak 65 $main @start 0\nno: too many stops\n", 0),
    "a stop that is set and deleted 50,000 times": (
        lambda: b"".join(b"watch b 0\ndelete %d\n" % n for n in range(1, 50_001)),
        b"".join(b"watch %d b 0\ndeleted %d\n" % (n, n) for n in range(1, 50_001)), 0),
}


def of_scripts(running: Running, name: str) -> str | None:
    return scripted(running, *SCRIPTS[name])


def cases() -> Iterator[Case]:
    for name in SCRIPTS:
        yield Case(f"script: {name}", of_scripts, (name,))
    yield from single_lines.cases()
    yield Case("a script of 2^24 bytes, answered whole", greatest_script)
    yield Case("a script of 2^24 bytes and one", too_long_script)
    for name in ROUNDS:
        for bound in (3, 100):
            yield Case(f"{name} with --history {bound}", rounds_bounded, (name, bound))
    for seed in range(SEEDS):
        yield Case(f"seed {seed}: against the model", against_model, (seed,))
        yield Case(f"seed {seed}: with a bound that is not met", bound_not_met, (seed,))
