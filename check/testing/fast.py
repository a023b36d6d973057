"""The fast pass: it reports the same as the other one, for the kinds that both know, and goes on after it."""
from __future__ import annotations

import pathlib
import subprocess
import sys
import tempfile
from functools import partial
from random import Random
from typing import Callable, Iterator

from check.fast import KINDS, is_clear
from check.fast import program as fast_program
from check.heap import roles_of
from robustness_tests.programs import random_program
from terminal.scratch import Launch
from terminal.text import Program

from .chance import Maker, random_files, small_fault
from .heaps import Heaps, heap_program
from .rows import ROWS, text_of
from .texts import CHECKER, MAIN, SECONDS, TEXTS, run

TOP = MAIN.parent.parent
# Both look at so many moves.
MOST = 20_000
LIMIT = ["--limit", str(MOST)]
# How many random programs are checked.
RANDOM = 60
SLOW = ["--kinds", ",".join(sorted(KINDS)), "--no-heap"]
# A store behind the end in the eleventh round: each round has six moves, one comes before, and the store is its third.
LATE = """data $a = align 4 { z 40 }
data $b = align 4 { z 40 }
export function w $main() {
@start
@loop
	%i =l phi @start 0, @loop %j
	%o =l mul %i, 4
	%q =l add $a, %o
	storew 1, %q
	%j =l add %i, 1
	%c =w csltl %j, ROUNDS
	jnz %c, @loop, @end
@end
	ret 0
}
"""
CLEAR_FOR_LONG = """export function w $main() {
@start
@loop
	%i =l phi @start 0, @loop %j
	%j =l add %i, 1
	%c =w csltl %j, 1700000
	jnz %c, @loop, @end
@end
	%p =l alloc4 4
	%v =w loadw %p
	jnz %v, @other, @other
@other
	ret 0
}
"""
STORE = ("#63 $main @loop 2  line 9: storew 1, %q\n  bounds: storew at the end of $a (40 bytes), into $b+0\n")
# The words before the program and behind it, how many rounds there are, what is told, and the status.
GOING_ON: list[tuple[str, list[str], list[str], int, str, int]] = [
    ("goes on", ["--full", "20"], [], 11, STORE + "1 suspicion in 68 moves, 20 of them for all kinds, done 0\n", 3),
    ("goes on up to a limit", ["--full", "20"], ["--limit", "63"], 11,
     "no suspicion in 63 moves, 20 of them for all kinds, limit at $main\n", 5),
    ("is over before", ["--full", "68"], [], 11, STORE + "1 suspicion in 68 moves, done 0\n", 3),
    ("counts what was told before", ["--full", "70"], [], 13,
     STORE[:-1] + "  (3 times)\n1 suspicion in 80 moves, 70 of them for all kinds, done 0\n", 3),
    ("does not go on for other kinds", ["--full", "20"], ["--kinds", "undef"], 11,
     "no suspicion in 20 moves, limit at $main\n", 5),
    ("goes on for its kinds", ["--full", "20"], ["--kinds", "bounds"], 11,
     STORE + "1 suspicion in 68 moves, 20 of them for all kinds, done 0\n", 3),
    ("goes on, but for an object", ["--full", "20"], ["--except", "bounds:$a"], 11,
     "no suspicion in 68 moves, 20 of them for all kinds, done 0\n", 0),
    ("goes on, but for a function", ["--full", "20"], ["--except", "bounds:$main"], 11,
     "no suspicion in 68 moves, 20 of them for all kinds, done 0\n", 0),
    ("all at once", [], ["--fast"], 11, STORE + "1 suspicion in 68 moves, done 0\n", 3),
    ("all at once up to a limit", [], ["--fast", "--limit", "63"], 11, "no suspicion in 63 moves, limit at $main\n", 5),
    ("other kinds", [], ["--fast", "--kinds", "undef"], 11, "", 64),
    ("a heap", [], ["--fast", "--heap", "take=main"], 11, "", 64),
]
Case = tuple[str, Callable[[], str | None]]


def same_fault(program: str, file: pathlib.Path, *words: str) -> str | None:
    """How the fast pass differs from the other one on a text, or None."""
    slow, fast = run(program, str(file), *words, *LIMIT, *SLOW), run(program, str(file), *words, *LIMIT, "--fast")
    same = (slow.returncode, slow.stdout, slow.stderr) == (fast.returncode, fast.stdout, fast.stderr)
    if same and slow.stdout:
        return None
    return f"{fast.returncode}, {fast.stdout!r} {fast.stderr!r} in place of {slow.returncode}, {slow.stdout!r}"


def clear_fault(program: str, file: pathlib.Path, *words: str) -> str | None:
    """What is told of a text otherwise where the fast pass may find it clear, or None."""
    quick = run(program, str(file), *words, *LIMIT)
    full = run(program, str(file), *words, *LIMIT, full=MOST)
    same = (quick.returncode, quick.stdout, quick.stderr) == (full.returncode, full.stdout, full.stderr)
    return None if same and full.stdout else f"{quick.stdout!r} {quick.stderr!r} in place of {full.stdout!r}"


def row_fault(program: str, fault: Callable[[str, pathlib.Path], str | None], beside: str,
              lines: list[str]) -> str | None:
    with tempfile.TemporaryDirectory(prefix="check-") as place:
        file = pathlib.Path(place) / "row.ssa"
        file.write_text(text_of(beside, lines))
        return fault(program, file)


def cleared_fault(program: str) -> str | None:
    """The right texts that the fast pass finds clear are most of them. If it found none clear, each check would take as
    long as before, and nothing would be told otherwise."""
    right = [file for file in sorted(TEXTS.glob("*.ssa")) if file.with_suffix(".expect").read_text().startswith("end ")]
    return few_fault(program, right)


def few_fault(program: str, right: list[pathlib.Path]) -> str | None:
    """Why too few of some right programs are found clear, or None."""
    checker = CHECKER[1] if CHECKER else fast_program(False, False)
    if not checker:
        return "there is no fast pass"
    clear = [file.stem for file in right if is_clear(
        checker, Launch(program, str(file), (), MOST), roles_of(Program(file.read_bytes()), None))]
    return None if 3 * len(clear) > 2 * len(right) > 0 else f"{len(clear)} of {len(right)}: {clear}"


def random_clear_fault(program: str, word: str, make: Maker) -> str | None:
    """The same of random programs."""
    with tempfile.TemporaryDirectory(prefix="check-") as place:
        for number, file, source, words in random_files(pathlib.Path(place), word, RANDOM, make):
            if clear_fault(program, file, *words):
                return small_fault(number, file, source, lambda text: clear_fault(program, file, *words))
    return None


def right_heaps_fault(program: str) -> str | None:
    """Random programs with a heap and without a mistake: most are found clear, and none is suspicious."""
    with tempfile.TemporaryDirectory(prefix="check-") as place:
        files = [pathlib.Path(place) / f"heap-{number}.ssa" for number in range(RANDOM)]
        for number, file in enumerate(files):
            file.write_text(Heaps(Random(f"right {number}"), 0).text(40))
        found = [run(program, str(file), *LIMIT).stdout for file in files]
        wrong = [told for told in found if not told.startswith("no suspicion in ")]
        return f"{wrong[0]!r}" if wrong else few_fault(program, files)


def wrong_heap_fault(program: str) -> str | None:
    """The program of the fast pass refuses a text whose heap has a role or a function that it doesn't know; of two
    functions both count."""
    checker = CHECKER[1] if CHECKER else fast_program(False, False)
    if not checker:
        return "there is no fast pass"
    with tempfile.TemporaryDirectory(prefix="check-") as place:
        file = pathlib.Path(place) / "heap.ssa"
        file.write_text(Heaps(Random("wrong"), 0).text(10))
        for heap, status in (("take=malloc", 0), ("take=malloc,give=free", 0), ("make=malloc", 1), ("take=nothing", 1),
                             ("take=malloc,give", 1), ("take", 1), ("", 0)):
            ran = subprocess.run([checker, str(file), "--heap", heap], capture_output=True, text=True, check=False)
            if ran.returncode != status:
                return f"{heap!r}: {ran}"
    return None


def clear_for_long_fault(program: str) -> str | None:
    """A run that is found clear for longer than it would be followed isn't followed: 1,700,000 rounds have three moves
    each, one comes before, and two behind them a test of bits that nothing set."""
    with tempfile.TemporaryDirectory(prefix="check-") as place:
        file = pathlib.Path(place) / "long.ssa"
        file.write_text(CLEAR_FOR_LONG)
        ran = run(program, str(file))
    told = "no suspicion in 5100005 moves, 5100003 of them for all kinds, done 0\n"
    return None if (ran.returncode, ran.stdout) == (0, told) else f"{ran}"


def going_on_fault(program: str, before: list[str], behind: list[str], rounds: int, told: str,
                   status: int) -> str | None:
    with tempfile.TemporaryDirectory(prefix="check-") as place:
        file = pathlib.Path(place) / "late.ssa"
        file.write_text(LATE.replace("ROUNDS", str(rounds)))
        words = [sys.executable, str(MAIN), "--debugger", program, *CHECKER, *before, "--", str(file), *behind]
        ran = subprocess.run(words, capture_output=True, text=True, timeout=SECONDS, check=False)
    return None if (ran.returncode, ran.stdout) == (status, told) else f"{ran}"


def cases(program: str) -> Iterator[Case]:
    for file in [*sorted(TEXTS.glob("*.ssa")), *sorted((TOP / "examples").glob("*.ssa"))]:
        yield f"fast {file.stem}", partial(same_fault, program, file)
        yield f"clear {file.stem}", partial(clear_fault, program, file)
    for name, *row in ROWS:
        yield f"fast row {name}", partial(row_fault, program, same_fault, *row[:2])
        yield f"clear row {name}", partial(row_fault, program, clear_fault, *row[:2])
    yield "clear right texts", partial(cleared_fault, program)
    yield "clear random programs", partial(random_clear_fault, program, "clear", random_program)
    yield "clear random heaps", partial(random_clear_fault, program, "heap", heap_program)
    yield "clear right heaps", partial(right_heaps_fault, program)
    yield "clear for long", partial(clear_for_long_fault, program)
    yield "fast of a wrong heap", partial(wrong_heap_fault, program)
    for name, *case in GOING_ON:
        yield f"fast {name}", partial(going_on_fault, program, *case)
