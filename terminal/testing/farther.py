"""Suspicions in a long run: after the first moves the fast pass finds them, at the prompt and at the end of the run.
And how long the check beside a session is waited for."""
from __future__ import annotations

import os
import pathlib
import subprocess
import sys
import tempfile
import time
from typing import Callable

from terminal.lookout import PATIENCE, Check, Lookout
from terminal.scratch import Launch
from terminal.timeline import Timeline

from .harness import Held

# A round has three moves, and one comes before. The store behind them all lands in the other object.
ROUNDS = 333_400
LATE = """data $a = align 8 { z 8 }
data $b = align 8 { z 8 }
export function w $main() {
@start
@loop
	%i =l phi @start 0, @loop %j
	%j =l add %i, 1
	%c =w csltl %j, ROUNDS
	jnz %c, @loop, @end
@end
	%p =l add $a, 8
	storel 1, %p
	ret 0
}
"""
STORE, END = 2 + 3 * ROUNDS, 4 + 3 * ROUNDS
TEXT = "bounds: storel at the end of $a (8 bytes), into $b+0"
# The same with a test of bits that nothing set in the place of the store, which the fast pass doesn't report: it says
# from where on the run should be followed.
BEHIND = "\t%p =l add $a, 8\n\tstorel 1, %p\n\tret 0\n"
UNSET = "\t%p =l alloc8 8\n\t%v =w loadw %p\n\tjnz %v, @other, @other\n@other\n\tret 0\n"


def in_late(program: str, tried: Callable[[str, str], str | None], behind: str = BEHIND) -> str | None:
    with tempfile.TemporaryDirectory(prefix="farther-") as folder:
        file = pathlib.Path(folder) / "late.ssa"
        file.write_text(LATE.replace("ROUNDS", str(ROUNDS)).replace(BEHIND, behind))
        return tried(program, str(file))


def listed_of_bits(program: str, file: str) -> str | None:
    """A use of bits that nothing set is listed too: the run is followed up to there."""
    session = Held(program, file)
    try:
        told = session.do("suspects").split("\n")[:-1]
        wanted = [f"[1] #{STORE + 1} $main @end 2  line 13: jnz %v, @other, @other",
                  f"1 suspicion in {END + 1} moves, {STORE + 2} of them for all kinds, done 0"]
        return None if told[-3::2] == wanted and "  undef: jnz of %v" in told[-2] \
            else f"{told} in place of {wanted}"
    finally:
        session.close()


def cleared(program: str, file: str) -> str | None:
    """A long run without a suspicion is known to have none, of all kinds."""
    session = Held(program, file)
    try:
        told = session.do("suspects").split("\n")[-2]
        wanted = f"no suspicion in {END} moves, done 0"
        return None if told == wanted else f"{told!r} in place of {wanted!r}"
    finally:
        session.close()


def listed(program: str, file: str) -> str | None:
    """`suspects` lists a suspicion that comes after the moves that are looked at for all kinds, and `goto` finds it."""
    session = Held(program, file)
    try:
        told = session.do("suspects").split("\n")[:-1]
        wanted = [f"[1] #{STORE} $main @end 1  line 12: storel 1, %p", f"      {TEXT}",
                  f"1 suspicion in {END} moves, 1000000 of them for all kinds, done 0"]
        # Lines of the progress may stand before.
        if told[-3:] != wanted:
            return f"{told} in place of {wanted}"
        there = session.do("goto suspect 1")
        return None if f"#{STORE} $main @end 1" in there else there
    finally:
        session.close()


def looked_out_for(program: str, file: str) -> str | None:
    """It is also known at the end of a run, if there is time to wait for it."""
    with tempfile.TemporaryDirectory(prefix="farther-") as folder:
        lookout = Lookout(Launch(program, file, ()), (), folder)
        lookout.patience = 600
        try:
            found = lookout.suspicions(Timeline(END))
            told = lookout.at_end(Timeline(END))
        finally:
            lookout.close()
    wanted = {STORE: [TEXT]}, ["1 suspicion on the way: `suspects` tells it"]
    return None if (found, told) == wanted else f"{found}, {told} in place of {wanted}"


def patient(_program: str) -> str | None:
    """A check that takes long is waited for once, and not at each cause."""
    lookout = object.__new__(Lookout)
    lookout.near, lookout.far, lookout.patience = object.__new__(Check), None, PATIENCE
    lookout.near.process = subprocess.Popen([sys.executable, "-c", "import time; time.sleep(60)"],
                                            stdout=subprocess.PIPE, text=True)
    lookout.near.found = None
    begun = time.monotonic()
    try:
        found = [lookout.suspicions(Timeline(1)) for _ in range(10)]
    finally:
        lookout.close()
    taken = time.monotonic() - begun
    return None if taken < 5 * PATIENCE and not any(found) else f"ten causes wait for {taken:.1f} seconds: {found}"


def late(_program: str) -> str | None:
    """What a check found is told once it has ended, also if that took longer than it is waited for."""
    lookout = object.__new__(Lookout)
    lookout.near, lookout.far, lookout.patience = object.__new__(Check), None, 0.1
    held, let_go = os.pipe()
    lookout.near.process = process = subprocess.Popen(
        [sys.executable, "-c", "import sys; sys.stdin.read(); print('#1 $f @b 0\\n  bounds: a store')"],
        stdin=held, stdout=subprocess.PIPE, text=True)
    lookout.near.found = None
    os.close(held)
    try:
        before = lookout.suspicions(Timeline(1))
        os.close(let_go)
        end = time.monotonic() + 60
        while process.poll() is None and time.monotonic() < end:
            time.sleep(0.01)
        after = lookout.suspicions(Timeline(1))
    finally:
        lookout.close()
    return None if (before, after) == ({}, {1: ["bounds: a store"]}) else f"before {before}, and after its end {after}"


FARTHER = {"lists a late suspicion": lambda program: in_late(program, listed),
           "lists a late use of unset bits": lambda program: in_late(program, listed_of_bits, UNSET),
           "knows that there is none": lambda program: in_late(program, cleared, BEHIND.replace("$a, 8", "$a, 0")),
           "knows a late suspicion at the end": lambda program: in_late(program, looked_out_for),
           "waits once for a check": patient,
           "tells what a late check found": late}
