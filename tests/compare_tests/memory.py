"""Each allocation of a comparison refused in turn, by a preloaded library: no text is loaded, or no session begins."""
from __future__ import annotations

import pathlib
import tempfile
from collections.abc import Sequence
from typing import NamedTuple

from compare_tests.pairs import told_by_reference
from harness.preloaded import Run, library
from harness.running import quoted

MOST = 20_000  # refused allocations that are tried before a run must meet none

# A program with calls, room on the stack and output. The other one's second line is another.
GOOD = rb"""data $one = { b "one line of some length, so that its output wants memory", b 0 }
data $two = { b "two", b 0 }
function $say(l %text) {
@start
	%room =l alloc8 4096
	storel %text, %room
	%told =l loadl %room
	%n =w call $puts(l %told)
	ret
}
function $main() {
@start
	call $say(l $one)
	call $say(l $two)
	ret
}
"""
BAD = GOOD.replace(b'"two"', b'"tow"')
SCRIPT = b"where\nback 3\nlist\n"


class Asked(NamedTuple):
    """The tested program, and how long it may take, as a run of it needs them."""

    program: str
    seconds: float


def fault_of(run: Run, ample: bytes, told: bytes, status: int, kinds: set[str]) -> str | None:
    """What a run with a refused allocation wrongly reports, or None; its kind is added to those that were seen."""
    if run.errors:
        return f"standard error: {quoted(run.errors)}"
    if not run.was_refused:
        return None if (run.written, run.status) == (ample, status) else \
            f"{quoted(run.written)}, though none was refused"
    if run.status == status:
        kinds.add("spared")
        return None if run.written == ample else f"{quoted(run.written)} with status {status}"
    if run.status != 3:
        return f"status {run.status}"
    if not run.written:
        kinds.add("load")
        return None if not run.script_read else f"{run.script_read} bytes of the script were read"
    if run.written != told:
        return f"{quoted(run.written)}, which is neither nothing nor the report"
    kinds.add("session")
    return None if not run.script_read else f"{run.script_read} bytes of the script were read"


def memory_fault(program: str, seconds: float, words: Sequence[str]) -> str | None:
    """What is wrong of the runs with each allocation refused, or None."""
    ample, status = told_by_reference(GOOD, BAD, [*words, "--session", "bad"], SCRIPT)
    told, _ = told_by_reference(GOOD, BAD, words, b"")
    kinds: set[str] = set()
    with tempfile.TemporaryDirectory(prefix="compare-") as place, library() as made:
        files = [str(pathlib.Path(place) / name) for name in ("good.ssa", "bad.ssa")]
        for file, text in zip(files, (GOOD, BAD)):
            pathlib.Path(file).write_bytes(text)
        for which in range(1, MOST):
            run = Run(Asked(program, seconds), made, which, [*files, *words, "--session", "bad"], SCRIPT)
            fault = fault_of(run, ample, told, status, kinds)
            if fault:
                return f"allocation {which}: {fault}"
            if not run.was_refused:
                lacks = {"load", "session"} - kinds
                return f"no run wanted memory for {sorted(lacks)}, only for {sorted(kinds)}" if lacks else None
    return f"more than {MOST} allocations"
