"""Which program is tested, a run of it, how its output differs from the expected one, and the count of what passed."""
from __future__ import annotations

import argparse
import collections
import itertools
import os
import pathlib
import resource
import subprocess
import sys
import tempfile
from collections.abc import Callable, Mapping, Sequence
from typing import IO, NamedTuple

TOP = pathlib.Path(__file__).resolve().parent.parent.parent
EXAMPLES = TOP / "examples"
ROWS = TOP / "rows"
BUILT = TOP / "crates" / "qrev" / "out" / "qrev"
RELEASED = TOP / "release" / "qrev-x86_64-linux"

# The first example, its load lines, which are those of the loop as well, and a loop without an end.
FIRST = b"function w $main() {\n@start\n\t%x =w add 2, 3\n\tret %x\n}\n"
LOADED = b"loaded 1 functions 0 data bytes ssa yes\n#0 $main @start 0\n"
LOOP = b"function $main() {\n@start\n\tjmp @l\n@l\n\tjmp @l\n}\n"


def add_program_option(options: argparse.ArgumentParser) -> None:
    options.add_argument("--program", metavar="PATH",
                         help="the program that is asked; else the released one where it fits, "
                              "or the one that is built")


def program_of(given: argparse.Namespace) -> str:
    """The tested program, by the options of a test."""
    if given.program:
        return str(pathlib.Path(given.program).resolve())
    if subprocess.run([str(TOP / "release" / "fits")], stdout=subprocess.DEVNULL).returncode == 0:
        return str(RELEASED)
    # The script at the top builds it where it has to.
    if subprocess.run([str(TOP / "qrev"), "--built", "--help"], stdout=subprocess.DEVNULL).returncode != 0:
        sys.exit("the program does not run")
    return str(BUILT)


def memory_file() -> IO[bytes]:
    return open(os.memfd_create("written"), "w+b", buffering=0)


def captured(words: Sequence[str], stdin: IO[bytes] | None = None, input: bytes | None = None,
             env: Mapping[str, str] | None = None, timeout: float | None = None) -> subprocess.CompletedProcess[bytes]:
    """What subprocess.run gives with captured output. The output goes to files in memory: at a pipe each line that a
    program writes would wake up its reader."""
    with memory_file() as out, memory_file() as errors:
        run = subprocess.run(words, stdin=stdin, stdout=out, stderr=errors, input=input, env=env, timeout=timeout)
        for file in (out, errors):
            file.seek(0)
        run.stdout, run.stderr = out.read(), errors.read()
    return run


class Case(NamedTuple):
    """A test: `function(running, *arguments)` gives what is wrong, or None."""

    name: str
    function: Callable[..., str | Skipped | None]
    arguments: tuple[object, ...] = ()


class Running(NamedTuple):
    program: str
    seconds: float

    def run(self, text: bytes, script: bytes = b"", words: Sequence[str] = ()) -> tuple[bytes, bytes, int] | None:
        """What the program writes to standard output and error for a text, and its exit status; None without an end."""
        with tempfile.NamedTemporaryFile(prefix="hostile-", suffix=".ssa") as file:
            file.write(text)
            file.flush()
            try:
                run = captured([self.program, file.name, *words], input=script, timeout=self.seconds)
            except subprocess.TimeoutExpired:
                return None
        return run.stdout, run.stderr, run.returncode

    def measured(self, text: bytes, script: bytes = b"",
                 words: Sequence[str] = ()) -> tuple[resource.struct_rusage, bytes]:
        """What a run uses, and its transcript. A run that doesn't end well is an error."""
        with tempfile.NamedTemporaryFile(prefix="hostile-", suffix=".ssa") as file, tempfile.TemporaryFile() as lines, \
                tempfile.TemporaryFile() as transcript:
            file.write(text)
            file.flush()
            lines.write(script)
            lines.seek(0)
            process = subprocess.Popen([self.program, file.name, *words], stdin=lines, stdout=transcript)
            _, status, used = os.wait4(process.pid, 0)
            process.returncode = os.waitstatus_to_exitcode(status)
            if process.returncode != 0:
                raise ValueError(f"status {process.returncode}")
            transcript.seek(0)
            return used, transcript.read()

    def timed(self, text: bytes, script: bytes = b"", words: Sequence[str] = ()) -> tuple[float, bytes]:
        """The processor's seconds that a run takes, and its transcript."""
        used, transcript = self.measured(text, script, words)
        return used.ru_utime + used.ru_stime, transcript

    def resident(self, text: bytes, script: bytes = b"", words: Sequence[str] = ()) -> tuple[int, bytes]:
        """The most memory that a run has resident, in kB, and its transcript."""
        used, transcript = self.measured(text, script, words)
        return used.ru_maxrss, transcript

    def fault(self, text: bytes, script: bytes, words: Sequence[str], transcript: bytes, status: int) -> str | None:
        """What the program does wrong, or None. Nothing may come on standard error."""
        run = self.run(text, script, words)
        if run is None:
            return f"no end after {self.seconds} seconds"
        return difference(transcript, run[0]) or (
            f"status {run[2]} in place of {status}" if run[2] != status else
            f"standard error: {quoted(run[1])}" if run[1] else None)


def quoted(line: bytes | None) -> str:
    if line is None:
        return "the end"
    text = repr(line)[1:]
    return text if len(text) < 100 else text[:96] + " .."


def difference(wanted: bytes, given: bytes) -> str | None:
    """The first line where two texts differ, or None."""
    if wanted == given:
        return None
    pairs = itertools.zip_longest(wanted.split(b"\n"), given.split(b"\n"))
    for number, (want, give) in enumerate(pairs, 1):
        if want != give:
            return f"line {number}: {quoted(give)} in place of {quoted(want)}"
    return None


class Skipped(NamedTuple):
    """What a case gives in place of a fault if it needs a tool that isn't here."""

    tool: str


# What a machine without /dev/pts lacks.
TERMINAL = "a pseudo-terminal"


class Tally:
    """How many cases passed and failed, and how many wait for which tool. A failing one has a line, and each missing
    tool."""

    def __init__(self) -> None:
        self.passed = self.failed = 0
        self.waiting: collections.Counter[str] = collections.Counter()

    def add(self, name: str, fault: str | Skipped | None) -> None:
        if isinstance(fault, Skipped):
            self.waiting[fault.tool] += 1
        elif fault:
            self.failed += 1
            print(f"{name}: {fault}", flush=True)
        else:
            self.passed += 1

    def end(self) -> int:
        """Prints the last line, and gives the exit status."""
        for tool, count in self.waiting.items():
            print(f"skipped: {tool} isn't here, and {count} {'test waits' if count == 1 else 'tests wait'} for it")
        skipped = f", {self.waiting.total()} skipped" if self.waiting else ""
        print(f"{self.passed} passed, {self.failed} failed{skipped}")
        return 1 if self.failed or not (self.passed or self.waiting) else 0
