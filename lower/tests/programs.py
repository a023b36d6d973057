"""Twelve programs that link an allocator, a formatter, finalizers and ends by a message, against native code: by qbe if
that is installed, else by way of C, and stored from there for machines without gcc. Each runs forward, back to #0 and
forward again."""
import json
import re

from .native import Ended, is_there, native
from .running import DATA, Results, Running, Skipped, differ

PROGRAMS = DATA / "programs"
STORED = PROGRAMS / "native.json"
WITH = re.compile(r"# with: (.*)\n")
NAMES = sorted(path.stem for path in PROGRAMS.glob("*.ssa"))
SIGNAL = re.compile(r"%signal = ([0-9]+)")
THERE_AND_BACK = "continue\nout\nwhere\nreverse\ncontinue\nout\n"


def texts_of(name: str) -> dict[str, str]:
    """The texts of a program, by their files: its own and those that its first line names."""
    own = (PROGRAMS / f"{name}.ssa").read_text()
    named = WITH.match(own)
    assert named is not None, name
    names = named.group(1).split()
    return {f"{name}.ssa": own} | {f"{other}.ssa": (DATA / "library" / f"{other}.ssa").read_text() for other in names}


def stored() -> dict[str, Ended]:
    return {name: Ended(*ended) for name, ended in json.loads(STORED.read_text()).items()}


def store() -> None:
    """Writes what native code gives to the file that has it."""
    ended = {name: native(list(texts_of(name).values()), []) for name in NAMES}
    STORED.write_text(json.dumps(ended, indent=1) + "\n")


def status_of(end: str, signal: str | None) -> int:
    """The status of a process that ended so: what main returned or exit was given, or the signal."""
    word, _, number = end.partition(" ")
    if word in ("done", "exit"):
        return int(number) & 255
    return -int(signal) if end == "fault halted" and signal else 1000


def fault(running: Running, name: str, wanted: Ended) -> str | None:
    lowered = running.lower(texts_of(name), "--link")
    if lowered.errors:
        return lowered.errors
    run = running.run(lowered.text, THERE_AND_BACK, keeps_history=True)
    outputs = [line for line in run.lines if line.startswith("out ")]
    places = [line for line in run.lines if line.startswith("#")]
    signals = SIGNAL.findall("\n".join(running.run(lowered.text, "continue\ntemps\n").lines))
    status = status_of(run.end, signals[0] if signals else None)
    return differ("output", wanted.output, run.output) or differ("status", wanted.status, status) or \
        differ("forward again", (outputs[0], places[1]), (outputs[-1], places[-1])) or \
        differ("back at #0", places[0], places[-2])


def results(running: Running) -> Results:
    known = stored()
    yield "programs/all of them", differ("programs", NAMES, sorted(known)) or \
        (None if len(NAMES) == 12 else f"{len(NAMES)}")
    for name in NAMES:
        yield f"programs/{name}", fault(running, name, known[name])
    for name in NAMES:
        yield f"programs/{name} natively", Skipped("gcc") if not is_there() else \
            differ("native code", known[name], native(list(texts_of(name).values()), []))
