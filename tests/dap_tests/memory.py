"""Each allocation of the adapter refused in turn, by a preloaded library (../harness/refusing.c)."""
from __future__ import annotations

import json
import pathlib
import shutil
import tempfile
from collections.abc import Iterator, Sequence

from harness.preloaded import Run, library
from harness.running import Running

from .driver import form_fault, messages_in, requests_of
from .sessions import FOLDER, Case, Message, make_files

MOST = 20_000  # refused allocations that are tried before a run must meet none
NO_MEMORY = "no memory for the next move"
OUT_OF_MEMORY = 3

# Sessions with requests of all kinds.
SESSIONS = ("stops", "values", "recursion", "back", "completions", "record", "map")


def forms_fault(messages: Sequence[Message]) -> str | None:
    """What is wrong with the form of messages, or None."""
    found = (form_fault(message, number) for number, message in enumerate(messages, 1))
    return next(filter(None, found), None)


def is_failed(message: Message, normal: Message) -> bool:
    """Whether a message is the response to the same request, which failed, for it had no memory."""
    return message["type"] == "response" and not message["success"] and \
        message["request_seq"] == normal.get("request_seq")


def is_stopped_for_memory(messages: Sequence[Message]) -> bool:
    """Whether messages begin with a run that stood where it found no memory, after what it had written till then."""
    first: Message = next((it for it in messages if it.get("event") != "output"), {})
    return first.get("event") == "stopped" and first["body"].get("text") == NO_MEMORY


def run_fault(run: Run, normal: Sequence[Message]) -> str | None:
    """What is wrong with a run in which an allocation was refused, beside one in which none was; or None.

    It ends as out of memory, and up to there all is as it was; or a run stood where it found no memory, and the session
    went on; or a request failed, as a launch whose program can't be read for there is no memory for its bytes.
    """
    messages = messages_in(run.written)
    if run.status not in (0, OUT_OF_MEMORY) or run.errors:
        return f"exit status {run.status}, {run.errors[:200]!r}"
    fault = forms_fault(messages)
    if fault:
        return fault
    at = next((at for at, (one, other) in enumerate(zip(messages, normal)) if one != other), None)
    if at is not None and not (is_stopped_for_memory(messages[at:]) or is_failed(messages[at], normal[at])):
        return f"message {at + 1} is {json.dumps(messages[at])}"
    if at is None and run.status == 0 and len(messages) != len(normal):
        return f"{len(messages)} messages in place of {len(normal)}"
    return None


def each_refused(program: str, seconds: float, name: str) -> str | None:
    """Plays a session with the first allocation refused, the second, and so on until a run meets none."""
    running = Running(program, seconds)
    with tempfile.TemporaryDirectory(prefix="dap-") as place, library() as made:
        for path in FOLDER.glob("*.ssa"):
            shutil.copy(path, place)
        text = (FOLDER / f"{name}.dap").read_text()
        make_files(text, pathlib.Path(place))
        given = requests_of(text, pathlib.Path(place))
        normal = messages_in(Run(running, made, 0, [], given).written)
        if forms_fault(normal) or not normal:
            return "the session can't be played"
        for which in range(1, MOST):
            run = Run(running, made, which, [], given)
            fault = run_fault(run, normal)
            if fault:
                return f"allocation {which}: {fault}"
            if not run.was_refused:
                return None if which > 1 else "no allocation was met: the library isn't in use"
    return f"more than {MOST} allocations"


def cases() -> Iterator[Case]:
    """Each case: its name, a function of the program and the seconds, and what else that takes."""
    for name in SESSIONS:
        yield name, each_refused, (name,)
