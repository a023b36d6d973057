"""A session with a debug adapter as a text, line by line. `#` at the front of a line and empty lines aside:

    > COMMAND {ARGUMENTS}   a request, its arguments as JSON, if it has some
    < {BODY}                its response is a success, and its body has these parts
    < no MESSAGE            its response is a failure with this message (`*`: any), and has no body
    ! EVENT {BODY}          the next event is this one, and its body has these parts
    = FILE                  the file has exactly the lines that follow, each behind `| `
    + FILE                  from here on there is a file with these lines in the folder of the run

@DIR is the folder of the run, with the programs of this folder and of examples/. A JSON object has the parts of another
if it has each member of that, with its parts, and no member that is named with `!` before it; a list, if it has as many
items, and each has its parts; everything has "*". All events are listed: an unlisted one is a fault.
"""
from __future__ import annotations

import json
import pathlib
import re
from collections.abc import Callable
from typing import Any, NamedTuple

from harness.running import Skipped

FOLDER = pathlib.Path(__file__).resolve().parent / "sessions"
# A message of the protocol, or a part of one.
Message = dict[str, Any]
# What is wrong, or None, or which tool is lacking.
Fault = str | Skipped | None
# A case: its name, a function of the program and the seconds, and what else that takes.
Case = tuple[str, Callable[..., Fault], tuple[object, ...]]

KINDS = {">": "request", "<": "response", "!": "event", "=": "file", "+": "given"}


class Step(NamedTuple):
    number: int    # of its line
    kind: str      # request, response, event, file, given
    name: str      # the command, the event or the file; of a failure its message
    value: Any     # the arguments or parts, or None; of a file its lines


class BadSession(Exception):
    pass


def step_of(number: int, line: str) -> Step:
    kind, rest = KINDS.get(line[0]), line[2:]
    if not kind or line[1:2] != " ":
        raise BadSession(f"line {number}: {line}")
    if kind == "response":
        return Step(number, kind, rest[3:], None) if rest.startswith("no ") else \
            Step(number, kind, "", json.loads(rest))
    if kind in ("file", "given"):
        return Step(number, kind, rest, [])
    name, _, value = rest.partition(" ")
    return Step(number, kind, name, json.loads(value) if value else None)


def read_session(text: str) -> list[Step]:
    """The steps of a session, of which the folder is named."""
    steps: list[Step] = []
    for number, line in enumerate(text.split("\n"), 1):
        if not line or line.startswith("#"):
            continue
        if re.match(r"\|( |$)", line) and steps and steps[-1].kind in ("file", "given"):
            steps[-1].value.append(line[2:])
            continue
        try:
            steps.append(step_of(number, line))
        except ValueError as error:
            raise BadSession(f"line {number}: {error}") from None
    return steps


def make_file(step: Step, folder: pathlib.Path) -> None:
    """Makes a file that a session gives."""
    path = folder / step.name
    path.parent.mkdir(parents=True, exist_ok=True)
    path.write_text("".join(f"{line}\n" for line in step.value))


def make_files(text: str, folder: pathlib.Path) -> None:
    """Makes the files that a session gives."""
    for step in read_session(text):
        if step.kind == "given":
            make_file(step, folder)


def is_changing(text: str) -> bool:
    """Whether a session gives a file after its first request."""
    kinds = [step.kind for step in read_session(text)]
    return "request" in kinds and "given" in kinds[kinds.index("request"):]


def has(got: object, want: object) -> bool:
    """Whether a value of JSON has the parts of another."""
    if want == "*":
        return True
    if isinstance(want, dict):
        return isinstance(got, dict) and all(
            name[1:] not in got if name.startswith("!") else name in got and has(got[name], part)
            for name, part in want.items())
    if isinstance(want, list):
        return isinstance(got, list) and len(got) == len(want) and all(map(has, got, want))
    return type(got) is type(want) and got == want
