"""Whether messages fit the protocol's own definitions, by the TypeScript compiler."""
from __future__ import annotations

import json
import pathlib
import re
import shutil
import subprocess
import tempfile
from collections.abc import Collection, Iterator, Mapping, Sequence

from harness.running import Skipped

from .sessions import Fault, Message

DEFINITIONS = pathlib.Path("/usr/share/nodejs/@vscode/debugprotocol/lib/debugProtocol.d.ts")
OLD_DEFINITIONS = pathlib.Path("/usr/share/nodejs/vscode-debugprotocol/lib/debugProtocol.d.ts")
OPTIONS = {"compilerOptions": {"noEmit": True, "strict": True, "target": "es2015", "types": []},
           "files": ["messages.ts"]}
# Messages with something wrong, which must be refused, so that it is known that wrong ones are.
PLANTED: list[tuple[str, Message]] = [
    ("a name", {"seq": 1, "type": "event", "event": "stopped", "body": {"reason": "step", "threadID": 1}}),
    ("a type", {"seq": 1, "type": "event", "event": "stopped", "body": {"reason": "step", "threadId": "1"}}),
    ("a part", {"seq": 1, "type": "response", "request_seq": 1, "success": True, "command": "evaluate",
                "body": {"result": "1"}}),
]


def definitions() -> pathlib.Path | None:
    return next((path for path in (DEFINITIONS, OLD_DEFINITIONS) if path.exists()), None)


def type_of(message: Message, known: Collection[str]) -> str | None:
    """The name of the definition that a message falls under."""
    if message["type"] == "request":
        name = "Request"
    elif message["type"] == "event":
        name = message["event"][:1].upper() + message["event"][1:] + "Event"
    elif not message["success"]:
        name = "ErrorResponse"
    else:
        name = message["command"][:1].upper() + message["command"][1:] + "Response"
    return name if name in known else None


def with_body(message: Message) -> Message:
    """A failure with the body that its definition wants, whose parts may all be missing."""
    is_failure = message["type"] == "response" and not message["success"]
    return {**message, "body": {}} if is_failure and "body" not in message else message


def text_of(messages: Sequence[Message], path: pathlib.Path, known: Collection[str]) -> str:
    """The messages as constants of TypeScript, one a line from the second on."""
    lines = [f"import {{ DebugProtocol as D }} from {json.dumps(str(path)[:-len('.d.ts')])};"]
    lines += [f"export const m{number}: D.{type_of(message, known)} = {json.dumps(with_body(message))};"
              for number, message in enumerate(messages)]
    return "\n".join(lines) + "\n"


def refused_lines(messages: Sequence[Message], path: pathlib.Path, known: Collection[str],
                  seconds: float) -> tuple[dict[int, str], subprocess.CompletedProcess[str]]:
    """The messages that are refused, by their number, with what is said of each."""
    with tempfile.TemporaryDirectory(prefix="schema-") as folder:
        place = pathlib.Path(folder)
        (place / "messages.ts").write_text(text_of(messages, path, known))
        (place / "tsconfig.json").write_text(json.dumps(OPTIONS))
        run = subprocess.run(["tsc", "-p", "."], cwd=folder, capture_output=True, text=True, timeout=seconds)
    found: dict[int, str] = {}
    for line in run.stdout.splitlines():
        refused = re.match(r"messages\.ts\((\d+),\d+\): (.*)", line)
        if refused:
            found.setdefault(int(refused[1]) - 2, refused[2])
    return found, run


def faults(logs: Mapping[str, Sequence[Message]], seconds: float) -> Iterator[tuple[str, Fault]]:
    """For each session how its messages differ from the definitions, or None."""
    path = definitions()
    # The compiler runs in node.
    has_compiler = bool(shutil.which("tsc") and shutil.which("node"))
    if path is None or not has_compiler:
        lack = "node-vscode-debugprotocol" if has_compiler else "tsc"
        yield from ((f"schema: {name}", Skipped(lack)) for name in [*logs, *(what for what, _ in PLANTED)])
        return
    known = set(re.findall(r"interface (\w+)", path.read_text()))
    sent = [(name, message) for name, log in logs.items() for message in log if message.get("type") != "request"]
    nameless = [(name, message) for name, message in sent if type_of(message, known) is None]
    told = [(name, message) for name, message in sent if type_of(message, known)]
    messages = [message for _, message in told] + [message for _, message in PLANTED]
    found, run = refused_lines(messages, path, known, 4 * seconds)
    if run.returncode == 0 or not run.stdout or not told:
        yield "schema", f"the compiler has looked at nothing: {run.stdout}{run.stderr}"
    for at, (what, _) in enumerate(PLANTED, len(told)):
        yield f"schema: {what} that is wrong", None if at in found else "it isn't refused"
    for name in logs:
        wrong = [f"{json.dumps(told[at][1])}: {found[at]}" for at in sorted(found) if at < len(told)
                 and told[at][0] == name]
        wrong += [f"no definition for {json.dumps(message)}" for one, message in nameless if one == name]
        yield f"schema: {name}", "; ".join(wrong[:2])
