"""Sessions whose answers or records are large: pages of many variables, names without end, bytes by the ten thousand, a
script that is full. Expected values were worked out from docs/inside/REQUESTS.md and these texts."""
from __future__ import annotations

import base64
import pathlib
import subprocess
import tempfile
from collections.abc import Callable, Iterator

from .driver import Adapter, BadMessage
from .sessions import Case, Message

TEMPORARIES, NAMES, BYTES = 50_000, 1_500, 70_000
MOST_NAMES, MOST_BYTES, MOST_SCRIPT = 1_000, 65_536, 2**24
DATA = 65_536  # where data begins
# The greatest word, and how many of it one request writes.
WORD, POKES = 2**64 - 1, 8_192


def many_temporaries() -> str:
    """The temporary of number N is N modulo 10 after its line."""
    lines = "".join(f"%t{number}=w copy {number % 10}\n" for number in range(TEMPORARIES))
    return f"function $main() {{\n@start\n{lines}ret\n}}\n"


def many_names() -> str:
    names = "".join(f"data $d{number} = {{ b 0 }}\n" for number in range(NAMES))
    return f"{names}function $main() {{\n@start\nret\n}}\n"


def many_bytes() -> str:
    return f"data $bytes = {{ z {BYTES} }}\nfunction $main() {{\n@start\nret\n}}\n"


class Failed(Exception):
    pass


class Asking:
    """An adapter in a session with a text, which is asked one request after the other."""

    def __init__(self, program: str, text: str, folder: pathlib.Path, seconds: float, **arguments: object) -> None:
        self.adapter, self.folder = Adapter(program, seconds, folder), folder
        (folder / "large.ssa").write_text(text)
        self.ask("initialize")
        self.ask("launch", program=str(folder / "large.ssa"), **arguments)
        self.event("initialized")
        self.ask("configurationDone")
        self.event("stopped")

    def __enter__(self) -> Asking:
        return self

    def __exit__(self, *error: object) -> None:
        self.adapter.kill()

    def respond(self, command: str, **arguments: object) -> Message:
        self.adapter.request(command, arguments)
        message = self.adapter.next()
        if message is None or message["type"] != "response":
            raise Failed(f"no response to {command}")
        return message

    def ask(self, command: str, **arguments: object) -> Message:
        """The body of a response that must be a success."""
        message = self.respond(command, **arguments)
        if not message["success"]:
            raise Failed(f"{command} failed: {message['message']}")
        body: Message = message.get("body", {})
        return body

    def event(self, name: str) -> Message:
        message = self.adapter.next()
        if message is None or message.get("event") != name:
            raise Failed(f"no event {name}")
        body: Message = message.get("body", {})
        return body


def differ(what: str, got: object, wanted: object) -> None:
    if got != wanted:
        raise Failed(f"{what}: {str(got)[:200]} in place of {str(wanted)[:200]}")


def shown(page: Message) -> list[tuple[str, str]]:
    return [(one["name"], one["value"]) for one in page["variables"]]


def pages(program: str, folder: pathlib.Path, seconds: float) -> None:
    """Temporaries by pages, before and after moves."""
    with Asking(program, many_temporaries(), folder, seconds) as asking:
        scopes = asking.ask("scopes", frameId=1)["scopes"]
        differ("how many", scopes[0]["namedVariables"], TEMPORARIES)
        page = asking.ask("variables", variablesReference=1, start=TEMPORARIES - 2, count=100)
        differ("the last page", shown(page), [(f"%t{TEMPORARIES - 2}", "unset"), (f"%t{TEMPORARIES - 1}", "unset")])
        asking.ask("evaluate", expression=f"step {TEMPORARIES - 3}", context="repl")
        asking.event("stopped")
        page = asking.ask("variables", variablesReference=1, start=TEMPORARIES - 5, count=4)
        differ("a page", shown(page), [(f"%t{TEMPORARIES - 5}", "5"), (f"%t{TEMPORARIES - 4}", "6"),
                                       (f"%t{TEMPORARIES - 3}", "unset"), (f"%t{TEMPORARIES - 2}", "unset")])
        whole = shown(asking.ask("variables", variablesReference=1))
        differ("all", whole, [(f"%t{number}", str(number % 10) if number < TEMPORARIES - 3 else "unset")
                              for number in range(TEMPORARIES)])


def names(program: str, folder: pathlib.Path, seconds: float) -> None:
    """Names that complete a word: at most a fixed number is sent."""
    with Asking(program, many_names(), folder, seconds) as asking:
        targets = [one["label"] for one in asking.ask("completions", text="print $", column=8)["targets"]]
        differ("how many", (len(targets), len(set(targets))), (MOST_NAMES, MOST_NAMES))
        differ("other names", set(targets) - {"$main", *(f"$d{number}" for number in range(NAMES))}, set())
        targets = [one["label"] for one in asking.ask("completions", text="print $d149", column=12)["targets"]]
        differ("the end", sorted(targets), sorted(["$d149", *(f"$d149{number}" for number in range(10))]))
        page = asking.ask("variables", variablesReference=2**30 + 1, start=NAMES - 1, count=5)
        differ("the last datum", shown(page), [(f"$d{NAMES - 1}", "0")])


def memory(program: str, folder: pathlib.Path, seconds: float) -> None:
    """Bytes: at most a fixed number is read at once; each written one is read again."""
    given = bytes(number * 7 % 251 for number in range(BYTES - 1))
    with Asking(program, many_bytes(), folder, seconds) as asking:
        page = asking.ask("readMemory", memoryReference=str(DATA), count=BYTES)
        differ("how much", (len(base64.b64decode(page["data"])), page.get("unreadableBytes")), (MOST_BYTES, None))
        written = asking.ask("writeMemory", memoryReference=str(DATA + 1), data=base64.b64encode(given).decode())
        differ("written", written["bytesWritten"], len(given))
        got = b"".join(base64.b64decode(asking.ask("readMemory", memoryReference=str(DATA + at), count=10_000)["data"])
                       for at in range(0, BYTES, 10_000))
        differ("read again", got == b"\0" + given, True)
        page = asking.ask("readMemory", memoryReference=str(DATA + BYTES - 1), count=3)
        differ("the end", (page["data"], page.get("unreadableBytes")), (base64.b64encode(given[-1:]).decode(), 2))


def full_script(program: str, folder: pathlib.Path, seconds: float, qrev: str) -> None:
    """A record takes no line more than a script may have: what would add one fails, and what looks doesn't."""
    record = folder / "full.script"
    data = base64.b64encode(WORD.to_bytes(8, "little") * POKES).decode()
    with Asking(program, many_bytes(), folder, seconds, history=1, record=str(record)) as asking:
        for _ in range(MOST_SCRIPT):
            response = asking.respond("writeMemory", memoryReference=str(DATA), data=data)
            if not response["success"]:
                break
        differ("the failure", response["message"], "the script is full")
        asking.ask("threads")
        differ("one that looks", asking.ask("stackTrace", threadId=1)["totalFrames"], 1)
        # A line of nothing takes one byte.
        while asking.respond("evaluate", expression="", context="repl")["success"]:
            pass
        asking.ask("stepIn", threadId=1)
        differ("the console", asking.event("output")["output"], "the script is full: no line more is taken\n")
        asking.event("stopped")
        asking.ask("disconnect")
        asking.event("output")
    differ("the size", record.stat().st_size, MOST_SCRIPT)
    with open(record, "rb") as script:
        run = subprocess.run([qrev, str(folder / "large.ssa"), "--history", "1"], stdin=script, stdout=subprocess.PIPE,
                             timeout=seconds)
    kept = (folder / "full.script.transcript").read_bytes()
    differ("the replay", (run.returncode, run.stdout == kept), (0, True))


def fault_in(program: str, seconds: float, function: Callable[..., None], *words: str) -> str | None:
    """What is wrong in a case, or None."""
    with tempfile.TemporaryDirectory(prefix="dap-") as place:
        try:
            function(program, pathlib.Path(place).resolve(), seconds, *words)
        except (Failed, BadMessage) as fault:
            return str(fault)
    return None


def cases(qrev: str) -> Iterator[Case]:
    """Each case: its name, a function of the program and the seconds, and what else that takes."""
    yield "pages of variables", fault_in, (pages,)
    yield "many names", fault_in, (names,)
    yield "many bytes", fault_in, (memory,)
    yield "a full script", fault_in, (full_script, qrev)
