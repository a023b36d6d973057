"""The disassembly that an editor shows: the lines of the text, with those of the source if a map has them.

Expected values come from the texts themselves and from the map.
"""
from __future__ import annotations

import pathlib
from collections.abc import Callable, Iterator
from typing import Any

from .consoles import Console, fault_in
from .driver import Wrong
from .sessions import Case

SUM = """function w $main() {
@start
\t%x =w add 2, 3
\tret %x
}
"""
SUM_MAP = "sum.hll\t1\n\nsum.hll\t2\nsum.hll\t3\n\n"


def rows(console: Console, reference: str, first: int, count: int) -> list[dict[str, Any]]:
    asked = {"memoryReference": reference, "offset": 0, "instructionOffset": first, "instructionCount": count}
    message = console.answer("disassemble", asked)
    if not message["success"]:
        raise Wrong(f"{message['message']}")
    found: list[dict[str, Any]] = message["body"]["instructions"]
    if len(found) != count:
        raise Wrong(f"{len(found)} rows in place of {count}")
    numbers = [int(row["address"], 16) for row in found]
    if numbers != sorted(set(numbers)):
        raise Wrong(f"addresses out of order: {numbers}")
    return found


def top_reference(console: Console) -> str:
    frames = console.answer("stackTrace", {"threadId": 1})["body"]["stackFrames"]
    return str(frames[0]["instructionPointerReference"])


def expect(got: object, wanted: object, what: str) -> None:
    if got != wanted:
        raise Wrong(f"{what}: {got!r} in place of {wanted!r}")


def lines_of_text(console: Console) -> None:
    """Rows are the lines of the text from where the run stands; before the first there are none."""
    if not console.answer("initialize", {"adapterID": "qrev"})["body"].get("supportsDisassembleRequest"):
        raise Wrong("no disassembly is offered")
    console.answer("launch", {"program": "squares.ssa"})
    console.answer("configurationDone")
    console.stopped()
    lines = [line.strip() for line in pathlib.Path(console.folder, "squares.ssa").read_text().split("\n")]
    begun = lines.index("call $fill()")
    wanted = [line for line in lines[begun:] if line and line[0] not in "@}#"]
    found = rows(console, top_reference(console), 0, 4)
    expect([row["instruction"] for row in found], wanted[:4], "rows")
    expect(found[0].get("symbol"), "$main @start", "the block")
    before = rows(console, top_reference(console), -200, 200)
    expect({row["instruction"] for row in before if row.get("presentationHint") == "invalid"}, {""},
           "rows before the first")
    expect(before[-1]["instruction"], "ret", "the row before")
    console.asked("goto 3")
    frame = console.answer("stackTrace", {"threadId": 1})["body"]["stackFrames"][0]
    here = rows(console, frame["instructionPointerReference"], 0, 1)
    expect(here[0]["instruction"], lines[frame["line"] - 1], "the row where the run stands")


def lines_of_source(console: Console) -> None:
    """A row has the line of the source from which it came."""
    folder = pathlib.Path(console.folder)
    (folder / "sum.ssa").write_text(SUM)
    (folder / "sum.ssa.map").write_text(SUM_MAP)
    console.begin("sum.ssa")
    found = rows(console, top_reference(console), 0, 2)
    expect([row["instruction"] for row in found], ["%x =w add 2, 3", "ret %x"], "rows")
    expect([row.get("line") for row in found], [2, 3], "lines of the source")
    expect({row["location"]["path"] for row in found}, {str(folder / "sum.hll")}, "the source")


def wrong_references(console: Console) -> None:
    """What is no address of a row fails; so does a request before a launch."""
    row = "0x7e570000001b"
    wrong: list[dict[str, Any]] = [{}, {"memoryReference": "65536", "instructionCount": 3}, {"memoryReference": row},
                                   {"memoryReference": 5, "instructionCount": 3},
                                   {"memoryReference": row, "instructionCount": -1}]
    for given in [*wrong, {"memoryReference": row, "instructionCount": 3}]:
        if console.answer("disassemble", given)["success"]:
            raise Wrong(f"{given} isn't refused before a launch")
    console.begin("squares.ssa")
    for given in wrong:
        if console.answer("disassemble", given)["success"]:
            raise Wrong(f"{given} isn't refused")


CASES: dict[str, Callable[[Console], None]] = {
    "disassembly: the lines of a text": lines_of_text,
    "disassembly: the lines of a source": lines_of_source,
    "disassembly: wrong references": wrong_references,
}


def cases() -> Iterator[Case]:
    for name, does in CASES.items():
        yield name, fault_in, (does,)
