"""A text that lower/qrev-lower wrote, with its map beside it. The places are those of docs/REAL_COMPILERS.md."""
from __future__ import annotations

import pathlib
import shutil
import subprocess
from collections.abc import Iterator

from harness.running import TOP

from .large import Asking, Failed, differ, fault_in
from .sessions import Case

LOWER = TOP / "lower" / "qrev-lower"
SOURCE = TOP / "lower" / "test-data" / "real" / "structval.ssa"


def place_of(asking: Asking) -> tuple[str, str, int]:
    """Where the innermost frame is shown."""
    frame = asking.ask("stackTrace", threadId=1, levels=1)["stackFrames"][0]
    return frame["name"], frame["source"]["path"], frame["line"]


def lowered(program: str, folder: pathlib.Path, seconds: float) -> None:
    shutil.copy(SOURCE, folder)
    run = subprocess.run([LOWER, "--link", "--output", "large.ssa", SOURCE.name], cwd=folder, capture_output=True,
                         timeout=seconds)
    if run.returncode:
        raise Failed(f"qrev-lower: {run.stderr!r}")
    own, source = str(folder / SOURCE.name), str(folder / "ha/s/structval.ha")
    with Asking(program, (folder / "large.ssa").read_text("latin-1"), folder, seconds) as asking:
        asking.ask("setFunctionBreakpoints", breakpoints=[{"name": "add"}])
        asking.ask("continue", threadId=1)
        asking.event("stopped")
        differ("the function", place_of(asking), ("$add @start.25 0", own, 76))
        asking.ask("evaluate", expression="step 6", context="repl")
        asking.event("stopped")
        differ("its source", place_of(asking), ("$add @body.26 0", source, 2))
        asking.ask("reverseContinue", threadId=1)
        asking.event("stopped")
        made = asking.ask("setBreakpoints", source={"path": source}, breakpoints=[{"line": 2}])["breakpoints"]
        differ("a breakpoint", [(one["verified"], one.get("line")) for one in made], [(True, 2)])
        asking.ask("setFunctionBreakpoints", breakpoints=[])
        asking.ask("continue", threadId=1)
        asking.event("stopped")
        differ("where it is met", place_of(asking)[1:], (source, 2))


def cases() -> Iterator[Case]:
    """Each case: its name, a function of the program and the seconds, and what else that takes."""
    yield "places of a lowered text", fault_in, (lowered,)
