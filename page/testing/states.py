"""What each view of the page shows, in a real browser, against what the debugger answers in the same states."""
from __future__ import annotations

import json
import pathlib
import random
import subprocess
import sys
import tempfile
import time
from typing import Any, Iterator, Sequence

from terminal.answers import read_bytes, read_output, read_place, read_value
from terminal.pipe import Pipe
from terminal.text import Program

from .browser import Browser
from .causes import TOP
from .serving import Serving

EXAMPLES = sorted((TOP / "examples").glob("*.ssa"))
REAL = TOP / "lower" / "test-data" / "real"
STATES, SEED = 25, 7
MASKS = {1: 8, 2: 16, 4: 32, 8: 64}
# What the page shows of a state, read from its elements.
SHOWN = """(position => {
  app.move(position);
  const texts = (selector, of = each => each.textContent) => [...document.querySelectorAll(selector)].map(of);
  return {
    position: document.getElementById("position").value.replace(/\\D/g, ""),
    place: document.getElementById("place").textContent,
    lines: texts(".line.is-now, .line.is-caller", each => Number(each.dataset.line)),
    values: Object.fromEntries(texts(".temp", each => [each.querySelector(".name").textContent,
      (each.querySelector(".number").title || each.querySelector(".number").textContent).split(" ")[0]])),
    frames: texts(".frames .frame"),
    cells: texts(".cell:not(.is-small)", each =>
      [Number(each.dataset.address), Number(each.dataset.size), each.firstChild?.data ?? ""]),
    bytes: app.program.data.map(({address, size}) =>
      Array.from({length: Math.min(size, 256)}, (_, at) => app.memory.byte(address + at, position))),
    output: texts(".byte:not(.is-future)", each => Number(each.dataset.byte)).length,
  };
})"""


class Answers:
    """The debugger's own answers, state by state."""

    def __init__(self, program: str, file: str, words: Sequence[str]):
        self.pipe = Pipe([program, file, *words])
        self.text = Program(pathlib.Path(file).read_bytes())
        self.at = 0

    def go(self, position: int) -> None:
        if position != self.at:
            self.pipe.ask(f"step {position - self.at}" if position > self.at else f"back {self.at - position}")
        self.at = position

    def state(self, position: int) -> dict[str, Any]:
        self.go(position)
        place = read_place(self.pipe.ask("step", "back")[1][0]) if position < self.length else None
        frames = self.pipe.ask("where")[0]
        lines = self.pipe.ask("temps")[0]
        values = {line.split(" ")[0]: read_value(line) for line in lines if line.startswith("%")}
        data = [[byte for at in range(0, min(each.size, 256), 256)
                 for byte in read_bytes(self.pipe.ask(f"mem {each.address} {min(each.size, 256)}")[0][0])]
                for each in self.text.data]
        return {"place": place, "frames": frames, "values": values, "data": data,
                "output": len(read_output(self.pipe.ask("out")[0][0]))}

    @property
    def length(self) -> int:
        if not hasattr(self, "moves"):
            self.moves = read_place(self.pipe.ask("step 4294967295")[0][-1]).position
            self.at = self.moves
        return self.moves


def numeral(value: int, size: int) -> str:
    """A number as the page shows it: with its sign if that is small and negative."""
    bits = MASKS[size]
    signed = value - (1 << bits) if value >> (bits - 1) else value
    return str(signed if -65536 <= signed < 0 else value)


def state_faults(answers: Answers, shown: dict[str, Any], position: int) -> Iterator[str]:
    """How what is shown of a state differs from the debugger's answers."""
    told = answers.state(position)
    if shown["position"] != str(position):
        yield f"position {shown['position']}"
    if told["place"]:
        place = told["place"]
        if shown["place"] != f"{place.function} {place.label} {place.index}":
            yield f"place {shown['place']} and not {place}"
        if shown["lines"] != [answers.text.line_of(place.function, place.label, place.index)]:
            yield f"lines {shown['lines']} marked at {place}"
        values = {name: "unset" if value is None else str(value) for name, value in told["values"].items()}
        if shown["values"] != values:
            yield f"values {shown['values']} and not {values}"
        names = [frame.split(" ")[0] for frame in reversed(told["frames"])]
        if shown["frames"] != (names if len(names) <= 12 else names[:2] + names[-10:]):
            yield f"frames {shown['frames']} and not {names}"
    if shown["bytes"] != told["data"]:
        yield f"bytes {shown['bytes']} and not {told['data']}"
    if shown["output"] != told["output"]:
        yield f"{shown['output']} bytes written and not {told['output']}"
    yield from cell_faults(answers, shown["cells"])


def cell_faults(answers: Answers, cells: list[list[Any]]) -> Iterator[str]:
    """Pieces of memory whose number, or sign, isn't that of their bytes."""
    told = answers.pipe.ask(*(f"mem {address} {size}" for address, size, _ in cells if size <= 8))
    for (address, size, text), answer in zip((cell for cell in cells if cell[1] <= 8), told):
        found = read_bytes(answer[0])
        if None in found or size not in MASKS:
            continue
        value = int.from_bytes(bytes(byte or 0 for byte in found), "little")
        signs = [chr(value) if 32 <= value < 127 else f"\\{value:03o}"] if size == 1 else []
        if text[:1] not in "$%" and text not in [numeral(value, size), numeral(value, 8), *signs]:
            yield f"{text!r} in the piece at {address} of the bytes {answer}"


def run_faults(program: str, browser: Browser, name: str, file: str, words: Sequence[str] = (),
               states: int = STATES) -> list[str]:
    """The views of a program's run at random states, and where the page's own comparison finds something."""
    answers, chosen = Answers(program, file, words), random.Random(SEED)
    with Serving(program, file, *words) as serving:
        browser.open(serving.address)
        # Every state is looked at, also those of the runtime.
        browser.run("app.isFolded && app.fold()")
        moves = browser.run("app.run.moves")
        found = [] if moves == answers.length else [f"{moves} moves and not {answers.length}"]
        for position in chosen.sample(range(moves), min(states, moves)):
            shown = browser.run(f"{SHOWN}({position})")
            found += [f"{name} at #{position}: {fault}" for fault in state_faults(answers, shown, position)]
        browser.run("agreed.className = ''; app.go(Math.floor(app.run.moves / 2))")
        end = time.monotonic() + 180
        while browser.run("agreed.className") != "is-right" and time.monotonic() < end:
            time.sleep(.05)
        agreed = browser.run("[agreed.className, agreed.textContent]")
        if agreed[0] != "is-right":
            found.append(f"{name}: {agreed[1]}")
        found += [f"{name}: {error}" for error in browser.errors()]
    answers.pipe.close()
    return found


def lowered(name: str, folder: str) -> str:
    """A text of a real compiler, in the language of the debugger."""
    file = f"{folder}/{name}.lowered.ssa"
    subprocess.run([sys.executable, "-B", str(TOP / "lower" / "qrev-lower"), "--link", "--entry", "main", "--output",
                    file,
                    str(REAL / f"{name}.ssa")], check=True, capture_output=True)
    return file


def shown_everywhere(program: str) -> str | None:
    """Each view at 25 states of the examples, and of two texts of a real compiler."""
    browser, found = Browser(), []
    try:
        with tempfile.TemporaryDirectory(prefix="page-") as folder:
            for file in EXAMPLES:
                found += run_faults(program, browser, file.stem, str(file))
            for name in ("structval", "matrix"):
                found += run_faults(program, browser, name, lowered(name, folder))
    finally:
        browser.close()
    return found[0] if found else None


def differs(program: str) -> str | None:
    """If a view is wrong, the page says so in red: for a byte, a value and a frame that differ."""
    browser = Browser()
    wrong = {"values": ("told.values['%square'] = '7'", "%square = 7, shown 4"),
             "frames": ("told.frames.push('$main @start 0')", "frames "),
             "data": ("told.data[0][1] = 'ff' + told.data[0][1].slice(2)", "$squares+0 = 255, shown 0"),
             "written": ("told.written = 3", "3 bytes written, shown 0"),
             "place": ("told.place = '#26 $fill @body 5'", "#26 $fill @body 5, shown")}
    try:
        with Serving(program, str(TOP / "examples" / "squares.ssa")) as serving:
            browser.open(serving.address)
            browser.run("app.go(26)")
            for name, (change, wanted) in wrong.items():
                given = browser.run("(async () => { const ask = app.source.ask.bind(app.source); "
                                    "const told = await (await ask('api/go', {position: 26})).json(); "
                                    f"{change}; app.source.ask = async () => ({{json: async () => told}}); "
                                    "await app.agreed.compare(); app.source.ask = ask; "
                                    "return [agreed.className, agreed.textContent]; })()")
                if given[0] != "is-wrong" or wanted not in given[1]:
                    return f"a difference of {name} is shown as {json.dumps(given)}"
    finally:
        browser.close()
    return None


CASES = {"each view at random states": shown_everywhere, "a difference is shown": differs}
